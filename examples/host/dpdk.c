/* The shape of a receive callback: each packet of a burst is run in its mbuf. What is passed stays in the
 * burst, what is to be sent back goes into one of its own, and all else is freed. An application installs `filtered` by
 * rte_eth_add_rx_callback; here a burst is made by hand, so that it runs with no device.
 *
 * An mbuf's bytes are the application's own once the device has handed it over. */
#include <laxonje.h>
#include <rte_eal.h>
#include <rte_errno.h>
#include <rte_mbuf.h>
#include <stdio.h>
#include <string.h>

enum { BURST = 32 };

/* One program for each queue, since one thread polls a queue. */
struct filter {
	struct laxonje_program *program;
	uint64_t counters[1024];
	struct rte_mbuf *back[BURST];
	uint16_t back_count;
};

/* As rte_rx_callback_fn. */
static uint16_t filtered(uint16_t port, uint16_t queue, struct rte_mbuf **packets, uint16_t count, uint16_t most, void *given)
{
	struct filter *filter = given;
	uint16_t kept = 0;

	(void)most;
	for (uint16_t i = 0; i < count; i++) {
		struct rte_mbuf *packet = packets[i];
		struct laxonje_result run = {0, LAXONJE_ABORTED, 0};

		/* A packet in several segments isn't one slice of bytes: it is dropped here. */
		if (packet->nb_segs == 1)
			run = laxonje_run(filter->program, filter->counters, 1024, rte_pktmbuf_mtod(packet, uint8_t *),
			                  rte_pktmbuf_data_len(packet), port, queue);
		if (run.action == LAXONJE_PASS)
			packets[kept++] = packet;
		else if (run.action == LAXONJE_TX && filter->back_count < BURST)
			filter->back[filter->back_count++] = packet;
		else
			rte_pktmbuf_free(packet);
	}
	return kept;
}

/* A packet of 64 bytes: UDP over IPv4 to this port. */
static struct rte_mbuf *udp_to(struct rte_mempool *pool, uint16_t port)
{
	struct rte_mbuf *packet = rte_pktmbuf_alloc(pool);
	uint8_t *bytes = (uint8_t *)rte_pktmbuf_append(packet, 64);

	memset(bytes, 0, 64);
	bytes[12] = 8, bytes[14] = 0x45, bytes[23] = 17, bytes[36] = port >> 8, bytes[37] = port & 255;
	return packet;
}

int main(int argc, char **argv)
{
	static char *words[] = {"dpdk", "--no-huge", "--no-pci", "--no-telemetry", "--log-level=1", "-m", "64", "-l", "0"};
	static struct filter filter;
	static uint8_t settings[1 << 16];
	struct rte_mbuf *burst[BURST];
	FILE *file = argc == 2 ? fopen(argv[1], "rb") : NULL;

	if (!file)
		return fprintf(stderr, "usage: dpdk SETTINGS, those of examples/reflect-and-count\n"), 2;
	size_t length = fread(settings, 1, sizeof settings, file);
	fclose(file);
	filter.program = laxonje_program_new();
	struct laxonje_verdict verdict = laxonje_load_settings(settings, length, filter.program);
	if (verdict.kind != LAXONJE_ACCEPTED || laxonje_counters(filter.program) > 1024)
		return fprintf(stderr, "refused: kind %u cause %u at %u\n", verdict.kind, verdict.cause, verdict.at), 1;
	if (rte_eal_init(sizeof words / sizeof *words, words) < 0)
		return fprintf(stderr, "dpdk: %s\n", rte_strerror(rte_errno)), 1;
	struct rte_mempool *pool = rte_pktmbuf_pool_create("packets", 255, 0, 0, RTE_MBUF_DEFAULT_BUF_SIZE, 0);
	if (!pool)
		return fprintf(stderr, "dpdk: %s\n", rte_strerror(rte_errno)), 1;
	for (int i = 0; i < BURST; i++)
		burst[i] = udp_to(pool, i % 4 ? 53 : 7);
	uint16_t kept = filtered(0, 0, burst, BURST, BURST, &filter);
	printf("of %d packets %u stay, %u go back, %u are freed\n", BURST, kept, filter.back_count, BURST - kept - filter.back_count);
	rte_pktmbuf_free_bulk(burst, kept), rte_pktmbuf_free_bulk(filter.back, filter.back_count);
	laxonje_program_delete(&filter.program);
	rte_mempool_free(pool);
	rte_eal_cleanup();
	return 0;
}
