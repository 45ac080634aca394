/* The main job in one program: demo SETTINGS PACKETS
 *
 * One host serves two guests, each in a process of its own, with the filter of the settings: an honest one, which sends that many packets,
 * every fourth of them with a false source address and every eighth of IPv6, and a hostile one, which writes anything into its shared
 * pages meanwhile. Each access to those is one that the queue asked for, made by laxonje_drive.h. It prints what became of each guest's
 * packets, and ends with 1 if the honest guest lost one that it shouldn't, or if an access was to a page that isn't the guest's. */
#define _GNU_SOURCE
#include "../host-queue/guest.h"

#include <laxonje_drive.h>
#include <signal.h>
#include <stdio.h>
#include <stdlib.h>
#include <sys/mman.h>
#include <sys/prctl.h>
#include <sys/wait.h>

enum { HOST_DOMAIN = 0, GUEST_DOMAIN = 5, PORT = 7, TX_RING = 0, RX_RING = 1, TABLE = 2, DATA = 3, FRAMES = DATA + GUEST_DATA_FRAMES };
enum { BATCH = 8, SIZE = 60, CAUSES = 8, MOST_COUNTERS = LAXONJE_MAPS * LAXONJE_ENTRIES * LAXONJE_COUNTERS, MILLISECOND = 1000 };
enum { HONEST, HOSTILE, GUESTS };

/* One guest's queue, and what became of its packets. */
struct port {
	const char *name;
	uint8_t *memory;
	pid_t guest;
	struct laxonje_drive drive;
	uint64_t counters[MOST_COUNTERS];
	unsigned long passed, dropped, back, refused[CAUSES], halted[CAUSES], accesses, elsewhere;
};

static void fail(const char *what) { perror(what), exit(1); }

static uint32_t *page_of(void *held, const struct laxonje_op *op)
{
	struct port *port = (struct port *)held;
	if (op->frame >= FRAMES || op->count > LAXONJE_PAGE_WORDS || op->word > LAXONJE_PAGE_WORDS - op->count)
		port->elsewhere++, abort();
	port->accesses += op->count;
	return (uint32_t *)(void *)(port->memory + (size_t)op->frame * GUEST_PAGE);
}

/* The guests look at their rings themselves, so that a notice need not be sent on. */
static void notify(void *held, uint32_t port) { (void)held, (void)port; }
static void kick(void *held) { (void)held; }
static bool awaits(void *held) { return (void)held, usleep(MILLISECOND / 10) == 0; }

static void connect_guest(struct port *port, const struct laxonje_program *program)
{
	static const struct laxonje_extent extents[] = { { FRAMES, GUEST_DOMAIN } };
	static const uint32_t table[] = { TABLE };
	static const struct laxonje_queue_desc desc = { .tx = TX_RING, .rx = RX_RING, .granter = GUEST_DOMAIN, .user = HOST_DOMAIN, .port = PORT };
	uint32_t made = laxonje_queue_make_extents((struct laxonje_program *)program, extents, 1, table, 1, &desc, port->drive.queue);
	if (made != LAXONJE_MADE)
		fprintf(stderr, "no queue: %s\n", laxonje_made_name(made)), exit(1);
}

/* A packet of 60 bytes from 02:00:00:00:00:01 and 10.0.0.1, if neither is to be false. */
static void send_packet(struct guest_front *front, unsigned n)
{
	uint8_t *bytes = guest_data(front, n % BATCH);
	netif_tx_request_t *request = RING_GET_REQUEST(&front->tx, front->tx.req_prod_pvt++);
	uint8_t header[] = { 2, 0, 0, 0, 0, 2, 2, 0, 0, 0, 0, 1, 8, 0, 0x45, 0, 0, SIZE - 14, 0, 0, 0, 0, 64, 17, 0, 0, 10, 0, 0, 1, 10, 0, 0, 2 };
	header[11] = n % 4 == 3 ? 9 : 1;
	if (n % 8 == 1)
		header[12] = 0x86, header[13] = 0xdd;
	memset(bytes, 0, SIZE);
	memcpy(bytes, header, sizeof header);
	request->gref = request->id = n % BATCH, request->offset = 0, request->flags = 0, request->size = SIZE;
}

/* The answers to a batch: OKAY for what passed, DROPPED for what the filter dropped. */
static void take_answers(struct guest_front *front)
{
	while (RING_HAS_UNCONSUMED_RESPONSES(&front->tx)) {
		rmb();
		netif_tx_response_t *response = RING_GET_RESPONSE(&front->tx, front->tx.rsp_cons++);
		front->wrong += response->status != NETIF_RSP_OKAY && response->status != NETIF_RSP_DROPPED;
	}
}

/* The honest guest: batches of packets, each of which is answered before the next. Returns how many answers were errors. */
static unsigned run_honest(const struct guest *guest, unsigned packets)
{
	struct guest_front front = { .guest = guest, .behaviour = GUEST_HONEST };
	int notify_host;
	guest_connect(&front);
	for (unsigned n = 0; n < packets; n += BATCH) {
		for (unsigned k = 0; k < BATCH; k++)
			send_packet(&front, n + k);
		RING_PUSH_REQUESTS_AND_CHECK_NOTIFY(&front.tx, notify_host);
		(void)notify_host;
		while (front.tx.rsp_cons != front.tx.req_prod_pvt)
			take_answers(&front);
	}
	return front.wrong;
}

static void run_guest(struct port *port, bool is_hostile, unsigned packets)
{
	const struct guest guest = { port->memory, TX_RING, RX_RING, TABLE, DATA, HOST_DOMAIN, NULL, kick, awaits };
	if (!is_hostile)
		_exit(run_honest(&guest, packets) != 0);
	for (unsigned seed = 1;; seed++)
		guest_run(&guest, GUEST_HOSTILE, packets, seed);
}

static void start(struct port *port, bool is_hostile, unsigned packets)
{
	port->memory = mmap(NULL, FRAMES * GUEST_PAGE, PROT_READ | PROT_WRITE, MAP_SHARED | MAP_ANONYMOUS, -1, 0);
	if (port->memory == MAP_FAILED || (port->guest = fork()) < 0)
		fail("guest");
	if (port->guest == 0) {
		prctl(PR_SET_PDEATHSIG, SIGKILL);
		run_guest(port, is_hostile, packets);
	}
}

/* One turn of a guest's queue, and what it came to; a queue that halts is made anew, as for a guest that connects again. */
static void take_turn(struct port *port, const struct laxonje_program *program)
{
	const struct laxonje_io io = { port, page_of, notify, NULL };
	struct laxonje_op over = laxonje_drive_turn(&port->drive, &io);
	if (over.outcome == LAXONJE_TURN_RAN) {
		port->passed += over.number == LAXONJE_PASS, port->back += over.number == LAXONJE_TX;
		port->dropped += over.number != LAXONJE_PASS && over.number != LAXONJE_TX;
	} else if (over.outcome == LAXONJE_TURN_REFUSED) {
		port->refused[over.cause % CAUSES]++;
	} else if (over.outcome == LAXONJE_TURN_HALTED) {
		port->halted[over.cause % CAUSES]++;
		connect_guest(port, program);
	}
}

static void print_causes(const char *what, uint32_t outcome, const unsigned long *counts)
{
	for (uint32_t cause = 1; cause < CAUSES; cause++) {
		if (counts[cause])
			printf("  %s %lu: %s\n", what, counts[cause], laxonje_name(outcome, cause));
	}
}

static void print_port(const struct port *port)
{
	printf("%s guest: passed %lu, dropped by the filter %lu, sent back %lu\n", port->name, port->passed, port->dropped, port->back);
	print_causes("refused", LAXONJE_TURN_REFUSED, port->refused);
	print_causes("connected again", LAXONJE_TURN_HALTED, port->halted);
}

static void load(struct laxonje_program *program, const char *name)
{
	static uint8_t text[1 << 20];
	FILE *file = fopen(name, "r");
	size_t size = file ? fread(text, 1, sizeof text, file) : 0;
	struct laxonje_verdict verdict = laxonje_load_settings(text, size, program);
	if (verdict.kind != LAXONJE_ACCEPTED)
		fprintf(stderr, "%s: verdict %u %u at %u\n", name, verdict.kind, verdict.cause, verdict.at), exit(1);
	fclose(file);
}

/* Serves both guests until the honest one has ended. Returns whether it ended well. */
static bool serve(struct port *ports, const struct laxonje_program *program)
{
	int status = 0;
	while (waitpid(ports[HONEST].guest, &status, WNOHANG) == 0) {
		for (unsigned n = 0; n < BATCH * GUESTS; n++)
			take_turn(&ports[n % GUESTS], program);
	}
	kill(ports[HOSTILE].guest, SIGKILL);
	waitpid(ports[HOSTILE].guest, NULL, 0);
	return WIFEXITED(status) && WEXITSTATUS(status) == 0;
}

int main(int count, char **words)
{
	static struct port ports[GUESTS] = { { .name = "honest" }, { .name = "hostile" } };
	unsigned packets = count == 3 ? (unsigned)strtoul(words[2], NULL, 10) / BATCH * BATCH : 0;
	struct laxonje_program *program = laxonje_program_new();
	unsigned long elsewhere = 0, accesses = 0;
	bool is_well;
	if (packets == 0)
		return fprintf(stderr, "demo SETTINGS PACKETS\n"), 2;
	load(program, words[1]);
	for (unsigned n = 0; n < GUESTS; n++) {
		ports[n].drive = (struct laxonje_drive){ laxonje_queue_new(), TX_RING, RX_RING, ports[n].counters, MOST_COUNTERS, { 0 } };
		start(&ports[n], n == HOSTILE, packets);
		connect_guest(&ports[n], program);
	}
	is_well = serve(ports, program);
	for (unsigned n = 0; n < GUESTS; n++) {
		print_port(&ports[n]);
		elsewhere += ports[n].elsewhere, accesses += ports[n].accesses;
		laxonje_queue_delete(&ports[n].drive.queue);
	}
	laxonje_program_delete(&program);
	is_well = is_well && ports[HONEST].passed + ports[HONEST].dropped == packets && ports[HONEST].dropped == packets / 8 * 3;
	printf("of %u honest packets %s was lost, and 3 in 8 were dropped; %lu accesses to shared pages, %lu elsewhere\n", packets,
	       is_well ? "none" : "ONE OR MORE", accesses, elsewhere);
	return !is_well || elsewhere != 0;
}
