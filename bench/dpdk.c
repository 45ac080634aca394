/* DPDK's interpreter, rte_bpf_exec of librte_bpf 22.11, on the lines of line.h. Each program runs TIMES times, on a
 * fresh copy of its packet. Printed are NAME, the nanoseconds of all runs, and what the last one answered.
 *
 * DPDK's loader refuses these programs, since it knows a packet only as its own mbuf and takes no pointer that is read
 * from memory. So nothing is loaded: `struct rte_bpf`, which the library keeps to itself, is filled here as lib/bpf/
 * bpf_impl.h of 22.11 declares it. The interpreter reads the instructions alone, and tests no access. XDP's context has
 * addresses of 32 bits, which the program uses as they are: context and packet are mapped below 4 GiB. No program here
 * has a jump of 32 bits, which this interpreter lacks. */
#define _GNU_SOURCE
#include "line.h"
#include <rte_bpf.h>
#include <sys/mman.h>
#include <time.h>

struct rte_bpf {
	struct rte_bpf_prm prm;
	struct rte_bpf_jit jit;
	size_t sz;
	uint32_t stack_sz;
};

struct low {
	uint32_t context[16]; /* data, data_end, data_meta, ingress_ifindex, rx_queue_index */
	uint8_t packet[MOST_PACKET];
};

static double now(void)
{
	struct timespec t;

	clock_gettime(CLOCK_MONOTONIC, &t);
	return t.tv_sec * 1e9 + t.tv_nsec;
}

static void measure(const struct line *line, struct low *low)
{
	struct rte_bpf bpf = { .prm = { .ins = (const void *)line->program, .nb_ins = line->slots } };
	uint32_t data = (uintptr_t)low->packet;
	uint64_t answer = 0;
	double start = now();

	low->context[0] = low->context[2] = data;
	low->context[1] = data + line->length;
	for (unsigned time = 0; time < line->times; time++) {
		memcpy(low->packet, line->packet, line->length);
		answer = rte_bpf_exec(&bpf, low->context);
	}
	printf("%s %.0f %u\n", line->name, now() - start, (uint32_t)answer);
}

int main(void)
{
	static struct line line;
	struct low *low = mmap(0, sizeof *low, PROT_READ | PROT_WRITE, MAP_PRIVATE | MAP_ANONYMOUS | MAP_32BIT, -1, 0);

	if (low == MAP_FAILED)
		return perror("mmap"), 1;
	while (read_line(&line))
		measure(&line, low);
	return 0;
}
