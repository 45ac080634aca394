/* A call of laxonje_run, a packet of a laxonje_run_batch of 32, and DPDK's rte_bpf_exec, on the lines of line.h: each on
 * the packet where it lies. Rounds of the three in turn, of which the least is printed: NAME, the instructions of the
 * last run, and the nanoseconds of a packet for each of the three. `differ` follows if the answers do.
 *
 * dpdk.c says how DPDK's interpreter is given a program. */
#define _GNU_SOURCE
#include "line.h"
#include <laxonje.h>
#include <rte_bpf.h>
#include <sys/mman.h>
#include <time.h>

enum { ROUNDS = 41, BATCH = 32 };

struct rte_bpf {
	struct rte_bpf_prm prm;
	struct rte_bpf_jit jit;
	size_t sz;
	uint32_t stack_sz;
};

struct low {
	uint32_t context[16];
	uint8_t packet[MOST_PACKET];
};

struct least {
	double ours, batch, theirs;
};

static uint64_t counters[1];
static uint8_t ours[MOST_PACKET], many[BATCH][MOST_PACKET];
static struct laxonje_packet packets[BATCH];
static struct laxonje_result results[BATCH];

static double now(void)
{
	struct timespec t;

	clock_gettime(CLOCK_MONOTONIC, &t);
	return t.tv_sec * 1e9 + t.tv_nsec;
}

static void keep(double *least, double from, unsigned runs)
{
	double figure = (now() - from) / runs;

	if (figure < *least)
		*least = figure;
}

static void measure(const struct line *line, struct low *low, struct laxonje_program *program)
{
	struct rte_bpf bpf = { .prm = { .ins = (const void *)line->program, .nb_ins = line->slots } };
	struct least least = {1e18, 1e18, 1e18};
	uint64_t sum = 0, in_batches = 0, other = 0;
	unsigned times = line->times / BATCH * BATCH, instructions = 0;

	low->context[0] = low->context[2] = (uintptr_t)low->packet;
	low->context[1] = low->context[0] + line->length;
	memcpy(low->packet, line->packet, line->length);
	memcpy(ours, line->packet, line->length);
	for (unsigned i = 0; i < BATCH; i++) {
		memcpy(many[i], line->packet, line->length);
		packets[i] = (struct laxonje_packet){i * MOST_PACKET, line->length};
	}
	for (unsigned round = 0; round < ROUNDS; round++) {
		double from = now();

		for (unsigned i = 0; i < times; i++) {
			struct laxonje_result run = laxonje_run(program, counters, 0, ours, line->length, 0, 0);

			sum += run.number, instructions = run.instructions;
		}
		keep(&least.ours, from, times), from = now();
		for (unsigned i = 0; i < times; i += BATCH) {
			laxonje_run_batch(program, counters, 0, many[0], sizeof many, packets, BATCH, results, BATCH, 0, 0);
			for (unsigned j = 0; j < BATCH; j++)
				in_batches += results[j].number;
		}
		keep(&least.batch, from, times), from = now();
		for (unsigned i = 0; i < times; i++)
			other += (uint32_t)rte_bpf_exec(&bpf, low->context);
		keep(&least.theirs, from, times);
	}
	printf("%s %u %.1f %.1f %.1f%s\n", line->name, instructions, least.ours, least.batch, least.theirs,
	       sum == other && in_batches == other ? "" : " differ");
}

int main(void)
{
	static const struct laxonje_map none[1];
	static struct line line;
	struct laxonje_program *program = laxonje_program_new();
	struct low *low = mmap(0, sizeof *low, PROT_READ | PROT_WRITE, MAP_PRIVATE | MAP_ANONYMOUS | MAP_32BIT, -1, 0);

	if (low == MAP_FAILED)
		return perror("mmap"), 1;
	while (read_line(&line))
		if (laxonje_load((const uint8_t *)line.program, 8 * line.slots, none, 0, program).kind == LAXONJE_ACCEPTED)
			measure(&line, low, program);
		else
			fprintf(stderr, "%s is refused\n", line.name);
	laxonje_program_delete(&program);
	return 0;
}
