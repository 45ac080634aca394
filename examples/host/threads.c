/* One program, verified once, in three threads, each with a handle and counters of its own, while a fourth reads the counters:
 * usage: threads RUNS */
#include <laxonje.h>
#include <pthread.h>
#include <sched.h>
#include <stdio.h>
#include <stdlib.h>
#include <string.h>

enum { THREADS = 3, BYTES = 60 };

/* Adds 1 to the counter of each packet's run, and passes it. */
static const char text[] = "program = [\"620afcff00000000\", \"bfa2000000000000\", \"07020000fcffffff\", \"1811000000000000\", \"0000000000000000\",\n"
                           "\"8500000001000000\", \"1500020000000000\", \"b701000001000000\", \"db10000000000000\", \"b700000002000000\", "
                           "\"9500000000000000\"]\n"
                           "map = [{ name = \"packets\", entries = 1, counters = 1 }]\n";

struct worker {
	struct laxonje_program *program;
	uint64_t *counters;
	size_t counter_count;
	size_t place;
	unsigned long runs;
	unsigned long wrong;
};

static struct worker workers[THREADS];

/* What another thread may do with counters during a run: load each once. */
static uint64_t seen(const struct worker *worker)
{
	return __atomic_load_n(&worker->counters[worker->place], __ATOMIC_RELAXED);
}

static void *runs(void *given)
{
	struct worker *worker = (struct worker *)given;
	for (unsigned long i = 0; i < worker->runs; i++) {
		uint8_t packet[BYTES] = { 0 };
		struct laxonje_result run = laxonje_run(worker->program, worker->counters, worker->counter_count, packet, sizeof packet, 0, 0);
		if (run.action != LAXONJE_PASS)
			worker->wrong++;
	}
	laxonje_program_delete(&worker->program);
	return NULL;
}

/* Reads until each thread is done. A counter that falls is wrong. */
static unsigned long reads(void)
{
	uint64_t last[THREADS] = { 0 };
	unsigned long wrong = 0, done = 0;
	while (done < THREADS) {
		sched_yield();
		done = 0;
		for (size_t i = 0; i < THREADS; i++) {
			uint64_t now = seen(&workers[i]);
			if (now < last[i] || now > workers[i].runs)
				wrong++;
			last[i] = now;
			done += now == workers[i].runs;
		}
	}
	return wrong;
}

/* A worker with a handle of the program, and counters of its own. */
static int prepares(struct worker *worker, struct laxonje_program *program, unsigned long runs)
{
	uint32_t map = (uint32_t)laxonje_map_named(program, (const uint8_t *)"packets", 7);
	worker->program = laxonje_program_new();
	worker->counter_count = laxonje_counters(program);
	worker->counters = (uint64_t *)calloc(worker->counter_count, sizeof *worker->counters);
	worker->place = laxonje_place(program, map, 0, 0);
	worker->runs = runs;
	return worker->counters && laxonje_again(program, worker->program).kind == LAXONJE_ACCEPTED;
}

int main(int count, char **arguments)
{
	pthread_t threads[THREADS];
	unsigned long wrong, number = count > 1 ? strtoul(arguments[1], NULL, 10) : 1000;
	struct laxonje_program *program = laxonje_program_new();
	laxonje_load_settings((const uint8_t *)text, strlen(text), program);
	for (size_t i = 0; i < THREADS; i++)
		if (!prepares(&workers[i], program, number))
			return fprintf(stderr, "no program, or no memory\n"), 1;
	laxonje_program_delete(&program);
	for (size_t i = 0; i < THREADS; i++)
		pthread_create(&threads[i], NULL, runs, &workers[i]);
	wrong = reads();
	for (size_t i = 0; i < THREADS; i++) {
		pthread_join(threads[i], NULL);
		wrong += workers[i].wrong;
		free(workers[i].counters);
	}
	printf("%lu wrong\n", wrong);
	return wrong != 0;
}
