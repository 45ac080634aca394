/* The time: a program that asks for it reads a counter, and its host writes that before each run. This one drops packets in even seconds. */
#define _POSIX_C_SOURCE 199309L
#include <laxonje.h>
#include <stdio.h>
#include <string.h>
#include <time.h>

/* r0 = the time / 1,000,000,000 % 2 + 1 */
static const char settings[] = "program = [\"bfa2000000000000\", \"07020000fcffffff\", \"620afcff00000000\", \"18110000000000000000000000000000\","
                               " \"8500000001000000\", \"1500040000000000\", \"7900000000000000\", \"3700000000ca9a3b\","
                               " \"5700000001000000\", \"0700000001000000\", \"9500000000000000\"]\n"
                               "map = [{ name = \"bpf_ktime_get_ns\", entries = 1 }]\n";
static const char timeless[] = "program = [\"b700000002000000\", \"9500000000000000\"]\nmap = [{ name = \"hits\", entries = 1 }]\n";

static const uint64_t second = 1000000000;
static int wrong;

static void is(const char *what, uint64_t got, uint64_t wanted)
{
	if (got == wanted)
		return;
	printf("%s: %llu and not %llu\n", what, (unsigned long long)got, (unsigned long long)wanted);
	wrong++;
}

static struct laxonje_program *program_of(const char *text)
{
	struct laxonje_program *program = laxonje_program_new();
	is("a program", laxonje_load_settings((const uint8_t *)text, strlen(text), program).kind, LAXONJE_ACCEPTED);
	return program;
}

static uint64_t nanoseconds(void)
{
	struct timespec now;
	clock_gettime(CLOCK_MONOTONIC, &now);
	return (uint64_t)now.tv_sec * second + (uint64_t)now.tv_nsec;
}

/* What becomes of a packet at a time. */
static uint32_t action_at(struct laxonje_program *program, uint64_t time)
{
	uint64_t counters[1] = {0};
	uint8_t packet[14] = {0};
	size_t clock = laxonje_clock(program);
	if (clock != LAXONJE_NOWHERE)
		counters[clock] = time;
	return laxonje_run(program, counters, 1, packet, sizeof packet, 0, 0).action;
}

int main(void)
{
	struct laxonje_program *program = program_of(settings), *other = program_of(timeless);
	is("the first second", action_at(program, second - 1), LAXONJE_DROP);
	is("the second one", action_at(program, second), LAXONJE_PASS);
	is("the third one", action_at(program, 2 * second), LAXONJE_DROP);
	uint64_t now = nanoseconds();
	is("now", action_at(program, now), now / second % 2 + 1);
	is("no time is asked for", laxonje_clock(other), LAXONJE_NOWHERE);
	is("and none is given", action_at(other, now), LAXONJE_PASS);
	is("no program", laxonje_clock(NULL), LAXONJE_NOWHERE);
	is("several queues may take turns at once", laxonje_runs_alone(program), 0);
	is("no program wants more", laxonje_runs_alone(NULL), 0);
	laxonje_program_delete(&program);
	laxonje_program_delete(&other);
	printf("%d wrong\n", wrong);
	return wrong > 0;
}
