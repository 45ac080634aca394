/* Each field of the header's structs with a value of its own: if two fields changed places, a line says which. It is C and C++. */
#include <laxonje.h>
#include <stdio.h>
#include <string.h>

static int wrong;

static void is(const char *what, size_t found, size_t wanted)
{
	if (found == wanted)
		return;
	printf("%s: %zu, and not %zu\n", what, found, wanted);
	wrong++;
}

static void says(const char *what, struct laxonje_verdict verdict, uint32_t kind, uint32_t cause, uint32_t at)
{
	printf("%s: kind %u cause %u at %u\n", what, verdict.kind, verdict.cause, verdict.at);
	is("kind", verdict.kind, kind);
	is("cause", verdict.cause, cause);
	is("at", verdict.at, at);
}

/* r0 = 9; exit. r0 = 3; r1 = 0; exit. r1 = 0; r1 = 0; r0 = *(u64 *)(r1 + 0); exit. */
static const uint8_t nine[] = {0xb7, 0, 0, 0, 9, 0, 0, 0, 0x95, 0, 0, 0, 0, 0, 0, 0};
static const uint8_t sends[] = {0xb7, 0, 0, 0, 3, 0, 0, 0, 0xb7, 1, 0, 0, 0, 0, 0, 0, 0x95, 0, 0, 0, 0, 0, 0, 0};
static const uint8_t faulty[] = {0xb7, 1, 0, 0, 0, 0, 0, 0, 0xb7, 1, 0, 0, 0, 0, 0, 0, 0x79, 0x10, 0, 0, 0, 0, 0, 0, 0x95, 0, 0, 0, 0, 0, 0, 0};
/* The fourth is out of its limits. */
static const struct laxonje_map maps[] = {{1024, 8}, {1, 1}, {3, 2}, {7, 9}, {1, 1}};
static uint64_t counters[1024 * 8 + 1 + 6];

static void verdicts(struct laxonje_program *program, struct laxonje_program *none)
{
	static const char text[] = "program=[1]";

	says("accepted", laxonje_load(nine, sizeof nine, maps, 3, program), LAXONJE_ACCEPTED, 0, 2);
	says("refused", laxonje_check(faulty, sizeof faulty, maps, 0), LAXONJE_REFUSED, LAXONJE_V_NO_POINTER, 2);
	says("a map out of its limits", laxonje_check(nine, sizeof nine, maps, 4), LAXONJE_MAP, 0, 3);
	says("a fifth map", laxonje_check(nine, sizeof nine, maps, 5), LAXONJE_MAP, 0, 4);
	says("settings", laxonje_load_settings((const uint8_t *)text, strlen(text), none), LAXONJE_SETTINGS, LAXONJE_L_KEY, 0);
	says("again of none", laxonje_again(none, none), LAXONJE_EMPTY, 0, 0);
}

static void advice(void)
{
	static const char stack[] = "store these bytes first, within the 512 bytes below r10";
	uint8_t text[sizeof stack] = {0};

	is("an advice's bytes", laxonje_advice(LAXONJE_V_STACK, text, sizeof stack - 1), sizeof stack - 1);
	is("an advice", memcmp(text, stack, sizeof stack) == 0, 1);
	is("an advice without room", laxonje_advice(LAXONJE_V_STACK, NULL, 0), sizeof stack - 1);
	is("no advice", laxonje_advice(18, text, sizeof text), 0);
}

static void runs(struct laxonje_program *program)
{
	uint8_t bytes[8] = {0};
	const struct laxonje_packet packets[] = {{7, 1}, {8, 1}, {8, 0}};
	struct laxonje_result results[] = {{9, 9, 9}, {9, 9, 9}, {9, 9, 9}};
	struct laxonje_result run = laxonje_run(program, counters, sizeof counters / sizeof counters[0], bytes, 8, 1, 2);

	is("counters", laxonje_counters(program), sizeof counters / sizeof counters[0]);
	is("a place", laxonje_place(program, 2, 2, 1), 1024 * 8 + 1 + 5);
	is("the last place of map 0", laxonje_place(program, 0, 1023, 7), 1024 * 8 - 1);
	is("no place", laxonje_place(program, 2, 1, 2), LAXONJE_NOWHERE);
	is("maps", laxonje_map_count(program), 3);
	is("entries of map 2", laxonje_map_size(program, 2).entries, 3);
	is("counters of map 2", laxonje_map_size(program, 2).counters, 2);
	is("entries of no map", laxonje_map_size(program, 3).entries, 0);
	is("counters of no map", laxonje_map_size(program, 3).counters, 0);
	is("number", run.number, 9);
	is("action", run.action, LAXONJE_ABORTED);
	is("instructions", run.instructions, 2);
	laxonje_load(sends, sizeof sends, maps, 0, program);
	run = laxonje_run(program, counters, 0, bytes, 8, 1, 2);
	is("number", run.number, 3);
	is("action", run.action, LAXONJE_TX);
	is("instructions", run.instructions, 3);
	is("packets", laxonje_run_batch(program, counters, 0, bytes, 8, packets, 3, results, 3, 0, 0), 3);
	is("a packet at the end", results[0].instructions, 3);
	is("a packet past the end", results[1].instructions, 0);
	is("no byte at the end", results[2].instructions, 3);
}

int main(void)
{
	struct laxonje_program *program = laxonje_program_new(), *none = laxonje_program_new();

	verdicts(program, none);
	advice();
	runs(program);
	is("version", laxonje_version(), LAXONJE_VERSION);
	laxonje_program_delete(&program);
	laxonje_program_delete(&none);
	printf("%d wrong\n", wrong);
	return wrong != 0;
}
