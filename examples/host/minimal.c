/* Some twenty lines to a verdict: loads a program that passes every packet, and runs it once. */
#include <laxonje.h>
#include <stdio.h>

int main(void)
{
	static const uint8_t pass[] = {0xb7, 0, 0, 0, 2, 0, 0, 0, 0x95, 0, 0, 0, 0, 0, 0, 0}; /* r0 = 2; exit */
	static const struct laxonje_map no_maps[1];
	struct laxonje_program *program = laxonje_program_new();
	if (!program)
		return printf("no memory, or a library of another version\n"), 1;
	struct laxonje_verdict verdict = laxonje_load(pass, sizeof pass, no_maps, 0, program);
	uint8_t packet[14] = {0};
	uint64_t no_counters[1];

	if (verdict.kind != LAXONJE_ACCEPTED)
		return printf("refused: V%u at %u\n", verdict.cause, verdict.at), 1;
	struct laxonje_result run = laxonje_run(program, no_counters, 0, packet, sizeof packet, 0, 0);
	printf("action %u after %u instructions\n", run.action, run.instructions);
	laxonje_program_delete(&program);
	return 0;
}
