/* A function of an object, as clang makes it of C, run on one packet with no settings between: object FILE FUNCTION */
#include <laxonje.h>
#include <stdio.h>
#include <stdlib.h>
#include <string.h>

#define MOST_BYTES (1 << 20)

static uint8_t bytes[MOST_BYTES];

/* An Ethernet frame with IPv4 whose protocol is UDP. */
static uint8_t packet[60] = { [12] = 8, [14] = 0x45, [23] = 17 };

static void show_maps(struct laxonje_program *program, const uint64_t *counters)
{
	for (uint32_t map = 0; map < laxonje_map_count(program); map++) {
		struct laxonje_map size = laxonje_map_size(program, map);
		uint8_t name[32];
		size_t length = laxonje_map_name(program, map, name, sizeof name);

		printf("%.*s: %u entries of %u counters\n", (int)length, (const char *)name, size.entries, size.counters);
		for (uint32_t entry = 0; entry < size.entries; entry++) {
			uint64_t count = counters[laxonje_place(program, map, entry, 0)];

			if (count)
				printf("%u: %llu\n", entry, (unsigned long long)count);
		}
	}
}

static int run(struct laxonje_program *program)
{
	size_t count = laxonje_counters(program);
	uint64_t *counters = calloc(count ? count : 1, sizeof *counters);
	struct laxonje_result result;

	if (!counters)
		return 1;
	result = laxonje_run(program, counters, count, packet, sizeof packet, 0, 0);
	printf("action %u\n", result.action);
	show_maps(program, counters);
	free(counters);
	return 0;
}

int main(int argc, char **argv)
{
	FILE *file = argc == 3 ? fopen(argv[1], "rb") : NULL;
	struct laxonje_program *program = laxonje_program_new();
	struct laxonje_verdict verdict;
	size_t length;
	int failed = 0;

	if (!file || !program) {
		fprintf(stderr, "object FILE FUNCTION\n");
		return 2;
	}
	length = fread(bytes, 1, sizeof bytes, file);
	fclose(file);
	verdict = laxonje_load_object(bytes, length, (const uint8_t *)argv[2], strlen(argv[2]), program);
	if (verdict.kind == LAXONJE_OBJECT)
		printf("O%u at %u\n", verdict.cause, verdict.at);
	else if (verdict.kind == LAXONJE_REFUSED)
		printf("V%u at %u\n", verdict.cause, verdict.at);
	else
		failed = run(program);
	laxonje_program_delete(&program);
	return failed;
}
