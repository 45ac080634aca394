/* Each cause of the header by its name: the shortest program, or settings text, that is refused for it (docs/REFUSALS.md). And each limit:
 * what is at it is taken, and what is past it isn't. It is C and C++. */
#include <laxonje.h>
#include <stdio.h>
#include <string.h>

enum { LONGEST = 64 };

struct program { const char *slots; uint32_t map_count, cause, at; };
struct text { const char *text; uint32_t cause; };

static const struct laxonje_map map = { 1, 1 };

static const struct program programs[] = {
	{ "95", 1, LAXONJE_V_LENGTH, 0 },
	{ "ff00000000000000", 1, LAXONJE_V_OPCODE, 0 },
	{ "b70b000002000000", 1, LAXONJE_V_REGISTER, 0 },
	{ "db00000050000000", 1, LAXONJE_V_UNSUPPORTED, 0 },
	{ "0500000000000000", 1, LAXONJE_V_TARGET, 0 },
	{ "0500ffff00000000", 1, LAXONJE_V_BACK_JUMP, 0 },
	{ "b700000002000000", 1, LAXONJE_V_END, 0 },
	{ "181100000000000000000000000000009500000000000000", 0, LAXONJE_V_MAP_NUMBER, 0 },
	{ "9500000000000000", 1, LAXONJE_V_UNSET, 0 },
	{ "b70a0000000000009500000000000000", 1, LAXONJE_V_FRAME_POINTER, 0 },
	{ "b70100000000000079100000000000009500000000000000", 1, LAXONJE_V_NO_POINTER, 1 },
	{ "611200000000000071200000000000009500000000000000", 1, LAXONJE_V_PACKET, 1 },
	{ "79a0f8ff000000009500000000000000", 1, LAXONJE_V_STACK, 0 },
	{ "69100000000000009500000000000000", 1, LAXONJE_V_CONTEXT, 0 },
	{ "620afcff00000000bfa200000000000007020000fcffffff1811000000000000"
	  "0000000000000000850000000100000079000000000000009500000000000000",
	  1, LAXONJE_V_MAY_BE_NULL, 6 },
	{ "db110000000000009500000000000000", 1, LAXONJE_V_MAP_ACCESS, 0 },
	{ "85000000020000009500000000000000", 1, LAXONJE_V_HELPER, 0 },
	{ "b70200000000000085000000010000009500000000000000", 1, LAXONJE_V_ARGUMENT, 1 },
};

static const struct text texts[] = {
	{ "\xff", LAXONJE_L_TEXT },
	{ "=", LAXONJE_L_SYNTAX },
	{ "", LAXONJE_L_KEY },
	{ "program=[]\nqueues=0", LAXONJE_L_LIMIT },
	{ "program=[]\nmap=[{name=\"\",entries=1}]", LAXONJE_L_NAME },
	{ "program=[\"0\"]", LAXONJE_L_HEX },
	{ "program=[]\nreloc=[{slot=0,map=\"\"}]", LAXONJE_L_RELOCATION },
};

static int wrong;

static void says(const char *what, size_t number, struct laxonje_verdict verdict, uint32_t kind, uint32_t cause, uint32_t at)
{
	if (verdict.kind == kind && verdict.cause == cause && verdict.at == at)
		return;
	printf("%s %zu: kind %u cause %u at %u, and not ", what, number, verdict.kind, verdict.cause, verdict.at);
	printf("kind %u cause %u at %u\n", kind, cause, at);
	wrong++;
}

static size_t bytes_of(const char *slots, uint8_t *bytes)
{
	size_t count = strlen(slots) / 2;
	unsigned byte = 0;
	for (size_t i = 0; i < count; i++)
		bytes[i] = sscanf(slots + 2 * i, "%2x", &byte) == 1 ? (uint8_t)byte : 0;
	return count;
}

/* A program of that many bytes: r0 = 0, again and again, and exit. */
static struct laxonje_verdict check_of(size_t count, const struct laxonje_map *maps, size_t map_count)
{
	static uint8_t code[LAXONJE_PROGRAM_BYTES + 8];
	memset(code, 0, sizeof code);
	for (size_t at = 0; at < count; at += 8)
		code[at] = at + 8 < count ? 0xb7 : 0x95;
	return laxonje_check(code, count, maps, map_count);
}

static void limits(struct laxonje_program *program)
{
	static const struct laxonje_map all[LAXONJE_MAPS + 1] = { { LAXONJE_ENTRIES, 1 }, { 1, LAXONJE_COUNTERS }, { 1, 1 }, { 1, 1 }, { 1, 1 } };
	static const struct laxonje_map entries = { LAXONJE_ENTRIES + 1, 1 }, counters = { 1, LAXONJE_COUNTERS + 1 };
	static const uint8_t code[] = { 0xb7, 0, 0, 0, 2, 0, 0, 0, 0x95, 0, 0, 0, 0, 0, 0, 0 };
	static uint8_t packet[LAXONJE_PACKET + 1];
	const uint32_t most = LAXONJE_PROGRAM_BYTES / 8;
	says("as many maps as there may be", 0, check_of(16, all, LAXONJE_MAPS), LAXONJE_ACCEPTED, 0, 2);
	says("a map more", 0, check_of(16, all, LAXONJE_MAPS + 1), LAXONJE_MAP, 0, LAXONJE_MAPS);
	says("an entry more", 0, check_of(16, &entries, 1), LAXONJE_MAP, 0, 0);
	says("a counter more", 0, check_of(16, &counters, 1), LAXONJE_MAP, 0, 0);
	says("the longest program", 0, check_of(LAXONJE_PROGRAM_BYTES, NULL, 0), LAXONJE_ACCEPTED, 0, most);
	says("a longer one", 0, check_of(LAXONJE_PROGRAM_BYTES + 8, NULL, 0), LAXONJE_REFUSED, LAXONJE_V_LENGTH, 0);
	says("a program", 0, laxonje_load(code, sizeof code, NULL, 0, program), LAXONJE_ACCEPTED, 0, 2);
	if (laxonje_run(program, NULL, 0, packet, LAXONJE_PACKET, 0, 0).instructions != 2 ||
	    laxonje_run(program, NULL, 0, packet, LAXONJE_PACKET + 1, 0, 0).instructions != 0)
		printf("the longest packet\n"), wrong++;
}

int main(void)
{
	struct laxonje_program *program = laxonje_program_new();
	uint8_t bytes[LONGEST];
	limits(program);
	for (size_t i = 0; i < sizeof programs / sizeof programs[0]; i++) {
		const struct program *it = &programs[i];
		size_t count = bytes_of(it->slots, bytes);
		says("program", i, laxonje_check(bytes, count, &map, it->map_count), LAXONJE_REFUSED, it->cause, it->at);
	}
	for (size_t i = 0; i < sizeof texts / sizeof texts[0]; i++) {
		const struct text *it = &texts[i];
		says("text", i, laxonje_load_settings((const uint8_t *)it->text, strlen(it->text), program), LAXONJE_SETTINGS, it->cause, 0);
	}
	laxonje_program_delete(&program);
	printf("%d wrong\n", wrong);
	return wrong != 0;
}
