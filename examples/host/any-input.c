/* Every call is answered, whatever it is given: programs, settings and objects of 0 bytes to 1 MiB, good ones with bits changed,
 * maps and packets of any size, too few counters, handles that hold nothing. What isn't run changes nothing.
 *
 * usage: any-input CALLS SETTINGS-OR-OBJECT.. ; under valgrind or a sanitizer nothing is lost and nothing is leaked. */
#include <laxonje.h>
#include <stdbool.h>
#include <stdio.h>
#include <stdlib.h>
#include <string.h>

enum { MOST = 1 << 20, MOST_TEXTS = 32, MOST_PACKET = 70000, MOST_COUNTERS = 40000, BATCH = 8 };

static uint64_t state = 1;
static uint8_t *texts[MOST_TEXTS];
static size_t lengths[MOST_TEXTS], text_count;
static unsigned long answers[LAXONJE_OBJECT + 1], runs, unrun;

static uint64_t any(uint64_t below)
{
	state ^= state << 13, state ^= state >> 7, state ^= state << 17;
	return state % below;
}

/* A length with any number of bits, so that short ones are as many as long ones. */
static size_t any_length(size_t most)
{
	size_t length = any(1ull << any(21));

	return length < most ? length : most;
}

static void wrong(const char *what)
{
	printf("wrong: %s\n", what);
	exit(1);
}

/* A text with some of its bytes changed, or any bytes. It is as long as it says, so that a read past it is seen. */
static uint8_t *any_bytes(size_t *length)
{
	size_t text = text_count && any(4) ? any(text_count) : text_count, changes;
	uint8_t *bytes;

	*length = text < text_count ? lengths[text] : any_length(MOST);
	bytes = malloc(*length + !*length);
	if (text < text_count)
		memcpy(bytes, texts[text], *length);
	else
		for (size_t i = 0; i < *length; i++)
			bytes[i] = any(256);
	changes = any(2) * any(4);
	for (size_t i = 0; text < text_count && *length && i < changes; i++)
		bytes[any(*length)] ^= 1 << any(8);
	return bytes;
}

/* Any instructions that may well be accepted: each has one of a few opcodes. */
static size_t any_program(uint8_t *to)
{
	static const uint8_t opcodes[] = {0xb7, 0xbf, 0x07, 0x0f, 0x61, 0x71, 0x2d, 0x55, 0x15, 0x7b, 0x79, 0x85, 0xdb, 0x95};
	size_t slots = 1 + any(24);

	for (size_t i = 0; i + 1 < slots; i++) {
		uint8_t slot[8] = {opcodes[any(sizeof opcodes)], any(11) | any(11) << 4, any(4), 0, any(3), 0, 0, 0};

		memcpy(to + 8 * i, slot, 8);
	}
	memcpy(to + 8 * (slots - 1), (uint8_t[]){0x95, 0, 0, 0, 0, 0, 0, 0}, 8);
	memcpy(to, (uint8_t[]){0xb7, 0, 0, 0, 2, 0, 0, 0}, 8);
	return 8 * slots;
}

/* A handle, and whether a program was accepted into it. */
struct holder { struct laxonje_program *program; bool live; };

static void load_any(struct holder *to)
{
	static const uint8_t nothing[1];
	static const struct laxonje_map none[1];
	static const char function[] = "count_protocol";
	struct laxonje_program *program = to->program;
	struct laxonje_map *maps = malloc(8 * sizeof *maps);
	struct laxonje_verdict verdict, checked;
	size_t length, count = any(7);
	uint8_t *bytes, small[256];

	for (size_t i = 0; i < count; i++)
		maps[i] = any(50) ? (struct laxonje_map){1 + any(16), 1 + any(3)} : (struct laxonje_map){any(2000), any(12)};
	switch (any(10)) {
	case 0: case 1: case 2: case 3:
		bytes = any_bytes(&length);
		verdict = laxonje_load_settings(bytes, length, program);
		free(bytes);
		break;
	case 4:
		bytes = any_bytes(&length);
		verdict = laxonje_load(bytes, length, maps, count, program);
		free(bytes);
		break;
	case 5:
		verdict = laxonje_load(nothing, 0, none, 0, program);
		break;
	case 6: case 7:
		bytes = any_bytes(&length);
		verdict = laxonje_load_object(bytes, length, (const uint8_t *)function, any(9) ? sizeof function - 1 : any(9), program);
		free(bytes);
		break;
	default:
		length = any_program(small);
		checked = laxonje_check(small, length, maps, count);
		verdict = laxonje_load(small, length, maps, count, program);
		if (memcmp(&checked, &verdict, sizeof verdict))
			wrong("check and load differ");
	}
	free(maps);
	if (verdict.kind > LAXONJE_SETTINGS && verdict.kind != LAXONJE_OBJECT)
		wrong("kind");
	to->live = verdict.kind == LAXONJE_ACCEPTED;
	answers[verdict.kind]++;
}

static uint64_t sum(const uint8_t *bytes, size_t length)
{
	uint64_t all = length;

	for (size_t i = 0; i < length; i++)
		all = all * 31 + bytes[i];
	return all;
}

static void look_at(struct laxonje_result run, const struct holder *of, size_t counters, size_t length, bool same)
{
	bool made = of->live && counters >= laxonje_counters(of->program) && length <= LAXONJE_PACKET;

	if (made != (run.instructions > 0) || run.action > LAXONJE_TX || (!made && (run.number || run.action)))
		wrong("a run is made where it can be, and only there");
	if (!made && !same)
		wrong("what isn't run changes nothing");
	made ? runs++ : unrun++;
}

static void run_any(struct holder *of)
{
	struct laxonje_program *program = of->program;
	size_t need = laxonje_counters(program), count = any(4) ? need : any(need + 4), length = any_length(MOST_PACKET);
	uint64_t *counters = calloc(count + 1, sizeof *counters), before;
	uint8_t *packet = malloc(length + 1);
	struct laxonje_result run;

	if (!any(50))
		length = 65535 + any(3), packet = realloc(packet, length);
	for (size_t i = 0; i < length; i++)
		packet[i] = any(256);
	before = sum(packet, length) ^ sum((uint8_t *)counters, 8 * count);
	run = laxonje_run(program, counters, count, packet, length, any(4), any(4));
	look_at(run, of, count, length, before == (sum(packet, length) ^ sum((uint8_t *)counters, 8 * count)));
	free(packet), free(counters);
}

static void batch_any(struct holder *of)
{
	struct laxonje_program *program = of->program;
	size_t need = laxonje_counters(program), length = any_length(4096), packet_count = any(BATCH + 1), result_count = any(BATCH + 1);
	uint64_t *counters = calloc(need + 1, sizeof *counters);
	uint8_t *bytes = calloc(length + 1, 1);
	struct laxonje_packet packets[BATCH];
	struct laxonje_result results[BATCH];
	size_t done, fewer = packet_count < result_count ? packet_count : result_count;

	for (size_t i = 0; i < BATCH; i++) {
		packets[i] = (struct laxonje_packet){any(length + 9), any(5) ? any(256) : (uint64_t)-any(256)};
		results[i] = (struct laxonje_result){9, 9, 9};
	}
	done = laxonje_run_batch(program, counters, need, bytes, length, packets, packet_count, results, result_count, 0, 0);
	if (done != (of->live ? fewer : 0))
		wrong("as many as there are packets and results");
	for (size_t i = 0; i < BATCH; i++) {
		bool inside = packets[i].length <= length && packets[i].start <= length - packets[i].length;

		if (i >= done ? results[i].number != 9 : inside != (results[i].instructions > 0))
			wrong("a packet is run where it lies in the bytes");
	}
	free(bytes), free(counters);
}

static void again_any(struct holder *of)
{
	struct laxonje_program *other = laxonje_program_new();
	struct laxonje_verdict verdict = laxonje_again(of->program, other);

	if (verdict.kind != (of->live ? LAXONJE_ACCEPTED : LAXONJE_EMPTY))
		wrong("again");
	if (laxonje_again(other, of->program).kind != verdict.kind)
		wrong("the same program from there");
	if (laxonje_counters(of->program) != laxonje_counters(other))
		wrong("again has the same counters");
	answers[verdict.kind]++;
	laxonje_program_delete(&other);
}

/* A handle keeps its program, whatever the text. */
static void relist_any(struct holder *of)
{
	size_t length, counters = laxonje_counters(of->program);
	uint8_t *bytes = any_bytes(&length);
	struct laxonje_verdict verdict = laxonje_relist(of->program, bytes, length);

	if (of->live ? verdict.kind != LAXONJE_ACCEPTED && verdict.kind != LAXONJE_SETTINGS && verdict.kind != LAXONJE_OTHER
	             : verdict.kind != LAXONJE_EMPTY)
		wrong("relist");
	if (laxonje_counters(of->program) != counters)
		wrong("relist keeps the program");
	free(bytes);
}

static void place_any(struct holder *of)
{
	struct laxonje_program *program = of->program;
	size_t place = laxonje_place(program, any(6), any(1100), any(10));

	if (place != LAXONJE_NOWHERE && place >= laxonje_counters(program))
		wrong("a place lies in the counters");
}

static void free_any(struct holder *of)
{
	laxonje_free(of->program);
	of->live = false;
	if (laxonje_counters(of->program) || laxonje_again(of->program, of->program).kind != LAXONJE_EMPTY)
		wrong("a program that was freed is there");
}

/* Null isn't to be passed. These calls answer it as no elements all the same. */
static void pass_null(void)
{
	struct laxonje_program *program = laxonje_program_new();
	static const uint8_t pass[] = {0xb7, 0, 0, 0, 2, 0, 0, 0, 0x95, 0, 0, 0, 0, 0, 0, 0};

	if (laxonje_check(NULL, 0, NULL, 0).kind != LAXONJE_REFUSED || laxonje_load_settings(NULL, 0, program).kind == LAXONJE_ACCEPTED)
		wrong("null");
	if (laxonje_load(pass, sizeof pass, NULL, 0, program).kind != LAXONJE_ACCEPTED)
		wrong("null maps");
	if (laxonje_run(program, NULL, 0, NULL, 0, 0, 0).number != 2)
		wrong("null packet");
	laxonje_program_delete(&program);
}

static void read_text(const char *name)
{
	FILE *file = fopen(name, "rb");

	if (!file || text_count == MOST_TEXTS)
		perror(name), exit(1);
	texts[text_count] = malloc(MOST);
	lengths[text_count] = fread(texts[text_count], 1, MOST, file);
	text_count++;
	fclose(file);
}

int main(int argc, char **argv)
{
	static void (*const calls[])(struct holder *) = {
		load_any, load_any, load_any, run_any, run_any, run_any, run_any, batch_any, batch_any, again_any, relist_any, place_any, free_any,
	};
	struct holder programs[4] = {{0}};
	unsigned long count = argc > 1 ? strtoul(argv[1], NULL, 10) : 0;

	for (int i = 2; i < argc; i++)
		read_text(argv[i]);
	pass_null();
	for (int i = 0; i < 4; i++)
		programs[i].program = laxonje_program_new();
	for (unsigned long i = 0; i < count; i++)
		calls[any(sizeof calls / sizeof *calls)](&programs[any(4)]);
	for (int i = 0; i < 4; i++)
		laxonje_program_delete(&programs[i].program);
	for (size_t i = 0; i < text_count; i++)
		free(texts[i]);
	printf("calls %lu accepted %lu refused %lu map %lu settings %lu empty %lu object %lu runs %lu not-run %lu\n", count, answers[0], answers[1],
	       answers[2], answers[3], answers[4], answers[LAXONJE_OBJECT], runs, unrun);
	return 0;
}
