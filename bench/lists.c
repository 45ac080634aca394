/* A lookup in a list, ours and Linux's, in one process: `lists KIND BYTES ROWS KEYS WITH WITHOUT`, as root.
 *
 * KIND is exact or prefix, BYTES the size of a key, ROWS and KEYS are files of keys. WITH and WITHOUT are settings of a program that looks up
 * the key at the front of its packet, and of one that only puts it on its stack. A packet is a key and zeros. Printed are the nanoseconds
 * of a run of each, ours and then Linux's, and how many keys ours and Linux find; last the microseconds that loading WITH takes.
 *
 * Linux's programs take the next key from an array by a counter, since BPF_PROG_TEST_RUN repeats one packet. They are attached to nothing. */
#define _GNU_SOURCE
#include <errno.h>
#include <laxonje.h>
#include <linux/bpf.h>
#include <stdio.h>
#include <stdlib.h>
#include <string.h>
#include <sys/syscall.h>
#include <time.h>
#include <unistd.h>

enum { PACKET = 64, KEYS = 4096, ROUNDS = 41, RUNS = 20, LOADS = 20, REPEATS = 1 << 16, MOST_TEXT = 1 << 20 };

struct file {
	uint8_t *bytes;
	size_t size;
};

static struct file whole(const char *path)
{
	struct file file = {malloc(MOST_TEXT), 0};
	FILE *from = fopen(path, "rb");

	if (!from)
		perror(path), exit(1);
	file.size = fread(file.bytes, 1, MOST_TEXT, from);
	fclose(from);
	return file;
}

static double now(void)
{
	struct timespec t;

	clock_gettime(CLOCK_MONOTONIC, &t);
	return t.tv_sec * 1e9 + t.tv_nsec;
}

static void keep(double *least, double figure)
{
	if (figure < *least)
		*least = figure;
}

static uint8_t many[KEYS][PACKET];
static struct laxonje_packet packets[KEYS];
static struct laxonje_result results[KEYS];
static uint64_t counters[1 << 16];

static struct laxonje_program *loaded(struct file text)
{
	struct laxonje_program *program = laxonje_program_new();
	struct laxonje_verdict verdict = laxonje_load_settings(text.bytes, text.size, program);

	if (verdict.kind != LAXONJE_ACCEPTED)
		fprintf(stderr, "refused: kind %u, cause %u, at %u\n", verdict.kind, verdict.cause, verdict.at), exit(1);
	return program;
}

/* Runs a program on all packets, many times, and answers how many it drops. */
static unsigned run_ours(struct laxonje_program *program, double *least)
{
	unsigned found = 0;

	for (unsigned run = 0; run < RUNS; run++) {
		double from = now();

		laxonje_run_batch(program, counters, 1 << 16, many[0], sizeof many, packets, KEYS, results, KEYS, 0, 0);
		keep(least, (now() - from) / KEYS);
	}
	for (unsigned i = 0; i < KEYS; i++)
		found += results[i].action == LAXONJE_DROP;
	return found;
}

static long bpf(int command, union bpf_attr *attr)
{
	return syscall(__NR_bpf, command, attr, sizeof *attr);
}

static int must(long answer, const char *what)
{
	if (answer < 0)
		perror(what), exit(1);
	return answer;
}

static int map_of(unsigned type, size_t key, size_t value, size_t entries)
{
	union bpf_attr attr;

	memset(&attr, 0, sizeof attr);
	attr.map_type = type;
	attr.key_size = key;
	attr.value_size = value;
	attr.max_entries = entries;
	attr.map_flags = type == BPF_MAP_TYPE_LPM_TRIE ? BPF_F_NO_PREALLOC : 0;
	return must(bpf(BPF_MAP_CREATE, &attr), "a map");
}

static void put(int map, const void *key, const void *value)
{
	union bpf_attr attr;

	memset(&attr, 0, sizeof attr);
	attr.map_fd = map;
	attr.key = (uintptr_t)key;
	attr.value = (uintptr_t)value;
	must(bpf(BPF_MAP_UPDATE_ELEM, &attr), "an entry");
}

/* Slots of Linux's programs. */
#define SLOT(CODE, DST, SRC, OFF, IMM) ((struct bpf_insn){.code = CODE, .dst_reg = DST, .src_reg = SRC, .off = OFF, .imm = IMM})
#define MAP(DST, FD) SLOT(0x18, DST, BPF_PSEUDO_MAP_FD, 0, FD), SLOT(0, 0, 0, 0, 0)
#define LOOKUP SLOT(0x85, 0, 0, 0, BPF_FUNC_map_lookup_elem)

/* The program over a counter, the keys and a list; or without the lookup in the list. */
static int program_of(int counter, int keys, int list, int looks_up)
{
	struct bpf_insn code[] = {
		SLOT(0x62, 10, 0, -4, 0), SLOT(0xbf, 2, 10, 0, 0), SLOT(0x07, 2, 0, 0, -4), MAP(1, counter), LOOKUP, SLOT(0x15, 0, 0, 19, 0),
		SLOT(0x61, 6, 0, 0, 0), SLOT(0xbf, 7, 6, 0, 0), SLOT(0x07, 7, 0, 0, 1), SLOT(0x57, 7, 0, 0, KEYS - 1), SLOT(0x63, 0, 7, 0, 0),
		SLOT(0x63, 10, 6, -4, 0), SLOT(0xbf, 2, 10, 0, 0), SLOT(0x07, 2, 0, 0, -4), MAP(1, keys), LOOKUP, SLOT(0x15, 0, 0, 7, 0),
		SLOT(0xbf, 2, 0, 0, 0), MAP(1, list), looks_up ? LOOKUP : SLOT(0xb7, 0, 0, 0, 0), SLOT(0x15, 0, 0, 2, 0),
		SLOT(0xb7, 0, 0, 0, XDP_DROP), SLOT(0x95, 0, 0, 0, 0), SLOT(0xb7, 0, 0, 0, XDP_PASS), SLOT(0x95, 0, 0, 0, 0),
	};
	static char text[1 << 16];
	union bpf_attr attr;

	memset(&attr, 0, sizeof attr);
	attr.prog_type = BPF_PROG_TYPE_XDP;
	attr.insns = (uintptr_t)code;
	attr.insn_cnt = sizeof code / sizeof *code;
	attr.license = (uintptr_t)"GPL";
	attr.log_level = 1;
	attr.log_buf = (uintptr_t)text;
	attr.log_size = sizeof text;
	long program = bpf(BPF_PROG_LOAD, &attr);
	if (program < 0)
		fputs(text, stderr);
	return must(program, "a program");
}

static void run_linux(int program, double *least)
{
	static uint8_t packet[PACKET];
	union bpf_attr attr;

	memset(&attr, 0, sizeof attr);
	attr.test.prog_fd = program;
	attr.test.data_in = (uintptr_t)packet;
	attr.test.data_size_in = sizeof packet;
	attr.test.repeat = REPEATS;
	must(bpf(BPF_PROG_TEST_RUN, &attr), "a run");
	keep(least, attr.test.duration);
}

static int has(int map, const uint8_t *key)
{
	uint64_t value;
	union bpf_attr attr;

	memset(&attr, 0, sizeof attr);
	attr.map_fd = map;
	attr.key = (uintptr_t)key;
	attr.value = (uintptr_t)&value;
	return bpf(BPF_MAP_LOOKUP_ELEM, &attr) == 0;
}

int main(int argc, char **argv)
{
	if (argc != 7)
		return fputs("lists KIND BYTES ROWS KEYS WITH WITHOUT\n", stderr), 2;
	size_t size = strtoul(argv[2], 0, 10);
	struct file rows = whole(argv[3]), keys = whole(argv[4]), text = whole(argv[5]), plain_text = whole(argv[6]);
	size_t count = rows.size / size;
	double ours = 1e18, ours_plain = 1e18, theirs = 1e18, theirs_plain = 1e18, load = 1e18;
	unsigned found = 0, found_linux = 0;
	uint64_t zero = 0;

	for (unsigned i = 0; i < LOADS; i++) {
		double from = now();
		struct laxonje_program *program = loaded(text);

		keep(&load, now() - from);
		laxonje_program_delete(&program);
	}
	struct laxonje_program *with = loaded(text), *without = loaded(plain_text);
	int list = map_of(!strcmp(argv[1], "exact") ? BPF_MAP_TYPE_HASH : BPF_MAP_TYPE_LPM_TRIE, size, 8, count);
	int counter = map_of(BPF_MAP_TYPE_ARRAY, 4, 4, 1), array = map_of(BPF_MAP_TYPE_ARRAY, 4, size, KEYS);

	for (size_t i = 0; i < count; i++)
		put(list, rows.bytes + i * size, &zero);
	for (uint32_t i = 0; i < KEYS; i++) {
		put(array, &i, keys.bytes + i * size);
		memcpy(many[i], keys.bytes + i * size, size);
		packets[i] = (struct laxonje_packet){i * PACKET, PACKET};
		found_linux += has(list, keys.bytes + i * size);
	}
	int theirs_with = program_of(counter, array, list, 1), theirs_without = program_of(counter, array, list, 0);
	for (unsigned round = 0; round < ROUNDS; round++) {
		found = run_ours(with, &ours);
		run_ours(without, &ours_plain);
		run_linux(theirs_with, &theirs);
		run_linux(theirs_without, &theirs_plain);
	}
	printf("%.1f %.1f %.1f %.1f %u %u %.0f\n", ours, ours_plain, theirs, theirs_plain, found, found_linux, load / 1000);
	return 0;
}
