/* Whole turns of a plain C netback, over the memory that a turn of xen_back has: frames of 1,024 words, each a word of
 * 32 bits that is accessed whole and in order (sequential consistency) and takes eight bytes, as the kit's AtomicU32
 * does. A packet's words are loaded in any order, without a branch a word. What `bench/turns` measures a turn beside: the
 * producer, the slots, the chain's grammar and sizes, for each fragment the grant's two words and their check, the page's
 * words once each into a private buffer, a program on the copy, for TX the rx slots with their grants, the buffers' words
 * and the rx responses, then a response a slot, the push, the event index and the notice.
 *
 * usage: turn SIZE BATCHES PROGRAM [SLOTS]; a batch is 16 turns, or as many as a ring has room for, and filling isn't timed; of 0 bytes no
 * packet is there, and the turns are idle. A packet takes a slot for each page, or SLOTS: its headers of 66 bytes, and the rest in equal
 * shares, each in a page of its own, as Linux's TCP sends data. With `deliver` for PROGRAM a turn is the delivery of a packet of the host's
 * own: what follows TX, alone. Built with
 * -DEXCHANGES each store of a packet's word is an exchange, as ours is; with -DDENSE a word takes four bytes; with -DBARE it does, and is no atomic. Prints the nanoseconds per turn, the least of five rounds. The program is hex, and runs by DPDK's rte_bpf_exec where this is built with -DDPDK (and then
 * librte_bpf), else by the small interpreter below, which has what the two programs of `bench/turns` need. */
#define _GNU_SOURCE
#include <stdatomic.h>
#include <stdbool.h>
#include <stdint.h>
#include <stdio.h>
#include <stdlib.h>
#include <string.h>
#include <sys/mman.h>
#include <time.h>
#ifdef DPDK
#include <rte_bpf.h>

struct rte_bpf {
	struct rte_bpf_prm prm;
	struct rte_bpf_jit jit;
	size_t sz;
	uint32_t stack_sz;
};
#endif

enum { FRAMES = 20, WORDS = 1024, TABLE = 1, TX = 2, RX = 3, FIRST_PAGE = 4, HEADER = 16, PAGE = 4096, BATCH = 16, RING = 256, HEADERS = 66 };
enum { BACK = 0, FRONT = 1, MORE_DATA = 4, EXTRA_INFO = 8, MOST_SLOTS = 18 };
enum { OKAY = 0, ERROR = -1, DROPPED = -2 };

#ifdef BARE
typedef uint32_t cell;
#define load(cell, order) (cell)
#define store(cell, value, order) ((cell) = (value))
#else
typedef _Atomic uint32_t cell;
#define load(cell, order) atomic_load_explicit(&(cell), order)
#define store(cell, value, order) atomic_store_explicit(&(cell), value, order)
#endif

struct word {
	cell value;
#if !defined DENSE && !defined BARE
	uint32_t unused;
#endif
};

struct insn {
	uint8_t code, registers;
	int16_t off;
	int32_t imm;
};

struct slot {
	uint32_t words[3];
};

struct fragment {
	uint32_t gref;
	uint16_t offset, size;
};

/* XDP's context has addresses of 32 bits: it and the packet are mapped below 4 GiB. */
struct low {
	uint32_t context[16];
	uint8_t packet[65536];
};

struct netback {
	struct word *words;
	uint32_t frames, owners_count, table[16], table_count, tx, rx, tx_index, rx_index, ifindex, queue, port;
	uint16_t owners[FRAMES], granter, user;
	struct low *low;
	struct insn *program;
	uint32_t program_slots;
	_Atomic uint64_t pending;
};

enum { IDLE, RAN, REFUSED, HALTED };

static uint32_t get(struct netback *b, uint32_t frame, uint32_t word)
{
	return load(b->words[frame * WORDS + word].value, memory_order_seq_cst);
}

static void put(struct netback *b, uint32_t frame, uint32_t word, uint32_t value)
{
	store(b->words[frame * WORDS + word].value, value, memory_order_seq_cst);
}

static uint32_t entry_at(uint32_t index)
{
	return HEADER + 3 * (index % RING);
}

/* A word of a packet's page, which is told nothing about the others. */
static uint32_t word_of(struct netback *b, uint32_t frame, uint32_t word)
{
	return load(b->words[frame * WORDS + word].value, memory_order_relaxed);
}

/* The frame of a granted reference; -1 if the entry doesn't allow it. */
static int64_t granted(struct netback *b, uint32_t gref, bool write)
{
	if (gref / 512 >= b->table_count)
		return -1;
	uint32_t at = 2 * (gref % 512), frame = b->table[gref / 512];
	uint32_t a = get(b, frame, at), target = get(b, frame, at + 1);
	if ((a & 3) != 1 || (write && a & 4) || a >> 16 != b->user)
		return -1;
	if (target >= b->owners_count || b->owners[target] != b->granter)
		return -1;
	return target;
}

/* Copies the bytes from..past of a word, counted from the page's start. */
static uint8_t *part(struct netback *b, uint32_t frame, uint32_t from, uint32_t past, uint8_t *to)
{
	uint32_t value = word_of(b, frame, from / 4);
	memcpy(to, (uint8_t *)&value + from % 4, past - from);
	return to + (past - from);
}

/* Copies a fragment's bytes, each word that it covers read once: whole words without a branch a word. */
static uint8_t *copied(struct netback *b, const struct fragment *f, uint32_t frame, uint8_t *to)
{
	uint32_t at = f->offset, end = at + f->size;
	if (at % 4 && at < end) {
		uint32_t past = (at | 3) + 1 < end ? (at | 3) + 1 : end;
		to = part(b, frame, at, past, to);
		at = past;
	}
	for (; at + 4 <= end; at += 4, to += 4) {
		uint32_t value = word_of(b, frame, at / 4);
		memcpy(to, &value, 4);
	}
	return at < end ? part(b, frame, at, end, to) : to;
}

#ifdef DPDK
static struct rte_bpf bpf;

static uint64_t run(struct netback *b)
{
	return rte_bpf_exec(&bpf, b->low->context);
}
#else
static uint64_t run(struct netback *b)
{
	uint64_t r[11], stack[64];
	const struct insn *at = b->program;
	r[1] = (uintptr_t)b->low->context;
	r[10] = (uintptr_t)(stack + 64);
	for (;; at++) {
		uint64_t *dst = &r[at->registers & 15], src = at->code & 8 ? r[at->registers >> 4] : (uint64_t)(int64_t)at->imm;
		switch (at->code) {
		case 0xb7: case 0xbf: *dst = src; break;
		case 0x07: case 0x0f: *dst += src; break;
		case 0x57: case 0x5f: *dst &= src; break;
		case 0x47: case 0x4f: *dst |= src; break;
		case 0x67: *dst <<= at->imm; break;
		case 0xdc: *dst = at->imm == 16 ? __builtin_bswap16(*dst) : at->imm == 32 ? __builtin_bswap32(*dst) : __builtin_bswap64(*dst); break;
		case 0x61: *dst = *(uint32_t *)(uintptr_t)(r[at->registers >> 4] + at->off); break;
		case 0x69: { uint16_t v; memcpy(&v, (void *)(uintptr_t)(r[at->registers >> 4] + at->off), 2); *dst = v; break; }
		case 0x71: *dst = *(uint8_t *)(uintptr_t)(r[at->registers >> 4] + at->off); break;
		case 0x05: at += at->off; break;
		case 0x15: case 0x1d: if (*dst == src) at += at->off; break;
		case 0x55: case 0x5d: if (*dst != src) at += at->off; break;
		case 0x25: case 0x2d: if (*dst > src) at += at->off; break;
		case 0xa5: case 0xad: if (*dst < src) at += at->off; break;
		case 0x35: case 0x3d: if (*dst >= src) at += at->off; break;
		case 0xb5: case 0xbd: if (*dst <= src) at += at->off; break;
		case 0x95: return r[0];
		default: abort();
		}
	}
}
#endif

/* Tells of a ring's responses if they are awaited. */
static void push(struct netback *b, uint32_t ring, uint32_t old, uint32_t new)
{
	put(b, ring, 2, new);
	if (new - get(b, ring, 3) < new - old)
		atomic_fetch_or(&b->pending, 1ull << b->port);
}

#ifdef EXCHANGES
#define FILL memory_order_seq_cst
#else
#define FILL memory_order_release
#endif

/* Writes a packet's words into a buffer's page; bytes past its end are 0. */
static void filled(struct netback *b, uint32_t frame, const uint8_t *from, uint32_t size)
{
	uint32_t at = 0;
	for (; at + 4 <= size; at += 4) {
		uint32_t value;
		memcpy(&value, from + at, 4);
		store(b->words[frame * WORDS + at / 4].value, value, FILL);
	}
	if (at < size) {
		uint32_t value = 0;
		memcpy(&value, from + at, size - at);
		store(b->words[frame * WORDS + at / 4].value, value, FILL);
	}
}

/* Sends a packet back into posted rx slots, whose grants are all checked first. */
static bool sent(struct netback *b, const uint8_t *packet, uint32_t size)
{
	uint32_t pages = (size + PAGE - 1) / PAGE, shown = get(b, b->rx, 0) - b->rx_index, frames[MOST_SLOTS], ids[MOST_SLOTS];

	if (shown > RING || shown < pages)
		return false;
	for (uint32_t i = 0; i < pages; i++) {
		uint32_t at = HEADER + 2 * ((b->rx_index + i) % RING);
		ids[i] = get(b, b->rx, at) & 0xffff;
		int64_t frame = granted(b, get(b, b->rx, at + 1), true);
		if (frame < 0)
			return false;
		frames[i] = frame;
	}
	for (uint32_t i = 0; i < pages; i++)
		filled(b, frames[i], packet + PAGE * i, size - PAGE * i < PAGE ? size - PAGE * i : PAGE);
	for (uint32_t i = 0; i < pages; i++) {
		uint32_t at = HEADER + 2 * ((b->rx_index + i) % RING), length = size - PAGE * i < PAGE ? size - PAGE * i : PAGE;
		put(b, b->rx, at, ids[i]);
		put(b, b->rx, at + 1, length << 16 | (i + 1 < pages ? MORE_DATA : 0));
	}
	push(b, b->rx, b->rx_index, b->rx_index + pages);
	b->rx_index += pages;
	return true;
}

/* Answers a chain's slots, and pushes the responses. */
static void respond(struct netback *b, const struct slot *slots, uint32_t count, int status)
{
	uint32_t old = b->tx_index, new = old + count;
	for (uint32_t i = 0; i < count; i++)
		put(b, b->tx, entry_at(old + i), (uint32_t)(uint16_t)status << 16 | (slots[i].words[2] & 0xffff));
	push(b, b->tx, old, new);
	b->tx_index = new;
}

__attribute__((noinline)) static int turn(struct netback *b)
{
	struct slot slots[MOST_SLOTS];
	struct fragment fragments[MOST_SLOTS];
	uint32_t count = 0, shown = get(b, b->tx, 0) - b->tx_index;

	if (!shown) {
		put(b, b->tx, 1, b->tx_index + 1);
		shown = get(b, b->tx, 0) - b->tx_index;
		if (!shown)
			return IDLE;
	}
	if (shown > RING)
		return HALTED;
	for (;;) {
		uint32_t at = entry_at(b->tx_index + count), flags;
		struct slot *slot = &slots[count++];
		for (int word = 0; word < 3; word++)
			slot->words[word] = get(b, b->tx, at + word);
		flags = slot->words[1] >> 16;
		if (count == 1 && flags & EXTRA_INFO)
			return HALTED;	/* no packet here has an extra */
		if (!(flags & MORE_DATA))
			break;
		if (count == MOST_SLOTS || count == shown)
			return HALTED;
	}
	uint32_t size = slots[0].words[2] >> 16, later = 0;
	for (uint32_t i = 0; i < count; i++) {
		fragments[i] = (struct fragment){ slots[i].words[0], slots[i].words[1], slots[i].words[2] >> 16 };
		if (i)
			later += fragments[i].size;
	}
	bool fine = size >= 14 && later <= size;
	fragments[0].size = size - later;
	for (uint32_t i = 0; i < count; i++)
		fine = fine && (uint32_t)fragments[i].offset + fragments[i].size <= PAGE;
	if (!fine)
		return respond(b, slots, count, ERROR), REFUSED;
	uint8_t *to = b->low->packet;
	for (uint32_t i = 0; i < count; i++) {
		int64_t frame = granted(b, fragments[i].gref, false);
		if (frame < 0)
			return respond(b, slots, count, ERROR), REFUSED;
		to = copied(b, &fragments[i], frame, to);
	}
	uint32_t data = (uintptr_t)b->low->packet, action;
	b->low->context[0] = b->low->context[2] = data;
	b->low->context[1] = data + (to - b->low->packet);
	b->low->context[3] = b->ifindex;
	b->low->context[4] = b->queue;
	action = run(b);
	if (action == 3)
		return respond(b, slots, count, sent(b, b->low->packet, to - b->low->packet) ? OKAY : ERROR), RAN;
	respond(b, slots, count, action == 2 ? OKAY : action == 1 ? DROPPED : ERROR);
	return RAN;
}

/* Delivers a packet of the host's own. */
__attribute__((noinline)) static int delivery(struct netback *b, uint32_t size)
{
	b->tx_index += (size + PAGE - 1) / PAGE;	/* where the next batch is published */
	return sent(b, b->low->packet, size) ? RAN : REFUSED;
}

/* The bytes that stand in a slot: of the first all of the packet's. */
static uint32_t length_in(uint32_t size, uint32_t slots, uint32_t slot)
{
	uint32_t first = slots > (size + PAGE - 1) / PAGE ? HEADERS : PAGE, share = first == PAGE ? PAGE : (size - first) / (slots - 1);
	return !slot ? size : slot + 1 < slots ? share : size - first - (slots - 2) * share;
}

static void publish(struct netback *b, uint32_t size, uint32_t slots, uint32_t packets)
{
	uint32_t index = b->tx_index;
	if (!size)
		return;
	for (uint32_t packet = 0; packet < packets; packet++) {
		for (uint32_t slot = 0; slot < slots; slot++, index++) {
			uint32_t length = length_in(size, slots, slot), page = FIRST_PAGE + slot % (FRAMES - FIRST_PAGE);
			put(b, RX, HEADER + 2 * (index % RING), slot);
			put(b, RX, HEADER + 2 * (index % RING) + 1, page);
			put(b, TX, entry_at(index), page);
			put(b, TX, entry_at(index) + 1, slot + 1 < slots ? MORE_DATA << 16 : 0);
			put(b, TX, entry_at(index) + 2, length << 16 | slot);
		}
	}
	put(b, TX, 0, index);
	put(b, RX, 0, index);
}

static double now(clockid_t clock)
{
	struct timespec t;
	clock_gettime(clock, &t);
	return t.tv_sec * 1e9 + t.tv_nsec;
}

int main(int argc, char **argv)
{
	uint32_t size = argc > 1 ? atoi(argv[1]) : 64, batches = argc > 2 ? atoi(argv[2]) : 1000;
	const char *program = argc > 3 ? argv[3] : "b7000000020000009500000000000000";
	uint32_t slots = argc > 4 ? (uint32_t)atoi(argv[4]) : (size + PAGE - 1) / PAGE, turns = slots > RING / BATCH ? RING / slots : BATCH;
	static struct netback b = { .frames = FRAMES, .owners_count = FRAMES, .table = { TABLE }, .table_count = 1, .tx = TX, .rx = RX, .granter = FRONT, .user = BACK, .port = 1 };
	bool delivers = !strcmp(program, "deliver");
	double least = 1e18;

	b.words = calloc(FRAMES * WORDS, sizeof *b.words);
	b.low = mmap(0, sizeof *b.low, PROT_READ | PROT_WRITE, MAP_PRIVATE | MAP_ANONYMOUS | MAP_32BIT, -1, 0);
	b.program_slots = delivers ? 0 : strlen(program) / 16;
	b.program = calloc(b.program_slots + 1, sizeof *b.program);
	if (b.low == MAP_FAILED || !b.words || !b.program)
		return perror("memory"), 1;
	for (uint32_t at = 0; at < 8 * b.program_slots; at++)
		sscanf(program + 2 * at, "%2hhx", (uint8_t *)b.program + at);
#ifdef DPDK
	bpf = (struct rte_bpf){ .prm = { .ins = (const void *)b.program, .nb_ins = b.program_slots } };
#endif
	for (uint32_t frame = 0; frame < FRAMES; frame++) {
		b.owners[frame] = frame ? FRONT : BACK;
		put(&b, TABLE, 2 * frame, 1);
		put(&b, TABLE, 2 * frame + 1, frame);
		for (uint32_t word = 0; frame >= FIRST_PAGE && word < WORDS; word++)
			put(&b, frame, word, word * 0x01010101);
	}
	for (uint32_t ring = TX; ring <= RX; ring++) {
		put(&b, ring, 1, 1);
		put(&b, ring, 3, 1);
	}
	for (int round = 0; round < 5; round++) {
		double taken = 0;
		for (uint32_t batch = 0; batch < batches; batch++) {
			publish(&b, size, slots, turns);
			double start = now(CLOCK_MONOTONIC);
			for (uint32_t packet = 0; packet < turns; packet++)
				if ((delivers ? delivery(&b, size) : turn(&b)) != (size ? RAN : IDLE))
					return fprintf(stderr, "unexpected\n"), 1;
			taken += now(CLOCK_MONOTONIC) - start;
		}
		if (taken / batches / turns < least)
			least = taken / batches / turns;
	}
	printf("%.1f\n", least);
	return 0;
}
