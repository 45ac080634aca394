/* Turns of several packets of the queue for hosts in C, as queue.c has turns of one: each access is made here, as the queue asks for it.
 *
 * usage: several SIZE BATCHES PROGRAM [SLOTS] [MOST] [BATCH]: SIZE, BATCHES, PROGRAM and SLOTS as in queue.c; MOST is the most packets of a turn,
 * 0 for the calls of a turn of one; BATCH is how many packets are published at a time, 16 if it isn't there. Each turn's results are compared, and
 * at the end what the guest sees. Prints the nanoseconds per packet, the least of five rounds, and the calls of the library per packet. */
#define _GNU_SOURCE
#include <laxonje_drive.h>
#include <stdatomic.h>
#include <stdbool.h>
#include <stdio.h>
#include <stdlib.h>
#include <string.h>
#include <time.h>

enum { FRAMES = 40, PAGE = 4096, TABLE = 1, TX = 2, RX = 3, FIRST_PAGE = 4, RX_PAGE = 22, HEADER = 16, BATCH = 16, RING = 256, HEADERS = 66 };
enum { BACK = 0, FRONT = 1, MORE_DATA = 4, PERMIT = 1 };

struct host {
	_Atomic uint32_t *pages;
	struct laxonje_queue *queue;
	uint32_t words[LAXONJE_TURNS_WORDS];
	struct laxonje_turned turned[LAXONJE_TURNS];
	uint32_t most, size, sent, posted, slots, batch;
	unsigned long calls;
};

static inline _Atomic uint32_t *word_at(struct host *host, uint32_t frame, uint32_t word)
{
	return host->pages + frame * LAXONJE_PAGE_WORDS + word;
}

static inline void put(struct host *host, uint32_t frame, uint32_t word, uint32_t value)
{
	atomic_store_explicit(word_at(host, frame, word), value, memory_order_relaxed);
}

/* Makes these ops. Returns the last if it says that all is over. */
static inline __attribute__((always_inline)) const struct laxonje_op *make_ops(struct host *host, const struct laxonje_op *ops, size_t count)
{
	uint32_t *const pages = (uint32_t *)host->pages, *const words = host->words;
	for (const struct laxonje_op *op = ops, *const end = ops + count; op != end; op++) {
		uint32_t *at = pages + op->frame * LAXONJE_PAGE_WORDS + op->word, *lent = words + op->lent;
		if (op->kind == LAXONJE_OP_READ) {
			laxonje_drive_load_(at, op->count, lent);
			continue;
		}
		switch (op->kind) {
		case LAXONJE_OP_WRITE:
			laxonje_drive_store_(at, op->count, lent);
			break;
		case LAXONJE_OP_STORE:
			__atomic_store_n(at, op->value[0], __ATOMIC_RELEASE);
			if (op->count == 2)
				__atomic_store_n(at + 1, op->value[1], __ATOMIC_RELEASE);
			break;
		case LAXONJE_OP_PUSH:
			__atomic_store_n(at, op->value[0], __ATOMIC_RELEASE);
			__atomic_thread_fence(__ATOMIC_SEQ_CST);
			*lent = __atomic_load_n(pages + op->frame * LAXONJE_PAGE_WORDS + op->value[1], __ATOMIC_ACQUIRE);
			break;
		case LAXONJE_OP_NOTIFY:
			break;
		default:
			return op;
		}
	}
	return NULL;
}

/* A turn of one to its end. Returns how many packets it took. */
static __attribute__((noinline)) uint32_t take_turn(struct host *host)
{
	struct laxonje_op ops[LAXONJE_OPS];
	const struct laxonje_op *over;
	uint32_t producer = atomic_load_explicit(word_at(host, TX, 0), memory_order_acquire);
	size_t count = laxonje_queue_turn(host->queue, producer, ops, LAXONJE_OPS);
	unsigned long calls = 1;
	for (; !(over = make_ops(host, ops, count)); calls++)
		count = laxonje_queue_step(host->queue, host->words, LAXONJE_PAGE_WORDS, NULL, 0, ops, LAXONJE_OPS);
	host->calls += calls;
	return over->outcome == (host->size ? LAXONJE_TURN_RAN : LAXONJE_TURN_IDLE);
}

/* A turn of several to its end. Returns how many packets it took. */
static __attribute__((noinline)) uint32_t take_turns(struct host *host)
{
	struct laxonje_op ops[LAXONJE_TURNS_OPS];
	const struct laxonje_op *over;
	uint32_t producer = atomic_load_explicit(word_at(host, TX, 0), memory_order_acquire);
	size_t count = laxonje_queue_turns(host->queue, producer, host->most, ops, LAXONJE_TURNS_OPS);
	unsigned long calls = 1;
	for (; !(over = make_ops(host, ops, count)); calls++)
		count = laxonje_queue_turns_step(host->queue, host->words, LAXONJE_TURNS_WORDS, NULL, 0, ops, LAXONJE_TURNS_OPS, host->turned, LAXONJE_TURNS);
	host->calls += calls;
	return over->outcome == LAXONJE_TURN_SEVERAL ? over->slots : over->outcome == (host->size ? LAXONJE_TURN_RAN : LAXONJE_TURN_IDLE);
}

/* The bytes that stand in a slot: of the first all of the packet's. */
static uint32_t length_in(uint32_t size, uint32_t slots, uint32_t slot)
{
	uint32_t first = slots > (size + PAGE - 1) / PAGE ? HEADERS : PAGE, share = first == PAGE ? PAGE : (size - first) / (slots - 1);
	return !slot ? size : slot + 1 < slots ? share : size - first - (slots - 2) * share;
}

/* A batch of packets of this size, and buffers for as many. */
static __attribute__((noinline)) void publish(struct host *host, uint32_t size)
{
	for (uint32_t packet = 0; packet < host->batch; packet++)
		for (uint32_t part = 0; part < host->slots; part++) {
			uint32_t at = HEADER + 3 * (host->sent++ % RING);
			put(host, TX, at, FIRST_PAGE + part);
			put(host, TX, at + 1, part + 1 < host->slots ? MORE_DATA << 16 : 0);
			put(host, TX, at + 2, part | length_in(size, host->slots, part) << 16);
		}
	for (uint32_t buffer = 0; buffer < host->batch * host->slots && buffer < RING; buffer++) {
		uint32_t at = HEADER + 2 * (host->posted++ % RING);
		put(host, RX, at, buffer % 16);
		put(host, RX, at + 1, RX_PAGE + buffer % 16);
	}
	put(host, TX, 0, host->sent);
	put(host, RX, 0, host->posted);
}

static double now(void)
{
	struct timespec time;
	clock_gettime(CLOCK_MONOTONIC, &time);
	return time.tv_sec * 1e9 + time.tv_nsec;
}

static void fail(const char *what, uint32_t number)
{
	fprintf(stderr, "%s: %u\n", what, number);
	exit(1);
}

/* New rings, and a queue. */
static void connect(struct host *host, struct laxonje_program *program)
{
	static uint16_t owners[FRAMES];
	static const uint32_t table[] = { TABLE };
	const struct laxonje_queue_desc desc = { .tx = TX, .rx = RX, .granter = FRONT, .user = BACK, .port = 1 };
	for (uint32_t frame = 0; frame < FRAMES; frame++) {
		owners[frame] = frame ? FRONT : BACK;
		put(host, TABLE, 2 * frame, PERMIT);
		put(host, TABLE, 2 * frame + 1, frame);
		for (uint32_t word = 0; frame >= FIRST_PAGE && word < LAXONJE_PAGE_WORDS; word++)
			put(host, frame, word, word * 0x01010101 + frame);
	}
	if (laxonje_queue_make(program, owners, FRAMES, table, 1, &desc, host->queue) != LAXONJE_MADE)
		fail("no queue", 0);
}

/* A batch of turns. */
static __attribute__((noinline)) void take_batch(struct host *host, uint32_t size)
{
	for (uint32_t taken = 0; taken < host->batch;) {
		uint32_t packets = host->most ? take_turns(host) : take_turn(host);
		if (!packets)
			fail("unexpected", taken);
		for (uint32_t i = 0; packets > 1 && i < packets; i++)
			if (host->turned[i].outcome != LAXONJE_TURN_RAN || host->turned[i].length != size)
				fail("unexpected packet", i);
		taken += packets;
	}
}

/* The bytes of the last turn's packets, and what the guest sees. */
static void compare(struct host *host, uint32_t size)
{
	static uint8_t packet[LAXONJE_PACKET];
	if (!size)
		return;
	for (uint32_t i = 0; host->most > 1 && i < 16 && i < host->most && host->slots == 1; i++) {
		if (laxonje_queue_turns_packet(host->queue, i, packet, sizeof packet) != size)
			fail("wrong length", i);
		if (memcmp(packet, (const void *)word_at(host, FIRST_PAGE, 0), size))
			fail("wrong bytes", i);
	}
	if (*word_at(host, TX, 2) != host->sent)
		fail("wrong response producer", *word_at(host, TX, 2));
	for (uint32_t i = host->sent > RING ? host->sent - RING : 0; i != host->sent; i++)
		if (*word_at(host, TX, HEADER + 3 * (i % RING)) != i % host->slots)
			fail("wrong response", i);
	if (laxonje_queue_state(host->queue).tx_index != host->sent)
		fail("wrong index", host->sent);
}

int main(int count, char **arguments)
{
	static struct host host;
	static uint8_t code[LAXONJE_PROGRAM_BYTES];
	uint32_t size = count > 1 ? atoi(arguments[1]) : 64, batches = count > 2 ? atoi(arguments[2]) : 1000;
	const char *text = count > 3 ? arguments[3] : "b7000000020000009500000000000000";
	uint32_t slots = count > 4 && atoi(arguments[4]) ? atoi(arguments[4]) : (size + PAGE - 1) / PAGE;
	size_t length = strlen(text) / 2;
	struct laxonje_program *program = laxonje_program_new();
	double least = 1e18;

	for (size_t at = 0; at < length; at++)
		sscanf(text + 2 * at, "%2hhx", &code[at]);
	host.pages = calloc(FRAMES, PAGE);
	if (!host.pages || laxonje_load(code, length, NULL, 0, program).kind != LAXONJE_ACCEPTED)
		fail("no program", 0);
	host.queue = laxonje_queue_new();
	host.most = count > 5 ? atoi(arguments[5]) : LAXONJE_TURNS, host.size = size;
	host.slots = slots, host.batch = slots > RING / BATCH ? RING / slots : BATCH;
	if (count > 6)
		host.batch = atoi(arguments[6]);
	connect(&host, program);
	for (int round = 0; round < 5; round++) {
		double taken = 0;
		host.calls = 0;
		for (uint32_t batch = 0; batch < batches; batch++) {
			publish(&host, size);
			double start = now();
			take_batch(&host, size);
			taken += now() - start;
			/* buffers that no packet took are posted anew */
			host.posted = laxonje_queue_state(host.queue).rx_index;
			put(&host, RX, 0, host.posted);
		}
		if (taken / batches / host.batch < least)
			least = taken / batches / host.batch;
	}
	compare(&host, size);
	printf("%.1f %.1f\n", least, (double)host.calls / batches / host.batch);
	laxonje_queue_delete(&host.queue);
	laxonje_program_delete(&program);
	return 0;
}
