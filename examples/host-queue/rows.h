/* Ops of a queue in tables: the answers to its reads, the words of its writes, and what a turn, a delivery or a wait came to. */
#ifndef ROWS_H
#define ROWS_H

#include <laxonje.h>
#include <stdbool.h>
#include <stdio.h>
#include <string.h>

enum { GUEST = 5, PORT = 7000, MOST = 4, PERMIT = 1, FLAGS = 3, HEADER = 14, UNTOUCHED = 0xa5 };

/* An op, with the words that it reads or writes. BEGINS: a turn, and the producer. PUSH: the word that is written, and which one is read
 * after it, with what it holds. For one that ends: the outcome, the number or the cause, the slots, and `ops`; all else is 0. */
struct row {
	uint32_t kind, frame, word, count;
	uint32_t words[MOST];
	uint32_t entry, reference;
};
enum { BEGINS };

#define HALF(high) ((uint32_t)(high) << 16)
#define TURN(producer) { BEGINS, 0, 0, 0, { producer }, 0, 0 }
#define READ(frame, word, count, ...) { LAXONJE_OP_READ, frame, word, count, { __VA_ARGS__ }, 0, 0 }
#define ENTRY(kind, table, reference, flags, frame) { LAXONJE_OP_READ, table, 2 * ((reference) % 512), 2, { flags, frame }, kind, reference }
#define WRITE(frame, word, count, ...) { LAXONJE_OP_WRITE, frame, word, count, { __VA_ARGS__ }, 0, 0 }
#define STORE(frame, word, count, ...) { LAXONJE_OP_STORE, frame, word, count, { __VA_ARGS__ }, 0, 0 }
#define PUSH(frame, word, value, read, answer) { LAXONJE_OP_PUSH, frame, word, read, { value, answer }, 0, 0 }
#define NOTICE { LAXONJE_OP_NOTIFY, 0, 0, 0, { PORT }, 0, 0 }
#define COUNTED(outcome, number, slots, ops) { LAXONJE_OP_DONE, outcome, number, slots, { ops }, 0, 0 }
#define ENDS(outcome, number, slots) COUNTED(outcome, number, slots, 0)

static uint32_t words[LAXONJE_PAGE_WORDS];
static uint64_t counters[2];
static size_t counter_count;
static int wrong;

static inline void is(const char *what, size_t found, size_t wanted)
{
	if (found == wanted)
		return;
	printf("%s: %zu, and not %zu\n", what, found, wanted);
	wrong++;
}

/* The end of a turn, a delivery or a wait. `number` is a program's, and a cause is another's. */
static inline struct laxonje_op end_of(const struct row *row)
{
	struct laxonje_op op;
	memset(&op, 0, sizeof op);
	op.kind = row->kind;
	op.outcome = row->frame;
	op.number = row->frame == LAXONJE_TURN_RAN ? row->word : 0;
	op.cause = row->frame == LAXONJE_TURN_RAN ? 0 : row->word;
	op.slots = row->count;
	op.ops = row->words[0];
	return op;
}

/* The op of a row, all fields of which are told. */
static inline struct laxonje_op op_of(const struct row *row)
{
	bool pushes = row->kind == LAXONJE_OP_PUSH, stores = row->kind == LAXONJE_OP_STORE;
	struct laxonje_op op;
	if (row->kind == LAXONJE_OP_DONE)
		return end_of(row);
	memset(&op, 0, sizeof op);
	op.kind = row->kind;
	op.frame = row->frame;
	op.word = row->word;
	op.count = pushes ? 1 : row->count;
	op.value[0] = stores || pushes || row->kind == LAXONJE_OP_NOTIFY ? row->words[0] : row->reference;
	op.value[1] = pushes ? row->count : stores && row->count == 2 ? row->words[1] : 0;
	op.entry = row->entry;
	return op;
}

/* An op of a row, with its words. */
static inline void asks(const char *what, const struct row *row, const struct laxonje_op *op)
{
	struct laxonje_op wanted = op_of(row);
	is(what, op->kind, wanted.kind);
	is(what, op->frame, wanted.frame);
	is(what, op->word, wanted.word);
	is(what, op->count, wanted.count);
	is(what, op->value[0], wanted.value[0]);
	is(what, memcmp(op, &wanted, sizeof wanted), 0);
	for (uint32_t i = 0; row->kind == LAXONJE_OP_WRITE && i < row->count && i < MOST; i++)
		is(what, words[i], row->words[i]);
}

/* Whether the op of a row is the last that is said at once: it has to be answered, or other words are to be lent for the next one. */
static inline bool is_last(const struct row *row)
{
	return row->kind != LAXONJE_OP_STORE && row->kind != LAXONJE_OP_NOTIFY && (row->kind != LAXONJE_OP_WRITE || row[1].kind == LAXONJE_OP_WRITE);
}

/* How many of the next rows are said at once, if there is room for them. */
static inline size_t at_once(const struct row *rows, size_t room)
{
	size_t count = 1;
	while (count < room && !is_last(&rows[count - 1]))
		count++;
	return count;
}

/* The words that the op of a row reads. */
static inline void answers(const struct row *row)
{
	if (row->kind == LAXONJE_OP_PUSH)
		words[0] = row->words[1];
	if (row->kind == LAXONJE_OP_READ)
		memcpy(words, row->words, sizeof row->words);
}

static inline void is_inside(struct laxonje_queue *queue)
{
	struct laxonje_op op;
	is("a turn inside another", laxonje_queue_turn(queue, 0, &op, 1), 0);
	is("a delivery inside another", laxonje_queue_deliver(queue, 0, (const uint8_t *)words, HEADER), LAXONJE_TAKEN_BUSY);
	is("a wait inside another", laxonje_queue_await(queue, 1), LAXONJE_TAKEN_BUSY);
	is("a state inside", laxonje_queue_state(queue).kind, LAXONJE_STANDS_NOT);
	is("a packet inside", laxonje_queue_packet(queue, NULL, 0), 0);
}

/* Room for ops, and those of a step or of a turn's begin. No more are said than there is room for, the room beyond is left as it is, and so are
 * the lent words, but for those that a WRITE takes. */
struct said { struct laxonje_op ops[LAXONJE_OPS + 1]; size_t count; };

static inline void steps(struct laxonje_queue *queue, const char *what, struct said *said, size_t room, const uint32_t *producer)
{
	static uint32_t before[LAXONJE_PAGE_WORDS];
	struct laxonje_op untouched;
	size_t written = 0;
	memset(&untouched, UNTOUCHED, sizeof untouched);
	memset(said->ops, UNTOUCHED, sizeof said->ops);
	memcpy(before, words, sizeof words);
	said->count = producer ? laxonje_queue_turn(queue, *producer, said->ops, room)
	                       : laxonje_queue_step(queue, words, LAXONJE_PAGE_WORDS, counters, counter_count, said->ops, room);
	for (size_t i = 0; i < said->count && i < room; i++)
		written = said->ops[i].kind == LAXONJE_OP_WRITE ? said->ops[i].count : written;
	is("a lent word that stays", memcmp(words + written, before + written, sizeof words - written * sizeof words[0]), 0);
	for (size_t i = said->count; i <= LAXONJE_OPS; i++)
		is(what, memcmp(&said->ops[i], &untouched, sizeof untouched), 0);
}

/* The packet is there after a turn that ran and after a delivery alone. A wait leaves it. */
static inline void is_over(struct laxonje_queue *queue, const char *what, uint32_t outcome)
{
	struct laxonje_op op;
	bool none = outcome == LAXONJE_TURN_IDLE || outcome == LAXONJE_TURN_REFUSED || outcome == LAXONJE_TURN_HALTED;
	if (outcome < LAXONJE_AWAITED_POSTED)
		is(what, laxonje_queue_packet(queue, NULL, 0) == 0, none);
	is("a step of nothing", laxonje_queue_step(queue, words, LAXONJE_PAGE_WORDS, counters, counter_count, &op, 1), 0);
}

/* The rows of a table, with room for that many ops at a step. */
static inline void goes(struct laxonje_queue *queue, size_t room, const char *what, const struct row *rows, size_t count)
{
	struct said said;
	for (size_t next = 0; next < count; next += said.count) {
		const uint32_t *producer = rows[next].kind == BEGINS ? rows[next].words : NULL;
		next += producer != NULL;
		steps(queue, what, &said, room, producer);
		is(what, said.count, at_once(&rows[next], room));
		if (said.count != at_once(&rows[next], room))
			return;
		for (size_t i = 0; i < said.count; i++)
			asks(what, &rows[next + i], &said.ops[i]);
		answers(&rows[next + said.count - 1]);
		if (rows[next + said.count - 1].kind == LAXONJE_OP_DONE)
			is_over(queue, what, rows[next + said.count - 1].frame);
		else
			is_inside(queue);
	}
}

#define GOES(queue, room, rows) goes(queue, room, #rows, rows, sizeof rows / sizeof rows[0])

#endif
