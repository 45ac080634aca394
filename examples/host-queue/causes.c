/* Each cause of a refusal and of a halt by its name: the shortest answers to the reads of a turn that come to it (docs/NETBACK.md), on new
 * rings. It is C and C++. */
#include <laxonje.h>
#include <stdio.h>
#include <string.h>

enum { TX, RX, TABLE, DATA, FRAMES, GUEST = 5, PORT = 7, MOST = 10, PERMIT = 1, EXTRA_TYPE = 1, EXTRA_MORE = 0x100 };

#define FLAGS(flags) ((uint32_t)(flags) << 16)
#define SIZE(size) ((uint32_t)(size) << 16)
#define MORE FLAGS(LAXONJE_FLAG_MORE_DATA)
#define EXTRA FLAGS(LAXONJE_FLAG_EXTRA_INFO)
/* A packet of 14 bytes, whose grant is good. */
#define PACKET 0, 0, SIZE(14), PERMIT, DATA, 0, 0, 0, 0

/* The program's answer, the producer, the answers to the reads, and then the last `period` of these that come `times` times more. */
struct row {
	uint32_t outcome, cause;
	uint8_t number;
	uint32_t producer;
	size_t count;
	uint32_t answers[MOST];
	size_t period, times;
};

static const struct row rows[] = {
	{ LAXONJE_TURN_REFUSED, LAXONJE_REFUSAL_SHORT, LAXONJE_PASS, 1, 3, { 0, 0, SIZE(13) }, 0, 0 },
	{ LAXONJE_TURN_REFUSED, LAXONJE_REFUSAL_SIZES, LAXONJE_PASS, 2, 6, { 0, MORE, SIZE(100), 0, 0, SIZE(101) }, 0, 0 },
	{ LAXONJE_TURN_REFUSED, LAXONJE_REFUSAL_PAGE, LAXONJE_PASS, 1, 3, { 0, 4083, SIZE(14) }, 0, 0 },
	{ LAXONJE_TURN_REFUSED, LAXONJE_REFUSAL_GRANT, LAXONJE_PASS, 1, 3, { 0, 0, SIZE(14) }, 0, 0 },
	{ LAXONJE_TURN_REFUSED, LAXONJE_REFUSAL_EXTRA, LAXONJE_PASS, 2, 4, { 0, EXTRA, SIZE(14), EXTRA_TYPE }, 0, 0 },
	{ LAXONJE_TURN_REFUSED, LAXONJE_REFUSAL_FEW_SLOTS, LAXONJE_TX, 1, 9, { PACKET }, 0, 0 },
	{ LAXONJE_TURN_REFUSED, LAXONJE_REFUSAL_RX_GRANT, LAXONJE_TX, 1, 10, { PACKET, 1 }, 0, 0 },
	{ LAXONJE_TURN_HALTED, LAXONJE_HALT_TX_PRODUCER, LAXONJE_PASS, 257, 0, { 0 }, 0, 0 },
	{ LAXONJE_TURN_HALTED, LAXONJE_HALT_SHORT_CHAIN, LAXONJE_PASS, 1, 3, { 0, MORE, 0 }, 0, 0 },
	{ LAXONJE_TURN_HALTED, LAXONJE_HALT_SLOTS, LAXONJE_PASS, 18, 3, { 0, MORE, 0 }, 3, 17 },
	{ LAXONJE_TURN_HALTED, LAXONJE_HALT_UNKNOWN_EXTRA, LAXONJE_PASS, 2, 4, { 0, EXTRA, 0, 6 }, 0, 0 },
	{ LAXONJE_TURN_HALTED, LAXONJE_HALT_EXTRAS, LAXONJE_PASS, 6, 6, { 0, EXTRA, 0, EXTRA_MORE | EXTRA_TYPE, 0, 0 }, 3, 4 },
	{ LAXONJE_TURN_HALTED, LAXONJE_HALT_RX_PRODUCER, LAXONJE_TX, 1, 10, { PACKET, 257 }, 0, 0 },
	{ LAXONJE_TURN_RAN, 0, LAXONJE_PASS, 1, 9, { PACKET }, 0, 0 },
};

static uint32_t words[LAXONJE_PAGE_WORDS];

/* A row's answer to its n-th read word, from 0 on: 0 behind the last. */
static uint32_t answer(const struct row *row, size_t n)
{
	size_t period = row->period ? row->period : 1;
	if (n >= row->count && n < row->count + row->period * row->times)
		n = row->count - period + (n - row->count) % period;
	return n < row->count ? row->answers[n] : 0;
}

/* A queue of a program that returns a number. */
static int makes(struct laxonje_queue *queue, uint8_t number)
{
	static const uint16_t owners[FRAMES] = { GUEST, GUEST, GUEST, GUEST };
	static const uint32_t table[] = { TABLE };
	const struct laxonje_queue_desc desc = { TX, RX, GUEST, 0, PORT, 0, 0, 0, 0 };
	const uint8_t code[] = { 0xb7, 0, 0, 0, number, 0, 0, 0, 0x95, 0, 0, 0, 0, 0, 0, 0 };
	struct laxonje_program *program = laxonje_program_new();
	int is_made = laxonje_load(code, sizeof code, NULL, 0, program).kind == LAXONJE_ACCEPTED &&
	              laxonje_queue_make(program, owners, FRAMES, table, 1, &desc, queue) == LAXONJE_MADE;
	laxonje_program_delete(&program);
	return is_made;
}

/* A turn, whose reads get a row's answers. A word that is read after a push is 0. */
static struct laxonje_op turn(struct laxonje_queue *queue, const struct row *row)
{
	struct laxonje_op op;
	size_t read = 0, count = laxonje_queue_turn(queue, row->producer, &op, 1);
	while (count == 1 && op.kind != LAXONJE_OP_DONE) {
		for (uint32_t i = 0; op.kind == LAXONJE_OP_READ && i < op.count; i++)
			words[op.lent + i] = answer(row, read++);
		if (op.kind == LAXONJE_OP_PUSH)
			words[op.lent] = 0;
		count = laxonje_queue_step(queue, words, LAXONJE_PAGE_WORDS, NULL, 0, &op, 1);
	}
	return op;
}

int main(void)
{
	struct laxonje_queue *queue = laxonje_queue_new();
	int wrong = 0;
	for (size_t i = 0; i < sizeof rows / sizeof rows[0]; i++) {
		const struct row *row = &rows[i];
		struct laxonje_op over;
		memset(&over, 0, sizeof over);
		if (makes(queue, row->number))
			over = turn(queue, row);
		if (over.kind == LAXONJE_OP_DONE && over.outcome == row->outcome && over.cause == row->cause)
			continue;
		printf("row %zu: kind %u outcome %u cause %u, and not outcome %u cause %u\n", i, over.kind, over.outcome, over.cause, row->outcome, row->cause);
		wrong++;
	}
	laxonje_queue_delete(&queue);
	printf("%d wrong\n", wrong);
	return wrong != 0;
}
