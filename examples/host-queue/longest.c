/* How many steps the longest turn, delivery and wait take with room for one op, beside the most that a law allows (`steps_are_few`,
 * docs/HOST.md). It is C and C++. */
#include <laxonje.h>
#include <stdio.h>

enum { TX, RX, TABLE, DATA, FRAMES, GUEST = 5, PORT = 7, PERMIT = 1, SLOTS = 18, PAGES = 16, BUFFERS, LATER = 3641 };
enum { MOST_TURN = 33027, MOST_DELIVERY = 16484, MOST_SEGMENTED = 16488, MOST_WAIT = 2 };

/* The guest's memory, which stays as it is: what the queue writes is dropped. */
static uint32_t memory[FRAMES][LAXONJE_PAGE_WORDS];
static uint32_t words[LAXONJE_PAGE_WORDS];
static uint8_t packet[LAXONJE_PACKET];

/* A packet of 65,535 bytes in 18 slots, and 17 buffers, all of them the same granted page. Each response owes a notice. */
static void guest_publishes(void)
{
	for (uint32_t slot = 0; slot < SLOTS; slot++) {
		uint32_t *at = &memory[TX][16 + 3 * slot];
		at[1] = slot + 1 < SLOTS ? (uint32_t)LAXONJE_FLAG_MORE_DATA << 16 : 0;
		at[2] = slot | (uint32_t)(slot ? LATER : LAXONJE_PACKET) << 16;
	}
	memory[TABLE][0] = PERMIT, memory[TABLE][1] = DATA;
	memory[TX][0] = SLOTS, memory[RX][0] = BUFFERS;
	memory[TX][3] = memory[RX][3] = 1;
}

/* A queue that sends each packet back. */
static int makes(struct laxonje_queue *queue)
{
	static const uint16_t owners[FRAMES] = { GUEST, GUEST, GUEST, GUEST };
	static const uint32_t table[] = { TABLE };
	static const uint8_t code[] = { 0xb7, 0, 0, 0, LAXONJE_TX, 0, 0, 0, 0x95, 0, 0, 0, 0, 0, 0, 0 };
	const struct laxonje_queue_desc desc = { TX, RX, GUEST, 0, PORT, 0, 0, 0, 0 };
	struct laxonje_program *program = laxonje_program_new();
	int is_made = laxonje_load(code, sizeof code, NULL, 0, program).kind == LAXONJE_ACCEPTED &&
	              laxonje_queue_make(program, owners, FRAMES, table, 1, &desc, queue) == LAXONJE_MADE;
	laxonje_program_delete(&program);
	return is_made;
}

/* Puts what an op reads into the lent words. */
static void reads(const struct laxonje_op *op)
{
	for (uint32_t i = 0; op->kind == LAXONJE_OP_READ && i < op->count; i++)
		words[op->lent + i] = memory[op->frame][op->word + i];
	if (op->kind == LAXONJE_OP_PUSH)
		words[op->lent] = memory[op->frame][op->value[1]];
}

/* Steps to the op that ends with this outcome, and prints how many there were. */
static int takes(struct laxonje_queue *queue, const char *what, struct laxonje_op op, uint32_t outcome, size_t most)
{
	size_t steps = 0, count = 1;
	for (; count == 1 && steps <= most && op.kind != LAXONJE_OP_DONE; steps++) {
		reads(&op);
		count = laxonje_queue_step(queue, words, LAXONJE_PAGE_WORDS, NULL, 0, &op, 1);
	}
	printf("%s: %zu steps\n", what, steps);
	return count == 1 && steps <= most && op.outcome == outcome;
}

int main(void)
{
	static struct laxonje_op none;
	struct laxonje_queue *queue = laxonje_queue_new();
	struct laxonje_op first = none;
	int right = 1;
	guest_publishes();
	right &= makes(queue) && laxonje_queue_turn(queue, 0, &first, 1) == 1;
	right &= takes(queue, "a turn", first, LAXONJE_TURN_RAN, MOST_TURN);
	right &= makes(queue) && laxonje_queue_deliver(queue, PAGES, packet, LAXONJE_PACKET) == LAXONJE_TAKEN;
	right &= takes(queue, "a delivery", none, LAXONJE_DELIVERY_SENT, MOST_DELIVERY);
	right &= makes(queue) && laxonje_queue_accept(queue, LAXONJE_ACCEPT_GSO_TCPV4) == LAXONJE_OFFERED;
	right &= laxonje_queue_deliver_as(queue, BUFFERS, packet, LAXONJE_PACKET, LAXONJE_OFFLOAD_TCPV4, 1) == LAXONJE_TAKEN;
	right &= takes(queue, "a delivery to be segmented", none, LAXONJE_DELIVERY_SENT, MOST_SEGMENTED);
	right &= makes(queue) && laxonje_queue_await(queue, PAGES) == LAXONJE_TAKEN;
	right &= takes(queue, "a wait", none, LAXONJE_AWAITED_POSTED, MOST_WAIT);
	laxonje_queue_delete(&queue);
	return !right;
}
