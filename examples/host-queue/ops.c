/* What a queue asks for, op by op: a packet from the guest, one of the host's own, and waits. It is C and C++. */
#include "rows.h"

enum { TX, RX, TABLE, DATA, FOREIGN, FRAMES, MORE_DATA = LAXONJE_FLAG_MORE_DATA, READ_ONLY = 4, AGAIN = 1000, LONG = 4100 };

/* An empty ring: the event index asks for the next request, and the producer is read again. */
static const struct row idle[] = { TURN(0), PUSH(TX, 1, 1, 0, 0), ENDS(LAXONJE_TURN_IDLE, 0, 0) };

/* A packet of 14 bytes in one slot, whose checksum is blank and whose data is validated. */
static const struct row passed[] = { TURN(1),
	                             READ(TX, 16, 3, 0, HALF(FLAGS), 9 | HALF(HEADER)),
	                             ENTRY(LAXONJE_ENTRY_READ, TABLE, 0, PERMIT, DATA),
	                             READ(DATA, 0, 4, 0x04030201, 0x08070605, 0x0c0b0a09, 0xffff0e0d),
	                             STORE(TX, 16, 1, 9),
	                             PUSH(TX, 2, 1, 3, 1),
	                             NOTICE,
	                             ENDS(LAXONJE_TURN_RAN, LAXONJE_PASS, 1) };

/* A packet of 20 bytes in two slots. */
static const struct row two_slots[] = { TURN(3),
	                                READ(TX, 19, 3, 0, HALF(MORE_DATA), 10 | HALF(20)),
	                                READ(TX, 22, 3, 0, 4092, 11 | HALF(4)),
	                                ENTRY(LAXONJE_ENTRY_READ, TABLE, 0, PERMIT, DATA),
	                                READ(DATA, 0, 4, 0x04030201, 0x08070605, 0x0c0b0a09, 0x100f0e0d),
	                                ENTRY(LAXONJE_ENTRY_READ, TABLE, 0, PERMIT, DATA),
	                                READ(DATA, 1023, 1, 0x14131211),
	                                STORE(TX, 19, 1, 10),
	                                STORE(TX, 22, 1, 11),
	                                PUSH(TX, 2, 3, 3, 1),
	                                ENDS(LAXONJE_TURN_RAN, LAXONJE_PASS, 2) };

/* A slot whose grant is of another domain's frame. */
static const struct row refused[] = { TURN(4),
	                              READ(TX, 25, 3, 1, 0, 12 | HALF(HEADER)),
	                              ENTRY(LAXONJE_ENTRY_READ, TABLE, 1, PERMIT, FOREIGN),
	                              STORE(TX, 25, 1, 12 | HALF(0xffff)),
	                              PUSH(TX, 2, 4, 3, 4),
	                              NOTICE,
	                              ENDS(LAXONJE_TURN_REFUSED, LAXONJE_REFUSAL_GRANT, 1) };

/* A packet of 600 bytes that is to be segmented: its slot, its extra, and NULL for the extra's slot. */
static const struct row segmented[] = { TURN(6),
	                                READ(TX, 28, 3, 0, HALF(LAXONJE_FLAG_EXTRA_INFO), 13 | HALF(600)),
	                                READ(TX, 31, 3, 1 | HALF(536), LAXONJE_SEGMENTS_TCPV4, 0),
	                                ENTRY(LAXONJE_ENTRY_READ, TABLE, 0, PERMIT, DATA),
	                                READ(DATA, 0, 150, 0x04030201, 0x08070605, 0x0c0b0a09, 0xffff0e0d),
	                                STORE(TX, 28, 1, 13),
	                                STORE(TX, 31, 1, HALF(1)),
	                                PUSH(TX, 2, 6, 3, 4),
	                                ENDS(LAXONJE_TURN_RAN, LAXONJE_PASS, 2) };

/* A packet that the program sends back: its page, then the rx response, and then the tx response. */
static const struct row sent_back[] = { TURN(1),
	                                READ(TX, 16, 3, 0, 0, 9 | HALF(HEADER)),
	                                ENTRY(LAXONJE_ENTRY_READ, TABLE, 0, PERMIT, DATA),
	                                READ(DATA, 0, 4, 0x04030201, 0x08070605, 0x0c0b0a09, 0xffff0e0d),
	                                READ(RX, 0, 1, 1),
	                                READ(RX, 16, 2, 8, 1),
	                                ENTRY(LAXONJE_ENTRY_WRITE, TABLE, 1, PERMIT, DATA),
	                                WRITE(DATA, 0, 4, 0x04030201, 0x08070605, 0x0c0b0a09, 0x00000e0d),
	                                STORE(RX, 16, 2, 8, HALF(HEADER)),
	                                PUSH(RX, 2, 1, 3, 1),
	                                NOTICE,
	                                STORE(TX, 16, 1, 9),
	                                PUSH(TX, 2, 1, 3, 1),
	                                NOTICE,
	                                ENDS(LAXONJE_TURN_RAN, LAXONJE_TX, 1) };

/* The same if the frontend wants no notice of either response. */
static const struct row sent_quietly[] = { TURN(2),
				   READ(TX, 19, 3, 0, 0, 10 | HALF(HEADER)),
				   ENTRY(LAXONJE_ENTRY_READ, TABLE, 0, PERMIT, DATA),
				   READ(DATA, 0, 4, 0x04030201, 0x08070605, 0x0c0b0a09, 0xffff0e0d),
				   READ(RX, 0, 1, 2),
				   READ(RX, 18, 2, 9, 1),
				   ENTRY(LAXONJE_ENTRY_WRITE, TABLE, 1, PERMIT, DATA),
				   WRITE(DATA, 0, 4, 0x04030201, 0x08070605, 0x0c0b0a09, 0x00000e0d),
				   STORE(RX, 18, 2, 9, HALF(HEADER)),
				   PUSH(RX, 2, 2, 3, 1),
				   STORE(TX, 19, 1, 10),
				   PUSH(TX, 2, 2, 3, 1),
				   ENDS(LAXONJE_TURN_RAN, LAXONJE_TX, 1) };

/* The same packet of a program that has counted it three times: it finds no rx slot, and is dropped. */
static const struct row counted_back[] = { TURN(1),
	                                   READ(TX, 16, 3, 0, 0, 9 | HALF(HEADER)),
	                                   ENTRY(LAXONJE_ENTRY_READ, TABLE, 0, PERMIT, DATA),
	                                   READ(DATA, 0, 4, 0x04030201, 0x08070605, 0x0c0b0a09, 0xffff0e0d),
	                                   READ(RX, 0, 1, 0),
	                                   STORE(TX, 16, 1, 9 | HALF(0xffff)),
	                                   PUSH(TX, 2, 1, 3, 1),
	                                   NOTICE,
	                                   COUNTED(LAXONJE_TURN_REFUSED, LAXONJE_REFUSAL_FEW_SLOTS, 1, 3) };

/* One of a program that has counted it three times, and drops it. */
static const struct row counted[] = { TURN(1),
	                              READ(TX, 16, 3, 0, 0, 9 | HALF(HEADER)),
	                              ENTRY(LAXONJE_ENTRY_READ, TABLE, 0, PERMIT, DATA),
	                              READ(DATA, 0, 4, 0x04030201, 0x08070605, 0x0c0b0a09, 0xffff0e0d),
	                              STORE(TX, 16, 1, 9 | HALF(0xfffe)),
	                              PUSH(TX, 2, 1, 3, 0),
	                              COUNTED(LAXONJE_TURN_RAN, LAXONJE_DROP, 1, 3) };

/* A packet after the one that passed, of a queue that was made anew with a program that drops. */
static const struct row renewed[] = { TURN(2),
	                              READ(TX, 19, 3, 0, 0, 10 | HALF(HEADER)),
	                              ENTRY(LAXONJE_ENTRY_READ, TABLE, 0, PERMIT, DATA),
	                              READ(DATA, 0, 4, 0x04030201, 0x08070605, 0x0c0b0a09, 0xffff0e0d),
	                              STORE(TX, 19, 1, 10 | HALF(0xfffe)),
	                              PUSH(TX, 2, 2, 3, 0),
	                              ENDS(LAXONJE_TURN_RAN, LAXONJE_DROP, 1) };

/* A packet in the slot of the last index, and a response that is pushed to index 0, of which a notice is due. */
static const struct row wrapped[] = { TURN(0),
	                              READ(TX, 16 + 3 * 255, 3, 0, 0, 9 | HALF(HEADER)),
	                              ENTRY(LAXONJE_ENTRY_READ, TABLE, 0, PERMIT, DATA),
	                              READ(DATA, 0, 4, 0x04030201, 0x08070605, 0x0c0b0a09, 0xffff0e0d),
	                              STORE(TX, 16 + 3 * 255, 1, 9 | HALF(0xfffe)),
	                              PUSH(TX, 2, 0, 3, 0),
	                              NOTICE,
	                              ENDS(LAXONJE_TURN_RAN, LAXONJE_DROP, 1) };

/* The tx producer is more than a ring ahead. */
static const struct row far_ahead[] = { TURN(AGAIN), ENDS(LAXONJE_TURN_HALTED, LAXONJE_HALT_TX_PRODUCER, 0) };

/* The host's packet finds no rx slot. */
static const struct row few[] = { ENDS(LAXONJE_DELIVERY_FEW_SLOTS, 0, 0) };

/* A wait for one slot: the event index is stored, and only then the producer is read. */
static const struct row waiting[] = { PUSH(RX, 1, 1, 0, 0),
	                              ENDS(LAXONJE_AWAITED_WAITING, 0, 0) };
static const struct row posted[] = { PUSH(RX, 1, 1, 0, 1),
	                             ENDS(LAXONJE_AWAITED_POSTED, 0, 0) };
static const struct row two_of_three[] = { PUSH(RX, 1, 3, 0, 2),
	                                   ENDS(LAXONJE_AWAITED_WAITING, 0, 0) };

/* The host's packet goes into one posted buffer. */
static const struct row sent[] = { READ(RX, 16, 2, 8, 1),
	                           ENTRY(LAXONJE_ENTRY_WRITE, TABLE, 1, PERMIT, DATA),
	                           WRITE(DATA, 0, 4, 0x04030201, 0x08070605, 0x0c0b0a09, 0x00000e0d),
	                           STORE(RX, 16, 2, 8, HALF(HEADER)),
	                           PUSH(RX, 2, 1, 3, 0),
	                           ENDS(LAXONJE_DELIVERY_SENT, 0, 1) };

/* One of 4,100 bytes into two buffers. */
static const struct row two_pages[] = { READ(RX, 16, 2, 8, 0),
	                                ENTRY(LAXONJE_ENTRY_WRITE, TABLE, 0, PERMIT, DATA),
	                                READ(RX, 18, 2, 9, 1),
	                                ENTRY(LAXONJE_ENTRY_WRITE, TABLE, 1, PERMIT, DATA),
	                                WRITE(DATA, 0, 1024, 0x05050505, 0x05050505, 0x05050505, 0x05050505),
	                                WRITE(DATA, 0, 1, 0x05050505),
	                                STORE(RX, 16, 2, 8, MORE_DATA | HALF(4096)),
	                                STORE(RX, 18, 2, 9, HALF(4)),
	                                PUSH(RX, 2, 2, 3, 0),
	                                ENDS(LAXONJE_DELIVERY_SENT, 0, 2) };

/* The second buffer is for reading alone: the first slot gets no bytes either. */
static const struct row read_only[] = { READ(RX, 16, 2, 8, 0),
	                                ENTRY(LAXONJE_ENTRY_WRITE, TABLE, 0, PERMIT, DATA),
	                                READ(RX, 18, 2, 9, 1),
	                                ENTRY(LAXONJE_ENTRY_WRITE, TABLE, 1, PERMIT | READ_ONLY, DATA),
	                                STORE(RX, 16, 2, 8, HALF(0xffff)),
	                                STORE(RX, 18, 2, 9, HALF(0xffff)),
	                                PUSH(RX, 2, 2, 3, 0),
	                                ENDS(LAXONJE_DELIVERY_REFUSED, 0, 2) };

/* The rx producer is more than a ring ahead: the queue halts, and makes no more accesses. */
static const struct row overflown[] = { PUSH(RX, 1, 2, 0, AGAIN),
	                                ENDS(LAXONJE_AWAITED_HALTED, LAXONJE_HALT_RX_PRODUCER, 0) };
static const struct row still[] = { ENDS(LAXONJE_AWAITED_HALTED, LAXONJE_HALT_RX_PRODUCER, 0) };
static const struct row halted[] = { TURN(9), ENDS(LAXONJE_TURN_HALTED, LAXONJE_HALT_RX_PRODUCER, 0) };
static const struct row undelivered[] = { ENDS(LAXONJE_DELIVERY_HALTED, LAXONJE_HALT_RX_PRODUCER, 0) };

/* A packet from the guest, one of the host's own, and waits. */
static void exchanges(struct laxonje_queue *queue, size_t room)
{
	uint8_t packet[HEADER];
	GOES(queue, room, idle);
	is("flags of none", laxonje_queue_flags(queue), 0);
	GOES(queue, room, passed);
	is("flags", laxonje_queue_flags(queue), LAXONJE_FLAG_CSUM_BLANK | LAXONJE_FLAG_DATA_VALIDATED);
	is("a packet", laxonje_queue_packet(queue, packet, sizeof packet), sizeof packet);
	is("a short packet", laxonje_queue_deliver(queue, 0, packet, HEADER - 1), LAXONJE_TAKEN_NO_FRAME);
	is("a delivery", laxonje_queue_deliver(queue, 0, packet, sizeof packet), LAXONJE_TAKEN);
	GOES(queue, room, few);
	is("a wait", laxonje_queue_await(queue, 1), LAXONJE_TAKEN);
	GOES(queue, room, waiting);
	is("a wait", laxonje_queue_await(queue, 1), LAXONJE_TAKEN);
	GOES(queue, room, posted);
	is("a wait for three", laxonje_queue_await(queue, 3), LAXONJE_TAKEN);
	GOES(queue, room, two_of_three);
	is("flags that stay", laxonje_queue_flags(queue), LAXONJE_FLAG_CSUM_BLANK | LAXONJE_FLAG_DATA_VALIDATED);
	is("a packet that stays", laxonje_queue_packet(queue, packet, sizeof packet), sizeof packet);
	is("a delivery", laxonje_queue_deliver(queue, 1, packet, sizeof packet), LAXONJE_TAKEN);
	GOES(queue, room, sent);
	is("the rx index", laxonje_queue_state(queue).rx_index, 1);
	GOES(queue, room, two_slots);
	GOES(queue, room, refused);
	is("the tx index", laxonje_queue_state(queue).tx_index, 4);
	is("no segments", laxonje_queue_segment_type(queue), LAXONJE_SEGMENTS_NONE);
	is("an offer without a name", laxonje_queue_offer(queue, 4), LAXONJE_OFFERED_UNKNOWN);
	is("an offer", laxonje_queue_offer(queue, LAXONJE_OFFER_GSO_TCPV4), LAXONJE_OFFERED);
	GOES(queue, room, segmented);
	is("segments", laxonje_queue_segment_type(queue), LAXONJE_SEGMENTS_TCPV4);
	is("a segment's size", laxonje_queue_segment_size(queue), 536);
	is("a wait", laxonje_queue_await(queue, 1), LAXONJE_TAKEN);
	is("an offer inside a wait", laxonje_queue_offer(queue, 0), LAXONJE_OFFERED_BUSY);
	GOES(queue, room, overflown);
	is("a halt", laxonje_queue_state(queue).kind, LAXONJE_STANDS_HALTED);
	is("a wait", laxonje_queue_await(queue, 1), LAXONJE_TAKEN);
	GOES(queue, room, still);
	GOES(queue, room, halted);
	is("a delivery", laxonje_queue_deliver(queue, 9, packet, sizeof packet), LAXONJE_TAKEN);
	GOES(queue, room, undelivered);
}

/* What is too little: nothing is said, and nothing changes. */
static void says_nothing(struct laxonje_queue *queue, size_t word_count, size_t room, uint32_t stands)
{
	struct laxonje_op op;
	memset(&op, 0xa5, sizeof op);
	is("no ops", laxonje_queue_step(queue, words, word_count, counters, counter_count, &op, room), 0);
	is("no turn without room", laxonje_queue_turn(queue, 0, &op, 0), 0);
	is("an op that stays", op.kind, 0xa5a5a5a5);
	is("a queue that stays", laxonje_queue_state(queue).kind, stands);
}

/* A queue of a program, whose tx ring is gone on with at an index. */
static void makes(struct laxonje_queue *queue, const uint8_t *code, size_t size, const struct laxonje_map *maps, size_t map_count, uint32_t tx_index)
{
	static const uint16_t owners[FRAMES] = { GUEST, GUEST, GUEST, GUEST, GUEST + 1 };
	static const uint32_t table[] = { TABLE };
	struct laxonje_queue_desc desc = { TX, RX, GUEST, 0, PORT, 0, 0, tx_index, 0 };
	struct laxonje_program *program = laxonje_program_new();
	is("a program", laxonje_load(code, size, maps, map_count, program).kind, LAXONJE_ACCEPTED);
	is("a queue", laxonje_queue_make(program, owners, FRAMES, table, 1, &desc, queue), LAXONJE_MADE);
	laxonje_program_delete(&program);
}

/* Makes a queue of a program of two instructions that returns this number, and has no counters. */
static void makes_at(struct laxonje_queue *queue, uint8_t number, uint32_t tx_index)
{
	const uint8_t code[] = { 0xb7, 0, 0, 0, number, 0, 0, 0, 0x95, 0, 0, 0, 0, 0, 0, 0 };
	makes(queue, code, sizeof code, NULL, 0, tx_index);
	counter_count = 0;
}

static void makes_plain(struct laxonje_queue *queue, uint8_t number)
{
	makes_at(queue, number, 0);
}

/* A queue that is made anew goes on where it stood, with another program. */
static void renews(struct laxonje_queue *queue, size_t room)
{
	makes_plain(queue, LAXONJE_PASS);
	GOES(queue, room, passed);
	makes_at(queue, LAXONJE_DROP, laxonje_queue_state(queue).tx_index);
	GOES(queue, room, renewed);
	makes_at(queue, LAXONJE_DROP, UINT32_MAX);
	GOES(queue, room, wrapped);
	is("an index after the wrap", laxonje_queue_state(queue).tx_index, 0);
}

/* Makes one of a program that adds 5 twice to the first of two counters, and once to the second. */
static void makes_counting(struct laxonje_queue *queue, uint8_t number)
{
	static const struct laxonje_map map = { 1, 2 };
	const uint8_t code[] = { 0xbf, 0xa2, 0, 0, 0, 0, 0, 0, 0x07, 2, 0, 0, 0xfc, 0xff, 0xff, 0xff, 0x62, 10, 0xfc, 0xff, 0, 0, 0, 0,
		                 0x18, 0x11, 0, 0, 0, 0, 0, 0, 0, 0, 0, 0, 0, 0, 0, 0, 0x85, 0, 0, 0, 1, 0, 0, 0, 0x15, 0, 4, 0, 0, 0, 0, 0,
		                 0xb7, 1, 0, 0, 5, 0, 0, 0, 0xdb, 0x10, 0, 0, 0, 0, 0, 0, 0xdb, 0x10, 0, 0, 0, 0, 0, 0, 0xdb, 0x10, 8, 0, 0, 0, 0, 0,
		                 0xb7, 0, 0, 0, number, 0, 0, 0, 0x95, 0, 0, 0, 0, 0, 0, 0 };
	makes(queue, code, sizeof code, &map, 1, 0);
	counter_count = 2;
	counters[0] = counters[1] = 1000;
}

/* A turn that has begun, and that is lent too little for its next step. */
static void says_little(struct laxonje_queue *queue)
{
	struct laxonje_op op;
	is("a turn", laxonje_queue_turn(queue, 1, &op, 1), 1);
	counter_count = 1;
	says_nothing(queue, LAXONJE_PAGE_WORDS, 1, LAXONJE_STANDS_NOT);
	counter_count = 2;
	says_nothing(queue, LAXONJE_PAGE_WORDS - 1, 1, LAXONJE_STANDS_NOT);
	says_nothing(queue, LAXONJE_PAGE_WORDS, 0, LAXONJE_STANDS_NOT);
}

/* Packets of two pages. */
static void delivers(struct laxonje_queue *queue, size_t room)
{
	static uint8_t packet[LONG];
	memset(packet, 5, sizeof packet);
	is("a long packet", laxonje_queue_deliver(queue, 2, packet, LONG), LAXONJE_TAKEN);
	GOES(queue, room, two_pages);
	makes_plain(queue, LAXONJE_PASS);
	is("a long packet", laxonje_queue_deliver(queue, 2, packet, LONG), LAXONJE_TAKEN);
	GOES(queue, room, read_only);
}

/* What a program counted lies in the host's words, and how often it did is told. */
static void counts(struct laxonje_queue *queue, size_t room)
{
	makes_counting(queue, LAXONJE_DROP);
	says_little(queue);
	makes_counting(queue, LAXONJE_DROP);
	GOES(queue, room, counted);
	is("the first counter", counters[0], 1010);
	is("the second counter", counters[1], 1005);
	makes_counting(queue, LAXONJE_TX);
	GOES(queue, room, counted_back);
	is("the counters of a packet that isn't sent back", counters[0] + counters[1], 2015);
}

int main(void)
{
	struct laxonje_queue *queue = laxonje_queue_new();
	struct laxonje_op op;
	is("a wait of none", laxonje_queue_await(queue, 1), LAXONJE_TAKEN_NOT);
	is("a delivery of none", laxonje_queue_deliver(queue, 0, (const uint8_t *)words, HEADER), LAXONJE_TAKEN_NOT);
	is("a turn of none", laxonje_queue_turn(queue, 0, &op, 1), 0);
	is("flags of none", laxonje_queue_flags(queue), 0);
	says_nothing(queue, LAXONJE_PAGE_WORDS, 1, LAXONJE_STANDS_NOT);
	for (size_t room = 1; room <= LAXONJE_OPS; room++) {
		makes_plain(queue, LAXONJE_PASS);
		says_nothing(queue, LAXONJE_PAGE_WORDS, 1, LAXONJE_STANDS);
		exchanges(queue, room);
		makes_plain(queue, LAXONJE_TX);
		GOES(queue, room, sent_back);
		GOES(queue, room, sent_quietly);
		GOES(queue, room, far_ahead);
		makes_plain(queue, LAXONJE_PASS);
		delivers(queue, room);
		counts(queue, room);
		renews(queue, room);
	}
	laxonje_queue_delete(&queue);
	is("a deleted queue", queue == NULL, 1);
	laxonje_queue_delete(&queue);
	printf("%d wrong\n", wrong);
	return wrong != 0;
}
