/* Packets that leave their checksum, or to be segmented, to the guest that they are delivered to: op by op, and as they lie in the guest's pages. And
 * what a guest doesn't take. It is C and C++. */
#include "rows.h"
#include <laxonje_drive.h>

enum { TX, RX, TABLE, DATA, FOREIGN, FRAMES, LONG = 4100, SIZE = 1448, BYTES = 2000, LONGEST_SLOTS = 17, RING = 16, ACCEPTS_ALL = 7 };

/* The flags of an rx response (netif.h, XEN_NETRXF_*), and an extra's type (XEN_NETIF_EXTRA_TYPE_GSO). */
enum { VALIDATED = 1, BLANK = 2, MORE = 4, EXTRA = 8, GSO = 1 };

/* Packets of 14 bytes into slots of their own, of which the first has the flags. An extra lies behind the first slot, in the place of the second
 * slot's response, and what the guest granted there isn't looked at. */
static const struct row whole[] = { READ(RX, 16, 2, 8, 1),
	                            ENTRY(LAXONJE_ENTRY_WRITE, TABLE, 1, PERMIT, DATA),
	                            WRITE(DATA, 0, 4, 0x05050505, 0x05050505, 0x05050505, 0x00000505),
	                            STORE(RX, 16, 2, 8, HALF(HEADER)),
	                            PUSH(RX, 2, 1, 3, 0),
	                            ENDS(LAXONJE_DELIVERY_SENT, 0, 1) };
static const struct row validated[] = { READ(RX, 18, 2, 9, 1),
	                                ENTRY(LAXONJE_ENTRY_WRITE, TABLE, 1, PERMIT, DATA),
	                                WRITE(DATA, 0, 4, 0x05050505, 0x05050505, 0x05050505, 0x00000505),
	                                STORE(RX, 18, 2, 9, VALIDATED | HALF(HEADER)),
	                                PUSH(RX, 2, 2, 3, 0),
	                                ENDS(LAXONJE_DELIVERY_SENT, 0, 1) };
static const struct row blank[] = { READ(RX, 20, 2, 10, 1),
	                            ENTRY(LAXONJE_ENTRY_WRITE, TABLE, 1, PERMIT, DATA),
	                            WRITE(DATA, 0, 4, 0x05050505, 0x05050505, 0x05050505, 0x00000505),
	                            STORE(RX, 20, 2, 10, VALIDATED | BLANK | HALF(HEADER)),
	                            PUSH(RX, 2, 3, 3, 0),
	                            ENDS(LAXONJE_DELIVERY_SENT, 0, 1) };
static const struct row tcpv4[] = { READ(RX, 22, 2, 11, 1),
	                            ENTRY(LAXONJE_ENTRY_WRITE, TABLE, 1, PERMIT, DATA),
	                            READ(RX, 24, 2, 12, 99999),
	                            WRITE(DATA, 0, 4, 0x05050505, 0x05050505, 0x05050505, 0x00000505),
	                            STORE(RX, 22, 2, 11, VALIDATED | BLANK | EXTRA | HALF(HEADER)),
	                            STORE(RX, 24, 2, GSO | HALF(HEADER), LAXONJE_SEGMENTS_TCPV4),
	                            PUSH(RX, 2, 5, 3, 0),
	                            ENDS(LAXONJE_DELIVERY_SENT, 0, 2) };

/* One of 4,100 bytes: three slots. */
static const struct row tcpv6[] = { READ(RX, 26, 2, 13, 0),
	                            ENTRY(LAXONJE_ENTRY_WRITE, TABLE, 0, PERMIT, DATA),
	                            READ(RX, 28, 2, 14, 0),
	                            READ(RX, 30, 2, 15, 1),
	                            ENTRY(LAXONJE_ENTRY_WRITE, TABLE, 1, PERMIT, DATA),
	                            WRITE(DATA, 0, 1024, 0x05050505, 0x05050505, 0x05050505, 0x05050505),
	                            WRITE(DATA, 0, 1, 0x05050505),
	                            STORE(RX, 26, 2, 13, VALIDATED | BLANK | MORE | EXTRA | HALF(4096)),
	                            STORE(RX, 28, 2, GSO | HALF(1), LAXONJE_SEGMENTS_TCPV6),
	                            STORE(RX, 30, 2, 15, HALF(4)),
	                            PUSH(RX, 2, 8, 3, 0),
	                            ENDS(LAXONJE_DELIVERY_SENT, 0, 3) };

/* The same with a grant of another domain's frame behind the extra: each slot that was read is answered with ERROR, and none with an extra. */
static const struct row refused[] = { READ(RX, 32, 2, 16, 0),
	                              ENTRY(LAXONJE_ENTRY_WRITE, TABLE, 0, PERMIT, DATA),
	                              READ(RX, 34, 2, 17, 0),
	                              READ(RX, 36, 2, 18, 1),
	                              ENTRY(LAXONJE_ENTRY_WRITE, TABLE, 1, PERMIT, FOREIGN),
	                              STORE(RX, 32, 2, 16, HALF(0xffff)),
	                              STORE(RX, 34, 2, 17, HALF(0xffff)),
	                              STORE(RX, 36, 2, 18, HALF(0xffff)),
	                              PUSH(RX, 2, 11, 3, 0),
	                              ENDS(LAXONJE_DELIVERY_REFUSED, 0, 3) };

/* As many slots as the packet has pages are too few if there is an extra. */
static const struct row few[] = { ENDS(LAXONJE_DELIVERY_FEW_SLOTS, 0, 0) };
static const struct row waiting[] = { PUSH(RX, 1, 14, 0, 13), ENDS(LAXONJE_AWAITED_WAITING, 0, 0) };

/* A packet of the guest's that goes back to it after all that: it leaves nothing. */
static const struct row sent_back[] = { TURN(1),
	                                READ(TX, 16, 3, 0, HALF(FLAGS), 9 | HALF(HEADER)),
	                                ENTRY(LAXONJE_ENTRY_READ, TABLE, 0, PERMIT, DATA),
	                                READ(DATA, 0, 4, 0x04030201, 0x08070605, 0x0c0b0a09, 0xffff0e0d),
	                                READ(RX, 0, 1, 12),
	                                READ(RX, 38, 2, 19, 1),
	                                ENTRY(LAXONJE_ENTRY_WRITE, TABLE, 1, PERMIT, DATA),
	                                WRITE(DATA, 0, 4, 0x04030201, 0x08070605, 0x0c0b0a09, 0x00000e0d),
	                                STORE(RX, 38, 2, 19, HALF(HEADER)),
	                                PUSH(RX, 2, 12, 3, 0),
	                                STORE(TX, 16, 1, 9),
	                                PUSH(TX, 2, 1, 3, 0),
	                                ENDS(LAXONJE_TURN_RAN, LAXONJE_TX, 1) };
static const struct row overflown[] = { ENDS(LAXONJE_DELIVERY_HALTED, LAXONJE_HALT_RX_PRODUCER, 0) };

static uint32_t memory[FRAMES][LAXONJE_PAGE_WORDS];
static uint8_t packet[LAXONJE_PACKET];

/* A queue of a program that sends each packet back. */
static void makes(struct laxonje_queue *queue)
{
	static const struct laxonje_extent extents[] = { { FOREIGN, GUEST }, { 1, GUEST + 1 } };
	static const uint32_t table[] = { TABLE };
	static const uint8_t code[] = { 0xb7, 0, 0, 0, LAXONJE_TX, 0, 0, 0, 0x95, 0, 0, 0, 0, 0, 0, 0 };
	const struct laxonje_queue_desc desc = { TX, RX, GUEST, 0, PORT, 0, 0, 0, 0 };
	struct laxonje_program *program = laxonje_program_new();
	is("a program", laxonje_load(code, sizeof code, NULL, 0, program).kind, LAXONJE_ACCEPTED);
	is("a queue", laxonje_queue_make_extents(program, extents, 2, table, 1, &desc, queue), LAXONJE_MADE);
	laxonje_program_delete(&program);
}

static void delivers(struct laxonje_queue *queue, size_t bytes, uint32_t offload, uint32_t size)
{
	is("a delivery", laxonje_queue_deliver_as(queue, 12, packet, bytes, offload, size), LAXONJE_TAKEN);
}

/* One delivery after another: what one leaves isn't what the next leaves. */
static void exchanges(struct laxonje_queue *queue, size_t room)
{
	makes(queue);
	is("what a guest takes", laxonje_queue_accept(queue, ACCEPTS_ALL), LAXONJE_OFFERED);
	is("a delivery", laxonje_queue_deliver(queue, 12, packet, HEADER), LAXONJE_TAKEN);
	GOES(queue, room, whole);
	delivers(queue, HEADER, LAXONJE_OFFLOAD_VALIDATED, SIZE);
	GOES(queue, room, validated);
	delivers(queue, HEADER, LAXONJE_OFFLOAD_CSUM_BLANK, SIZE);
	GOES(queue, room, blank);
	delivers(queue, HEADER, LAXONJE_OFFLOAD_TCPV4, HEADER);
	GOES(queue, room, tcpv4);
	is("its packet", laxonje_queue_packet(queue, NULL, 0), HEADER);
	delivers(queue, LONG, LAXONJE_OFFLOAD_TCPV6, 1);
	GOES(queue, room, tcpv6);
	delivers(queue, LONG, LAXONJE_OFFLOAD_TCPV6, LONG);
	GOES(queue, room, refused);
	is("the rx index", laxonje_queue_state(queue).rx_index, 11);
	delivers(queue, HEADER, LAXONJE_OFFLOAD_TCPV4, 1);
	GOES(queue, room, few);
	is("a wait", laxonje_queue_await(queue, 3), LAXONJE_TAKEN);
	is("what a guest takes inside a wait", laxonje_queue_accept(queue, 0), LAXONJE_OFFERED_BUSY);
	is("a delivery inside a wait", laxonje_queue_deliver_as(queue, 12, packet, HEADER, LAXONJE_OFFLOAD_TCPV4, 1), LAXONJE_TAKEN_BUSY);
	GOES(queue, room, waiting);
	GOES(queue, room, sent_back);
	is("segments of a turn", laxonje_queue_segment_type(queue), LAXONJE_SEGMENTS_NONE);
	is("a delivery", laxonje_queue_deliver_as(queue, 12 + 257, packet, HEADER, LAXONJE_OFFLOAD_TCPV4, 1), LAXONJE_TAKEN);
	GOES(queue, room, overflown);
	is("what a guest takes after a halt", laxonje_queue_accept(queue, 0), LAXONJE_OFFERED);
	is("a delivery", laxonje_queue_deliver_as(queue, 12, packet, HEADER, LAXONJE_OFFLOAD_TCPV4, 1), LAXONJE_TAKEN_NOT_ACCEPTED);
}

/* What is answered to a packet that leaves this to a guest that takes these. */
static uint32_t answer_to(uint32_t offload, uint32_t accepts)
{
	static const uint32_t wanted[] = { 0, 0, LAXONJE_ACCEPT_CSUM_BLANK, LAXONJE_ACCEPT_GSO_TCPV4, LAXONJE_ACCEPT_GSO_TCPV6 };
	if (offload > LAXONJE_OFFLOAD_TCPV6)
		return LAXONJE_TAKEN_UNKNOWN;
	return (wanted[offload] & accepts) == wanted[offload] ? LAXONJE_TAKEN : LAXONJE_TAKEN_NOT_ACCEPTED;
}

/* Each offload, and two that have no name, to a guest that takes any of them. A queue that is made anew takes none. */
static void takes(struct laxonje_queue *queue)
{
	for (uint32_t accepts = 0; accepts <= ACCEPTS_ALL; accepts++) {
		for (uint32_t offload = 0; offload <= LAXONJE_OFFLOAD_TCPV6 + 2; offload++) {
			makes(queue);
			is("a new queue", laxonje_queue_deliver_as(queue, 0, packet, BYTES, LAXONJE_OFFLOAD_TCPV4, SIZE), LAXONJE_TAKEN_NOT_ACCEPTED);
			is("what a guest takes", laxonje_queue_accept(queue, accepts), LAXONJE_OFFERED);
			is("a bit without a name", laxonje_queue_accept(queue, 8 | accepts), LAXONJE_OFFERED_UNKNOWN);
			is("an offload", laxonje_queue_deliver_as(queue, 0, packet, BYTES, offload, SIZE), answer_to(offload, accepts));
			is("what is begun", laxonje_queue_state(queue).kind == LAXONJE_STANDS, answer_to(offload, accepts) != LAXONJE_TAKEN);
		}
	}
}

/* Sizes of a segment: of a packet that isn't to be segmented none is looked at. */
static void sizes(struct laxonje_queue *queue)
{
	static const struct { uint32_t size, answer; } rows[] = {
		{ 0, LAXONJE_TAKEN_NOT_ACCEPTED },
		{ 1, LAXONJE_TAKEN },
		{ BYTES, LAXONJE_TAKEN },
		{ BYTES + 1, LAXONJE_TAKEN_NOT_ACCEPTED },
		{ 65535, LAXONJE_TAKEN_NOT_ACCEPTED },
		{ 65536, LAXONJE_TAKEN_UNKNOWN },
		{ 65536 + SIZE, LAXONJE_TAKEN_UNKNOWN },
		{ UINT32_MAX, LAXONJE_TAKEN_UNKNOWN },
	};
	for (size_t i = 0; i < sizeof rows / sizeof rows[0]; i++) {
		for (uint32_t offload = LAXONJE_OFFLOAD_NONE; offload <= LAXONJE_OFFLOAD_TCPV6; offload++) {
			makes(queue);
			laxonje_queue_accept(queue, ACCEPTS_ALL);
			is("a size", laxonje_queue_deliver_as(queue, 0, packet, BYTES, offload, rows[i].size),
			   offload < LAXONJE_OFFLOAD_TCPV4 ? (uint32_t)LAXONJE_TAKEN : rows[i].answer);
		}
	}
	makes(queue);
	is("no frame", laxonje_queue_deliver_as(queue, 0, packet, HEADER - 1, LAXONJE_OFFLOAD_TCPV4, SIZE), LAXONJE_TAKEN_NO_FRAME);
	laxonje_queue_free(queue);
	is("no queue", laxonje_queue_deliver_as(queue, 0, packet, BYTES, LAXONJE_OFFLOAD_TCPV4, SIZE), LAXONJE_TAKEN_NOT);
	is("what the guest of no queue takes", laxonje_queue_accept(queue, 0), LAXONJE_OFFERED_NOT);
}

static uint32_t *page(void *host, const struct laxonje_op *op) { return (void)host, memory[op->frame]; }

static void notify(void *host, uint32_t port) { (void)host, (void)port; }

/* What the guest finds in its ring: each response's id, flags and bytes, and the extra. */
static void lies_there(void)
{
	const uint32_t *at = memory[RX] + RING;
	is("the first id", at[0], 100);
	is("the first slot", at[1], VALIDATED | BLANK | MORE | EXTRA | HALF(4096));
	is("an extra", at[2], GSO | HALF(SIZE));
	is("its type", at[3], LAXONJE_SEGMENTS_TCPV6);
	for (uint32_t slot = 2; slot < LONGEST_SLOTS; slot++) {
		is("an id", at[2 * slot], 100 + slot);
		is("a slot", at[2 * slot + 1], slot + 1 < LONGEST_SLOTS ? MORE | HALF(4096) : HALF(4095));
	}
	is("the producer", memory[RX][2], LONGEST_SLOTS);
}

/* The longest packet into 17 posted slots, by the header's loop, and what is waited for before. */
static void drives(struct laxonje_queue *queue)
{
	const struct laxonje_io io = { NULL, page, notify, NULL };
	struct laxonje_drive drive;
	struct laxonje_op over;
	memset(&drive, 0, sizeof drive);
	drive.queue = queue, drive.tx = TX, drive.rx = RX;
	makes(queue);
	laxonje_queue_accept(queue, LAXONJE_ACCEPT_GSO_TCPV6);
	memory[TABLE][0] = PERMIT, memory[TABLE][1] = DATA;
	for (uint32_t slot = 0; slot < LONGEST_SLOTS; slot++)
		memory[RX][RING + 2 * slot] = 100 + slot, memory[RX][RING + 2 * slot + 1] = slot == 1 ? 99999 : 0;
	memory[RX][0] = LONGEST_SLOTS - 1;
	is("a wait", laxonje_drive_await(&drive, &io, LAXONJE_PACKET, &over), LAXONJE_TAKEN);
	is("its pages", over.outcome, LAXONJE_AWAITED_POSTED);
	is("a wait", laxonje_drive_await_as(&drive, &io, LAXONJE_PACKET, LAXONJE_OFFLOAD_CSUM_BLANK, &over), LAXONJE_TAKEN);
	is("its pages", over.outcome, LAXONJE_AWAITED_POSTED);
	is("a wait for an extra", laxonje_drive_await_as(&drive, &io, LAXONJE_PACKET, LAXONJE_OFFLOAD_TCPV6, &over), LAXONJE_TAKEN);
	is("its slots", over.outcome, LAXONJE_AWAITED_WAITING);
	is("the event index", memory[RX][1], LONGEST_SLOTS);
	is("no IPv4", laxonje_drive_deliver_as(&drive, &io, packet, BYTES, LAXONJE_OFFLOAD_TCPV4, SIZE, &over), LAXONJE_TAKEN_NOT_ACCEPTED);
	is("nothing", over.outcome, LAXONJE_NOTHING);
	is("its name", strcmp(laxonje_name(over.outcome, over.cause), "the guest doesn't take what the packet leaves to it"), 0);
	is("no name", laxonje_drive_deliver_as(&drive, &io, packet, BYTES, LAXONJE_OFFLOAD_TCPV6 + 1, SIZE, &over), LAXONJE_TAKEN_UNKNOWN);
	is("its name", strcmp(laxonje_name(over.outcome, over.cause), "what the packet leaves has no name"), 0);
	memory[RX][0] = LONGEST_SLOTS;
	is("a delivery", laxonje_drive_deliver_as(&drive, &io, packet, sizeof packet, LAXONJE_OFFLOAD_TCPV6, SIZE, &over), LAXONJE_TAKEN);
	is("its outcome", over.outcome, LAXONJE_DELIVERY_SENT);
	is("its slots", over.slots, LONGEST_SLOTS);
	lies_there();
}

int main(void)
{
	struct laxonje_queue *queue = laxonje_queue_new();
	memset(packet, 5, sizeof packet);
	for (size_t room = 1; room <= LAXONJE_OPS; room++)
		exchanges(queue, room);
	takes(queue);
	sizes(queue);
	drives(queue);
	laxonje_queue_delete(&queue);
	printf("%d wrong\n", wrong);
	return wrong != 0;
}
