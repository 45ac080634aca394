/* What a host may get wrong, and what each call answers: null handles, too few counters, waits that can't end, and accesses that weren't made.
 * It is C and C++. */
#include <laxonje_drive.h>
#include <setjmp.h>
#include <stdio.h>
#include <string.h>

enum { TX, RX, TABLE, DATA, FRAMES, GUEST = 1, BYTES = 60, PERMIT = 1, MOST = 2 };

/* Adds 1 to the counter of map 1: `small` has 1 entry and `other` 2. Then PASS. */
static const char counts[] = "program = [\"620afcff01000000\", \"bfa2000000000000\", \"07020000fcffffff\", \"1811000001000000\", \"0000000000000000\",\n"
                             "\"8500000001000000\", \"1500020000000000\", \"b701000001000000\", \"db10000000000000\", \"b700000002000000\", "
                             "\"9500000000000000\"]\n"
                             "map = [{ name = \"small\", entries = 1, counters = 1 }, { name = \"other\", entries = 2, counters = 1 }]\n";
static const uint8_t pass[] = { 0xb7, 0, 0, 0, LAXONJE_PASS, 0, 0, 0, 0x95, 0, 0, 0, 0, 0, 0, 0 };
static const struct laxonje_extent extents[] = { { FRAMES, GUEST } };
static const uint32_t table[] = { TABLE };
static const struct laxonje_queue_desc desc = { TX, RX, GUEST, 0, 3, 0, 0, 0, 0 };
static uint32_t memory[FRAMES][LAXONJE_PAGE_WORDS];
static uint64_t counters[3];
static uint8_t packet[LAXONJE_PACKET + 1];
static jmp_buf out_of_page;
static int wrong, leaves, asked, refuses;

static void is(const char *what, size_t found, size_t wanted)
{
	if (found == wanted)
		return;
	printf("%s: %zu, and not %zu\n", what, found, wanted);
	wrong++;
}

static uint32_t *page(void *host, const struct laxonje_op *op)
{
	if (leaves && op->frame == DATA)
		longjmp(out_of_page, 1);
	return (void)host, ++asked == refuses ? NULL : memory[op->frame];
}

static void notify(void *host, uint32_t port) { (void)host, (void)port; }

static const struct laxonje_io io = { NULL, page, notify, NULL };
static struct laxonje_drive drive;
static struct laxonje_turns turns;

/* Each call with null in place of a handle. */
static void null_programs(struct laxonje_program *program)
{
	uint8_t name[8];
	struct laxonje_result results[1];
	const struct laxonje_packet packets[] = { { 0, BYTES } };
	is("load", laxonje_load(pass, sizeof pass, NULL, 0, NULL).kind, LAXONJE_NULL);
	is("load settings", laxonje_load_settings((const uint8_t *)counts, strlen(counts), NULL).kind, LAXONJE_NULL);
	is("load object", laxonje_load_object((const uint8_t *)counts, strlen(counts), (const uint8_t *)counts, 1, NULL).kind, LAXONJE_NULL);
	is("again to null", laxonje_again(program, NULL).kind, LAXONJE_NULL);
	is("again of null", laxonje_again(NULL, program).kind, LAXONJE_EMPTY);
	is("again of null leaves none", laxonje_map_count(program), 0);
	is("run", laxonje_run(NULL, counters, MOST, packet, BYTES, 0, 0).instructions, 0);
	is("run batch", laxonje_run_batch(NULL, counters, MOST, packet, BYTES, packets, 1, results, 1, 0, 0), 0);
	is("counters", laxonje_counters(NULL), 0);
	is("place", laxonje_place(NULL, 0, 0, 0), LAXONJE_NOWHERE);
	is("map count", laxonje_map_count(NULL), 0);
	is("map size", laxonje_map_size(NULL, 0).entries, 0);
	is("map named", laxonje_map_named(NULL, name, 0), LAXONJE_NOWHERE);
	is("map name", laxonje_map_name(NULL, 0, name, sizeof name), 0);
	is("relist", laxonje_relist(NULL, (const uint8_t *)counts, strlen(counts)).kind, LAXONJE_EMPTY);
	laxonje_free(NULL);
}

static void null_queues(struct laxonje_program *program, struct laxonje_queue *queue)
{
	static const uint16_t owners[FRAMES] = { GUEST, GUEST, GUEST, GUEST };
	static uint32_t words[LAXONJE_PAGE_WORDS];
	struct laxonje_op ops[LAXONJE_OPS];
	is("make", laxonje_queue_make(NULL, owners, FRAMES, table, 1, &desc, queue), LAXONJE_MADE_PROGRAM);
	is("make without a desc", laxonje_queue_make(program, owners, FRAMES, table, 1, NULL, queue), LAXONJE_MADE_NULL);
	is("make into null", laxonje_queue_make(program, owners, FRAMES, table, 1, &desc, NULL), LAXONJE_MADE_NULL);
	is("make of extents", laxonje_queue_make_extents(NULL, extents, 1, table, 1, &desc, queue), LAXONJE_MADE_PROGRAM);
	is("make of extents without a desc", laxonje_queue_make_extents(program, extents, 1, table, 1, NULL, queue), LAXONJE_MADE_NULL);
	is("make of extents into null", laxonje_queue_make_extents(program, extents, 1, table, 1, &desc, NULL), LAXONJE_MADE_NULL);
	is("turn", laxonje_queue_turn(NULL, 0, ops, LAXONJE_OPS), 0);
	is("step", laxonje_queue_step(NULL, words, LAXONJE_PAGE_WORDS, counters, MOST, ops, LAXONJE_OPS), 0);
	is("turns", laxonje_queue_turns(NULL, 0, LAXONJE_TURNS, ops, LAXONJE_OPS), 0);
	is("turns of no queue", laxonje_queue_turns(queue, 0, LAXONJE_TURNS, ops, LAXONJE_OPS), 0);
	is("a step of turns", laxonje_queue_turns_step(NULL, words, LAXONJE_PAGE_WORDS, counters, MOST, ops, LAXONJE_OPS, turns.turned, LAXONJE_TURNS), 0);
	is("a packet of turns", laxonje_queue_turns_packet(NULL, 0, packet, sizeof packet), 0);
	is("a packet of turns of no queue", laxonje_queue_turns_packet(queue, 0, packet, sizeof packet), 0);
	is("queue counters", laxonje_queue_counters(NULL), LAXONJE_NOWHERE);
	is("counters of no queue", laxonje_queue_counters(queue), LAXONJE_NOWHERE);
	is("deliver", laxonje_queue_deliver(NULL, 0, packet, BYTES), LAXONJE_TAKEN_NOT);
	is("deliver as", laxonje_queue_deliver_as(NULL, 0, packet, BYTES, LAXONJE_OFFLOAD_TCPV4, 1), LAXONJE_TAKEN_NOT);
	is("deliver as of no queue", laxonje_queue_deliver_as(queue, 0, packet, BYTES, LAXONJE_OFFLOAD_TCPV4, 1), LAXONJE_TAKEN_NOT);
	is("await", laxonje_queue_await(NULL, 1), LAXONJE_TAKEN_NOT);
	is("flags", laxonje_queue_flags(NULL), 0);
	is("offer", laxonje_queue_offer(NULL, 0), LAXONJE_OFFERED_NOT);
	is("offer of no queue", laxonje_queue_offer(queue, 0), LAXONJE_OFFERED_NOT);
	is("accept", laxonje_queue_accept(NULL, LAXONJE_ACCEPT_CSUM_BLANK), LAXONJE_OFFERED_NOT);
	is("accept of no queue", laxonje_queue_accept(queue, LAXONJE_ACCEPT_CSUM_BLANK), LAXONJE_OFFERED_NOT);
	is("segment type", laxonje_queue_segment_type(NULL), LAXONJE_SEGMENTS_NONE);
	is("segment size", laxonje_queue_segment_size(NULL), 0);
	is("packet", laxonje_queue_packet(NULL, packet, sizeof packet), 0);
	is("state", laxonje_queue_state(NULL).kind, LAXONJE_STANDS_NOT);
	is("queue relist", laxonje_queue_relist(NULL, program), LAXONJE_RELISTED_NOT);
	is("queue relist of null", laxonje_queue_relist(NULL, NULL), LAXONJE_RELISTED_NOT);
	is("queue relist of no queue", laxonje_queue_relist(queue, NULL), LAXONJE_RELISTED_NOT);
	laxonje_queue_free(NULL);
	laxonje_queue_delete(NULL), laxonje_program_delete(NULL), laxonje_counters_delete(NULL);
}

/* What a turn, a delivery and a wait answer if nothing can be begun. */
static void nothing_begins(const char *what, uint32_t cause)
{
	struct laxonje_op over = laxonje_drive_turn(&drive, &io);
	is(what, over.outcome, LAXONJE_NOTHING);
	is(what, over.cause, cause);
	over = laxonje_drive_turns(&drive, &io, LAXONJE_TURNS, &turns);
	is(what, over.outcome, LAXONJE_NOTHING);
	is(what, over.cause, cause);
	is(what, turns.count + laxonje_drive_packet(&drive, &turns, 0, packet, sizeof packet), 0);
	is(what, laxonje_drive_deliver(&drive, &io, packet, BYTES, &over), cause);
	is(what, over.outcome, LAXONJE_NOTHING);
	is(what, over.cause, cause);
	is(what, laxonje_drive_await(&drive, &io, BYTES, &over), cause);
	is(what, over.outcome, LAXONJE_NOTHING);
	is(what, over.cause, cause);
}

/* A packet of 60 bytes in the page of reference 0. */
static void guest_sends(void)
{
	uint32_t slot = 16 + 3 * (memory[TX][0] % 256);
	memory[TABLE][0] = PERMIT, memory[TABLE][1] = DATA;
	memory[TX][slot] = 0, memory[TX][slot + 1] = 0, memory[TX][slot + 2] = 7 | BYTES << 16;
	memory[TX][0]++;
}

static void few_counters(struct laxonje_program *program)
{
	laxonje_load_settings((const uint8_t *)counts, strlen(counts), program);
	is("a queue", laxonje_queue_make_extents(program, extents, 1, table, 1, &desc, drive.queue), LAXONJE_MADE);
	is("lists of null", laxonje_queue_relist(drive.queue, NULL), LAXONJE_RELISTED_PROGRAM);
	is("its counters", laxonje_queue_counters(drive.queue), 3);
	drive.counters = counters, drive.counter_count = 2;
	guest_sends();
	nothing_begins("too few counters", LAXONJE_TAKEN_COUNTERS);
	is("a queue that nothing was begun on", laxonje_queue_state(drive.queue).kind, LAXONJE_STANDS);
	drive.counter_count = 3;
	is("a turn with enough", laxonje_drive_turn(&drive, &io).outcome, LAXONJE_TURN_RAN);
	is("its count", counters[2], 1);
}

static void names(struct laxonje_program *program)
{
	uint8_t name[8] = { 0 };
	is("small", laxonje_map_named(program, (const uint8_t *)"small", 5), 0);
	is("other", laxonje_map_named(program, (const uint8_t *)"other", 5), 1);
	is("a name that is longer", laxonje_map_named(program, (const uint8_t *)"others", 6), LAXONJE_NOWHERE);
	is("no name", laxonje_map_named(program, NULL, 0), LAXONJE_NOWHERE);
	is("the name of map 1", laxonje_map_name(program, 1, name, sizeof name), 5);
	is("the name of map 1", memcmp(name, "other", 6), 0);
	is("its bytes without room", laxonje_map_name(program, 1, NULL, 0), 5);
	is("the name of map 2", laxonje_map_name(program, 2, name, sizeof name), 0);
	laxonje_load(pass, sizeof pass, NULL, 0, program);
	is("a program without settings", laxonje_map_named(program, (const uint8_t *)"small", 5), LAXONJE_NOWHERE);
}

static void waits(void)
{
	static const size_t lengths[] = { 0, 13, LAXONJE_PACKET + 1, SIZE_MAX - 4095, SIZE_MAX - 4094, SIZE_MAX };
	struct laxonje_op over;
	for (size_t i = 0; i < sizeof lengths / sizeof lengths[0]; i++) {
		is("a wait for no packet", laxonje_drive_await(&drive, &io, lengths[i], &over), LAXONJE_TAKEN_NO_FRAME);
		is("a wait for no packet", over.outcome, LAXONJE_NOTHING);
	}
	is("a wait for 257 slots", laxonje_queue_await(drive.queue, 257), LAXONJE_TAKEN_SLOTS);
	is("a wait for all", laxonje_queue_await(drive.queue, UINT32_MAX), LAXONJE_TAKEN_SLOTS);
	is("a queue that waits for nothing", laxonje_queue_state(drive.queue).kind, LAXONJE_STANDS);
	is("the longest packet", laxonje_drive_await(&drive, &io, LAXONJE_PACKET, &over), LAXONJE_TAKEN);
	is("its wait", over.outcome, LAXONJE_AWAITED_WAITING);
	is("256 slots", laxonje_queue_await(drive.queue, 256), LAXONJE_TAKEN);
	nothing_begins("inside a wait", LAXONJE_TAKEN_BUSY);
}

/* An access that wasn't made isn't gone on after: the packet's words were never read. */
static void left_out(struct laxonje_program *program)
{
	struct laxonje_queue_desc next = desc;
	next.tx_index = 1;
	is("a queue in its place", laxonje_queue_make_extents(program, extents, 1, table, 1, &next, drive.queue), LAXONJE_MADE);
	guest_sends();
	leaves = 1;
	if (!setjmp(out_of_page))
		laxonje_drive_turn(&drive, &io), is("a page that isn't left", 1, 0);
	leaves = 0;
	nothing_begins("after a page that was left", LAXONJE_TAKEN_BUSY);
	is("its packet", laxonje_queue_packet(drive.queue, packet, sizeof packet), 0);
}

/* A turn of these packets: of one by the call for one. */
static uint32_t takes(uint32_t packets)
{
	return packets == 1 ? laxonje_drive_turn(&drive, &io).outcome : laxonje_drive_turns(&drive, &io, packets, &turns).outcome;
}

/* A page that can't be had, for each access of a turn: none is made after it. If it was the first, nothing was begun. */
static void null_pages(struct laxonje_program *program, uint32_t packets, int accesses, uint32_t outcome)
{
	for (refuses = 1; refuses <= accesses; refuses++) {
		struct laxonje_queue_desc next = desc;
		next.tx_index = memory[TX][0];
		is("a queue for a null page", laxonje_queue_make_extents(program, extents, 1, table, 1, &next, drive.queue), LAXONJE_MADE);
		for (uint32_t packet = 0; packet < packets; packet++)
			guest_sends();
		asked = 0;
		is("a turn with a null page", takes(packets), LAXONJE_NOTHING);
		is("what was asked for until then", (size_t)asked, (size_t)refuses);
		if (refuses > 1)
			nothing_begins("after a null page", LAXONJE_TAKEN_BUSY);
		else
			is("a turn after a null page", takes(packets), outcome);
		laxonje_queue_free(drive.queue);
	}
	refuses = asked + 1;
	nothing_begins("no queue any more", LAXONJE_TAKEN_NOT);
	refuses = 0;
}

int main(void)
{
	struct laxonje_program *program = laxonje_program_new();
	drive.queue = laxonje_queue_new(), drive.tx = TX, drive.rx = RX;
	laxonje_load(pass, sizeof pass, NULL, 0, program);
	null_queues(program, drive.queue);
	nothing_begins("no queue", LAXONJE_TAKEN_NOT);
	null_programs(program);
	few_counters(program);
	names(program);
	waits();
	laxonje_load_settings((const uint8_t *)counts, strlen(counts), program);
	left_out(program);
	null_pages(program, 1, 6, LAXONJE_TURN_RAN);
	null_pages(program, 2, 9, LAXONJE_TURN_SEVERAL);
	laxonje_queue_delete(&drive.queue);
	laxonje_program_delete(&program);
	nothing_begins("a null queue", LAXONJE_TAKEN_NOT);
	printf("%d wrong\n", wrong);
	return wrong != 0;
}
