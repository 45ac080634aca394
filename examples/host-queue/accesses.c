/* The accesses that laxonje_drive.h makes, seen by macros in place of the compiler's atomic operations and of the loads of four words and two: those
 * of the ops that the host is told, each once and in order, after the question for its page and before the op is told. It is C and C++. */
#include <laxonje.h>
#include <stdio.h>
#include <string.h>

enum { TX, RX, TABLE, DATA, FRAMES, GUEST = 1, PORT = 3, SHORT = 13, BYTES = 60, LONG = 4100, PERMIT = 1, MOST = 2048 };

enum kind { ASKED, LOADED, STORED, FENCED, NOTIFIED };
struct step { enum kind kind; const uint32_t *at; uint32_t value; int order; };

static uint32_t memory[FRAMES][LAXONJE_PAGE_WORDS];
static struct step steps[MOST];
static size_t count, next;
static int wrong;

static void note(enum kind kind, const uint32_t *at, uint32_t value, int order)
{
	const struct step step = { kind, at, value, order };
	steps[count % MOST] = step;
	count++;
}

static uint32_t loaded(const uint32_t *at, int order)
{
	note(LOADED, at, *at, order);
	return *at;
}

static void stored(uint32_t *at, uint32_t value, int order)
{
	note(STORED, at, value, order);
	*at = value;
}

static void loaded_4(uint32_t *words, const uint32_t *at)
{
	for (int i = 0; i < 4; i++)
		words[i] = loaded(at + i, __ATOMIC_ACQUIRE);
}

static void loaded_2(uint32_t *words, const uint32_t *at)
{
	for (int i = 0; i < 2; i++)
		words[i] = loaded(at + i, __ATOMIC_ACQUIRE);
}

#define LAXONJE_LOAD_4_(words, at) loaded_4(words, at)
#define LAXONJE_LOAD_2_(words, at) loaded_2(words, at)
#define __atomic_load_n(at, order) loaded(at, order)
#define __atomic_store_n(at, value, order) stored(at, value, order)
#define __atomic_thread_fence(order) note(FENCED, NULL, 0, order)
#include <laxonje_drive.h>

static void is(const char *what, uint32_t found, uint32_t wanted)
{
	if (found == wanted)
		return;
	printf("%s: %u, and not %u\n", what, found, wanted);
	wrong++;
}

/* The next step has to be this one. */
static void follows(enum kind kind, const uint32_t *at, uint32_t value, int order)
{
	const struct step *found = &steps[next++ % MOST];
	is("a step's kind", found->kind, kind);
	is("a step's place", found->at == at, 1);
	is("a step's value", found->value, value);
	is("a step's order", found->order, order);
}

static uint32_t *page(void *host, const struct laxonje_op *op)
{
	note(ASKED, memory[op->frame], op->kind, 0);
	return (void)host, memory[op->frame];
}

static void notify(void *host, uint32_t port) { note(NOTIFIED, NULL, port, 0), (void)host; }

/* The steps of an op, and the words that are lent after it. */
static void makes(const struct laxonje_op *op, const uint32_t *words)
{
	if (op->kind == LAXONJE_OP_NOTIFY)
		follows(NOTIFIED, NULL, op->value[0], 0);
	if (op->kind == LAXONJE_OP_NOTIFY || op->kind == LAXONJE_OP_DONE)
		return;
	const uint32_t *at = memory[op->frame];
	const uint32_t *from = op->kind == LAXONJE_OP_STORE ? op->value : words + op->lent;
	follows(ASKED, at, op->kind, 0);
	for (uint32_t i = 0; op->kind == LAXONJE_OP_READ && i < op->count; i++)
		follows(LOADED, at + op->word + i, from[i], __ATOMIC_ACQUIRE);
	for (uint32_t i = 0; (op->kind == LAXONJE_OP_WRITE || op->kind == LAXONJE_OP_STORE) && i < op->count; i++)
		follows(STORED, at + op->word + i, from[i], __ATOMIC_RELEASE);
	if (op->kind != LAXONJE_OP_PUSH)
		return;
	follows(STORED, at + op->word, op->value[0], __ATOMIC_RELEASE);
	follows(FENCED, NULL, 0, __ATOMIC_SEQ_CST);
	follows(LOADED, at + op->value[1], from[0], __ATOMIC_ACQUIRE);
}

/* An op, once it is made: its letter is printed, and the frame of an access. */
static void told(void *host, const struct laxonje_op *op, const uint32_t *words)
{
	makes(op, words);
	is("the steps of an op", (uint32_t)count, (uint32_t)next);
	if (op->kind == LAXONJE_OP_NOTIFY || op->kind == LAXONJE_OP_DONE)
		printf("%c ", "?RWNDSP"[op->kind]), (void)host;
	else
		printf("%c%u ", "?RWNDSP"[op->kind], op->frame);
}

static const struct laxonje_io io = { NULL, page, notify, told };
static struct laxonje_drive drive;
static uint8_t packet[LONG];

static void turns(void)
{
	struct laxonje_op over = laxonje_drive_turn(&drive, &io);
	printf("%s\n", laxonje_name(over.outcome, over.cause));
}

/* A turn of several packets, one after another, and of one alone. */
static void takes_several(uint32_t most, uint32_t packets)
{
	static struct laxonje_turns room;
	struct laxonje_op over = laxonje_drive_turns(&drive, &io, most, &room);
	printf("%s\n", laxonje_name(over.outcome, over.cause));
	is("packets", room.count, packets);
	for (uint32_t number = 0; number < packets; number++) {
		is("a packet's outcome", room.turned[number].outcome, LAXONJE_TURN_RAN);
		is("a packet's length", room.turned[number].length, BYTES);
		is("a packet", (uint32_t)laxonje_drive_packet(&drive, &room, number, packet, BYTES), BYTES);
	}
	is("no packet", (uint32_t)laxonje_drive_packet(&drive, &room, packets, packet, BYTES), 0);
}

static void delivers(size_t bytes)
{
	struct laxonje_op over;
	if (laxonje_drive_deliver(&drive, &io, packet, bytes, &over) == LAXONJE_TAKEN)
		printf("%s\n", laxonje_name(over.outcome, over.cause));
	else
		printf("not taken\n");
}

/* A wait, and the event index that it stores. */
static void waits(size_t bytes, uint32_t index)
{
	struct laxonje_op over;
	is("a wait", laxonje_drive_await(&drive, &io, bytes, &over), LAXONJE_TAKEN);
	is("an event index", memory[RX][1], index);
	printf("%s\n", laxonje_name(over.outcome, over.cause));
}

/* A packet of 60 bytes, in the page of reference 0, which may be written. */
static void guest_sends(void)
{
	memory[TABLE][0] = PERMIT, memory[TABLE][1] = DATA;
	memory[TX][18] = 7 | BYTES << 16;
	memory[TX][1] = memory[TX][3] = memory[RX][3] = memory[TX][0] = 1;
}

/* So many packets more, each in the same page. */
static void guest_sends_more(uint32_t packets)
{
	for (; packets; packets--)
		memory[TX][18 + 3 * memory[TX][0]++] = BYTES << 16;
}

/* Two buffers: twice the page of reference 0. */
static void guest_posts(void)
{
	memory[RX][16] = 1, memory[RX][18] = 2;
	memory[RX][0] = 2;
}

/* Each cause has a name of its own, and so has each outcome that has no cause. */
static void names(void)
{
	static const uint32_t outcomes[] = { LAXONJE_TURN_IDLE, LAXONJE_TURN_RAN, LAXONJE_TURN_SEVERAL, LAXONJE_DELIVERY_SENT, LAXONJE_DELIVERY_FEW_SLOTS,
		                             LAXONJE_AWAITED_POSTED, LAXONJE_AWAITED_WAITING };
	const char *found[32];
	size_t named = 0;
	for (size_t i = 0; i < sizeof outcomes / sizeof outcomes[0]; i++)
		found[named++] = laxonje_name(outcomes[i], 0);
	for (uint32_t cause = LAXONJE_REFUSAL_SHORT; cause <= LAXONJE_REFUSAL_RX_GRANT; cause++)
		found[named++] = laxonje_name(LAXONJE_TURN_REFUSED, cause);
	for (uint32_t cause = LAXONJE_HALT_TX_PRODUCER; cause <= LAXONJE_HALT_RX_PRODUCER; cause++)
		found[named++] = laxonje_name(LAXONJE_DELIVERY_HALTED, cause);
	for (size_t i = 0; i < named; i++)
		for (size_t k = 0; k < i; k++)
			is(found[i], strcmp(found[i], found[k]) == 0, 0);
}

int main(void)
{
	static const uint8_t pass[] = { 0xb7, 0, 0, 0, LAXONJE_PASS, 0, 0, 0, 0x95, 0, 0, 0, 0, 0, 0, 0 };
	static const struct laxonje_extent extents[] = { { FRAMES, GUEST } };
	static const uint32_t table[] = { TABLE };
	const struct laxonje_queue_desc desc = { TX, RX, GUEST, 0, PORT, 0, 0, 0, 0 };
	struct laxonje_program *program = laxonje_program_new();
	drive.queue = laxonje_queue_new(), drive.tx = TX, drive.rx = RX;
	laxonje_load(pass, sizeof pass, NULL, 0, program);
	is("a queue", laxonje_queue_make_extents(program, extents, 1, table, 1, &desc, drive.queue), LAXONJE_MADE);
	guest_sends();
	turns();
	turns();
	delivers(SHORT);
	delivers(BYTES);
	waits(BYTES, 1);
	waits(4096, 1);
	waits(4097, 2);
	guest_posts();
	waits(LONG, 2);
	delivers(LONG);
	guest_sends_more(3);
	takes_several(2, 2);
	takes_several(2, 1);
	takes_several(2, 0);
	names();
	laxonje_queue_free(drive.queue);
	turns();
	laxonje_queue_delete(&drive.queue);
	laxonje_program_delete(&program);
	printf("%d wrong\n", wrong);
	return wrong != 0;
}
