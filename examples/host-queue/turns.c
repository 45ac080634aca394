/* What a queue asks for in turns of several packets, op by op: a text for each step. What a step is lent too little of, and what else may not begin
 * meanwhile. It is C and C++.
 *
 * An op of a text: R, words that are read, or E, a grant entry, or W, words that are written, each with its frame, its first word, how many words,
 * and where they lie; S and P, what is stored in a word or two, and of a push which word is read then; N, a notice; D, the outcome and how many
 * packets. */
#include <laxonje_drive.h>
#include <stdio.h>
#include <string.h>

enum { TX, RX, TABLE, DATA, FOREIGN, FRAMES, GUEST = 5, PORT = 7, PERMIT = 1, HEADER = 14, RING = 256, SLOT_WORDS = 3, FIRST = 16 };
enum { TEXT = 512, LEAST_OPS = 18 };

static uint32_t memory[FRAMES][LAXONJE_PAGE_WORDS];
static struct laxonje_turns room;
static struct laxonje_queue *queue;
static int wrong;

static void is(const char *what, size_t found, size_t wanted)
{
	if (found == wanted)
		return;
	printf("%s: %zu, and not %zu\n", what, found, wanted);
	wrong++;
}

/* A queue of a program that returns this number, on new rings whose slots begin at an index. */
static void makes(uint8_t number, uint32_t index)
{
	static const struct laxonje_extent extents[] = { { FOREIGN, GUEST }, { 1, GUEST + 1 } };
	static const uint32_t table[] = { TABLE };
	const struct laxonje_queue_desc desc = { TX, RX, GUEST, 0, PORT, 0, 0, index, 0 };
	const uint8_t code[] = { 0xb7, 0, 0, 0, number, 0, 0, 0, 0x95, 0, 0, 0, 0, 0, 0, 0 };
	struct laxonje_program *program = laxonje_program_new();
	memset(memory, 0, sizeof memory);
	memory[TX][0] = memory[TX][2] = index, memory[TX][3] = index + 1;
	memory[RX][3] = 1;
	memory[TABLE][0] = PERMIT, memory[TABLE][1] = DATA;
	memory[TABLE][2] = PERMIT, memory[TABLE][3] = FOREIGN;
	is("a program", laxonje_load(code, sizeof code, NULL, 0, program).kind, LAXONJE_ACCEPTED);
	is("a queue", laxonje_queue_make_extents(program, extents, 2, table, 1, &desc, queue), LAXONJE_MADE);
	laxonje_program_delete(&program);
}

/* A slot of that many bytes at the start of the page of a reference, whose id is the index's. */
static void sends(uint32_t reference, uint32_t flags, uint32_t size)
{
	uint32_t index = memory[TX][0]++, at = FIRST + SLOT_WORDS * (index % RING);
	memory[TX][at] = reference, memory[TX][at + 1] = flags << 16, memory[TX][at + 2] = index % RING | size << 16;
}

static void posts(uint32_t reference)
{
	uint32_t index = memory[RX][0]++, at = FIRST + 2 * (index % RING);
	memory[RX][at] = index, memory[RX][at + 1] = reference;
}

/* An op in words, and its accesses. */
static void makes_op(const struct laxonje_op *op, char *text)
{
	uint32_t *lent = room.words_ + op->lent;
	const char *what = op->entry ? "E" : op->kind == LAXONJE_OP_READ ? "R" : "W";
	if (op->kind == LAXONJE_OP_NOTIFY || op->kind == LAXONJE_OP_DONE) {
		int notifies = op->kind == LAXONJE_OP_NOTIFY;
		sprintf(text, notifies ? "N%u" : "D%u:%u", notifies ? op->value[0] : op->outcome, op->slots);
		return;
	}
	uint32_t *at = &memory[op->frame][op->word];
	if (op->kind == LAXONJE_OP_READ || op->kind == LAXONJE_OP_WRITE) {
		memcpy(op->kind == LAXONJE_OP_READ ? lent : at, op->kind == LAXONJE_OP_READ ? at : lent, 4 * op->count);
		sprintf(text, "%s%u.%u+%u:%u", what, op->frame, op->word, op->count, op->lent);
		return;
	}
	memcpy(at, op->value, 4 * op->count);
	const char *form = op->kind == LAXONJE_OP_PUSH ? "P%u.%u=%x,%u:%u" : op->count == 2 ? "S%u.%u=%x,%x" : "S%u.%u=%x";
	sprintf(text, form, op->frame, op->word, op->value[0], op->value[1], op->lent);
	if (op->kind == LAXONJE_OP_PUSH)
		*lent = memory[op->frame][op->value[1]];
}

/* The ops of a step have to be these. Returns whether the last of them ends the turn. */
static int says(const struct laxonje_op *ops, size_t count, const char *wanted)
{
	char text[TEXT] = "";
	for (size_t i = 0; i < count; i++) {
		strcat(text, i ? " " : "");
		makes_op(&ops[i], text + strlen(text));
	}
	if (strcmp(text, wanted))
		printf("%s, and not %s\n", text, wanted), wrong++;
	return !count || strcmp(text, wanted) || ops[count - 1].kind == LAXONJE_OP_DONE;
}

static size_t steps_by(size_t word_count, struct laxonje_op *ops, size_t op_count, size_t turned_count)
{
	return laxonje_queue_turns_step(queue, room.words_, word_count, NULL, 0, ops, op_count, room.turned, turned_count);
}

static size_t steps(struct laxonje_op *ops, size_t op_count) { return steps_by(LAXONJE_TURNS_WORDS, ops, op_count, LAXONJE_TURNS); }

/* A turn of up to `most` packets with room for so many ops at a step. Its steps are these texts. */
static void goes(uint32_t most, size_t op_count, const char *const *texts)
{
	struct laxonje_op ops[LAXONJE_TURNS_OPS];
	size_t count = laxonje_queue_turns(queue, memory[TX][0], most, ops, op_count);
	while (!says(ops, count, *texts++))
		count = steps(ops, op_count);
	is("steps", *texts == NULL, 1);
}

#define GOES_BY(most, op_count, ...) do { static const char *const texts[] = { __VA_ARGS__, NULL }; goes(most, op_count, texts); } while (0)
#define GOES(most, ...) GOES_BY(most, LAXONJE_TURNS_OPS, __VA_ARGS__)

/* What became of a packet: its outcome, its number or cause, its slots, its length and its flags. */
static void became(uint32_t number, uint32_t outcome, uint32_t cause, uint32_t slots, uint32_t length, uint32_t flags)
{
	const struct laxonje_turned *turned = &room.turned[number];
	is("an outcome", turned->outcome, outcome);
	is("a number or a cause", outcome == LAXONJE_TURN_RAN ? turned->number : turned->cause, cause);
	is("slots", turned->slots, slots);
	is("a length", turned->length, length);
	is("flags", turned->flags, flags);
	is("operations and segments", turned->ops + turned->segment_type + turned->segment_size, 0);
	is("a packet", laxonje_queue_turns_packet(queue, number, NULL, 0), length);
}

static void passed(void)
{
	makes(LAXONJE_PASS, 0);
	sends(0, LAXONJE_FLAG_CSUM_BLANK, HEADER), sends(1, 0, 60), sends(0, LAXONJE_FLAG_MORE_DATA, 20), sends(0, 0, 6);
	GOES(LAXONJE_TURNS, "R0.16+12:0", "E2.0+2:48 E2.2+2:1072 E2.0+2:2096", "R3.0+4:48 S0.19=ffff0001 R3.0+4:2096", "S0.16=0 E2.0+2:2096", "R3.0+2:2096",
	     "S0.22=2 S0.25=3 P0.2=4,3:0", "N7 D13:3");
	became(0, LAXONJE_TURN_RAN, LAXONJE_PASS, 1, HEADER, LAXONJE_FLAG_CSUM_BLANK);
	became(1, LAXONJE_TURN_REFUSED, LAXONJE_REFUSAL_GRANT, 1, 0, 0);
	became(2, LAXONJE_TURN_RAN, LAXONJE_PASS, 2, 20, LAXONJE_FLAG_MORE_DATA);
	is("the tx index", laxonje_queue_state(queue).tx_index, 4);
	is("a packet behind the last", laxonje_queue_turns_packet(queue, 3, NULL, 0), 0);
	is("a packet of no number", laxonje_queue_turns_packet(queue, SIZE_MAX, NULL, 0), 0);
	GOES(LAXONJE_TURNS, "P0.1=5,0:0", "D0:0");
}

/* At the ring's end, of as many as may be: the third is for the next turn. */
static void wrapped(void)
{
	makes(LAXONJE_DROP, UINT32_MAX);
	sends(0, 0, HEADER), sends(0, 0, HEADER), sends(0, 0, HEADER);
	GOES(2, "R0.781+3:0 R0.16+3:3", "E2.0+2:48 E2.0+2:1072", "R3.0+4:48 R3.0+4:1072", "S0.781=fffe00ff S0.16=fffe0000 P0.2=1,3:0", "N7 D13:2");
	GOES(2, "R0.19+3:0", "E2.0+2:0", "R3.0+4:0", "S0.19=fffe0001 P0.2=2,3:0", "D1:1");
}

/* The first two go back, one after the other, and find buffers; the third finds none. Their responses are shown at once. */
static void sent_back(void)
{
	makes(LAXONJE_TX, 0);
	sends(0, 0, HEADER), sends(0, 0, HEADER), sends(0, 0, HEADER);
	posts(0), posts(0);
	GOES(LAXONJE_TURNS, "R0.16+9:0", "E2.0+2:48 E2.0+2:1072 E2.0+2:2096", "R3.0+4:48 R3.0+4:1072 R3.0+4:2096", "R1.0+1:48", "R1.16+2:48", "E2.0+2:48",
	     "W3.0+4:48 S1.16=0,e0000 P1.2=1,3:48", "N7 S0.16=0 R1.0+1:1072", "R1.18+2:1072", "E2.0+2:1072", "W3.0+4:1072 S1.18=1,e0000 P1.2=2,3:1072",
	     "S0.19=1 R1.0+1:2096", "S0.22=ffff0002 P0.2=3,3:0", "N7 D13:3");
	became(1, LAXONJE_TURN_RAN, LAXONJE_TX, 1, HEADER, 0);
	became(2, LAXONJE_TURN_REFUSED, LAXONJE_REFUSAL_FEW_SLOTS, 1, 0, 0);
}

/* The second wants a slot that isn't shown: the first is answered, and the queue halts. */
static void halted(void)
{
	makes(LAXONJE_PASS, 0);
	sends(0, 0, HEADER), sends(0, LAXONJE_FLAG_MORE_DATA, 60);
	GOES(LAXONJE_TURNS, "R0.16+6:0", "E2.0+2:48", "R3.0+4:48", "S0.16=0 P0.2=1,3:0", "N7 D13:2");
	became(0, LAXONJE_TURN_RAN, LAXONJE_PASS, 1, HEADER, 0);
	became(1, LAXONJE_TURN_HALTED, LAXONJE_HALT_SHORT_CHAIN, 0, 0, 0);
	is("a halt", laxonje_queue_state(queue).kind, LAXONJE_STANDS_HALTED);
	GOES(LAXONJE_TURNS, "D3:0");
}

/* Turns of one: of fewer packets, with room for one op, and of a guest that shows too many. */
static void one_by_one(void)
{
	makes(LAXONJE_PASS, 0);
	sends(0, 0, HEADER), sends(0, 0, HEADER), sends(0, 0, HEADER);
	GOES(0, "R0.16+3:0", "E2.0+2:0", "R3.0+4:0", "S0.16=0 P0.2=1,3:0", "N7 D1:1");
	GOES_BY(LAXONJE_TURNS, 1, "R0.19+3:0", "E2.0+2:0", "R3.0+4:0", "S0.19=1", "P0.2=2,3:0", "D1:1");
	GOES(LAXONJE_TURNS, "R0.22+3:0", "E2.0+2:0", "R3.0+4:0", "S0.22=2 P0.2=3,3:0", "D1:1");
	is("the tx index", laxonje_queue_state(queue).tx_index, 3);
	memory[TX][0] += RING + 1;
	GOES(LAXONJE_TURNS, "D3:0");
}

/* With too little a step says nothing, and nothing changes. */
static void says_nothing(void)
{
	static uint32_t words[LAXONJE_TURNS_WORDS];
	struct laxonje_op ops[LAXONJE_TURNS_OPS];
	memset(ops, 0xa5, sizeof ops);
	memcpy(words, room.words_, sizeof words);
	is("few words", steps_by(LAXONJE_TURNS_WORDS - 1, ops, LAXONJE_TURNS_OPS, LAXONJE_TURNS), 0);
	is("few ops", steps(ops, LEAST_OPS - 1), 0);
	is("few results", steps_by(LAXONJE_TURNS_WORDS, ops, LAXONJE_TURNS_OPS, LAXONJE_TURNS - 1), 0);
	is("words that stay", memcmp(words, room.words_, sizeof words), 0);
	is("an op that stays", ops[0].kind, 0xa5a5a5a5);
}

/* What doesn't begin inside a turn of several. */
static void begins_nothing(void)
{
	struct laxonje_op ops[LAXONJE_OPS];
	const uint8_t packet[HEADER] = { 0 };
	is("a turn", laxonje_queue_turn(queue, 0, ops, LAXONJE_OPS), 0);
	is("another turn of several", laxonje_queue_turns(queue, 0, LAXONJE_TURNS, ops, LAXONJE_OPS), 0);
	is("a step of a turn of one", laxonje_queue_step(queue, room.words_, LAXONJE_PAGE_WORDS, NULL, 0, ops, LAXONJE_OPS), 0);
	is("a delivery", laxonje_queue_deliver(queue, 0, packet, sizeof packet), LAXONJE_TAKEN_BUSY);
	is("a wait", laxonje_queue_await(queue, 1), LAXONJE_TAKEN_BUSY);
	is("offers", laxonje_queue_offer(queue, 0), LAXONJE_OFFERED_BUSY);
	is("a state", laxonje_queue_state(queue).kind, LAXONJE_STANDS_NOT);
	is("a packet", laxonje_queue_packet(queue, NULL, 0), 0);
	is("a packet of several", laxonje_queue_turns_packet(queue, 0, NULL, 0), 0);
}

/* A turn of several with as little as it may be lent. */
static void inside(void)
{
	static const char *const texts[] = { "R0.16+6:0", "E2.0+2:48 E2.0+2:1072", "R3.0+4:48 R3.0+4:1072", "S0.16=0 S0.19=1 P0.2=2,3:0", "N7 D13:2" };
	const char *const *text = texts;
	struct laxonje_op ops[LAXONJE_TURNS_OPS];
	makes(LAXONJE_PASS, 0);
	sends(0, 0, HEADER), sends(0, 0, HEADER);
	for (size_t count = laxonje_queue_turns(queue, memory[TX][0], LAXONJE_TURNS, ops, 2); !says(ops, count, *text++); count = steps(ops, LEAST_OPS))
		begins_nothing(), says_nothing();
	is("a state", laxonje_queue_state(queue).kind, LAXONJE_STANDS);
	is("a step of nothing", steps(ops, LAXONJE_TURNS_OPS), 0);
}

int main(void)
{
	queue = laxonje_queue_new();
	passed(), wrapped(), sent_back(), halted(), one_by_one(), inside();
	laxonje_queue_delete(&queue);
	printf("%d wrong\n", wrong);
	return wrong != 0;
}
