/* A fuzz target of netback's queue: the input is what a guest answers, word by word, and each op is checked against docs/HOST.md.
 *
 *     clang -g -fsanitize=fuzzer,address,undefined -I out/host fuzz.c out/host/liblaxonje.a
 *
 * With -DWITHOUT_FUZZER it has a `main` of its own, for any compiler: fuzz RUNS makes inputs by a generator, and says how often a turn, a
 * delivery or a wait came to each outcome. A host that links the target with its own filter sets `fuzz_program` and `fuzz_program_bytes`. */
#include <laxonje.h>
#include <stdbool.h>
#include <stdio.h>
#include <stdlib.h>

enum { TX, RX, TABLE, FRAMES = 32, OWN = 24, GUEST = 1, OTHER = 0x7ff4, FRAME = 60, PERMIT = 1, PORT = 3000, RSP_PROD = 2, RING = 256 };
enum { TASKS = 4, MOST_ACCESSES = 33026, LEAST_OPS = 18 };

/* Sends each packet back. */
static const uint8_t sends[] = { 0xb7, 0, 0, 0, LAXONJE_TX, 0, 0, 0, 0x95, 0, 0, 0, 0, 0, 0, 0 };
const uint8_t *fuzz_program = sends;
size_t fuzz_program_bytes = sizeof sends;

int LLVMFuzzerTestOneInput(const uint8_t *bytes, size_t size);

struct input { const uint8_t *bytes; size_t size, at; };

/* The next word of the input, and then zeros. */
static uint32_t next(struct input *input)
{
	uint32_t word = 0;
	for (int i = 0; i < 4 && input->at < input->size; i++)
		word |= (uint32_t)input->bytes[input->at++] << 8 * i;
	return word;
}

/* An index on either side of the wrap. */
static uint32_t near_zero(struct input *input) { return next(input) % 4 - 2; }

static void is(bool right, const char *what)
{
	if (!right)
		fprintf(stderr, "%s\n", what), abort();
}

/* What is gone on with. */
enum task { TURN, TURNS, OTHERS };

/* Whether responses were pushed in what is under way: then the pages of its packets are the guest's again. A turn of several sends some back before
 * it has read the others. */
static bool answered;

static uint32_t words[LAXONJE_TURNS_WORDS];
static struct laxonje_turned turned[LAXONJE_TURNS];
static unsigned long outcomes[LAXONJE_TURN_SEVERAL + 1];

/* An op: the accesses that it makes, all in the guest's own frames. */
static size_t make(struct input *input, enum task task, const struct laxonje_op *op)
{
	const uint32_t lent = task == TURNS ? LAXONJE_TURNS_WORDS : LAXONJE_PAGE_WORDS;
	if (op->kind == LAXONJE_OP_DONE || op->kind == LAXONJE_OP_NOTIFY)
		return 0;
	is(op->frame < OWN, "a frame that isn't the guest's");
	is(!answered || op->frame == TX || op->frame == RX, "a granted page after the responses");
	answered = answered || (op->kind == LAXONJE_OP_PUSH && op->word == RSP_PROD && (task != TURNS || op->frame == TX));
	is(op->count <= LAXONJE_PAGE_WORDS && op->word <= LAXONJE_PAGE_WORDS - op->count, "words past a page");
	is(op->lent <= lent - op->count, "words past the lent ones");
	for (uint32_t i = 0; op->kind == LAXONJE_OP_READ && i < op->count; i++)
		words[op->lent + i] = next(input);
	if (op->kind == LAXONJE_OP_PUSH)
		words[op->lent] = next(input);
	return op->count + (op->kind == LAXONJE_OP_PUSH);
}

static size_t begin(struct input *input, struct laxonje_queue *queue, enum task task, struct laxonje_op *ops, size_t room)
{
	if (task == TURNS)
		return laxonje_queue_turns(queue, next(input), next(input) % (LAXONJE_TURNS + 1), ops, room);
	if (task == TURN)
		return laxonje_queue_turn(queue, next(input), ops, room);
	return laxonje_queue_step(queue, words, LAXONJE_PAGE_WORDS, NULL, 0, ops, room);
}

static size_t step(struct laxonje_queue *queue, enum task task, struct laxonje_op *ops, size_t room)
{
	if (task == TURNS)
		return laxonje_queue_turns_step(queue, words, LAXONJE_TURNS_WORDS, NULL, 0, ops, room, turned, LAXONJE_TURNS);
	return laxonje_queue_step(queue, words, LAXONJE_PAGE_WORDS, NULL, 0, ops, room);
}

/* What became of each packet of a turn of several. Only the last may have halted the queue. */
static void look_at(uint32_t count)
{
	is(count > 0 && count <= LAXONJE_TURNS, "no packet, or too many");
	for (uint32_t i = 0; i < count; i++) {
		is(turned[i].outcome >= LAXONJE_TURN_RAN && turned[i].outcome <= LAXONJE_TURN_HALTED, "no outcome of a packet");
		is(turned[i].outcome != LAXONJE_TURN_HALTED || i == count - 1, "a packet behind one that halts");
		outcomes[turned[i].outcome]++;
	}
}

/* What is under way, or a turn, to its end. */
static void finish(struct input *input, struct laxonje_queue *queue, enum task task)
{
	struct laxonje_op ops[LAXONJE_TURNS_OPS];
	const size_t least = task == TURNS ? LEAST_OPS : 1, most = task == TURNS ? LAXONJE_TURNS_OPS : LAXONJE_OPS;
	size_t accesses = 1, count = 0;
	answered = false;
	do {
		size_t room = least + next(input) % (most - least + 1);
		count = count ? step(queue, task, ops, room) : begin(input, queue, task, ops, room);
		is(count > 0 && count <= room, "ops past their room, or none");
		for (size_t i = 0; i < count; i++)
			accesses += make(input, task, &ops[i]);
		is(accesses <= MOST_ACCESSES * (task == TURNS ? LAXONJE_TURNS : 1), "a turn without end");
	} while (ops[count - 1].kind != LAXONJE_OP_DONE);
	is(ops[count - 1].outcome <= LAXONJE_TURN_SEVERAL, "no outcome");
	if (ops[count - 1].outcome == LAXONJE_TURN_SEVERAL)
		look_at(ops[count - 1].slots);
	outcomes[ops[count - 1].outcome]++;
}

/* Begins a delivery of a packet that leaves anything to the guest. */
static uint32_t deliver(struct input *input, struct laxonje_queue *queue, uint32_t what)
{
	static const uint8_t packet[LAXONJE_PACKET];
	uint32_t bytes = FRAME + what % (LAXONJE_PACKET - FRAME), offload = (what >> 2) % (LAXONJE_OFFLOAD_TCPV6 + 1);
	return laxonje_queue_deliver_as(queue, next(input), packet, bytes, offload, 1 + (what >> 5) % bytes);
}

/* A turn, a delivery or a wait. */
static void take(struct input *input, struct laxonje_queue *queue)
{
	uint32_t what = next(input);
	if (what % 4 == 1)
		is(deliver(input, queue, what) == LAXONJE_TAKEN, "a delivery that isn't begun");
	if (what % 4 == 2)
		is(laxonje_queue_await(queue, (what >> 2) % (RING + 1)) == LAXONJE_TAKEN, "a wait that isn't begun");
	finish(input, queue, what % 4 == 1 || what % 4 == 2 ? OTHERS : what % 8 == 7 ? TURNS : TURN);
}

int LLVMFuzzerTestOneInput(const uint8_t *bytes, size_t size)
{
	static const struct laxonje_extent extents[] = { { OWN, GUEST }, { FRAMES - OWN, OTHER } };
	static const uint32_t table[] = { TABLE };
	struct laxonje_program *program = laxonje_program_new();
	struct laxonje_queue *queue = laxonje_queue_new();
	struct input input = { bytes, size, 0 };
	struct laxonje_queue_desc desc = { TX, RX, GUEST, 0, PORT, 0, 0, near_zero(&input), near_zero(&input) };
	is(laxonje_load(fuzz_program, fuzz_program_bytes, NULL, 0, program).kind == LAXONJE_ACCEPTED, "no program");
	is(laxonje_queue_make_extents(program, extents, 2, table, 1, &desc, queue) == LAXONJE_MADE, "no queue");
	is(laxonje_queue_accept(queue, LAXONJE_ACCEPT_GSO_TCPV4 | LAXONJE_ACCEPT_GSO_TCPV6 | LAXONJE_ACCEPT_CSUM_BLANK) == LAXONJE_OFFERED, "none taken");
	for (int task = 0; task < TASKS; task++)
		take(&input, queue);
	laxonje_queue_delete(&queue);
	laxonje_program_delete(&program);
	return 0;
}

#ifdef WITHOUT_FUZZER
/* A word: mostly one that a guest that keeps the protocol could write, as an index, a slot, an entry or a size. */
static uint32_t any(uint64_t *seed)
{
	static const uint32_t likely[] = { 0, 1, 2, 3, LAXONJE_FLAG_MORE_DATA << 16, FRAME << 16 | 7, 2 * FRAME << 16 | 8, PERMIT };
	*seed = *seed * 6364136223846793005 + 1442695040888963407;
	return *seed >> 59 ? likely[*seed >> 56 & 7] : (uint32_t)(*seed >> 24);
}

int main(int count, char **arguments)
{
	static uint8_t input[2 * LAXONJE_PAGE_WORDS];
	unsigned runs = count > 1 ? strtoul(arguments[1], NULL, 10) : 5000, missing = 0;
	uint64_t seed = 1;
	for (unsigned run = 0; run < runs; run++) {
		for (size_t i = 0; i < sizeof input; i += 4) {
			uint32_t word = any(&seed);
			for (size_t k = 0; k < 4; k++)
				input[i + k] = (uint8_t)(word >> 8 * k);
		}
		LLVMFuzzerTestOneInput(input, sizeof input);
	}
	for (unsigned i = 0; i < sizeof outcomes / sizeof outcomes[0]; i++) {
		fprintf(stderr, "outcome %u: %lu\n", i, outcomes[i]);
		missing += !outcomes[i] && i != LAXONJE_DELIVERY_HALTED + 1 && i != LAXONJE_AWAITED_HALTED + 1;
	}
	printf("%u runs, %u outcomes that never came\n", runs, missing);
	return missing != 0;
}
#endif
