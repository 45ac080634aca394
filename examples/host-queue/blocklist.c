/* A blocklist of addresses that is replaced while packets come. One thread takes a guest's packets, turn by turn; another reads settings with
 * other rows, each time into a handle of its own, and hands it over. Between two turns the queue gets its lists: nothing is verified, and no
 * packet is judged by half a list. It is C and C++. */
#include <laxonje_drive.h>
#include <pthread.h>
#include <stdio.h>
#include <string.h>

enum { TX, RX, TABLE, DATA, FRAMES, GUEST = 1, PORT = 3, BYTES = 60, PERMIT = 1, ROWS = 1000, PACKETS = 4000, LISTS = 40 };

/* Looks up the source and the destination of IPv4. DROP if both are listed, PASS if neither is, and ABORTED if one is. It counts what it drops
 * under the row of the destination. */
static const char program_text[] =
	"program = [\"6112040000000000\", \"6116000000000000\", \"bf63000000000000\", \"0703000022000000\", \"2d23180000000000\",\n"
	"\"61611a0000000000\", \"631afcff00000000\", \"bfa2000000000000\", \"07020000fcffffff\", \"1811000000000000\", \"0000000000000000\",\n"
	"\"8500000001000000\", \"bf07000000000000\", \"61611e0000000000\", \"631afcff00000000\", \"bfa2000000000000\", \"07020000fcffffff\",\n"
	"\"1811000000000000\", \"0000000000000000\", \"8500000001000000\", \"1507050000000000\", \"1500050000000000\", \"b701000001000000\",\n"
	"\"db10000000000000\", \"b700000001000000\", \"9500000000000000\", \"1500020000000000\", \"b700000000000000\", \"9500000000000000\",\n"
	"\"b700000002000000\", \"9500000000000000\"]\n"
	"[[map]]\nname = \"blocked\"\nentries = 1000\ncounters = 1\nkey = \"exact\"\nsize = 4\nrows = [\n";

static const struct laxonje_extent extents[] = { { FRAMES, GUEST } };
static const uint32_t table[] = { TABLE };
static const struct laxonje_queue_desc desc = { TX, RX, GUEST, 0, PORT, 0, 0, 0, 0 };
static uint32_t memory[FRAMES][LAXONJE_PAGE_WORDS];
static uint64_t counters[ROWS];

/* What the reader of lists hands over: `ready` has the lists of a text that the queue hasn't got yet, if `fresh`. */
static struct handover {
	pthread_mutex_t lock;
	pthread_cond_t taken, given;
	struct laxonje_program *ready;
	int fresh;
} handover = { PTHREAD_MUTEX_INITIALIZER, PTHREAD_COND_INITIALIZER, PTHREAD_COND_INITIALIZER, NULL, 0 };

/* The settings with the addresses 10.0.0.0 on, or 10.1.0.0 on. */
static size_t settings_of(unsigned number, char *text, size_t room)
{
	size_t length = (size_t)snprintf(text, room, "%s", program_text);
	for (unsigned row = 0; row < ROWS; row++)
		length += (size_t)snprintf(text + length, room - length, "\"0a%02x%04x\",\n", number % 2, row);
	return length + (size_t)snprintf(text + length, room - length, "]\n");
}

/* Reads the lists into `spare`, and hands it over for the one that was there. */
static struct laxonje_program *read_list(struct laxonje_program *spare, unsigned number)
{
	static char text[1 << 15];
	struct laxonje_program *old;
	struct laxonje_verdict verdict = laxonje_relist(spare, (const uint8_t *)text, settings_of(number, text, sizeof text));
	if (verdict.kind != LAXONJE_ACCEPTED)
		fprintf(stderr, "kind %u, cause %u\n", verdict.kind, verdict.cause);
	pthread_mutex_lock(&handover.lock);
	while (handover.fresh)
		pthread_cond_wait(&handover.taken, &handover.lock);
	old = handover.ready, handover.ready = spare, handover.fresh = 1;
	pthread_cond_signal(&handover.given);
	pthread_mutex_unlock(&handover.lock);
	return old;
}

static void *read_lists(void *first)
{
	struct laxonje_program *spare = (struct laxonje_program *)first;
	for (unsigned number = 1; number <= LISTS; number++)
		spare = read_list(spare, number);
	return spare;
}

/* Between two turns: gives the queue the lists that were handed over, or waits for them. Whether there were any. */
static unsigned take_lists(struct laxonje_queue *queue, int waits, unsigned *refused)
{
	unsigned taken = 0;
	pthread_mutex_lock(&handover.lock);
	while (waits && !handover.fresh)
		pthread_cond_wait(&handover.given, &handover.lock);
	if (handover.fresh)
		taken = 1, handover.fresh = 0, *refused += laxonje_queue_relist(queue, handover.ready) != LAXONJE_RELISTED;
	pthread_cond_signal(&handover.taken);
	pthread_mutex_unlock(&handover.lock);
	return taken;
}

static uint32_t *page(void *host, const struct laxonje_op *op) { return (void)host, memory[op->frame]; }
static void notify(void *host, uint32_t port) { (void)host, (void)port; }

/* A packet of IPv4 from 10.0.0.n to 10.0.0.n + 1. */
static void guest_sends(unsigned n)
{
	uint32_t slot = 16 + 3 * (memory[TX][0] % 256);
	uint8_t bytes[BYTES] = { 0 };
	bytes[26] = bytes[30] = 10, bytes[29] = (uint8_t)(n % 200), bytes[33] = (uint8_t)(n % 200 + 1);
	memcpy(memory[DATA], bytes, sizeof bytes);
	memory[TABLE][0] = PERMIT, memory[TABLE][1] = DATA;
	memory[TX][slot] = 0, memory[TX][slot + 1] = 0, memory[TX][slot + 2] = 7 | BYTES << 16;
	memory[TX][0]++;
}

/* Takes packets until there were enough and each list has come. Behind the last of the packets it waits for each list. */
static void serve(struct laxonje_queue *queue)
{
	const struct laxonje_io io = { NULL, page, notify, NULL };
	struct laxonje_drive drive = { queue, TX, RX, counters, ROWS, { 0 } };
	unsigned numbers[4] = { 0 }, lists = 0, other = 0;
	uint64_t counted = 0;
	for (unsigned n = 0; n < PACKETS || lists < LISTS; n++) {
		struct laxonje_op over;
		lists += take_lists(queue, n >= PACKETS, &other);
		guest_sends(n);
		over = laxonje_drive_turn(&drive, &io);
		*(over.outcome == LAXONJE_TURN_RAN && over.number < 4 ? &numbers[over.number] : &other) += 1;
	}
	for (unsigned row = 0; row < ROWS; row++)
		counted += counters[row];
	printf("%u lists, %s passed, %s dropped, %u by half a list, %u others\n", lists, numbers[LAXONJE_PASS] ? "some" : "none",
	       numbers[LAXONJE_DROP] ? "some" : "none", numbers[LAXONJE_ABORTED], other);
	printf("each drop is counted: %s\n", counted == numbers[LAXONJE_DROP] ? "yes" : "no");
}

int main(void)
{
	static char text[1 << 15];
	struct laxonje_program *program = laxonje_program_new(), *spare = laxonje_program_new();
	struct laxonje_queue *queue = laxonje_queue_new();
	pthread_t reader;
	void *last;

	handover.ready = laxonje_program_new();
	laxonje_load_settings((const uint8_t *)text, settings_of(0, text, sizeof text), program);
	laxonje_again(program, spare);
	laxonje_again(program, handover.ready);
	if (laxonje_queue_make_extents(program, extents, 1, table, 1, &desc, queue) != LAXONJE_MADE)
		return puts("no queue"), 1;
	laxonje_program_delete(&program);
	pthread_create(&reader, NULL, read_lists, spare);
	serve(queue);
	pthread_join(reader, &last);
	spare = (struct laxonje_program *)last;
	laxonje_program_delete(&spare);
	laxonje_program_delete(&handover.ready);
	laxonje_queue_delete(&queue);
	return 0;
}
