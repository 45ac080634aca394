/* Queues on threads that share one program's counters, some of which take several packets in a turn: what they counted is exact, while another thread
 * reads and adds. For the thread sanitizer. */
#include <laxonje_drive.h>

#include <pthread.h>
#include <stdatomic.h>
#include <stdio.h>

enum { TX, RX, TABLE, DATA, FRAMES, GUEST = 5, PORT = 7, FRAME_BYTES = 14, RING_SLOTS = 256 };
enum { QUEUES = 8, PACKETS = 20000, AT_ONCE = 8, READS = 1000, ADDED = 7 };

/* Adds 5 twice to the first of two counters of a map's only entry, and once to the second, and drops the packet. */
static const uint8_t counting[] = { 0xbf, 0xa2, 0, 0, 0, 0, 0, 0, 0x07, 2, 0, 0, 0xfc, 0xff, 0xff, 0xff, 0x62, 10, 0xfc, 0xff, 0, 0, 0, 0,
	                            0x18, 0x11, 0, 0, 0, 0, 0, 0, 0, 0, 0, 0, 0, 0, 0, 0, 0x85, 0, 0, 0, 1, 0, 0, 0, 0x15, 0, 4, 0, 0, 0, 0, 0,
	                            0xb7, 1, 0, 0, 5, 0, 0, 0, 0xdb, 0x10, 0, 0, 0, 0, 0, 0, 0xdb, 0x10, 0, 0, 0, 0, 0, 0, 0xdb, 0x10, 8, 0, 0, 0, 0, 0,
	                            0xb7, 0, 0, 0, LAXONJE_DROP, 0, 0, 0, 0x95, 0, 0, 0, 0, 0, 0, 0 };
static const uint8_t plain[] = { 0xb7, 0, 0, 0, LAXONJE_PASS, 0, 0, 0, 0x95, 0, 0, 0, 0, 0, 0, 0 };

/* A queue with its guest's pages. */
struct served {
	uint32_t pages[FRAMES][LAXONJE_PAGE_WORDS];
	struct laxonje_drive drive;
	struct laxonje_turns room;
	uint32_t at_once;
	unsigned wrong;
};

static int wrong;

static void is(const char *what, uint64_t got, uint64_t wanted)
{
	if (got == wanted)
		return;
	printf("%s: %llu and not %llu\n", what, (unsigned long long)got, (unsigned long long)wanted);
	wrong++;
}

static uint32_t *page_of(void *host, const struct laxonje_op *op) { return ((struct served *)host)->pages[op->frame]; }

static void notified(void *host, uint32_t port) { (void)host, (void)port; }

static struct laxonje_program *program_of(const uint8_t *code, size_t size, const struct laxonje_map *maps, size_t map_count)
{
	struct laxonje_program *program = laxonje_program_new();
	is("a program", laxonje_load(code, size, maps, map_count, program).kind, LAXONJE_ACCEPTED);
	return program;
}

static void serve(struct served *served, struct laxonje_program *program)
{
	static const uint16_t owners[FRAMES] = { GUEST, GUEST, GUEST, GUEST };
	static const uint32_t table[] = { TABLE };
	static const struct laxonje_queue_desc desc = { TX, RX, GUEST, 0, PORT, 0, 0, 0, 0 };
	served->drive = (struct laxonje_drive){ .queue = laxonje_queue_new(), .tx = TX, .rx = RX };
	is("a queue", laxonje_queue_make(program, owners, FRAMES, table, 1, &desc, served->drive.queue), LAXONJE_MADE);
	served->pages[TABLE][0] = 1;
	served->pages[TABLE][1] = DATA;
}

/* The guest's next request: a frame of 14 bytes, by the only grant. */
static void request(struct served *served, uint32_t index)
{
	uint32_t *slot = &served->pages[TX][16 + 3 * (index % RING_SLOTS)];
	slot[0] = 0;
	slot[1] = 0;
	slot[2] = FRAME_BYTES << 16;
	__atomic_store_n(&served->pages[TX][0], index + 1, __ATOMIC_RELEASE);
}

static void *turns(void *given)
{
	struct served *served = given;
	struct laxonje_io io = { .host = served, .page = page_of, .notify = notified };
	for (uint32_t index = 0; index < PACKETS; index += served->at_once) {
		for (uint32_t number = 0; number < served->at_once; number++)
			request(served, index + number);
		laxonje_drive_turns(&served->drive, &io, served->at_once, &served->room);
		served->wrong += served->room.count != served->at_once;
		for (uint32_t number = 0; number < served->room.count; number++) {
			const struct laxonje_turned *turned = &served->room.turned[number];
			served->wrong += turned->outcome != LAXONJE_TURN_RAN || turned->number != LAXONJE_DROP || turned->ops != 3;
		}
	}
	return NULL;
}

/* A thread that reads the first counter, which only rises, and adds to the second. */
struct reader {
	struct laxonje_shared *counters;
	unsigned wrong;
};

static void *reads(void *given)
{
	struct reader *reader = given;
	uint64_t last = 0;
	for (unsigned read = 0; read < READS; read++) {
		uint64_t now = laxonje_counters_at(reader->counters, 0, 0, 0);
		reader->wrong += now < last || now % 5;
		reader->wrong += laxonje_counters_add(reader->counters, 0, 0, 1, ADDED) != LAXONJE_ADDED;
		last = now;
	}
	return NULL;
}

static void starts(pthread_t *thread, void *(*body)(void *), void *given) { is("a thread", pthread_create(thread, NULL, body, given), 0); }

static void ends(pthread_t thread) { is("a thread's end", pthread_join(thread, NULL), 0); }

static void refuses(struct laxonje_program *program, struct served *served, struct laxonje_shared *counters)
{
	struct laxonje_program *other = program_of(plain, sizeof plain, NULL, 0);
	static struct served busy, several, different, none;
	struct laxonje_op op, ops[2];
	serve(&busy, program);
	is("a turn", laxonje_queue_turn(busy.drive.queue, 1, &op, 1), 1);
	is("a share inside a turn", laxonje_queue_share(busy.drive.queue, counters), LAXONJE_SHARES_BUSY);
	serve(&several, program);
	is("a turn of several", laxonje_queue_turns(several.drive.queue, 2, LAXONJE_TURNS, ops, 2), 1);
	is("a share inside a turn of several", laxonje_queue_share(several.drive.queue, counters), LAXONJE_SHARES_BUSY);
	serve(&different, other);
	is("a share of other maps", laxonje_queue_share(different.drive.queue, counters), LAXONJE_SHARES_MAPS);
	serve(&none, program);
	is("a share too many", laxonje_queue_share(none.drive.queue, counters), LAXONJE_SHARES_SEATS);
	is("a second share", laxonje_queue_share(served->drive.queue, counters), LAXONJE_SHARES_ALREADY);
	is("a share of no queue", laxonje_queue_share(NULL, counters), LAXONJE_SHARES_NOTHING);
	is("a share of nothing", laxonje_queue_share(none.drive.queue, NULL), LAXONJE_SHARES_NOTHING);
	is("counters for no queue", laxonje_counters_new(program, 0) == NULL, 1);
	struct laxonje_shared *most = laxonje_counters_new(program, LAXONJE_SHARES);
	is("counters for the most", most != NULL, 1);
	laxonje_counters_delete(&most);
	is("counters for too many", laxonje_counters_new(program, LAXONJE_SHARES + 1) == NULL, 1);
	is("counters of no program", laxonje_counters_new(NULL, 1) == NULL, 1);
	is("no such counter", laxonje_counters_at(counters, 1, 0, 0), 0);
	is("no counters", laxonje_counters_at(NULL, 0, 0, 0), 0);
	is("an amount for a map that isn't there", laxonje_counters_add(counters, 1, 0, 0, 1), LAXONJE_NO_COUNTER);
	is("an amount for an entry that isn't there", laxonje_counters_add(counters, 0, 1, 0, 1), LAXONJE_NO_COUNTER);
	is("an amount for a counter that isn't there", laxonje_counters_add(counters, 0, 0, 2, 1), LAXONJE_NO_COUNTER);
	is("an amount for no counters", laxonje_counters_add(NULL, 0, 0, 0, 1), LAXONJE_NO_COUNTER);
	is("an amount that wraps", laxonje_counters_add(counters, 0, 0, 1, UINT64_MAX), LAXONJE_ADDED);
	is("what it wraps to", laxonje_counters_at(counters, 0, 0, 1), UINT64_MAX);
	is("an amount that wraps back", laxonje_counters_add(counters, 0, 0, 1, 1), LAXONJE_ADDED);
	is("a seat that is passed", laxonje_queue_pass(served->drive.queue, none.drive.queue), LAXONJE_SHARES_NOW);
	is("words of a queue that has passed it", laxonje_queue_counters(served->drive.queue), 2);
	is("a seat that isn't there", laxonje_queue_pass(served->drive.queue, none.drive.queue), LAXONJE_SHARES_ALREADY);
	is("a seat for other maps", laxonje_queue_pass(none.drive.queue, different.drive.queue), LAXONJE_SHARES_MAPS);
	is("a seat back", laxonje_queue_pass(none.drive.queue, served->drive.queue), LAXONJE_SHARES_NOW);
	is("no seat", laxonje_queue_pass(none.drive.queue, different.drive.queue), LAXONJE_SHARES_SEATS);
	is("words of a queue that shares", laxonje_queue_counters(served->drive.queue), 0);
	is("words of one that doesn't", laxonje_queue_counters(none.drive.queue), 2);
	laxonje_queue_delete(&busy.drive.queue);
	laxonje_queue_delete(&several.drive.queue);
	laxonje_queue_delete(&different.drive.queue);
	laxonje_queue_delete(&none.drive.queue);
	laxonje_program_delete(&other);
}

int main(void)
{
	static struct served served[QUEUES];
	static const struct laxonje_map map = { 1, 2 };
	pthread_t threads[QUEUES], reading;
	struct laxonje_program *program = program_of(counting, sizeof counting, &map, 1);
	struct laxonje_shared *counters = laxonje_counters_new(program, QUEUES);
	struct reader reader = { counters, 0 };
	for (size_t i = 0; i < QUEUES; i++) {
		serve(&served[i], program);
		is("a share", laxonje_queue_share(served[i].drive.queue, counters), LAXONJE_SHARES_NOW);
	}
	refuses(program, &served[0], counters);
	laxonje_program_delete(&program);
	for (size_t i = 0; i < QUEUES; i++) {
		served[i].at_once = i % 2 ? AT_ONCE : 1;
		starts(&threads[i], turns, &served[i]);
	}
	starts(&reading, reads, &reader);
	for (size_t i = 0; i < QUEUES; i++)
		ends(threads[i]);
	ends(reading);
	is("what a reader saw", reader.wrong, 0);
	is("the first counter", laxonje_counters_at(counters, 0, 0, 0), (uint64_t)QUEUES * PACKETS * 10);
	is("the second counter", laxonje_counters_at(counters, 0, 0, 1), (uint64_t)QUEUES * PACKETS * 5 + READS * ADDED);
	laxonje_counters_delete(&counters);
	for (size_t i = 0; i < QUEUES; i++) {
		is("turns", served[i].wrong, 0);
		laxonje_queue_delete(&served[i].drive.queue);
	}
	printf("%d wrong\n", wrong);
	return wrong != 0;
}
