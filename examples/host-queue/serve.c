/* The host of docs/HOST.md, with a guest that sends two packets, and then an index that no guest can have. */
#include <laxonje_drive.h>
#include <stdio.h>

enum { TX, RX, TABLE, DATA, FRAMES, GUEST = 1, PORT = 3, BYTES = 60, PERMIT = 1 };

static uint32_t memory[FRAMES][LAXONJE_PAGE_WORDS];
static uint8_t packet[LAXONJE_PACKET];
static const struct laxonje_extent extents[] = { { FRAMES, GUEST } };
static const uint32_t table[] = { TABLE };
static const struct laxonje_queue_desc desc = { TX, RX, GUEST, 0, PORT, 0, 0, 0, 0 };

static uint32_t *words_of_frame(void *host, uint32_t frame) { return (void)host, memory[frame]; }
static void send_event(void *host, uint32_t port) { printf("notice %u\n", port), (void)host; }
static void forward(void *host, const uint8_t *bytes, size_t length) { printf("packet %zu\n", length), (void)host, (void)bytes; }
static void wait_for_the_guests_event(void *host) { memory[TX][0] += 1000, (void)host; }

static uint32_t *page(void *host, const struct laxonje_op *op) { return words_of_frame(host, op->frame); }
static void notify(void *host, uint32_t port) { send_event(host, port); }

static void serve(void *host, struct laxonje_program *program, uint64_t *counters, size_t counter_count)
{
	const struct laxonje_io io = { host, page, notify, NULL }; /* NULL: or a function that gets each op, a trace */
	struct laxonje_drive drive = { laxonje_queue_new(), desc.tx, desc.rx, counters, counter_count, { 0 } };
	static struct laxonje_turns turns;
	struct laxonje_op over;
	uint32_t made = LAXONJE_MADE_MEMORY;

	if (drive.queue)
		made = laxonje_queue_make_extents(program, extents, 1, table, 1, &desc, drive.queue);
	if (made != LAXONJE_MADE)
		fprintf(stderr, "%s\n", laxonje_made_name(made));
	while (made == LAXONJE_MADE) {
		over = laxonje_drive_turns(&drive, &io, LAXONJE_TURNS, &turns);
		for (uint32_t n = 0; n < turns.count; n++)
			if (turns.turned[n].outcome == LAXONJE_TURN_RAN && turns.turned[n].number == LAXONJE_PASS)
				forward(host, packet, laxonje_drive_packet(&drive, &turns, n, packet, sizeof packet));
		if (over.outcome == LAXONJE_TURN_IDLE) {
			wait_for_the_guests_event(host);
		} else if (over.outcome == LAXONJE_TURN_HALTED || over.outcome == LAXONJE_NOTHING) {
			fprintf(stderr, "%s\n", laxonje_name(over.outcome, over.cause));
			break;
		}
	}
	laxonje_queue_delete(&drive.queue);
}

int main(void)
{
	static const uint8_t pass[] = { 0xb7, 0, 0, 0, LAXONJE_PASS, 0, 0, 0, 0x95, 0, 0, 0, 0, 0, 0, 0 };
	struct laxonje_program *program = laxonje_program_new();

	laxonje_load(pass, sizeof pass, NULL, 0, program);
	memory[TABLE][0] = PERMIT, memory[TABLE][1] = DATA;
	memory[TX][18] = 7 | BYTES << 16, memory[TX][21] = 8 | (BYTES + 1) << 16;
	memory[TX][0] = 2, memory[TX][3] = memory[RX][3] = 1;
	serve(NULL, program, NULL, 0);
	laxonje_program_delete(&program);
	return 0;
}
