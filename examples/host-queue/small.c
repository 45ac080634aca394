/* A host of netback's queue over laxonje_drive.h, as short as one can be: a turn with a packet, a delivery, a wait, a turn without a packet,
 * a delivery of too few bytes, a turn without a queue, and a queue that isn't made. The guest is what `guest_sends` writes into its pages. It
 * is C and C++. */
#include <laxonje_drive.h>
#include <stdio.h>

enum { TX, RX, TABLE, DATA, FRAMES, GUEST = 1, PORT = 3, BYTES = 60, PERMIT = 1 };

static uint32_t memory[FRAMES][LAXONJE_PAGE_WORDS];

static uint32_t *page(void *host, const struct laxonje_op *op) { return (void)host, memory[op->frame]; }
static void notify(void *host, uint32_t port) { printf("notice %u\n", port), (void)host; }

/* A packet of 60 bytes in the page of reference 0. */
static void guest_sends(void)
{
	memory[TABLE][0] = PERMIT, memory[TABLE][1] = DATA;
	memory[TX][16] = 0, memory[TX][17] = 0, memory[TX][18] = 7 | BYTES << 16;
	memory[TX][1] = memory[TX][3] = memory[RX][1] = memory[RX][3] = memory[TX][0] = 1;
}

int main(void)
{
	static const uint8_t pass[] = { 0xb7, 0, 0, 0, LAXONJE_PASS, 0, 0, 0, 0x95, 0, 0, 0, 0, 0, 0, 0 };
	static const struct laxonje_extent extents[] = { { FRAMES, GUEST } };
	static const uint32_t table[] = { TABLE };
	const struct laxonje_queue_desc desc = { TX, RX, GUEST, 0, PORT, 0, 0, 0, 0 }, wrong = { TX, TX, GUEST, 0, PORT, 0, 0, 0, 0 };
	struct laxonje_program *program = laxonje_program_new();
	struct laxonje_queue *queue = laxonje_queue_new();
	const struct laxonje_io io = { NULL, page, notify, NULL };
	static struct laxonje_drive drive;
	static uint8_t packet[LAXONJE_PACKET];
	struct laxonje_op over;
	uint32_t made;

	laxonje_load(pass, sizeof pass, NULL, 0, program);
	made = laxonje_queue_make_extents(program, extents, 1, table, 1, &desc, queue);
	if (made != LAXONJE_MADE)
		return printf("no queue: %s\n", laxonje_made_name(made)), 1;
	drive.queue = queue, drive.tx = TX, drive.rx = RX;
	guest_sends();
	over = laxonje_drive_turn(&drive, &io);
	size_t length = laxonje_queue_packet(queue, packet, sizeof packet);
	printf("%s, number %u, bytes %zu\n", laxonje_name(over.outcome, over.cause), over.number, length);
	laxonje_drive_deliver(&drive, &io, packet, length, &over);
	printf("%s\n", laxonje_name(over.outcome, over.cause));
	laxonje_drive_await(&drive, &io, length, &over);
	printf("%s\n", laxonje_name(over.outcome, over.cause));
	over = laxonje_drive_turn(&drive, &io);
	printf("%s\n", laxonje_name(over.outcome, over.cause));
	laxonje_drive_deliver(&drive, &io, packet, 13, &over);
	printf("%s\n", laxonje_name(over.outcome, over.cause));
	laxonje_queue_free(queue);
	over = laxonje_drive_turn(&drive, &io);
	printf("%s\n", laxonje_name(over.outcome, over.cause));
	made = laxonje_queue_make_extents(program, extents, 1, table, 1, &wrong, queue);
	printf("no queue: %s\n", laxonje_made_name(made));
	laxonje_queue_delete(&queue);
	laxonje_program_delete(&program);
	return 0;
}
