/* Packets of one slot to eighteen, from each byte of a word on: those that pass are copied out, and those that are sent back lie in the guest's
 * rx pages, byte for byte as the guest put them into its own. The bytes around a fragment are others. It is C and C++. */
#include <laxonje_drive.h>
#include <stdio.h>
#include <string.h>

enum { TX, RX, TABLE, DATA, SLOTS = 18, POSTED = DATA + SLOTS, FRAMES = POSTED + SLOTS, GUEST = 1, PERMIT = 1, MORE = 1 << 18, RING = 256, PAGE = 4096 };

static uint32_t memory[FRAMES][LAXONJE_PAGE_WORDS];
static uint8_t sent[LAXONJE_PACKET], got[LAXONJE_PACKET];
static unsigned wrong;

static uint32_t *page(void *host, const struct laxonje_op *op) { return (void)host, memory[op->frame]; }
static void notify(void *host, uint32_t port) { (void)host, (void)port; }

/* A fragment: its page is filled with a byte that no packet has, and its bytes are the next of the packet. */
static void fill(unsigned part, size_t offset, size_t length, size_t at)
{
	uint8_t *bytes = (uint8_t *)memory[DATA + part];
	memset(bytes, 0xee, PAGE);
	for (size_t i = 0; i < length; i++)
		bytes[offset + i] = sent[at + i] = (uint8_t)((at + i) * 7 % 233);
}

/* A packet in so many slots, the k-th of `length + k` bytes from the byte `offset + k` of its page on, or to the page's end. Returns its length. */
static size_t guest_sends(uint32_t index, unsigned slots, size_t offset, size_t length, int at_end)
{
	size_t size = 0;
	for (unsigned k = 0; k < slots; k++) {
		uint32_t *slot = memory[TX] + 16 + 3 * ((index + k) % RING);
		size_t part = length + k, from = at_end ? PAGE - part : offset + k;
		fill(k, from, part, size);
		slot[0] = k, slot[1] = (uint32_t)from | (k + 1 < slots ? MORE : 0), slot[2] = k | (uint32_t)part << 16;
		size += part;
	}
	memory[TX][16 + 3 * (index % RING) + 2] = (uint32_t)size << 16;
	memory[TX][0] = index + slots;
	return size;
}

/* A turn of such a packet, with buffers for it. */
static void take(struct laxonje_drive *drive, uint32_t number, unsigned slots, size_t offset, size_t length, int at_end)
{
	const struct laxonje_io io = { NULL, page, notify, NULL };
	const struct laxonje_queue_standing at = laxonje_queue_state(drive->queue);
	const size_t size = guest_sends(at.tx_index, slots, offset, length, at_end);
	for (uint32_t k = 0; k < SLOTS; k++) {
		uint32_t *slot = memory[RX] + 16 + 2 * ((at.rx_index + k) % RING);
		slot[0] = k, slot[1] = SLOTS + k;
	}
	memory[RX][0] = at.rx_index + SLOTS;
	const struct laxonje_op over = laxonje_drive_turn(drive, &io);
	wrong += over.outcome != LAXONJE_TURN_RAN || over.number != number || over.slots != slots;
	wrong += laxonje_queue_packet(drive->queue, got, sizeof got) != size || memcmp(got, sent, size);
	if (number == LAXONJE_TX)
		for (size_t i = 0; i < size; i++)
			wrong += ((uint8_t *)memory[POSTED + i / PAGE])[i % PAGE] != sent[i];
}

/* All packets of a queue whose program returns this number. */
static void try_all(uint32_t number)
{
	static const unsigned slots[] = { 1, 2, 3, SLOTS };
	static const struct laxonje_extent extents[] = { { FRAMES, GUEST } };
	static const uint32_t table[] = { TABLE };
	const uint8_t code[] = { 0xb7, 0, 0, 0, (uint8_t)number, 0, 0, 0, 0x95, 0, 0, 0, 0, 0, 0, 0 };
	const struct laxonje_queue_desc desc = { TX, RX, GUEST, 0, 1, 0, 0, 0, 0 };
	struct laxonje_program *program = laxonje_program_new();
	static struct laxonje_drive drive;

	drive.queue = laxonje_queue_new(), drive.tx = TX, drive.rx = RX;
	laxonje_load(code, sizeof code, NULL, 0, program);
	wrong += laxonje_queue_make_extents(program, extents, 1, table, 1, &desc, drive.queue) != LAXONJE_MADE;
	for (unsigned s = 0; s < sizeof slots / sizeof *slots; s++)
		for (size_t offset = 0; offset < 4; offset++)
			for (size_t length = 14; length < 70; length++)
				take(&drive, number, slots[s], offset, length, 0), take(&drive, number, slots[s], 0, length, 1);
	for (size_t offset = 0; offset < 4; offset++)
		for (size_t rest = 4; rest < 9; rest++)
			take(&drive, number, 1, offset, PAGE - offset - rest, 0), take(&drive, number, 14, offset, PAGE - 60 - rest, 0);
	laxonje_queue_delete(&drive.queue);
	laxonje_program_delete(&program);
}

int main(void)
{
	for (uint32_t k = 0; k < 2 * SLOTS; k++)
		memory[TABLE][2 * k] = PERMIT, memory[TABLE][2 * k + 1] = DATA + k;
	try_all(LAXONJE_PASS);
	try_all(LAXONJE_TX);
	printf("%u wrong\n", wrong);
	return wrong != 0;
}
