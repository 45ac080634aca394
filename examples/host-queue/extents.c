/* Queues of guests whose frames are given in extents, in tables: which are made, and packets of some. It is C and C++. */
#include "rows.h"

enum { NOBODY = 0x7ff4, OTHER = GUEST + 1, OWN = 0, FAR = 1 << 18, ENTRIES = 512, MOST_EXTENTS = 3, MOST_TABLE = LAXONJE_EXTENT_TABLE_FRAMES + 1, REFERENCE = 9 };
#define ALL LAXONJE_EXTENT_FRAMES

/* A try: the extents, the frames of the rings, the first of the table's and how many those are, the backend's domain, and the
 * answer. */
struct making {
	const char *what;
	struct laxonje_extent extents[MOST_EXTENTS];
	size_t extent_count;
	uint32_t tx, rx, table, table_count;
	uint16_t user;
	uint32_t answer;
};

static const struct making far_off = { "frames that no list reaches", { { FAR, NOBODY }, { 4, GUEST }, { 1, OTHER } }, 3,
	                               FAR, FAR + 1, FAR + 2, 1, OWN, LAXONJE_MADE };
static const struct making large = { "a table of 64 frames", { { 80, GUEST } }, 1, 0, 1, 2, LAXONJE_EXTENT_TABLE_FRAMES, OWN, LAXONJE_MADE };

static const struct making makings[] = {
	{ "a ring in the last frame of an extent", { { 2, GUEST }, { 2, GUEST }, { 1, OTHER } }, 3, 1, 3, 2, 1, OWN, LAXONJE_MADE },
	{ "an rx ring one past it", { { 2, GUEST }, { 2, GUEST }, { 1, OTHER } }, 3, 1, 4, 2, 1, OWN, LAXONJE_MADE_RING },
	{ "a tx ring one past it", { { 2, GUEST }, { 2, GUEST }, { 1, OTHER } }, 3, 4, 1, 2, 1, OWN, LAXONJE_MADE_RING },
	{ "a ring past all extents", { { 2, GUEST }, { 2, GUEST } }, 2, 1, 4, 2, 1, OWN, LAXONJE_MADE_RING },
	{ "as many frames as there may be", { { ALL, GUEST } }, 1, 0, ALL - 1, 1, 1, OWN, LAXONJE_MADE },
	{ "a ring past as many", { { ALL, GUEST } }, 1, 0, ALL, 1, 1, OWN, LAXONJE_MADE_RING },
	{ "as many in two extents", { { ALL - 3, NOBODY }, { 3, GUEST } }, 2, ALL - 3, ALL - 2, ALL - 1, 1, OWN, LAXONJE_MADE },
	{ "a frame too many", { { ALL, GUEST }, { 1, GUEST } }, 2, 0, 1, 2, 1, OWN, LAXONJE_MADE_FRAMES },
	{ "2 to the power of 33 frames", { { ALL, GUEST }, { ALL, GUEST }, { 2, GUEST } }, 3, 0, 1, 2, 1, OWN, LAXONJE_MADE_FRAMES },
	{ "no extents", { { 0, 0 } }, 0, 0, 1, 2, 1, OWN, LAXONJE_MADE_TABLE },
	{ "no table", { { 80, GUEST } }, 1, 0, 1, 2, 0, OWN, LAXONJE_MADE_TABLE },
	{ "a table of 17 frames", { { 80, GUEST } }, 1, 0, 1, 2, 17, OWN, LAXONJE_MADE },
	{ "a table of 65 frames", { { 80, GUEST } }, 1, 0, 1, 2, MOST_TABLE, OWN, LAXONJE_MADE_TABLE },
	{ "a table that ends in another's frame", { { 65, GUEST }, { 1, OTHER } }, 2, 0, 1, 2, 64, OWN, LAXONJE_MADE_TABLE },
	{ "two extents", { { 4, GUEST }, { 4, OTHER } }, 2, 0, 1, 2, 1, OWN, LAXONJE_MADE },
	{ "these two swapped", { { 4, OTHER }, { 4, GUEST } }, 2, 0, 1, 2, 1, OWN, LAXONJE_MADE_TABLE },
	{ "these with another table", { { 4, OTHER }, { 4, GUEST } }, 2, 0, 1, 6, 1, OWN, LAXONJE_MADE_RING },
	{ "extents of no frames", { { 0, OTHER }, { 4, GUEST }, { 0, OTHER } }, 3, 0, 3, 2, 1, OWN, LAXONJE_MADE },
	{ "no frames between two extents", { { 4, GUEST }, { 0, OTHER }, { 1, GUEST } }, 3, 0, 4, 2, 1, OWN, LAXONJE_MADE },
	{ "no frames alone", { { 0, GUEST } }, 1, 0, 1, 2, 1, OWN, LAXONJE_MADE_TABLE },
	{ "one frame for both rings", { { 4, GUEST } }, 1, 1, 1, 2, 1, OWN, LAXONJE_MADE_RING },
	{ "a tx ring that is the table", { { 4, GUEST } }, 1, 2, 1, 2, 1, OWN, LAXONJE_MADE_RING },
	{ "an rx ring that is the last of a table of three", { { 8, GUEST } }, 1, 1, 4, 2, 3, OWN, LAXONJE_MADE_RING },
	{ "a ring after such a table", { { 8, GUEST } }, 1, 1, 5, 2, 3, OWN, LAXONJE_MADE },
	{ "a guest that is the host", { { 4, GUEST } }, 1, 0, 1, 2, 1, GUEST, LAXONJE_MADE_DOMAIN },
	{ "frames before all", { { ALL, OTHER }, { 1, GUEST } }, 2, 1, 1, 2, 1, GUEST, LAXONJE_MADE_FRAMES },
	{ "the table before the rings", { { 4, OTHER } }, 1, 1, 1, 2, 1, GUEST, LAXONJE_MADE_TABLE },
	{ "the rings before the domain", { { 4, GUEST } }, 1, 1, 1, 2, 1, GUEST, LAXONJE_MADE_RING },
};

/* A packet in one slot: of the first word of the tx ring at `tx` up to the slot; of the entry in the table's frame; of the answer. */
#define SLOT(tx, gref) TURN(1), READ(tx, 16, 3, gref, 0, REFERENCE | HALF(HEADER))
#define GRANT(table, reference, frame) ENTRY(LAXONJE_ENTRY_READ, table, reference, PERMIT, frame)
#define ANSWER(tx, status) STORE(tx, 16, 1, REFERENCE | HALF(status)), PUSH(tx, 2, 1, 3, 1), NOTICE
#define BYTES(frame) READ(frame, 0, 4, 0x04030201, 0x08070605, 0x0c0b0a09, 0xffff0e0d)
#define PASSED ENDS(LAXONJE_TURN_RAN, LAXONJE_PASS, 1)
#define REFUSED ENDS(LAXONJE_TURN_REFUSED, LAXONJE_REFUSAL_GRANT, 1)
#define ERROR 0xffff

static const struct row passed[] = { SLOT(FAR, 0), GRANT(FAR + 2, 0, FAR + 3), BYTES(FAR + 3), ANSWER(FAR, 0), PASSED };
static const struct row nobodys[] = { SLOT(FAR, 0), GRANT(FAR + 2, 0, FAR - 1), ANSWER(FAR, ERROR), REFUSED };
static const struct row others[] = { SLOT(FAR, 0), GRANT(FAR + 2, 0, FAR + 4), ANSWER(FAR, ERROR), REFUSED };
static const struct row behind_all[] = { SLOT(FAR, 0), GRANT(FAR + 2, 0, FAR + 5), ANSWER(FAR, ERROR), REFUSED };
static const struct row last_entry[] = { SLOT(0, 64 * ENTRIES - 1), GRANT(65, 64 * ENTRIES - 1, 79), BYTES(79), ANSWER(0, 0), PASSED };
static const struct row no_entry[] = { SLOT(0, 64 * ENTRIES), ANSWER(0, ERROR), REFUSED };

/* Makes a queue, whose tx ring is gone on with at an index. If none is made, the handle keeps what it had. */
static void makes(struct laxonje_program *program, struct laxonje_queue *queue, const struct making *row, uint32_t tx_index)
{
	struct laxonje_queue_desc desc = { row->tx, row->rx, GUEST, row->user, PORT, 0, 0, tx_index, 0 };
	uint32_t table[MOST_TABLE], before = laxonje_queue_state(queue).tx_index;
	char handle[LAXONJE_HANDLE];
	memcpy(handle, queue, sizeof handle);
	for (uint32_t i = 0; i < MOST_TABLE; i++)
		table[i] = row->table + i;
	is(row->what, laxonje_queue_make_extents(program, row->extents, row->extent_count, table, row->table_count, &desc, queue), row->answer);
	is(row->what, laxonje_queue_state(queue).tx_index, row->answer == LAXONJE_MADE ? tx_index : before);
	is(row->what, row->answer == LAXONJE_MADE || !memcmp(handle, queue, sizeof handle), 1);
}

#define RUNS(program, queue, making, rows) makes(program, queue, making, 0), GOES(queue, LAXONJE_OPS, rows)

/* With the owner of each frame, both limits are lower. */
static void lists(struct laxonje_program *program, struct laxonje_queue *queue)
{
	static uint16_t owners[LAXONJE_FRAMES + 1];
	static uint32_t table[LAXONJE_TABLE_FRAMES + 1];
	struct laxonje_queue_desc desc = { 0, 1, GUEST, 0, PORT, 0, 0, 0, 0 };
	for (size_t i = 0; i <= LAXONJE_FRAMES; i++)
		owners[i] = GUEST;
	for (uint32_t i = 0; i <= LAXONJE_TABLE_FRAMES; i++)
		table[i] = 2 + i;
	is("a list", laxonje_queue_make(program, owners, LAXONJE_FRAMES, table, LAXONJE_TABLE_FRAMES, &desc, queue), LAXONJE_MADE);
	is("17 frames beside a list", laxonje_queue_make(program, owners, LAXONJE_FRAMES, table, LAXONJE_TABLE_FRAMES + 1, &desc, queue), LAXONJE_MADE_TABLE);
	is("a longer list", laxonje_queue_make(program, owners, LAXONJE_FRAMES + 1, table, LAXONJE_TABLE_FRAMES, &desc, queue), LAXONJE_MADE_FRAMES);
}

int main(void)
{
	static const uint8_t passes[] = { 0xb7, 0, 0, 0, LAXONJE_PASS, 0, 0, 0, 0x95, 0, 0, 0, 0, 0, 0, 0 };
	struct laxonje_program *program = laxonje_program_new(), *none = laxonje_program_new();
	struct laxonje_queue *queue = laxonje_queue_new();
	struct making without = far_off;

	is("a program", laxonje_load(passes, sizeof passes, NULL, 0, program).kind, LAXONJE_ACCEPTED);
	RUNS(program, queue, &far_off, passed);
	RUNS(program, queue, &far_off, nobodys);
	RUNS(program, queue, &far_off, others);
	RUNS(program, queue, &far_off, behind_all);
	RUNS(program, queue, &large, last_entry);
	RUNS(program, queue, &large, no_entry);
	for (uint32_t i = 0; i < sizeof makings / sizeof makings[0]; i++)
		makes(program, queue, &makings[i], i + 1);
	without.answer = LAXONJE_MADE_PROGRAM;
	makes(none, queue, &without, 0);
	lists(program, queue);
	laxonje_queue_delete(&queue);
	laxonje_program_delete(&program);
	laxonje_program_delete(&none);
	printf("%d wrong\n", wrong);
	return wrong != 0;
}
