/* Lists of a program and of a queue that become others, and what each call answers if they don't. It is C and C++. */
#include <laxonje_drive.h>
#include <stdio.h>
#include <string.h>

enum { TX, RX, TABLE, DATA, FRAMES, GUEST = 1, BYTES = 60, PERMIT = 1 };

/* Looks up the key 1, of four bytes: DROP if it is listed, else PASS. */
#define LOOKS_UP "program = [\"620afcff01000000\", \"bfa2000000000000\", \"07020000fcffffff\", \"1811000000000000\", \"0000000000000000\",\n" \
                 "\"8500000001000000\", \"1500020000000000\", \"b700000001000000\", \"9500000000000000\", \"b700000002000000\", "
#define EXITS "\"9500000000000000\"]\n"
#define MAP(key, size, rows) "[[map]]\nname = \"listed\"\nentries = 2\ncounters = 1\nkey = \"" key "\"\nsize = " size "\nrows = [" rows "]\n"

static const char without[] = LOOKS_UP EXITS MAP("exact", "4", "\"02000000\"");
static const char with[] = LOOKS_UP EXITS MAP("exact", "4", "\"02000000\", \"01000000\"");
static const char longer[] = LOOKS_UP "\"9500000000000000\", " EXITS MAP("exact", "4", "\"01000000\"");
static const char prefixes[] = LOOKS_UP EXITS MAP("prefix", "4", "\"2000000001000000\"");
static const char repeated[] = LOOKS_UP EXITS MAP("exact", "4", "\"01000000\", \"01000000\"");
static const char array[] = LOOKS_UP EXITS "map = [{ name = \"listed\", entries = 2, counters = 1 }]\n";
static const uint8_t pass[] = { 0xb7, 0, 0, 0, LAXONJE_PASS, 0, 0, 0, 0x95, 0, 0, 0, 0, 0, 0, 0 };

static const struct laxonje_extent extents[] = { { FRAMES, GUEST } };
static const uint32_t table[] = { TABLE };
static const struct laxonje_queue_desc desc = { TX, RX, GUEST, 0, 3, 0, 0, 0, 0 };
static uint32_t memory[FRAMES][LAXONJE_PAGE_WORDS];
static uint64_t counters[2];
static int wrong;

static void is(const char *what, size_t found, size_t wanted)
{
	if (found == wanted)
		return;
	printf("%s: %zu, and not %zu\n", what, found, wanted);
	wrong++;
}

static struct laxonje_drive drive;
static struct laxonje_program *inside;
static size_t asked;

static uint32_t *page(void *host, const struct laxonje_op *op)
{
	if (inside && asked++)
		is("inside a turn", laxonje_queue_relist(drive.queue, inside), LAXONJE_RELISTED_BUSY);
	return (void)host, memory[op->frame];
}

static void notify(void *host, uint32_t port) { (void)host, (void)port; }

static const struct laxonje_io io = { NULL, page, notify, NULL };

static struct laxonje_verdict load(struct laxonje_program *program, const char *text)
{
	return laxonje_load_settings((const uint8_t *)text, strlen(text), program);
}

static struct laxonje_verdict relist(struct laxonje_program *program, const char *text)
{
	return laxonje_relist(program, (const uint8_t *)text, strlen(text));
}

static void guest_sends(void)
{
	uint32_t slot = 16 + 3 * (memory[TX][0] % 256);
	memory[TABLE][0] = PERMIT, memory[TABLE][1] = DATA;
	memory[TX][slot] = 0, memory[TX][slot + 1] = 0, memory[TX][slot + 2] = 7 | BYTES << 16;
	memory[TX][0]++;
}

/* What the program returns on the guest's next packet. */
static uint32_t answer(void)
{
	struct laxonje_op over;
	guest_sends();
	over = laxonje_drive_turn(&drive, &io);
	return over.outcome == LAXONJE_TURN_RAN ? over.number : UINT32_MAX;
}

/* What one run of it returns. */
static uint32_t run(struct laxonje_program *program)
{
	uint8_t packet[BYTES] = { 0 };
	return laxonje_run(program, counters, 2, packet, sizeof packet, 0, 0).number;
}

static void of_a_program(struct laxonje_program *program)
{
	struct laxonje_program *before = laxonje_program_new();
	is("relist of none", relist(program, with).kind, LAXONJE_EMPTY);
	is("a program", load(program, without).kind, LAXONJE_ACCEPTED);
	is("a key that isn't listed", run(program), LAXONJE_PASS);
	laxonje_again(program, before);
	is("relist", relist(program, with).kind, LAXONJE_ACCEPTED);
	is("its instructions", relist(program, with).at, load(program, with).at);
	is("a key that is listed", run(program), LAXONJE_DROP);
	is("a handle from before", run(before), LAXONJE_PASS);
	laxonje_program_delete(&before);
}

/* Nothing changes. */
static void refused(struct laxonje_program *program)
{
	is("a program", load(program, with).kind, LAXONJE_ACCEPTED);
	is("another program", relist(program, longer).kind, LAXONJE_OTHER);
	is("keys of another kind", relist(program, prefixes).kind, LAXONJE_OTHER);
	is("an array", relist(program, array).kind, LAXONJE_OTHER);
	is("no settings", relist(program, "x").kind, LAXONJE_SETTINGS);
	is("its cause", relist(program, "x").cause, LAXONJE_L_SYNTAX);
	is("a row twice", relist(program, repeated).kind, LAXONJE_SETTINGS);
	is("its cause", relist(program, repeated).cause, LAXONJE_L_ROWS);
	is("no bytes", laxonje_relist(program, NULL, 0).kind, LAXONJE_SETTINGS);
	is("the lists that it had", run(program), LAXONJE_DROP);
}

static void of_a_queue(struct laxonje_program *program, struct laxonje_program *none)
{
	load(program, without);
	is("no queue", laxonje_queue_relist(drive.queue, program), LAXONJE_RELISTED_NOT);
	is("neither", laxonje_queue_relist(drive.queue, none), LAXONJE_RELISTED_NOT);
	is("a queue", laxonje_queue_make_extents(program, extents, 1, table, 1, &desc, drive.queue), LAXONJE_MADE);
	is("its first list", answer(), LAXONJE_PASS);
	is("a program's other list", relist(program, with).kind, LAXONJE_ACCEPTED);
	is("the queue's own", answer(), LAXONJE_PASS);
	is("the queue relisted", laxonje_queue_relist(drive.queue, program), LAXONJE_RELISTED);
	is("its other list", answer(), LAXONJE_DROP);
	is("where the queue stands", laxonje_queue_state(drive.queue).tx_index, 3);
	is("no program", laxonje_queue_relist(drive.queue, none), LAXONJE_RELISTED_PROGRAM);
	load(none, array);
	is("an array's program", laxonje_queue_relist(drive.queue, none), LAXONJE_RELISTED_MAPS);
	laxonje_load(pass, sizeof pass, NULL, 0, none);
	is("a program without maps", laxonje_queue_relist(drive.queue, none), LAXONJE_RELISTED_MAPS);
	is("the list that it had", answer(), LAXONJE_DROP);
}

/* A turn keeps its list to its end: `page` asks for other ones at each of its accesses. The read of the producer comes before it. */
static void inside_a_turn(struct laxonje_program *program)
{
	relist(program, without);
	inside = program, asked = 0;
	is("the turn's list", answer(), LAXONJE_DROP);
	is("its accesses", asked, 6);
	inside = NULL;
	is("after the turn", laxonje_queue_relist(drive.queue, program), LAXONJE_RELISTED);
	is("the next turn's", answer(), LAXONJE_PASS);
	is("a wait", laxonje_queue_await(drive.queue, 1), LAXONJE_TAKEN);
	is("inside a wait", laxonje_queue_relist(drive.queue, program), LAXONJE_RELISTED_BUSY);
	is("its name", strcmp(laxonje_relisted_name(LAXONJE_RELISTED_BUSY), "something is under way"), 0);
}

int main(void)
{
	struct laxonje_program *program = laxonje_program_new(), *none = laxonje_program_new();
	drive.queue = laxonje_queue_new(), drive.tx = TX, drive.rx = RX, drive.counters = counters, drive.counter_count = 2;
	of_a_program(program);
	refused(program);
	of_a_queue(program, none);
	inside_a_turn(program);
	laxonje_queue_delete(&drive.queue);
	laxonje_program_delete(&program);
	laxonje_program_delete(&none);
	printf("%d wrong\n", wrong);
	return wrong != 0;
}
