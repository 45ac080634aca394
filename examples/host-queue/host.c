/* A host of netback's queue: host SETTINGS honest|few|restart|hostile PACKETS, or SECONDSs, as 3600s
 *
 * The guest's memory is a memfd, its event channels are eventfds, and the guest is a process of its own (front.c). Each access
 * that the queue asks for is made by laxonje_drive.h, and no other. A turn takes as many packets as the guest shows, up to 16. Each packet that
 * passes is answered with one of the host's own: the same with its two addresses exchanged. It prints what became of the packets, and how many
 * accesses it made to pages that aren't the guest's: 0. */
#define _GNU_SOURCE
#include "front.h"

#include <laxonje_drive.h>
#include <poll.h>
#include <signal.h>
#include <stdio.h>
#include <stdlib.h>
#include <string.h>
#include <sys/eventfd.h>
#include <sys/mman.h>
#include <sys/prctl.h>
#include <sys/wait.h>
#include <time.h>
#include <unistd.h>

enum { SESSION = 500, LONG_SESSION = 50000, ADDRESS = 6, TRIES = 16 };

struct totals { unsigned long packets, taken, blank, answered, waits, back, refused, halted, accesses, strange; };

struct host {
	uint8_t *memory;
	struct channel channel;
	struct laxonje_program *program;
	struct laxonje_queue *queue;
	struct laxonje_drive drive;
	struct laxonje_turns turns;
	uint64_t *counters;
	uint8_t packet[LAXONJE_PACKET];
	struct totals totals;
};

static uint16_t owner_of(uint32_t frame) { return frame < OTHERS ? GUEST_DOMAIN : OTHER_DOMAIN; }

static void fail(const char *what) { perror(what), exit(1); }

/* The page of an op. What is counted as strange never comes: it is proved of each op. */
static uint32_t *page_of(void *held, const struct laxonje_op *op)
{
	struct host *host = (struct host *)held;
	bool inside = op->frame < FRAMES && op->count <= LAXONJE_PAGE_WORDS && op->word <= LAXONJE_PAGE_WORDS - op->count;
	host->totals.strange += !inside || owner_of(op->frame) != GUEST_DOMAIN;
	if (!inside)
		abort();
	host->totals.accesses += op->count;
	return (uint32_t *)(void *)(host->memory + (size_t)op->frame * PAGE);
}

static void notify(void *held, uint32_t port)
{
	struct host *host = (struct host *)held;
	uint64_t one = 1;
	host->totals.strange += port != PORT;
	if (write(host->channel.interrupt, &one, sizeof one) != sizeof one)
		fail("eventfd");
}

static struct laxonje_io io_of(struct host *host)
{
	return (struct laxonje_io){ host, page_of, notify, NULL };
}

/* A turn, of the packets that the guest shows. */
static struct laxonje_op take_turn(struct host *host)
{
	const struct laxonje_io io = io_of(host);
	return laxonje_drive_turns(&host->drive, &io, LAXONJE_TURNS, &host->turns);
}

static void connect(struct host *host)
{
	static uint16_t owners[FRAMES];
	uint32_t table[1] = { TABLE }, made;
	struct laxonje_queue_desc desc = { .tx = TX_RING, .rx = RX_RING, .granter = GUEST_DOMAIN, .user = HOST_DOMAIN, .port = PORT };
	for (uint32_t frame = 0; frame < FRAMES; frame++)
		owners[frame] = owner_of(frame);
	made = laxonje_queue_make(host->program, owners, FRAMES, table, 1, &desc, host->queue);
	if (made != LAXONJE_MADE)
		fprintf(stderr, "no queue: %u\n", (unsigned)made), exit(1);
	host->drive.queue = host->queue, host->drive.tx = TX_RING, host->drive.rx = RX_RING;
	host->drive.counters = host->counters, host->drive.counter_count = laxonje_counters(host->program);
}

/* Waits for the guest's kick. False: the guest has ended. */
static bool awaits(struct host *host, int guest)
{
	struct pollfd on[] = { { host->channel.kick, POLLIN, 0 }, { guest, POLLIN, 0 } };
	uint64_t count;
	if (poll(on, 2, -1) < 1)
		fail("poll");
	return (on[0].revents & POLLIN) && read(host->channel.kick, &count, sizeof count) == sizeof count;
}

/* Waits for the rx slots of a packet: whether to try again. */
static bool awaits_slots(struct host *host, int guest, size_t length)
{
	const struct laxonje_io io = io_of(host);
	struct laxonje_op op = { 0 };
	host->totals.strange += laxonje_drive_await(&host->drive, &io, length, &op) != LAXONJE_TAKEN;
	host->totals.waits++;
	return op.outcome == LAXONJE_AWAITED_POSTED || (op.outcome == LAXONJE_AWAITED_WAITING && awaits(host, guest));
}

/* What a host does with a packet that passes: here it sends it back itself, with the addresses exchanged. Whether the queue goes on. */
static bool answer(struct host *host, uint32_t number, int guest)
{
	const struct laxonje_io io = io_of(host);
	size_t length = laxonje_drive_packet(&host->drive, &host->turns, number, host->packet, sizeof host->packet);
	uint8_t to[ADDRESS];
	struct laxonje_op op = { 0 };
	host->totals.taken++;
	host->totals.blank += (host->turns.turned[number].flags & LAXONJE_FLAG_CSUM_BLANK) != 0;
	memcpy(to, host->packet, ADDRESS);
	memcpy(host->packet, host->packet + ADDRESS, ADDRESS);
	memcpy(host->packet + ADDRESS, to, ADDRESS);
	for (unsigned tries = 0; tries < TRIES; tries++) {
		host->totals.strange += laxonje_drive_deliver(&host->drive, &io, host->packet, length, &op) != LAXONJE_TAKEN;
		if (op.outcome != LAXONJE_DELIVERY_FEW_SLOTS || !awaits_slots(host, guest, length))
			break;
	}
	host->totals.answered += op.outcome == LAXONJE_DELIVERY_SENT;
	return op.outcome != LAXONJE_DELIVERY_HALTED;
}

/* What became of a packet of the turn. Whether the queue goes on. */
static bool count(struct host *host, uint32_t number, int guest)
{
	const struct laxonje_turned *turned = &host->turns.turned[number];
	host->totals.packets += turned->outcome != LAXONJE_TURN_HALTED;
	host->totals.refused += turned->outcome == LAXONJE_TURN_REFUSED;
	host->totals.back += turned->outcome == LAXONJE_TURN_RAN && turned->number == LAXONJE_TX;
	if (turned->outcome == LAXONJE_TURN_RAN && turned->number == LAXONJE_PASS)
		return answer(host, number, guest);
	return turned->outcome != LAXONJE_TURN_HALTED;
}

/* The same of each, in their order. */
static bool count_all(struct host *host, int guest)
{
	for (uint32_t number = 0; number < host->turns.count; number++)
		if (!count(host, number, guest))
			return false;
	return true;
}

/* Takes turns until the guest ends. A queue that halts is made anew, as for a guest that connects again. */
static void serve(struct host *host, int guest)
{
	while (awaits(host, guest)) {
		for (struct laxonje_op op = take_turn(host); op.outcome != LAXONJE_TURN_IDLE; op = take_turn(host)) {
			if (!count_all(host, guest) || op.outcome == LAXONJE_TURN_HALTED) {
				host->totals.halted++;
				connect(host);
				break;
			}
		}
	}
}

/* A guest in a process of its own, and what it says of the answers. */
static unsigned session(struct host *host, enum guest_behaviour behaviour, unsigned packets, unsigned seed)
{
	int life[2], status;
	pid_t child;
	host->channel = (struct channel){ eventfd(0, 0), eventfd(0, 0) };
	if (pipe(life) || host->channel.kick < 0 || host->channel.interrupt < 0 || (child = fork()) < 0)
		fail("guest");
	if (!child) {
		prctl(PR_SET_PDEATHSIG, SIGKILL);
		close(life[0]);
		laxonje_queue_delete(&host->queue);
		laxonje_program_delete(&host->program);
		free(host->counters);
		_exit(run_front(host->memory, host->channel, behaviour, packets, seed) != 0);
	}
	close(life[1]);
	connect(host);
	serve(host, life[0]);
	laxonje_queue_free(host->queue);
	waitpid(child, &status, 0);
	close(life[0]), close(host->channel.kick), close(host->channel.interrupt);
	return !WIFEXITED(status) || WEXITSTATUS(status);
}

static enum guest_behaviour behaviour_of(const char *word)
{
	return !strcmp(word, "few") ? GUEST_FEW : !strcmp(word, "hostile") ? GUEST_HOSTILE : GUEST_HONEST;
}

/* Guests one after another, each with a seed of its own, until that many packets were sent, or that many seconds have passed. */
static unsigned sessions(struct host *host, const char *word, unsigned long most, bool seconds)
{
	bool restarts = !strcmp(word, "restart");
	unsigned each = restarts ? SESSION : seconds || most > LONG_SESSION ? LONG_SESSION : most, wrong = 0;
	time_t until = time(NULL) + (time_t)most;
	for (unsigned long sent = 0, n = 0; seconds ? time(NULL) < until : sent < most; sent += each, n++) {
		unsigned count = !seconds && most - sent < each ? most - sent : each;
		wrong += session(host, behaviour_of(word), count, restarts ? sent + 1 : n + 1);
	}
	return wrong;
}

static void load(struct host *host, const char *name)
{
	static uint8_t text[1 << 20];
	FILE *file = fopen(name, "r");
	size_t size = file ? fread(text, 1, sizeof text, file) : 0;
	struct laxonje_verdict verdict = laxonje_load_settings(text, size, host->program);
	if (verdict.kind != LAXONJE_ACCEPTED)
		fprintf(stderr, "%s: verdict %u %u at %u\n", name, verdict.kind, verdict.cause, verdict.at), exit(1);
	fclose(file);
	host->counters = (uint64_t *)calloc(laxonje_counters(host->program) + 1, sizeof *host->counters);
	if (!host->counters)
		fail("calloc");
}

int main(int count, char **words)
{
	static struct host host;
	char *end = NULL;
	unsigned long packets = count == 4 ? strtoul(words[3], &end, 10) : 0;
	unsigned wrong, touched = 0;
	bool seconds = end && !strcmp(end, "s");
	int memory = memfd_create("guest", 0);
	if (count != 4 || (*end && !seconds))
		return fprintf(stderr, "host SETTINGS honest|few|restart|hostile PACKETS|SECONDSs\n"), 2;
	if (memory < 0 || ftruncate(memory, FRAMES * PAGE))
		fail("memfd");
	host.memory = mmap(NULL, FRAMES * PAGE, PROT_READ | PROT_WRITE, MAP_SHARED, memory, 0);
	if (host.memory == MAP_FAILED)
		fail("mmap");
	memset(host.memory + OTHERS * PAGE, 0xa5, (FRAMES - OTHERS) * PAGE);
	host.program = laxonje_program_new();
	host.queue = laxonje_queue_new();
	load(&host, words[1]);
	wrong = sessions(&host, words[2], packets, seconds);
	for (size_t i = (size_t)OTHERS * PAGE; i < (size_t)FRAMES * PAGE; i++)
		touched += host.memory[i] != 0xa5;
	laxonje_queue_delete(&host.queue);
	laxonje_program_delete(&host.program);
	free(host.counters);
	if (strcmp(words[2], "hostile"))
		printf("packets %lu taken %lu blank %lu answered %lu back %lu refused %lu halted %lu\n", host.totals.packets, host.totals.taken,
		       host.totals.blank, host.totals.answered, host.totals.back, host.totals.refused, host.totals.halted);
	else
		fprintf(stderr, "packets %lu answered %lu refused %lu halted %lu accesses %lu\n", host.totals.packets, host.totals.answered,
		        host.totals.refused, host.totals.halted, host.totals.accesses);
	if (!strcmp(words[2], "few") && !host.totals.waits)
		printf("no wait\n"), wrong++;
	printf("wrong answers %u, accesses elsewhere %lu, bytes changed elsewhere %u\n", wrong, host.totals.strange, touched);
	return wrong || host.totals.strange || touched;
}
