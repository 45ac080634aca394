/* A host of two guests in one thread, with epoll: epoll SETTINGS PACKETS. A guest's event says that its rings have to be looked at, for packets to
 * take and for buffers that were posted. A turn takes up to 16 packets. Each packet that passes is delivered back with its addresses exchanged. The
 * guests are those of guest.h, in threads: one that keeps the protocol, and one that posts few buffers. */
#define _GNU_SOURCE
#include "guest.h"
#include <laxonje_drive.h>
#include <poll.h>
#include <pthread.h>
#include <stdio.h>
#include <sys/epoll.h>
#include <sys/eventfd.h>

enum { TX, RX, TABLE, DATA = 16, FRAMES = DATA + GUEST_DATA_FRAMES, GUESTS = 2, FIRST_DOMAIN = 1, AT_ONCE = 4, SECONDS = 20 };

/* What the host has of a guest: one queue, the packets of its last turn, the next of which is to be delivered, and that one, if it waits for
 * buffers. */
struct device {
	uint32_t memory[FRAMES][LAXONJE_PAGE_WORDS];
	struct laxonje_drive drive;
	struct laxonje_turns turns;
	uint32_t next;
	uint8_t packet[LAXONJE_PACKET];
	size_t length;
	int event, notice;
	struct guest guest;
	unsigned packets, wrong, passed, waits;
	int ended;
};

static struct device devices[GUESTS];
static const enum guest_behaviour behaviours[GUESTS] = { GUEST_HONEST, GUEST_FEW };

static void signal_fd(int fd)
{
	uint64_t one = 1;
	if (write(fd, &one, sizeof one) != sizeof one)
		perror("write");
}

/* The guest's part: its ways to the host, and its thread. */
static void kick(void *host) { signal_fd(((struct device *)host)->event); }

static bool awaits(void *host)
{
	struct pollfd on = { ((struct device *)host)->notice, POLLIN, 0 };
	uint64_t count;
	return poll(&on, 1, 1000 * SECONDS) == 1 && read(on.fd, &count, sizeof count) == sizeof count;
}

static void *run(void *host)
{
	struct device *device = host;
	unsigned number = (unsigned)(device - devices);
	device->wrong = guest_run(&device->guest, behaviours[number], device->packets, number);
	__atomic_store_n(&device->ended, 1, __ATOMIC_RELEASE);
	kick(device);
	return NULL;
}

/* The host's part. A frame that is a hole has another owner, so it is never asked for. */
static uint32_t *page(void *host, const struct laxonje_op *op) { return ((struct device *)host)->memory[op->frame]; }

static void notify(void *host, uint32_t port) { (void)port, signal_fd(((struct device *)host)->notice); }

static uint32_t make(struct device *device, struct laxonje_program *program, uint16_t domain)
{
	const struct laxonje_mapped parts[] = { { TX, 3, device->memory[TX] }, { DATA, GUEST_DATA_FRAMES, device->memory[DATA] } };
	const struct laxonje_queue_desc desc = { TX, RX, domain, 0, 0, 0, 0, 0, 0 };
	const uint32_t table[] = { TABLE };
	struct laxonje_extent extents[4];
	size_t count = laxonje_mapped_extents(parts, 2, domain, extents, 4);

	device->drive.queue = laxonje_queue_new();
	device->drive.tx = TX, device->drive.rx = RX;
	device->drive.counter_count = laxonje_counters(program);
	device->drive.counters = (uint64_t *)calloc(device->drive.counter_count + 1, sizeof(uint64_t));
	if (!device->drive.counters)
		return LAXONJE_MADE_MEMORY;
	return laxonje_queue_make_extents(program, extents, count, table, 1, &desc, device->drive.queue);
}

static void exchange_addresses(uint8_t *packet)
{
	for (unsigned i = 0; i < 6; i++) {
		uint8_t byte = packet[i];
		packet[i] = packet[6 + i];
		packet[6 + i] = byte;
	}
}

/* Delivers the packet that is copied out. Returns whether it is gone: else the guest's event says when to come again. */
static bool give_back(struct device *device, const struct laxonje_io *io)
{
	struct laxonje_op over;
	do {
		laxonje_drive_deliver(&device->drive, io, device->packet, device->length, &over);
		if (over.outcome != LAXONJE_DELIVERY_FEW_SLOTS) {
			device->length = 0;
			return true;
		}
		laxonje_drive_await(&device->drive, io, device->length, &over);
	} while (over.outcome == LAXONJE_AWAITED_POSTED);
	device->waits++;
	return false;
}

/* Delivers the packets of the last turn that passed, one after another. Returns whether all are gone. */
static bool give_all_back(struct device *device, const struct laxonje_io *io)
{
	for (; device->next < device->turns.count; device->next++) {
		const struct laxonje_turned *turned = &device->turns.turned[device->next];
		if (turned->outcome != LAXONJE_TURN_RAN || turned->number != LAXONJE_PASS)
			continue;
		if (!device->length) {
			device->passed++;
			device->length = laxonje_drive_packet(&device->drive, &device->turns, device->next, device->packet, sizeof device->packet);
			exchange_addresses(device->packet);
		}
		if (!give_back(device, io))
			return false;
	}
	return true;
}

/* After a guest's event: some turns, while no packet waits. What is left is for the next time, so that the other guest isn't kept waiting.
 * Returns 0 if the queue is of no use any more. */
static int serve(struct device *device)
{
	const struct laxonje_io io = { device, page, notify, NULL };
	for (unsigned turns = 0; turns < AT_ONCE; turns++) {
		if (!give_all_back(device, &io))
			return 1;
		struct laxonje_op over = laxonje_drive_turns(&device->drive, &io, LAXONJE_TURNS, &device->turns);
		device->next = 0;
		if (over.outcome == LAXONJE_TURN_IDLE)
			return 1;
		if (over.outcome == LAXONJE_TURN_HALTED || over.outcome == LAXONJE_NOTHING) {
			fprintf(stderr, "%s\n", laxonje_name(over.outcome, over.cause));
			return 0;
		}
	}
	signal_fd(device->event);
	return 1;
}

/* Until both guests have ended. */
static int serve_all(int epoll)
{
	struct epoll_event events[GUESTS];
	for (;;) {
		int count = epoll_wait(epoll, events, GUESTS, 1000 * SECONDS), ended = 0;
		if (count <= 0)
			return 0;
		for (int i = 0; i < count; i++) {
			struct device *device = &devices[events[i].data.u32];
			uint64_t seen;
			/* the event first, then the rings: one that comes meanwhile is seen the next time */
			if (read(device->event, &seen, sizeof seen) != sizeof seen || !serve(device))
				return 0;
		}
		for (int i = 0; i < GUESTS; i++)
			ended += __atomic_load_n(&devices[i].ended, __ATOMIC_ACQUIRE);
		if (ended == GUESTS)
			return 1;
	}
}

static int begin(struct device *device, struct laxonje_program *program, int epoll, pthread_t *thread)
{
	uint32_t number = (uint32_t)(device - devices);
	struct epoll_event on = { EPOLLIN, { .u32 = number } };
	const struct guest guest = { (uint8_t *)device->memory, TX, RX, TABLE, DATA, 0, device, kick, awaits };
	uint32_t made = make(device, program, (uint16_t)(FIRST_DOMAIN + number));

	device->guest = guest;
	device->event = eventfd(0, EFD_NONBLOCK), device->notice = eventfd(0, 0);
	if (made != LAXONJE_MADE)
		fprintf(stderr, "%s\n", laxonje_made_name(made));
	return made == LAXONJE_MADE && !epoll_ctl(epoll, EPOLL_CTL_ADD, device->event, &on) && !pthread_create(thread, NULL, run, device);
}

static struct laxonje_program *loaded(const char *path)
{
	static uint8_t text[65536];
	struct laxonje_program *program = laxonje_program_new();
	FILE *file = fopen(path, "rb");
	size_t length = file ? fread(text, 1, sizeof text, file) : 0;
	if (file)
		fclose(file);
	if (laxonje_load_settings(text, length, program).kind != LAXONJE_ACCEPTED)
		laxonje_program_delete(&program);
	return program;
}

int main(int count, char **words)
{
	struct laxonje_program *program = count == 3 ? loaded(words[1]) : NULL;
	pthread_t threads[GUESTS];
	int epoll = epoll_create1(0), wrong = 0;
	if (!program || epoll < 0)
		return fprintf(stderr, "epoll SETTINGS PACKETS: a program that is accepted, and a number\n"), 2;
	for (int i = 0; i < GUESTS; i++) {
		devices[i].packets = (unsigned)strtoul(words[2], NULL, 10);
		if (!begin(&devices[i], program, epoll, &threads[i]))
			return 1;
	}
	if (!serve_all(epoll))
		return fprintf(stderr, "the guests were left waiting\n"), 1;
	for (int i = 0; i < GUESTS; i++) {
		pthread_join(threads[i], NULL);
		printf("passed %u, %s, wrong %u\n", devices[i].passed, devices[i].waits ? "waited for buffers" : "no waits", devices[i].wrong);
		wrong += devices[i].wrong != 0;
		laxonje_queue_delete(&devices[i].drive.queue);
		free(devices[i].drive.counters);
	}
	laxonje_program_delete(&program);
	return wrong != 0;
}
