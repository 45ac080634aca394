/* A front thread and a back thread for each queue, over ring pages of tx slots and atomic words: what `bench/pairs` measures
 * `xdpbox pair` beside. Each packet of 14 bytes is written to a granted page, published, copied, counted and answered, with
 * the event indices of ring.h. usage: pair QUEUES PACKETS none|own|shared [park]; prints the packets per second of all
 * queues. Who finds nothing gives up its processor and looks again; with `park` it sleeps until the other thread of its queue
 * wakes it, which it does after each look, as the threads of `xdpbox pair` do. */
#include <pthread.h>
#include <sched.h>
#include <stdatomic.h>
#include <stdint.h>
#include <stdio.h>
#include <stdlib.h>
#include <string.h>
#include <time.h>

#define SLOTS 256
#define IN_FLIGHT 16

/* Lets a thread sleep until it is woken; a wake-up that comes before is kept. */
struct parker {
	_Atomic int state;
	pthread_mutex_t lock;
	pthread_cond_t woken;
};

enum { EMPTY, PARKED, NOTIFIED };

struct queue {
	_Atomic uint32_t ring[1024];		/* req_prod, req_event, rsp_prod, rsp_event, then slots from word 16 */
	_Atomic uint32_t table[2 * SLOTS];	/* flags and domid, frame */
	_Atomic uint32_t pages[SLOTS][4];
	_Atomic int port;
	_Atomic uint64_t *counter;
	uint32_t packets;
	struct parker front, back;
};

static int parks;

static _Atomic uint64_t counters[8 * 8];

static void rest(struct parker *p)
{
	int empty = EMPTY;

	if (!parks) {
		sched_yield();
		return;
	}
	pthread_mutex_lock(&p->lock);
	if (atomic_compare_exchange_strong(&p->state, &empty, PARKED))
		while (p->state != NOTIFIED)
			pthread_cond_wait(&p->woken, &p->lock);
	p->state = EMPTY;
	pthread_mutex_unlock(&p->lock);
}

static void wake(struct parker *p)
{
	if (!parks || atomic_exchange(&p->state, NOTIFIED) != PARKED)
		return;
	pthread_mutex_lock(&p->lock);
	pthread_mutex_unlock(&p->lock);
	pthread_cond_signal(&p->woken);
}

static void *front(void *given)
{
	struct queue *q = given;
	uint32_t produced = 0, consumed = 0;

	while (consumed < q->packets) {
		if (produced < q->packets && produced - consumed < IN_FLIGHT) {
			uint32_t id = produced % SLOTS, at = 16 + 3 * id, old = produced++;
			q->table[2 * id + 1] = id;
			q->table[2 * id] = 5;
			for (int word = 0; word < 4; word++)
				q->pages[id][word] = produced;
			q->ring[at] = id;
			q->ring[at + 1] = 0;
			q->ring[at + 2] = 14 << 16 | id;
			q->ring[0] = produced;
			if (produced - q->ring[1] < produced - old)
				q->port = 1;
			wake(&q->back);
			continue;
		}
		uint32_t published = q->ring[2];
		if (published == consumed) {
			q->ring[3] = consumed + 1;
			wake(&q->back);
			if (q->ring[2] == consumed)
				rest(&q->front);
			continue;
		}
		for (; consumed != published; consumed++)
			q->table[2 * (q->ring[16 + 3 * (consumed % SLOTS)] % SLOTS)] = 0;
		wake(&q->back);
	}
	wake(&q->back);
	return 0;
}

static void *back(void *given)
{
	struct queue *q = given;
	uint32_t consumed = 0, packet[4];

	while (consumed < q->packets) {
		if (q->ring[0] == consumed) {
			q->ring[1] = consumed + 1;
			wake(&q->front);
			if (q->ring[0] == consumed)
				rest(&q->back);
			continue;
		}
		uint32_t at = 16 + 3 * (consumed % SLOTS), gref = q->ring[at] % SLOTS, offset = q->ring[at + 1], id = q->ring[at + 2] & 0xffff;
		if ((q->table[2 * gref] & 3) == 1 && !offset)
			for (int word = 0; word < 4; word++)
				packet[word] = q->pages[q->table[2 * gref + 1] % SLOTS][word];
		__asm__ volatile("" : : "r"(packet) : "memory");
		if (q->counter)
			atomic_fetch_add(q->counter, 1);
		q->ring[at] = id;
		q->ring[2] = ++consumed;
		if (consumed - q->ring[3] < 1)
			q->port = 1;
		wake(&q->front);
	}
	wake(&q->front);
	return 0;
}

int main(int argc, char **argv)
{
	unsigned queues = argc > 1 ? atoi(argv[1]) : 1, packets = argc > 2 ? atoi(argv[2]) : 10000;
	const char *map = argc > 3 ? argv[3] : "none";
	struct queue *all = calloc(queues, sizeof(*all));
	pthread_t threads[2 * 8];
	struct timespec start, end;

	for (unsigned q = 0; q < queues; q++) {
		all[q].packets = packets;
		all[q].ring[1] = all[q].ring[3] = 1;
		all[q].counter = !strcmp(map, "own") ? &counters[q] : !strcmp(map, "shared") ? &counters[0] : 0;
	}
	parks = argc > 4 && !strcmp(argv[4], "park");
	for (unsigned q = 0; q < queues; q++) {
		pthread_mutex_init(&all[q].front.lock, 0);
		pthread_cond_init(&all[q].front.woken, 0);
		pthread_mutex_init(&all[q].back.lock, 0);
		pthread_cond_init(&all[q].back.woken, 0);
	}
	clock_gettime(CLOCK_MONOTONIC, &start);
	for (unsigned q = 0; q < queues; q++) {
		pthread_create(&threads[2 * q], 0, back, &all[q]);
		pthread_create(&threads[2 * q + 1], 0, front, &all[q]);
	}
	for (unsigned t = 0; t < 2 * queues; t++)
		pthread_join(threads[t], 0);
	clock_gettime(CLOCK_MONOTONIC, &end);
	printf("%.0f\n", queues * (double)packets / (end.tv_sec - start.tv_sec + (end.tv_nsec - start.tv_nsec) * 1e-9));
	return 0;
}
