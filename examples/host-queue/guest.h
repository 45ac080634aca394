/* A guest for the tests of hosts: a small netfront of one queue, or one that keeps no rule. C11, for gcc and clang.
 *
 * A host's test gives it the pages of a guest, which the host serves meanwhile in another thread or process, and calls guest_run. All
 * packets are Ethernet frames of 42 to 1,513 bytes, in one slot or in two. Those of UDP to port 7 are to come back with their ports
 * exchanged, and all others with their addresses exchanged, by the filter or by the host: so does examples/host-queue/host.c. */
#ifndef GUEST_H
#define GUEST_H

#include "ring.h"

#include <stdbool.h>
#include <stddef.h>
#include <stdint.h>
#include <unistd.h>

/* How the guest behaves. GUEST_FEW: it posts two buffers at a time, the first ones once the host waits for them, and wants no packet back
 * but the host's own. GUEST_HOSTILE: it writes anything into its pages at any time, and looks at no answer. */
enum guest_behaviour { GUEST_HONEST, GUEST_FEW, GUEST_HOSTILE };

enum { GUEST_PAGE = 4096, GUEST_TX_FRAMES = 16, GUEST_RX_FRAMES = 24, GUEST_DATA_FRAMES = GUEST_TX_FRAMES + GUEST_RX_FRAMES };

/* A guest's pages, from frame 0 on, and its event channel. `tx`, `rx` and `table` are the frames of its rings and of its grant table, `data`
 * is the first of GUEST_DATA_FRAMES that it grants to `host_domain`: by references from 0 on, the first GUEST_TX_FRAMES for reading alone. */
struct guest {
	uint8_t *memory;
	uint32_t tx, rx, table, data;
	uint16_t host_domain;
	void *host;
	void (*kick)(void *host);   /* an event to the host */
	bool (*awaits)(void *host); /* waits for one from the host, longer than it takes on a busy machine: whether it came */
};

enum { GUEST_BATCH = 8, GUEST_FEW_FRAMES = 2, GUEST_HEADERS = 42, GUEST_ECHO = 7, GUEST_BLANK = 4 };

struct guest_front {
	const struct guest *guest;
	netif_tx_front_ring_t tx;
	netif_rx_front_ring_t rx;
	enum guest_behaviour behaviour;
	unsigned wrong, seed;
};

static unsigned guest_any(struct guest_front *front, unsigned below)
{
	front->seed = front->seed * 1103515245 + 12345;
	return (front->seed >> 8) % below;
}

static uint8_t *guest_page(struct guest_front *front, unsigned frame) { return front->guest->memory + (size_t)frame * GUEST_PAGE; }

static uint8_t *guest_data(struct guest_front *front, unsigned k) { return guest_page(front, front->guest->data + k); }

/* Reference k grants the k-th data frame: the first ones for reading alone. */
static void guest_grant_all(struct guest_front *front)
{
	grant_entry_v1_t *table = (void *)guest_page(front, front->guest->table);
	for (unsigned k = 0; k < GUEST_TX_FRAMES + GUEST_RX_FRAMES; k++) {
		table[k].domid = front->guest->host_domain;
		table[k].frame = front->guest->data + k;
		wmb();
		table[k].flags = GTF_permit_access | (k < GUEST_TX_FRAMES ? GTF_readonly : 0);
	}
}

static void guest_connect(struct guest_front *front)
{
	netif_tx_sring_t *tx = (void *)guest_page(front, front->guest->tx);
	netif_rx_sring_t *rx = (void *)guest_page(front, front->guest->rx);
	SHARED_RING_INIT(tx);
	SHARED_RING_INIT(rx);
	FRONT_RING_INIT(&front->tx, tx, GUEST_PAGE);
	FRONT_RING_INIT(&front->rx, rx, GUEST_PAGE);
	guest_grant_all(front);
}

/* The buffers of the rx ring: id k for the reference GUEST_TX_FRAMES + k. A host that waits for buffers is told. */
static void guest_post(struct guest_front *front, unsigned k)
{
	netif_rx_request_t *request = RING_GET_REQUEST(&front->rx, front->rx.req_prod_pvt++);
	int notify;
	request->id = k;
	request->gref = GUEST_TX_FRAMES + k;
	RING_PUSH_REQUESTS_AND_CHECK_NOTIFY(&front->rx, notify);
	if (notify && front->behaviour != GUEST_HOSTILE)
		front->guest->kick(front->guest->host);
}

static void guest_post_all(struct guest_front *front, unsigned count)
{
	for (unsigned k = 0; k < count; k++)
		guest_post(front, k);
}

/* Posts the first buffers once the host waits for them: it stores its event index, which was 0. Five seconds at most. */
static void guest_post_awaited(struct guest_front *front)
{
	volatile uint32_t *event = &front->rx.sring->req_event;
	for (unsigned tries = 0; !*event && tries < 50000; tries++)
		usleep(100);
	front->wrong += !*event;
	guest_post_all(front, GUEST_FEW_FRAMES);
}

/* A packet of UDP over IPv4, or of another protocol, in one page or two: whether it is to come back. */
static bool guest_send(struct guest_front *front, unsigned n, unsigned size)
{
	uint8_t *bytes = guest_data(front, 2 * (n % GUEST_BATCH)), *second = bytes + GUEST_PAGE;
	bool echo = guest_any(front, 2) && front->behaviour != GUEST_FEW;
	unsigned first = guest_any(front, 2) && size > GUEST_HEADERS ? size - guest_any(front, size - GUEST_HEADERS) : size, offset = GUEST_PAGE - first;
	uint8_t header[GUEST_HEADERS] = { 1, 2, 3, 4, 5, 6, 7, 8, 9, 10, 11, 12, 8, 0, 0x45, 0, 0, 0, n >> 8, n, 0, 0, 64, 17 };
	header[16] = (size - 14) >> 8, header[17] = size - 14;
	header[34] = n >> 8, header[35] = n, header[37] = echo ? GUEST_ECHO : GUEST_ECHO + 1;
	for (unsigned i = 0; i < size; i++)
		*(i < first ? bytes + offset + i : second + i - first) = i < GUEST_HEADERS ? header[i] : n + i;
	for (unsigned part = 0; part < (first < size ? 2 : 1); part++) {
		netif_tx_request_t *request = RING_GET_REQUEST(&front->tx, front->tx.req_prod_pvt++);
		request->gref = 2 * (n % GUEST_BATCH) + part;
		request->offset = part ? 0 : offset;
		request->flags = !part && first < size ? NETTXF_more_data : 0;
		request->flags |= !part && n % GUEST_BLANK == 0 ? NETTXF_csum_blank : 0;
		request->id = 2 * (n % GUEST_BATCH) + part;
		request->size = part ? size - first : size;
	}
	return echo;
}

/* A packet that was sent, and a batch of them. Which is the next to come back, of those that the host answers and of those that the filter sends
 * back: each kind comes in its order. */
struct guest_sent { unsigned number, size; bool echo; };
struct guest_batch { struct guest_sent sent[GUEST_BATCH]; unsigned count, next[2]; };

/* A packet that came back has its addresses swapped, and its ports if the filter sent it. Else it is what was sent. */
static bool guest_is(const uint8_t *bytes, const netif_rx_response_t *response, const struct guest_sent *sent)
{
	const uint8_t *from = bytes + (sent->echo ? 36 : 34);
	bool same = response->status == (int)sent->size && response->offset == 0 && bytes[0] == 7 && bytes[6] == 1;
	same = same && bytes[sent->echo ? 35 : 37] == (sent->echo ? GUEST_ECHO : GUEST_ECHO + 1);
	same = same && from[0] == (uint8_t)(sent->number >> 8) && from[1] == (uint8_t)sent->number;
	for (unsigned i = GUEST_HEADERS; i < sent->size; i++)
		same = same && bytes[i] == (uint8_t)(sent->number + i);
	return same;
}

/* Whether a packet is the next of those that the filter sends back, or of those that the host answers. */
static bool guest_is_next(const uint8_t *bytes, const netif_rx_response_t *response, struct guest_batch *batch, bool echo)
{
	unsigned *next = &batch->next[echo];
	while (*next < batch->count && batch->sent[*next].echo != echo)
		++*next;
	return *next < batch->count && guest_is(bytes, response, &batch->sent[*next]) && ++*next;
}

static void guest_receive(struct guest_front *front, struct guest_batch *batch)
{
	netif_rx_response_t *response = RING_GET_RESPONSE(&front->rx, front->rx.rsp_cons++);
	const uint8_t *bytes = guest_data(front, GUEST_TX_FRAMES + response->id % GUEST_RX_FRAMES);
	front->wrong += !guest_is_next(bytes, response, batch, true) && !guest_is_next(bytes, response, batch, false);
	guest_post(front, response->id);
}

/* The answers to the slots of a batch. */
static void guest_take_answers(struct guest_front *front)
{
	while (RING_HAS_UNCONSUMED_RESPONSES(&front->tx)) {
		rmb();
		netif_tx_response_t *response = RING_GET_RESPONSE(&front->tx, front->tx.rsp_cons++);
		front->wrong += response->status != NETIF_RSP_OKAY;
	}
}

/* Sends a batch, and takes all of its answers, and a packet for each of its packets. Ends if no event comes, or a packet too many. */
static void guest_exchange(struct guest_front *front, unsigned first, unsigned count)
{
	uint32_t posted = front->tx.req_prod_pvt;
	struct guest_batch batch = { .count = count };
	unsigned seen = 0;
	int notify, more, packets;
	for (unsigned k = 0; k < count; k++) {
		struct guest_sent *sent = &batch.sent[k];
		sent->number = first + k, sent->size = GUEST_HEADERS + guest_any(front, 1472);
		sent->echo = guest_send(front, first + k, sent->size);
	}
	RING_PUSH_REQUESTS_AND_CHECK_NOTIFY(&front->tx, notify);
	if (notify)
		front->guest->kick(front->guest->host);
	if (front->behaviour == GUEST_FEW && !front->rx.req_prod_pvt)
		guest_post_awaited(front);
	while (front->tx.rsp_cons != front->tx.req_prod_pvt || seen < count) {
		RING_FINAL_CHECK_FOR_RESPONSES(&front->tx, more);
		RING_FINAL_CHECK_FOR_RESPONSES(&front->rx, packets);
		if ((packets && seen == count) || (!more && !packets && !front->guest->awaits(front->guest->host))) {
			front->wrong++;
			return;
		}
		guest_take_answers(front);
		for (; seen < count && RING_HAS_UNCONSUMED_RESPONSES(&front->rx); seen++) {
			rmb();
			guest_receive(front, &batch);
		}
	}
	front->wrong += front->tx.rsp_cons - posted < count || RING_HAS_UNCONSUMED_RESPONSES(&front->rx);
}

/* Anything into any of the guest's own pages, mostly near what the host looks at. */
static void guest_scribble(struct guest_front *front)
{
	uint32_t *tx = (void *)front->tx.sring, *rx = (void *)front->rx.sring, *table = (void *)guest_page(front, front->guest->table);
	uint32_t *data = (void *)guest_data(front, guest_any(front, GUEST_DATA_FRAMES));
	volatile uint32_t *at[] = { tx, rx, tx + 16 + guest_any(front, 768), rx + 16 + guest_any(front, 512), table + guest_any(front, 96),
	                            tx + guest_any(front, 1024), data + guest_any(front, 1024) };
	unsigned place = guest_any(front, 7);
	uint32_t value = guest_any(front, 3) ? guest_any(front, 1 << 16) << guest_any(front, 17) : guest_any(front, 64);
	*at[place] = place < 2 ? *at[place] + guest_any(front, 3) : value;
}

/* Good packets among what is written anywhere, on rings that are made anew now and then, whatever the host is about. */
static void guest_attack(struct guest_front *front, unsigned n)
{
	int notify;
	if (n % 8 == 0)
		guest_connect(front);
	if (n % 8 == 0)
		guest_post_all(front, GUEST_RX_FRAMES);
	for (unsigned k = 0; k < GUEST_BATCH; k++)
		guest_send(front, k, GUEST_HEADERS + guest_any(front, 1472));
	RING_PUSH_REQUESTS_AND_CHECK_NOTIFY(&front->tx, notify);
	(void)notify;
	front->guest->kick(front->guest->host);
	for (unsigned k = 0; k < 64; k++)
		guest_scribble(front);
}

/* Sends that many packets, or until one was answered wrongly; returns how many were. */
static inline unsigned guest_run(const struct guest *guest, enum guest_behaviour behaviour, unsigned packets, unsigned seed)
{
	struct guest_front front = { .guest = guest, .behaviour = behaviour, .seed = seed };
	guest_connect(&front);
	if (behaviour == GUEST_FEW)
		front.rx.sring->req_event = 0;
	else
		guest_post_all(&front, GUEST_RX_FRAMES);
	guest->kick(guest->host);
	for (unsigned n = 0; behaviour != GUEST_HOSTILE && n < packets && !front.wrong; n += GUEST_BATCH)
		guest_exchange(&front, n, packets - n < GUEST_BATCH ? packets - n : GUEST_BATCH);
	for (unsigned n = 0; behaviour == GUEST_HOSTILE && n < packets; n += GUEST_BATCH)
		guest_attack(&front, n / GUEST_BATCH);
	return front.wrong;
}

#endif
