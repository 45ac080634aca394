/* Prints the questions of crates/outside_rows that Xen's own headers answer, with their answers: 'question = answer', one per line.
   tools/dev/rows-from-xen compiles it, and compares the lines with those of the crate. */
#include <stdbool.h>
#include <stddef.h>
#include <stdint.h>
#include <stdio.h>
#include <string.h>

#define mb() __sync_synchronize()
#define rmb() __sync_synchronize()
#define wmb() __sync_synchronize()
#include <xen/xen.h>
#include <xen/grant_table.h>
#include <xen/io/netif.h>

enum { PAGE = 4096, WORD = 4 };

static union {
	netif_tx_sring_t tx;
	netif_rx_sring_t rx;
	uint8_t bytes[PAGE];
} page;

/* Indices at which something wraps: 32 bits, the sign, the ring. */
static const uint32_t edges[] = { 0, 1, 255, 256, 257, 0x7FFFFFFF, 0x80000000, 0xFFFFFF00, 0xFFFFFFFE, 0xFFFFFFFF };
/* How far the consumer is past the response producer, and the producer past the consumer. */
static const uint32_t steps[] = { 0, 1, 2, 128, 255, 256, 257 };
#define COUNT(list) (sizeof(list) / sizeof *(list))

static const char *truth(unsigned value)
{
	return value ? "true" : "false";
}

static netif_tx_back_ring_t back_at(uint32_t responses, uint32_t consumed)
{
	netif_tx_back_ring_t back;
	BACK_RING_INIT(&back, &page.tx, PAGE);
	back.rsp_prod_pvt = responses;
	back.req_cons = consumed;
	return back;
}

static netif_tx_front_ring_t front_at(uint32_t consumed)
{
	netif_tx_front_ring_t front;
	FRONT_RING_INIT(&front, &page.tx, PAGE);
	front.rsp_cons = consumed;
	return front;
}

/* What a producer shows a back: RING_REQUEST_PROD_OVERFLOW, else RING_HAS_UNCONSUMED_REQUESTS. */
static void unconsumed(uint32_t responses, uint32_t consumed, uint32_t producer)
{
	netif_tx_back_ring_t back = back_at(responses, consumed);
	page.tx.req_prod = producer;
	printf("requests %u %u %u = ", producer, consumed, responses);
	if (RING_REQUEST_PROD_OVERFLOW(&back, producer))
		printf("overflow\n");
	else
		printf("%u\n", RING_HAS_UNCONSUMED_REQUESTS(&back));
}

/* What a producer shows a front with a whole ring outstanding: RING_RESPONSE_PROD_OVERFLOW, else RING_HAS_UNCONSUMED_RESPONSES. */
static void responses(uint32_t consumed, uint32_t producer)
{
	netif_tx_front_ring_t front = front_at(consumed);
	page.tx.rsp_prod = producer;
	printf("responses %u %u = ", consumed, producer);
	if (RING_RESPONSE_PROD_OVERFLOW(&front, producer))
		printf("overflow\n");
	else
		printf("%u\n", RING_HAS_UNCONSUMED_RESPONSES(&front));
}

/* Whether a push is followed by a notice; requests and responses have to agree. */
static int notice(uint32_t old, uint32_t new, uint32_t event)
{
	netif_tx_back_ring_t back = back_at(new, new);
	netif_tx_front_ring_t front = front_at(old);
	bool of_requests, of_responses;
	front.req_prod_pvt = new;
	page.tx.req_prod = page.tx.rsp_prod = old;
	page.tx.req_event = page.tx.rsp_event = event;
	RING_PUSH_REQUESTS_AND_CHECK_NOTIFY(&front, of_requests);
	RING_PUSH_RESPONSES_AND_CHECK_NOTIFY(&back, of_responses);
	printf("notice %u %u %u = %s\n", old, new, event, truth(of_requests));
	return of_requests != of_responses;
}

static void places(uint32_t index)
{
	netif_tx_back_ring_t tx = back_at(0, 0);
	netif_rx_back_ring_t rx;
	BACK_RING_INIT(&rx, &page.rx, PAGE);
	printf("entries %u = %td %td\n", index, ((uint8_t *)RING_GET_REQUEST(&tx, index) - page.bytes) / WORD,
	       ((uint8_t *)RING_GET_REQUEST(&rx, index) - page.bytes) / WORD);
}

static void header(void)
{
	netif_tx_back_ring_t tx = back_at(0, 0);
	printf("header = %zu %zu %zu %zu\n", offsetof(netif_tx_sring_t, req_prod) / WORD, offsetof(netif_tx_sring_t, req_event) / WORD,
	       offsetof(netif_tx_sring_t, rsp_prod) / WORD, offsetof(netif_tx_sring_t, rsp_event) / WORD);
	printf("sizes = %u %zu %zu\n", RING_SIZE(&tx), sizeof(union netif_tx_sring_entry) / WORD, sizeof(union netif_rx_sring_entry) / WORD);
}

static void ring(void)
{
	int differ = 0;
	for (size_t i = 0; i < COUNT(edges); i++) {
		for (size_t j = 0; j < COUNT(steps) - 1; j++)
			for (size_t k = 0; k < COUNT(steps); k++)
				unconsumed(edges[i], edges[i] + steps[j], edges[i] + steps[j] + steps[k]);
		for (size_t k = 0; k < COUNT(steps); k++)
			responses(edges[i], edges[i] + steps[k]);
		responses(edges[i], edges[i] - 1);
		for (uint32_t length = 0; length < 4; length++)
			for (int32_t event = -1; event < 6; event++)
				differ += notice(edges[i], edges[i] + length, edges[i] + event);
		places(edges[i]);
	}
	header();
	if (differ)
		printf("notices of requests and responses differ\n");
}

/* A question about the words of a structure, all of an entry's. */
static void ask(const char *kind, const void *structure, size_t size, size_t entry)
{
	uint32_t word[3] = { 0 };
	memcpy(word, structure, size);
	printf("%s", kind);
	for (size_t i = 0; i < entry / WORD; i++)
		printf(" %u", word[i]);
	printf(" = ");
}

/* The end of an answer: the structure's words again. */
static void words(const void *structure, size_t size)
{
	uint32_t word[3] = { 0 };
	memcpy(word, structure, size);
	printf(",");
	for (size_t i = 0; i < size / WORD; i++)
		printf(" %u", word[i]);
	printf("\n");
}

static void slots(uint16_t a, uint16_t b, uint16_t c, uint32_t gref)
{
	struct netif_tx_request tx = { .gref = gref, .offset = a, .flags = b & 15, .id = c, .size = a ^ 0x55 };
	struct netif_tx_response answer = { .id = a, .status = (int16_t)b };
	struct netif_rx_request post = { .id = a, .gref = gref };
	struct netif_rx_response rx = { .id = a, .offset = b, .flags = c & 31, .status = (int16_t)(b ^ 3) };
	ask("tx-request", &tx, sizeof tx, sizeof tx);
	printf("%u %u %u %u %u", tx.gref, tx.offset, tx.flags, tx.id, tx.size);
	words(&tx, sizeof tx);
	ask("tx-response", &answer, sizeof answer, sizeof answer);
	printf("%u %d", answer.id, answer.status);
	words(&answer, sizeof answer);
	ask("rx-request", &post, sizeof post, sizeof post);
	printf("%u %u", post.id, post.gref);
	words(&post, sizeof post);
	ask("rx-response", &rx, sizeof rx, sizeof rx);
	printf("%u %u %u %d", rx.id, rx.offset, rx.flags, rx.status);
	words(&rx, sizeof rx);
}

static void all_slots(void)
{
	static const uint16_t few[] = { 0, 1, 2, 4, 8, 16, 0x7FFF, 0x8000, 0xFFFF };
	for (size_t i = 0; i < COUNT(few); i++)
		for (size_t j = 0; j < COUNT(few); j += 2)
			slots(few[i], few[(i + j) % COUNT(few)], few[(i + 2 * j + 1) % COUNT(few)], i * 0x01020304 + j);
}

static void flags(void)
{
	for (unsigned bits = 0; bits < 32; bits++) {
		printf("tx-flags %u = %s %s %s %s\n", bits, truth(bits & NETTXF_csum_blank), truth(bits & NETTXF_data_validated), truth(bits & NETTXF_more_data),
		       truth(bits & NETTXF_extra_info));
		printf("rx-flags %u = %s %s %s %s %s\n", bits, truth(bits & NETRXF_data_validated), truth(bits & NETRXF_csum_blank), truth(bits & NETRXF_more_data),
		       truth(bits & NETRXF_extra_info), truth(bits & NETRXF_gso_prefix));
	}
	printf("statuses = %d %d %d %d\n", NETIF_RSP_DROPPED, NETIF_RSP_ERROR, NETIF_RSP_OKAY, NETIF_RSP_NULL);
}

/* An extra of a type, alone and with another after it, in an entry of a tx ring. */
static void extra(const char *name, uint8_t type)
{
	for (int more = 0; more < 2; more++) {
		struct netif_extra_info info = { .type = type, .flags = more ? XEN_NETIF_EXTRA_FLAG_MORE : 0 };
		ask("extra", &info, sizeof info, sizeof(struct netif_tx_request));
		printf("%s %s, %u\n", name, truth(more), *(uint16_t *)&info);
	}
}

/* An extra of segmentation: its size, the number and the name of its type, its features. */
static void segments(uint8_t type, const char *name, uint16_t size, uint16_t features)
{
	struct netif_extra_info info = { .type = XEN_NETIF_EXTRA_TYPE_GSO, .u.gso = { .size = size, .type = type, .features = features } };
	ask("segments", &info, sizeof info, sizeof(struct netif_tx_request));
	printf("%u %u %s %u", info.u.gso.size, info.u.gso.type, name, info.u.gso.features);
	words(&info, sizeof info);
}

static void all_segments(void)
{
	static const uint16_t sizes[] = { 0, 1, 535, 536, 1448, 0xFF00, 0xFFFF };
	for (size_t i = 0; i < COUNT(sizes); i++) {
		segments(XEN_NETIF_GSO_TYPE_NONE, "none", sizes[i], 0);
		segments(XEN_NETIF_GSO_TYPE_TCPV4, "TcpV4", sizes[i], i);
		segments(XEN_NETIF_GSO_TYPE_TCPV6, "TcpV6", sizes[i], 0xFFFF - i);
	}
}

/* An extra of segmentation in the rx entry behind the first, where netif.h has a response, and the flags of the first response. */
static void rx_extra(uint8_t type, uint16_t size)
{
	netif_rx_back_ring_t rx;
	BACK_RING_INIT(&rx, &page.rx, PAGE);
	struct netif_extra_info info = { .type = XEN_NETIF_EXTRA_TYPE_GSO, .u.gso = { .size = size, .type = type } };
	memcpy(RING_GET_RESPONSE(&rx, 1), &info, sizeof info);
	uint32_t word[2];
	memcpy(word, RING_GET_RESPONSE(&rx, 1), sizeof word);
	unsigned bits = NETRXF_data_validated | NETRXF_csum_blank | NETRXF_extra_info;
	printf("rx-extra %u %u = %u %u, %u %u\n", size, type, word[0], word[1], bits, bits | NETRXF_more_data);
}

static void rx_extras(void)
{
	static const uint16_t sizes[] = { 1, 536, 1448, 0xFFFF };
	for (size_t i = 0; i < COUNT(sizes); i++) {
		rx_extra(XEN_NETIF_GSO_TYPE_TCPV4, sizes[i]);
		rx_extra(XEN_NETIF_GSO_TYPE_TCPV6, sizes[i]);
	}
}

static void extras(void)
{
	struct netif_extra_info none = { .type = XEN_NETIF_EXTRA_TYPE_NONE };
	extra("Gso", XEN_NETIF_EXTRA_TYPE_GSO);
	extra("McastAdd", XEN_NETIF_EXTRA_TYPE_MCAST_ADD);
	extra("McastDel", XEN_NETIF_EXTRA_TYPE_MCAST_DEL);
	extra("Hash", XEN_NETIF_EXTRA_TYPE_HASH);
	/* Xen's header has no type for XDP; that of Linux (include/xen/interface/io/netif.h) is 5. */
	extra("Xdp", 5);
	ask("extra", &none, sizeof none, sizeof(struct netif_tx_request));
	printf("none\n");
}

static void grants(void)
{
	for (unsigned bits = 0; bits < 64; bits++) {
		struct grant_entry_v1 entry = { .flags = bits == 63 ? 0xFFFF : bits, .domid = (uint16_t)(bits * 0x7ff1), .frame = 0xFFFFFFFF - bits };
		ask("entry", &entry, sizeof entry, sizeof entry);
		printf("%u %u %u %s %s %s", entry.flags, entry.domid, entry.frame, truth((entry.flags & GTF_type_mask) == GTF_permit_access),
		       truth(entry.flags & GTF_readonly), truth(entry.flags & (GTF_reading | GTF_writing)));
		words(&entry, sizeof entry);
	}
	printf("faults = %d %d %d %d\n", GNTST_bad_gntref, GNTST_permission_denied, GNTST_bad_page, GNTST_eagain);
}

int main(void)
{
	ring();
	all_slots();
	flags();
	extras();
	all_segments();
	rx_extras();
	grants();
	return 0;
}
