/* Xen's own headers, if Debian's libxen-dev is there; else the same layouts written down here: grant_table.h's entries of version 1,
 * ring.h's shared page, and netif.h's requests and responses, with the macros of ring.h that a front needs. */
#ifndef RING_H
#define RING_H

#include <stdint.h>
#include <string.h>

#define mb() __atomic_thread_fence(__ATOMIC_SEQ_CST)
#define rmb() __atomic_thread_fence(__ATOMIC_ACQUIRE)
#define wmb() __atomic_thread_fence(__ATOMIC_RELEASE)

#if __has_include(<xen/io/netif.h>) && !defined(OWN_RINGS)

#include <xen/xen.h>
#include <xen/io/netif.h>

#else

enum { GTF_permit_access = 1, GTF_readonly = 4 };
enum { NETTXF_csum_blank = 1, NETTXF_data_validated = 2, NETTXF_more_data = 4, NETRXF_more_data = 4 };
enum { NETIF_RSP_OKAY = 0, NETIF_RSP_DROPPED = -2, NETIF_RSP_ERROR = -1 };

typedef struct { uint16_t flags, domid; uint32_t frame; } grant_entry_v1_t;
typedef struct { uint32_t gref; uint16_t offset, flags, id, size; } netif_tx_request_t;
typedef struct { uint16_t id; int16_t status; } netif_tx_response_t;
typedef struct { uint16_t id, pad; uint32_t gref; } netif_rx_request_t;
typedef struct { uint16_t id, offset, flags; int16_t status; } netif_rx_response_t;

#define OWN_RING(name, request, response) \
	typedef struct { \
		uint32_t req_prod, req_event, rsp_prod, rsp_event; \
		uint8_t pad[48]; \
		union { request req; response rsp; } ring[256]; \
	} name##_sring_t; \
	typedef struct { uint32_t req_prod_pvt, rsp_cons; name##_sring_t *sring; } name##_front_ring_t
OWN_RING(netif_tx, netif_tx_request_t, netif_tx_response_t);
OWN_RING(netif_rx, netif_rx_request_t, netif_rx_response_t);

#define OWN_WORD(at) (*(volatile uint32_t *)&(at))
#define SHARED_RING_INIT(s) (memset((s), 0, sizeof *(s)), (s)->req_event = (s)->rsp_event = 1)
#define FRONT_RING_INIT(r, s, size) ((r)->req_prod_pvt = (r)->rsp_cons = 0, (r)->sring = (s))
#define RING_GET_REQUEST(r, i) (&(r)->sring->ring[(i) % 256].req)
#define RING_GET_RESPONSE(r, i) (&(r)->sring->ring[(i) % 256].rsp)
#define RING_PUSH_REQUESTS_AND_CHECK_NOTIFY(r, notify) do { \
		uint32_t old_ = OWN_WORD((r)->sring->req_prod), new_ = (r)->req_prod_pvt; \
		wmb(); \
		OWN_WORD((r)->sring->req_prod) = new_; \
		mb(); \
		(notify) = new_ - OWN_WORD((r)->sring->req_event) < new_ - old_; \
	} while (0)
#define RING_HAS_UNCONSUMED_RESPONSES(r) (OWN_WORD((r)->sring->rsp_prod) - (r)->rsp_cons)
#define RING_FINAL_CHECK_FOR_RESPONSES(r, work) do { \
		(work) = RING_HAS_UNCONSUMED_RESPONSES(r); \
		if (work) break; \
		OWN_WORD((r)->sring->rsp_event) = (r)->rsp_cons + 1; \
		mb(); \
		(work) = RING_HAS_UNCONSUMED_RESPONSES(r); \
	} while (0)

#endif
#endif
