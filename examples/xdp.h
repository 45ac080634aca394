/* What a program gets at the XDP point, and what it answers: the names and numbers of Linux's uapi/linux/bpf.h; maps,
   their lookup and the time as libbpf's bpf_helpers.h has them. It stands in for both. */
#ifndef XDP_H
#define XDP_H

struct xdp_md {
	unsigned int data;
	unsigned int data_end;
	unsigned int data_meta;
	unsigned int ingress_ifindex;
	unsigned int rx_queue_index;
};

enum xdp_action { XDP_ABORTED, XDP_DROP, XDP_PASS, XDP_TX };

enum bpf_map_type { BPF_MAP_TYPE_HASH = 1, BPF_MAP_TYPE_ARRAY = 2, BPF_MAP_TYPE_LPM_TRIE = 11 };

#define SEC(name) __attribute__((section(name), used))
#define __always_inline inline __attribute__((always_inline))
#define __uint(name, number) int (*name)[number]
#define __type(name, kind) typeof(kind) *name

static void *(*bpf_map_lookup_elem)(void *map, const void *key) = (void *)1;
static unsigned long long (*bpf_ktime_get_ns)(void) = (void *)5;

#endif
