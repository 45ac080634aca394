/* Maps of several kinds: sizes by types and by numbers, arrays and structs as values, and members that aren't looked at. */
#include <linux/bpf.h>
#include <bpf/bpf_helpers.h>

struct pair {
	__u64 packets;
	__u32 parts[3];
	const volatile __u16 last;
};

typedef struct pair pairs[5];

enum port { NONE, SOME };

struct {
	__uint(type, BPF_MAP_TYPE_PERCPU_ARRAY);
	__uint(max_entries, 7);
	__type(key, enum port);
	__type(value, const pairs);
} many SEC(".maps");

struct {
	__uint(type, BPF_MAP_TYPE_LPM_TRIE);
	__uint(map_flags, BPF_F_NO_PREALLOC);
	__uint(max_entries, 1000000);
	__uint(key_size, 8);
	__type(value, void *);
} prefixes SEC(".maps");

struct {
	__uint(type, BPF_MAP_TYPE_HASH);
	__uint(max_entries, 3);
	__uint(key_size, sizeof(struct pair));
	__type(key, struct pair);
	__type(value, __u8[6]);
	__uint(value_size, 6);
	__uint(pinning, LIBBPF_PIN_BY_NAME);
} both SEC(".maps");

struct {
	__uint(type, BPF_MAP_TYPE_RINGBUF);
	__uint(max_entries, 4096);
} ring SEC(".maps");

typedef struct {
	__uint(type, BPF_MAP_TYPE_ARRAY);
	__type(key, __u32);
	__type(value, union { __u64 whole; __u8 parts[12]; });
} shaped;

volatile shaped named SEC(".maps");

SEC("xdp")
int kinds(struct xdp_md *ctx)
{
	__u32 key = 1;
	__u64 *a = bpf_map_lookup_elem(&many, &key);
	__u64 *b = bpf_map_lookup_elem((void *)&named, &key);
	return a && b ? XDP_PASS : XDP_DROP;
}
