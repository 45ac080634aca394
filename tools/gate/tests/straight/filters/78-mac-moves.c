/* A table of senders by a hash, each with its queue in one number of eight bytes: another sender in its place is counted. */
#include <linux/bpf.h>
#include <linux/if_ether.h>
#include <bpf/bpf_helpers.h>
struct sender { __u8 mac[6]; __u16 queue; __u64 moves; };
struct { __uint(type, BPF_MAP_TYPE_ARRAY); __uint(max_entries, 256); __type(key, __u32); __type(value, struct sender); } table SEC(".maps");
SEC("xdp") int f(struct xdp_md *ctx) {
	void *data = (void *)(long)ctx->data, *end = (void *)(long)ctx->data_end;
	struct ethhdr *eth = data;
	__u64 sender = 0, before;
	if ((void *)(eth + 1) > end) return XDP_ABORTED;
	__u32 hash = ((eth->h_source[3] * 31 + eth->h_source[4]) * 31 + eth->h_source[5]) & 255;
	struct sender *there = bpf_map_lookup_elem(&table, &hash);
	if (!there) return XDP_PASS;
	__builtin_memcpy(&sender, eth->h_source, 6);
	sender |= (__u64)(ctx->rx_queue_index + 1) << 48;
	before = *(__u64 *)there;
	*(__u64 *)there = sender;
	if (!before || before == sender) return XDP_PASS;
	there->moves++;
	return XDP_DROP;
}
char _license[] SEC("license") = "GPL";
