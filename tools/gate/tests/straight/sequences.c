/* Numbers of which a counter keeps where they are, the time and random ones; and sums of as many bytes as a register says. */
#include <linux/bpf.h>
#include <bpf/bpf_helpers.h>
struct { __uint(type, BPF_MAP_TYPE_ARRAY); __uint(max_entries, 12); __type(key, __u32); __type(value, __u64); } seen SEC(".maps");
static void add(__u32 key, __u64 number) { __u64 *n = bpf_map_lookup_elem(&seen, &key); if (n) __sync_fetch_and_add(n, number); }
SEC("xdp") int f(struct xdp_md *ctx) {
	__u8 *data = (void *)(long)ctx->data, *end = (void *)(long)ctx->data_end;
	if (data + 20 > end) return XDP_DROP;
	__u64 now = bpf_ktime_get_ns();
	__u32 size = data[0] & 14, random = bpf_get_prandom_u32();
	__s64 sum = bpf_csum_diff(0, 0, (void *)(data + 4), size, data[2]), less = bpf_csum_diff((void *)(data + 4), size, 0, 0, 7);
	if (data[1] & 2) now += bpf_ktime_get_boot_ns();
	if (data[1] & 1) add(11, bpf_jiffies64());
	add(random >> 29, 1);
	add(8, now);
	add(9, (__u32)sum);
	add(10, (__u32)less);
	return random & 1 ? XDP_PASS : random & 2 ? XDP_DROP : XDP_TX;
}
char LICENSE[] SEC("license") = "GPL";
