/* Functions of the file that are called, three deep, and each helper in whose place instructions stand. */
#include <linux/bpf.h>
#include <linux/if_ether.h>
#include <bpf/bpf_helpers.h>
struct { __uint(type, BPF_MAP_TYPE_ARRAY); __uint(max_entries, 8); __type(key, __u32); __type(value, __u64); } hits SEC(".maps");
struct last { __u64 length, first; };
struct { __uint(type, BPF_MAP_TYPE_PERCPU_ARRAY); __uint(max_entries, 40); __type(key, __u32); __type(value, struct last); } lasts SEC(".maps");
static __attribute__((noinline)) long kept(__u32 key, __u64 length, __u8 *head) { struct last last = {length, head[1] * 3}; return bpf_map_update_elem(&lasts, &key, &last, BPF_ANY); }
static __attribute__((noinline)) int scaled(int a, int b, int c) { volatile int x = a * 3 + b; return (x ^ c) & 255; }
static __attribute__((noinline)) void count(__u32 k) { __u64 *v = bpf_map_lookup_elem(&hits, &k); if (v) __sync_fetch_and_add(v, 1); if (k == 3) { __u32 z = scaled(k, 2, 5) & 7; v = bpf_map_lookup_elem(&hits, &z); if (v) __sync_fetch_and_add(v, 10); } }
__attribute__((noinline)) int both(struct xdp_md *ctx, int n) { count(n & 7); int r = scaled(n, 1, 2); count(r & 3); return r; }
SEC("xdp") int f(struct xdp_md *ctx) {
	__u8 head[14]; int a = bpf_get_smp_processor_id();
	if (bpf_xdp_get_buff_len(ctx) > 100) return XDP_DROP;
	bpf_printk("seen %d", a);
	if (bpf_xdp_load_bytes(ctx, 0, head, sizeof head)) return XDP_ABORTED;
	__u32 n = head[0] + a; 
	int r = both(ctx, n);
	if (kept(head[0] & 63, bpf_xdp_get_buff_len(ctx), head)) return XDP_DROP;
	__u8 back[2] = { r, head[13] };
	if (bpf_xdp_store_bytes(ctx, head[1], back, 2) < 0) return XDP_TX;
	__be32 x = *(__be32 *)(head + 2), y = n;
	__u64 s = bpf_csum_diff((void *)&x, 4, (void *)&y, 4, 7);
	s = (s & 0xffff) + (s >> 16); s = (s & 0xffff) + (s >> 16);
	return s & 1 ? XDP_PASS : XDP_DROP;
}
