/* Maps of devices, processors and sockets, a perf and a ring buffer, routes and sockets: what a program does where there are none. */
#include <linux/bpf.h>
#include <linux/if_ether.h>
#include <bpf/bpf_helpers.h>
#define INTERNET 2
struct { __uint(type, BPF_MAP_TYPE_ARRAY); __uint(max_entries, 16); __type(key, __u32); __type(value, __u64); } ways SEC(".maps");
struct { __uint(type, BPF_MAP_TYPE_XSKMAP); __uint(max_entries, 64); __type(key, __u32); __type(value, __u32); } sockets SEC(".maps");
struct { __uint(type, BPF_MAP_TYPE_DEVMAP); __uint(max_entries, 8); __type(key, __u32); __type(value, __u32); } devices SEC(".maps");
struct { __uint(type, BPF_MAP_TYPE_CPUMAP); __uint(max_entries, 8); __type(key, __u32); __type(value, __u32); } processors SEC(".maps");
struct { __uint(type, BPF_MAP_TYPE_PERF_EVENT_ARRAY); __type(key, __u32); __type(value, __u32); } events SEC(".maps");
struct { __uint(type, BPF_MAP_TYPE_RINGBUF); __uint(max_entries, 4096); } ring SEC(".maps");
struct event { __u32 length, first; };
static __always_inline void went(__u32 way) { __u64 *value = bpf_map_lookup_elem(&ways, &way); if (value) *value += 1; }
static __attribute__((noinline)) int told(__u32 length, __u8 first)
{
	struct event *event = bpf_ringbuf_reserve(&ring, sizeof(*event), 0);
	if (!event)
		return 1;
	event->length = length; event->first = first;
	bpf_ringbuf_submit(event, 0);
	return 0;
}
SEC("xdp") int f(struct xdp_md *ctx)
{
	__u8 *data = (void *)(long)ctx->data, *end = (void *)(long)ctx->data_end;
	__u32 queue = ctx->rx_queue_index, length = end - data;
	if (data + ETH_HLEN > end) return XDP_ABORTED;
	switch (data[0] & 15) {
	case 0: return bpf_redirect_map(&sockets, queue, XDP_PASS);
	case 1: return bpf_redirect_map(&sockets, queue, XDP_DROP);
	case 2: return bpf_redirect_map(&devices, data[1] & 7, XDP_TX);
	case 3: return bpf_redirect_map(&devices, 0, BPF_F_BROADCAST | XDP_PASS) == XDP_REDIRECT ? XDP_TX : XDP_PASS;
	case 4: return bpf_redirect_map(&devices, 0, BPF_F_EXCLUDE_INGRESS | XDP_DROP);
	case 5: return bpf_redirect_map(&processors, 0, BPF_F_BROADCAST | XDP_PASS) == XDP_ABORTED ? XDP_PASS : XDP_TX;
	case 6: if (bpf_map_lookup_elem(&sockets, &queue)) return bpf_redirect_map(&sockets, queue, 0); break;
	case 7: { struct bpf_fib_lookup way = {.family = INTERNET, .ifindex = ctx->ingress_ifindex};
		if (bpf_fib_lookup(ctx, &way, sizeof(way), 0) == BPF_FIB_LKUP_RET_SUCCESS) return bpf_redirect(way.ifindex, 0);
		went(data[1] & 3); break; }
	case 8: { struct event event = {length, data[1]};
		if (bpf_perf_event_output(ctx, &events, BPF_F_CURRENT_CPU | (__u64)14 << 32, &event, sizeof(event)) < 0) went(8);
		break; }
	case 9: went(told(length, data[1]) + 4); break;
	case 10: return bpf_redirect(7, 0) == XDP_REDIRECT ? XDP_TX : XDP_PASS;
	case 11: return bpf_redirect(7, 1) == XDP_REDIRECT ? XDP_TX : XDP_PASS;
	case 12: return bpf_redirect(7, data[1] & 2) == XDP_REDIRECT ? XDP_TX : XDP_PASS;
	}
	return XDP_PASS;
}
char copying[] SEC("license") = "GPL";
