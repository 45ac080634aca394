/* A loop over values with more small numbers than a value has counters for: each number is a row. */
#include <linux/bpf.h>
#include <bpf/bpf_helpers.h>
struct state { __u32 sum, mixed; __u16 left, last, turns, odd; __u64 more[3]; };
struct { __uint(type, BPF_MAP_TYPE_ARRAY); __uint(max_entries, 16); __type(key, __u32); __type(value, struct state); } states SEC(".maps");
SEC("xdp") int f(struct xdp_md *ctx)
{
	__u8 *p = (void *)(long)ctx->data, *end = (void *)(long)ctx->data_end;
	__u32 answer = 0;
	if (p + 14 > end) return XDP_ABORTED;
#pragma clang loop unroll(disable)
	for (int i = 0; i < 5; i++) {
		__u32 key = p[i] & 15;
		struct state *state = bpf_map_lookup_elem(&states, &key);
		if (!state) return XDP_ABORTED;
		state->sum += p[i + 5];
		state->mixed ^= state->sum;
		__sync_fetch_and_add(&state->mixed, (__u32)(p[i + 5] | 1) << 31 | p[i]);
		state->left -= p[i + 1];
		state->last = state->left;
		state->turns += state->last;
		state->odd ^= state->turns;
		answer += state->odd + (state->mixed >> 3);
	}
	return answer & 3;
}
char LICENSE[] SEC("license") = "GPL";
