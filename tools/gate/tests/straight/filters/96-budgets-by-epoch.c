/* So many answers for each epoch, which the packet says; the others are counted. All numbers have eight bytes. */
#include <linux/bpf.h>
#include <linux/types.h>
#include <bpf/bpf_helpers.h>

struct budget {
	__u64 epoch, sent, held;
};

struct {
	__uint(type, BPF_MAP_TYPE_PERCPU_ARRAY);
	__uint(max_entries, 1);
	__type(key, __u32);
	__type(value, struct budget);
} budgets SEC(".maps");

static __always_inline int may_send(__u64 epoch)
{
	__u32 zero = 0;
	struct budget *b = bpf_map_lookup_elem(&budgets, &zero);

	if (!b)
		return 0;
	if (b->epoch != epoch) {
		b->epoch = epoch;
		b->sent = 0;
	}
	if (b->sent >= 3) {
		b->held++;
		return 0;
	}
	b->sent++;
	return 1;
}

SEC("xdp") int answer(struct xdp_md *ctx)
{
	__u8 *p = (void *)(long)ctx->data, *end = (void *)(long)ctx->data_end;

	if (p + 14 > end)
		return XDP_ABORTED;
	if (p[0] != 1)
		return XDP_PASS;
	if (!may_send(p[1] / 4))
		return XDP_DROP;
	p[0] = 2;
	p[12] = p[13];
	return XDP_TX;
}

char _license[] SEC("license") = "GPL";
