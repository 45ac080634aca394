/* Of 64 rules the first that matches decides, and is counted: bpf_loop calls a function for each until it says that it is enough. */
#include <linux/bpf.h>
#include <linux/types.h>
#include <bpf/bpf_helpers.h>

struct rule {
	__u32 from, from_mask, to, to_mask;
	__u16 low, high, least, most;
	__u8 kind, flags, flags_mask, is_on;
	__u32 action;
};

struct count {
	__u64 packets, bytes;
};

struct {
	__uint(type, BPF_MAP_TYPE_ARRAY);
	__uint(max_entries, 64);
	__type(key, __u32);
	__type(value, struct rule);
} rules SEC(".maps");

struct {
	__uint(type, BPF_MAP_TYPE_PERCPU_ARRAY);
	__uint(max_entries, 65);
	__type(key, __u32);
	__type(value, struct count);
} counts SEC(".maps");

struct asked {
	__u32 from, to, action;
	__u16 port, length;
	__u8 kind, flags;
};

static __always_inline void counted(__u32 at, __u64 bytes)
{
	struct count *count = bpf_map_lookup_elem(&counts, &at);

	if (count) {
		count->packets++;
		count->bytes += bytes;
	}
}

static long look(__u32 at, void *given)
{
	struct rule *rule = bpf_map_lookup_elem(&rules, &at);
	struct asked *asked = given;

	if (!rule)
		return 1;
	if (!rule->is_on || rule->kind && rule->kind != asked->kind)
		return 0;
	if ((asked->from & rule->from_mask) != rule->from || (asked->to & rule->to_mask) != rule->to)
		return 0;
	if ((rule->low || rule->high) && (asked->port < rule->low || asked->port > rule->high))
		return 0;
	if (rule->most && (asked->length < rule->least || asked->length > rule->most))
		return 0;
	if ((asked->flags & rule->flags_mask) != rule->flags)
		return 0;
	counted(at, asked->length);
	asked->action = rule->action == 1 ? XDP_DROP : XDP_TX;
	return 1;
}

SEC("xdp") int first(struct xdp_md *ctx)
{
	__u8 *p = (void *)(long)ctx->data, *end = (void *)(long)ctx->data_end;
	struct asked asked = { .action = 9 };

	if (p + 20 > end)
		return XDP_ABORTED;
	asked.from = *(__u32 *)p;
	asked.to = *(__u32 *)(p + 4);
	asked.port = p[8] << 8 | p[9];
	asked.kind = p[10];
	asked.flags = p[11];
	asked.length = end - p;
	bpf_loop(64, look, &asked, 0);
	if (asked.action != 9)
		return asked.action;
	counted(64, asked.length);
	return XDP_PASS;
}

char _license[] SEC("license") = "GPL";
