/* Three knocks in the right order open the door: the stage that was reached is the index of the next one in constants. */
#include <linux/bpf.h>
#include <linux/types.h>
#include <bpf/bpf_helpers.h>

const volatile __u16 knocks[3] = { 0x1b5d, 0x206d, 0x2375 };

struct knocker {
	__u32 stage, tries;
	__u64 since;
};

struct {
	__uint(type, BPF_MAP_TYPE_ARRAY);
	__uint(max_entries, 16);
	__type(key, __u32);
	__type(value, struct knocker);
} knockers SEC(".maps");

SEC("xdp") int knock(struct xdp_md *ctx)
{
	__u8 *p = (void *)(long)ctx->data, *end = (void *)(long)ctx->data_end;
	struct knocker *k;
	__u32 stage, source;
	__u16 port;

	if (p + 14 > end)
		return XDP_ABORTED;
	source = p[0] & 15;
	port = p[2] << 8 | p[3];
	k = bpf_map_lookup_elem(&knockers, &source);
	if (!k || k->stage == 3)
		return XDP_PASS;
	if (p[1] - k->since > 9)
		k->stage = 0;
	stage = k->stage;
	if (stage < 3 && port == knocks[stage]) {
		k->stage = stage + 1;
		k->since = p[1];
		return k->stage == 3 ? XDP_TX : XDP_DROP;
	}
	k->stage = 0;
	k->tries++;
	return k->tries > 3 ? XDP_PASS : XDP_DROP;
}

char _license[] SEC("license") = "GPL";
