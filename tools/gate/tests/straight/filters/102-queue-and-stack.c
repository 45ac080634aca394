/* A queue of structs and a stack of numbers, pushed and taken from as the packet's first byte says; what was there is written into it. */
#include <linux/bpf.h>
#include <linux/types.h>
#include <bpf/bpf_helpers.h>

struct entry {
	__u64 key;
	__u32 number;
	__u16 port;
	__u8 kind, more;
};

struct {
	__uint(type, BPF_MAP_TYPE_QUEUE);
	__uint(max_entries, 3);
	__type(value, struct entry);
} waiting SEC(".maps");

struct {
	__uint(type, BPF_MAP_TYPE_STACK);
	__uint(max_entries, 4);
	__type(value, __u32);
} slots SEC(".maps");

SEC("xdp") int queue_and_stack(struct xdp_md *ctx)
{
	__u8 *p = (void *)(long)ctx->data, *end = (void *)(long)ctx->data_end;
	struct entry entry = {};
	__u32 slot = 0;
	long status = 1;

	if (p + 14 > end)
		return XDP_ABORTED;
	slot = entry.number = p[1];
	entry.key = p[2] << 8 | p[3];
	entry.port = p[3];
	entry.kind = p[1] ^ p[2];
	switch (p[0]) {
	case 0:
		status = bpf_map_push_elem(&waiting, &entry, BPF_ANY);
		break;
	case 1:
		status = bpf_map_push_elem(&waiting, &entry, BPF_EXIST);
		break;
	case 2:
		status = bpf_map_pop_elem(&waiting, &entry);
		break;
	case 3:
		status = bpf_map_peek_elem(&waiting, &entry);
		break;
	case 4:
		status = bpf_map_push_elem(&slots, &slot, BPF_ANY);
		break;
	case 5:
		status = bpf_map_push_elem(&slots, &slot, BPF_EXIST);
		break;
	case 6:
		status = bpf_map_pop_elem(&slots, &slot);
		break;
	case 7:
		status = bpf_map_peek_elem(&slots, &slot);
		break;
	}
	p[4] = entry.number;
	p[5] = entry.key;
	p[6] = entry.key >> 8;
	p[7] = entry.port;
	p[8] = entry.kind;
	p[9] = slot;
	p[10] = -status;
	return status ? XDP_TX : XDP_PASS;
}

char _license[] SEC("license") = "GPL";
