/* Pops up to three VLAN tags by eye, counts frames by depth, and drops what isn't IPv4, IPv6 or ARP inside. */
#include <linux/bpf.h>
#include <linux/if_ether.h>
#include <bpf/bpf_endian.h>
#include <bpf/bpf_helpers.h>

#define VLAN_MAX_DEPTH 3

struct vlan_hdr {
	__be16 h_vlan_TCI;
	__be16 h_vlan_encapsulated_proto;
};

struct {
	__uint(type, BPF_MAP_TYPE_PERCPU_ARRAY);
	__uint(max_entries, VLAN_MAX_DEPTH + 1);
	__type(key, __u32);
	__type(value, __u64);
} depths SEC(".maps");

static __always_inline int proto_is_vlan(__u16 proto)
{
	return proto == bpf_htons(ETH_P_8021Q) || proto == bpf_htons(ETH_P_8021AD);
}

SEC("xdp_vlan")
int vlan_policy(struct xdp_md *ctx)
{
	void *data_end = (void *)(long)ctx->data_end;
	void *data = (void *)(long)ctx->data;
	struct ethhdr *eth = data;
	struct vlan_hdr *vlh;
	__u16 proto;
	__u32 depth = 0;
	__u64 *count;

	if ((void *)(eth + 1) > data_end)
		return XDP_ABORTED;
	vlh = (void *)(eth + 1);
	proto = eth->h_proto;
#pragma unroll
	for (int i = 0; i < VLAN_MAX_DEPTH; i++) {
		if (!proto_is_vlan(proto))
			break;
		if ((void *)(vlh + 1) > data_end)
			break;
		proto = vlh->h_vlan_encapsulated_proto;
		vlh++;
		depth++;
	}
	count = bpf_map_lookup_elem(&depths, &depth);
	if (count)
		*count += 1;
	if (proto == bpf_htons(ETH_P_IP) || proto == bpf_htons(ETH_P_IPV6) || proto == bpf_htons(ETH_P_ARP))
		return XDP_PASS;
	return XDP_DROP;
}

char _license[] SEC("license") = "GPL";
