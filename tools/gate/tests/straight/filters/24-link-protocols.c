/* Drops what a guest shouldn't say on the link: spanning tree, LLDP, pause frames, Cisco's, and 802.3 with LLC. */
#include <linux/bpf.h>
#include <linux/if_ether.h>
#include <bpf/bpf_endian.h>
#include <bpf/bpf_helpers.h>

SEC("xdp")
int link_protocols(struct xdp_md *ctx)
{
	static const __u8 reserved[5] = { 0x01, 0x80, 0xc2, 0x00, 0x00 };
	static const __u8 cisco[6] = { 0x01, 0x00, 0x0c, 0xcc, 0xcc, 0xcc };
	void *data_end = (void *)(long)ctx->data_end;
	void *data = (void *)(long)ctx->data;
	struct ethhdr *eth = data;
	__u16 proto;

	if ((void *)(eth + 1) > data_end)
		return XDP_DROP;
	if (!__builtin_memcmp(eth->h_dest, reserved, sizeof(reserved)) && (eth->h_dest[5] & 0xf0) == 0)
		return XDP_DROP;
	if (!__builtin_memcmp(eth->h_dest, cisco, sizeof(cisco)))
		return XDP_DROP;
	proto = bpf_ntohs(eth->h_proto);
	if (proto < ETH_P_802_3_MIN || proto == 0x88cc || proto == 0x8808)
		return XDP_DROP;
	return XDP_PASS;
}

char _license[] SEC("license") = "GPL";
