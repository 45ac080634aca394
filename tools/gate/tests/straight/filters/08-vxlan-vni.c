/* Lets VXLAN through for the tenant's own networks alone, from a table of their numbers. */
#include <linux/bpf.h>
#include <linux/if_ether.h>
#include <linux/in.h>
#include <linux/ip.h>
#include <linux/udp.h>
#include <bpf/bpf_endian.h>
#include <bpf/bpf_helpers.h>

struct vxlanhdr {
	__be32 vx_flags;
	__be32 vx_vni;
};

SEC("xdp")
int vxlan_vni(struct xdp_md *ctx)
{
	const __u32 allowed[] = { 100, 101, 4096, 70000 };
	void *data_end = (void *)(long)ctx->data_end;
	void *data = (void *)(long)ctx->data;
	struct ethhdr *eth = data;
	struct iphdr *ip;
	struct udphdr *udp;
	struct vxlanhdr *vx;
	__u32 vni;

	if (data + sizeof(*eth) + sizeof(*ip) > data_end)
		return XDP_PASS;
	ip = data + sizeof(*eth);
	if (eth->h_proto != bpf_htons(ETH_P_IP) || ip->protocol != IPPROTO_UDP)
		return XDP_PASS;
	udp = (void *)ip + ip->ihl * 4;
	if ((void *)(udp + 1) > data_end)
		return XDP_DROP;
	if (udp->dest != bpf_htons(4789))
		return XDP_PASS;
	vx = (void *)(udp + 1);
	if ((void *)(vx + 1) > data_end)
		return XDP_DROP;
	vni = bpf_ntohl(vx->vx_vni) >> 8;
	for (unsigned int i = 0; i < sizeof(allowed) / sizeof(allowed[0]); i++)
		if (allowed[i] == vni)
			return XDP_PASS;
	return XDP_DROP;
}

char _license[] SEC("license") = "GPL";
