/* SYNs against ACKs by /24 bucket: drops SYNs while there are more than three for each ACK. */
#include <linux/bpf.h>
#include <linux/if_ether.h>
#include <linux/in.h>
#include <linux/ip.h>
#include <linux/tcp.h>
#include <bpf/bpf_endian.h>
#include <bpf/bpf_helpers.h>

struct counts {
	__u64 syns, acks;
};
struct {
	__uint(type, BPF_MAP_TYPE_ARRAY);
	__uint(max_entries, 512);
	__type(key, __u32);
	__type(value, struct counts);
} nets SEC(".maps");
SEC("xdp") int ratio(struct xdp_md *ctx)
{
	void *data = (void *)(long)ctx->data, *data_end = (void *)(long)ctx->data_end;
	struct ethhdr *eth = data;
	struct iphdr *ip = (void *)(eth + 1);
	struct tcphdr *tcp = (void *)(ip + 1);
	if ((void *)(tcp + 1) > data_end || eth->h_proto != bpf_htons(ETH_P_IP) || ip->ihl != 5 || ip->protocol != IPPROTO_TCP)
		return XDP_PASS;
	__u32 key = (bpf_ntohl(ip->saddr) >> 8) % 509;
	struct counts *c = bpf_map_lookup_elem(&nets, &key);
	if (!c)
		return XDP_PASS;
	if (tcp->syn && !tcp->ack) {
		__u64 acks = c->acks ? c->acks : 1;
		if (c->syns / acks >= 3)
			return XDP_DROP;
		c->syns++;
	} else if (tcp->ack && !tcp->syn) {
		c->acks++;
	}
	return XDP_PASS;
}
