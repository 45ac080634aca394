/* Drops DNS queries of type ANY, which are used for amplification. */
#include <linux/bpf.h>
#include <linux/if_ether.h>
#include <linux/in.h>
#include <linux/ip.h>
#include <linux/udp.h>
#include <bpf/bpf_endian.h>
#include <bpf/bpf_helpers.h>

struct dnshdr {
	__u16 id;
	__u16 flags;
	__u16 qdcount;
	__u16 ancount;
	__u16 nscount;
	__u16 arcount;
};

#define MAX_LABELS 12
#define QTYPE_ANY 255

SEC("xdp")
int dns_any(struct xdp_md *ctx)
{
	void *data = (void *)(long)ctx->data;
	void *data_end = (void *)(long)ctx->data_end;
	struct ethhdr *eth = data;
	struct iphdr *ip = (void *)(eth + 1);
	struct udphdr *udp = (void *)(ip + 1);
	struct dnshdr *dns = (void *)(udp + 1);
	__u8 *name = (void *)(dns + 1);
	__u16 *qtype;

	if ((void *)(dns + 1) > data_end)
		return XDP_PASS;
	if (eth->h_proto != bpf_htons(ETH_P_IP) || ip->ihl != 5 || ip->protocol != IPPROTO_UDP)
		return XDP_PASS;
	if (udp->dest != bpf_htons(53) || (dns->flags & bpf_htons(0x8000)))
		return XDP_PASS;
	if (dns->qdcount != bpf_htons(1))
		return XDP_DROP;
	for (int i = 0; i < MAX_LABELS; i++) {
		if ((void *)(name + 1) > data_end)
			return XDP_DROP;
		if (*name == 0)
			break;
		if (*name > 63)
			return XDP_DROP;
		name += *name + 1;
	}
	qtype = (__u16 *)(name + 1);
	if ((void *)(qtype + 1) > data_end)
		return XDP_DROP;
	return *qtype == bpf_htons(QTYPE_ANY) ? XDP_DROP : XDP_PASS;
}

char _license[] SEC("license") = "GPL";
