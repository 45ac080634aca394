/* DNS names: labels of at most 24 bytes and at most six of them; no more than a third of the bytes may be digits. */
#include <linux/bpf.h>
#include <linux/if_ether.h>
#include <linux/in.h>
#include <linux/ip.h>
#include <linux/udp.h>
#include <bpf/bpf_endian.h>
#include <bpf/bpf_helpers.h>

SEC("xdp") int dns_labels(struct xdp_md *ctx)
{
	void *data = (void *)(long)ctx->data, *data_end = (void *)(long)ctx->data_end;
	struct ethhdr *eth = data;
	struct iphdr *ip = (void *)(eth + 1);
	struct udphdr *udp = (void *)(ip + 1);
	__u8 *p = (__u8 *)(udp + 1) + 12;
	if ((void *)(p + 1) > data_end || eth->h_proto != bpf_htons(ETH_P_IP) || ip->ihl != 5)
		return XDP_PASS;
	if (ip->protocol != IPPROTO_UDP || udp->dest != bpf_htons(53))
		return XDP_PASS;
	int left = 0, labels = 0, digits = 0, chars = 0;
	for (int i = 0; i < 64; i++) {
		if ((void *)(p + 1) > data_end)
			return XDP_DROP;
		__u8 c = *p++;
		if (left == 0) {
			if (c == 0)
				return digits * 3 > chars ? XDP_DROP : XDP_PASS;
			if (c > 24 || ++labels > 6)
				return XDP_DROP;
			left = c;
		} else {
			left--;
			chars++;
			if (c >= '0' && c <= '9')
				digits++;
		}
	}
	return XDP_DROP;
}
