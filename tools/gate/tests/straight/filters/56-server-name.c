/* TLS: finds the server name in a client hello after its lists, and drops names that end in ".test". */
#include <linux/bpf.h>
#include <linux/if_ether.h>
#include <linux/in.h>
#include <linux/ip.h>
#include <linux/tcp.h>
#include <bpf/bpf_endian.h>
#include <bpf/bpf_helpers.h>

SEC("xdp") int sni(struct xdp_md *ctx)
{
	void *data = (void *)(long)ctx->data, *data_end = (void *)(long)ctx->data_end;
	struct ethhdr *eth = data;
	struct iphdr *ip = (void *)(eth + 1);
	struct tcphdr *tcp = (void *)(ip + 1);
	if ((void *)(tcp + 1) > data_end || eth->h_proto != bpf_htons(ETH_P_IP) || ip->ihl != 5 || ip->protocol != IPPROTO_TCP)
		return XDP_PASS;
	if (tcp->dest != bpf_htons(443))
		return XDP_PASS;
	__u8 *p = (__u8 *)tcp + tcp->doff * 4;
	if ((void *)(p + 44) > data_end || p[0] != 22 || p[5] != 1)
		return XDP_PASS;
	p += 43;
	p += 1 + *p;
	if ((void *)(p + 2) > data_end)
		return XDP_DROP;
	__u32 suites = p[0] << 8 | p[1];
	if (suites > 256)
		return XDP_DROP;
	p += 2 + suites;
	if ((void *)(p + 1) > data_end)
		return XDP_DROP;
	p += 1 + *p;
	p += 2;
	for (int i = 0; i < 8; i++) {
		if ((void *)(p + 4) > data_end)
			return XDP_PASS;
		__u16 type = p[0] << 8 | p[1], len = p[2] << 8 | p[3];
		if (len > 600)
			return XDP_DROP;
		if (type == 0) {
			if (len < 10)
				return XDP_DROP;
			__u8 *tail = p + 4 + len - 5;
			if ((void *)(tail + 5) > data_end)
				return XDP_DROP;
			return tail[0] == '.' && tail[1] == 't' && tail[2] == 'e' && tail[3] == 's' && tail[4] == 't' ? XDP_DROP : XDP_PASS;
		}
		p += 4 + len;
	}
	return XDP_PASS;
}
