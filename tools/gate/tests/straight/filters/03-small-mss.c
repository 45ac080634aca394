/* Drops a SYN whose maximum segment size option is below 536: such connections eat the server's CPU. */
#include <linux/bpf.h>
#include <linux/if_ether.h>
#include <linux/in.h>
#include <linux/ip.h>
#include <linux/tcp.h>
#include <bpf/bpf_endian.h>
#include <bpf/bpf_helpers.h>

#define TCPOPT_EOL 0
#define TCPOPT_NOP 1
#define TCPOPT_MSS 2

SEC("xdp")
int small_mss(struct xdp_md *ctx)
{
	void *data_end = (void *)(long)ctx->data_end;
	void *data = (void *)(long)ctx->data;
	struct ethhdr *eth = data;
	struct iphdr *ip = data + sizeof(*eth);
	struct tcphdr *tcp;
	__u8 *opt, *opt_end;

	if ((void *)(ip + 1) > data_end)
		return XDP_PASS;
	if (eth->h_proto != bpf_htons(ETH_P_IP) || ip->protocol != IPPROTO_TCP || ip->ihl < 5)
		return XDP_PASS;
	tcp = (void *)ip + ip->ihl * 4;
	if ((void *)(tcp + 1) > data_end)
		return XDP_DROP;
	if (!tcp->syn)
		return XDP_PASS;
	opt = (__u8 *)(tcp + 1);
	opt_end = (__u8 *)tcp + tcp->doff * 4;
	for (int i = 0; i < 10; i++) {
		__u8 kind, len;

		if (opt >= opt_end || (void *)(opt + 1) > data_end)
			break;
		kind = *opt;
		if (kind == TCPOPT_EOL)
			break;
		if (kind == TCPOPT_NOP) {
			opt++;
			continue;
		}
		if ((void *)(opt + 2) > data_end)
			break;
		len = opt[1];
		if (len < 2)
			return XDP_DROP;
		if (kind == TCPOPT_MSS) {
			if (len != 4 || (void *)(opt + 4) > data_end)
				return XDP_DROP;
			return bpf_ntohs(*(__u16 *)(opt + 2)) < 536 ? XDP_DROP : XDP_PASS;
		}
		opt += len;
	}
	return XDP_PASS;
}

char _license[] SEC("license") = "GPL";
