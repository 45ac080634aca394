/* SOCKS: version 5 greetings that offer username and password; nothing else at the start of a connection. */
#include <linux/bpf.h>
#include <linux/if_ether.h>
#include <linux/in.h>
#include <linux/ip.h>
#include <linux/tcp.h>
#include <bpf/bpf_endian.h>
#include <bpf/bpf_helpers.h>

SEC("xdp") int socks(struct xdp_md *ctx)
{
	void *data = (void *)(long)ctx->data, *data_end = (void *)(long)ctx->data_end;
	struct ethhdr *eth = data;
	struct iphdr *ip = (void *)(eth + 1);
	if ((void *)(ip + 1) > data_end || eth->h_proto != bpf_htons(ETH_P_IP) || ip->protocol != IPPROTO_TCP)
		return XDP_PASS;
	struct tcphdr *tcp = (void *)ip + (ip->ihl << 2);
	if ((void *)(tcp + 1) > data_end || tcp->dest != bpf_htons(1080) || !tcp->psh)
		return XDP_PASS;
	__u8 *g = (__u8 *)tcp + (tcp->doff << 2);
	if ((void *)(g + 2) > data_end)
		return XDP_PASS;
	if (g[0] == 4)
		return XDP_DROP;
	if (g[0] != 5)
		return XDP_PASS;
	__u8 n = g[1];
	if (n == 0 || n > 8)
		return XDP_DROP;
	__u8 *method = g + 2, *end = method + n;
	if ((void *)end > data_end)
		return XDP_DROP;
	while (method < end) {
		if ((void *)(method + 1) > data_end)
			break;
		if (*method == 2)
			return XDP_PASS;
		method++;
	}
	return XDP_DROP;
}
