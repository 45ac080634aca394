/* Drops TCP with flag combinations that only port scanners send: none, SYN+FIN, SYN+RST, FIN+PSH+URG. */
#include <linux/bpf.h>
#include <linux/if_ether.h>
#include <linux/in.h>
#include <linux/ip.h>
#include <linux/tcp.h>
#include <bpf/bpf_endian.h>
#include <bpf/bpf_helpers.h>

SEC("xdp")
int scan_flags(struct xdp_md *ctx)
{
	void *data_end = (void *)(long)ctx->data_end;
	void *data = (void *)(long)ctx->data;
	struct ethhdr *eth = data;
	struct iphdr *ip = (void *)(eth + 1);
	struct tcphdr *tcp;

	if ((void *)(ip + 1) > data_end || eth->h_proto != bpf_htons(ETH_P_IP))
		return XDP_PASS;
	if (ip->protocol != IPPROTO_TCP)
		return XDP_PASS;
	tcp = (void *)ip + ip->ihl * 4;
	if ((void *)(tcp + 1) > data_end)
		return XDP_DROP;
	if (!tcp->syn && !tcp->ack && !tcp->fin && !tcp->rst && !tcp->psh && !tcp->urg)
		return XDP_DROP;
	if (tcp->syn && (tcp->fin || tcp->rst))
		return XDP_DROP;
	if (tcp->fin && tcp->psh && tcp->urg && !tcp->ack)
		return XDP_DROP;
	return XDP_PASS;
}

char _license[] SEC("license") = "GPL";
