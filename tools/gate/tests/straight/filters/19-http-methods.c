/* On port 80, a segment that carries data has to begin with GET, HEAD or POST, or be the rest of something. */
#include <linux/bpf.h>
#include <linux/if_ether.h>
#include <linux/in.h>
#include <linux/ip.h>
#include <linux/tcp.h>
#include <bpf/bpf_endian.h>
#include <bpf/bpf_helpers.h>

SEC("xdp")
int http_methods(struct xdp_md *ctx)
{
	void *data_end = (void *)(long)ctx->data_end;
	void *data = (void *)(long)ctx->data;
	struct ethhdr *eth = data;
	struct iphdr *ip = (void *)(eth + 1);
	struct tcphdr *tcp;
	char *payload;

	if ((void *)(ip + 1) > data_end)
		return XDP_PASS;
	if (eth->h_proto != bpf_htons(ETH_P_IP) || ip->protocol != IPPROTO_TCP)
		return XDP_PASS;
	tcp = (void *)ip + ip->ihl * 4;
	if ((void *)(tcp + 1) > data_end)
		return XDP_DROP;
	if (tcp->dest != bpf_htons(80) || !tcp->psh)
		return XDP_PASS;
	payload = (char *)tcp + tcp->doff * 4;
	if ((void *)(payload + 5) > data_end)
		return XDP_PASS;
	if (!__builtin_memcmp(payload, "GET /", 5) || !__builtin_memcmp(payload, "HEAD ", 5) ||
	    !__builtin_memcmp(payload, "POST ", 5))
		return XDP_PASS;
	return XDP_DROP;
}

char _license[] SEC("license") = "GPL";
