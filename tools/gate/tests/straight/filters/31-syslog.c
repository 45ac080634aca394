/* Drops syslog of severity above `most` and of unknown facilities. */
#include <linux/bpf.h>
#include <linux/if_ether.h>
#include <linux/ip.h>
#include <linux/in.h>
#include <linux/udp.h>
#include <bpf/bpf_endian.h>
#include <bpf/bpf_helpers.h>

const volatile __u8 most = 5;
static const __u8 known[24] = {[0] = 1, [1] = 1, [3] = 1, [4] = 1, [10] = 1, [16] = 1, [17] = 1, [23] = 1};
SEC("xdp") int syslog(struct xdp_md *ctx)
{
	void *data = (void *)(long)ctx->data, *end = (void *)(long)ctx->data_end;
	struct ethhdr *eth = data;
	struct iphdr *ip = (void *)(eth + 1);
	struct udphdr *udp = (void *)(ip + 1);
	__u8 *p = (void *)(udp + 1);
	unsigned int pri = 0;
	int i;

	if ((void *)p > end || eth->h_proto != bpf_htons(ETH_P_IP) || ip->ihl != 5 || ip->protocol != IPPROTO_UDP)
		return XDP_PASS;
	if (udp->dest != bpf_htons(514))
		return XDP_PASS;
	if ((void *)(p + 5) > end || p[0] != '<')
		return XDP_DROP;
	for (i = 1; i < 4; i++) {
		if (p[i] == '>')
			break;
		if (p[i] < '0' || p[i] > '9')
			return XDP_DROP;
		pri = pri * 10 + p[i] - '0';
	}
	if (i == 1 || p[i] != '>' || pri > 191)
		return XDP_DROP;
	if ((pri & 7) > most)
		return XDP_DROP;
	return known[pri >> 3] ? XDP_PASS : XDP_DROP;
}
