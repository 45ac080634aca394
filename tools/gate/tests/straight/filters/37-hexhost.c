/* HTTP requests whose query has an escape of a control character or a bad one: %00 to %1f. */
#include <linux/bpf.h>
#include <linux/if_ether.h>
#include <linux/ip.h>
#include <linux/in.h>
#include <linux/tcp.h>
#include <bpf/bpf_endian.h>
#include <bpf/bpf_helpers.h>

static const signed char digit[128] = {
	['0'] = 1, ['1'] = 2, ['2'] = 3, ['3'] = 4, ['4'] = 5, ['5'] = 6, ['6'] = 7, ['7'] = 8, ['8'] = 9, ['9'] = 10,
	['a'] = 11, ['b'] = 12, ['c'] = 13, ['d'] = 14, ['e'] = 15, ['f'] = 16, ['A'] = 11, ['B'] = 12, ['C'] = 13,
	['D'] = 14, ['E'] = 15, ['F'] = 16};
SEC("xdp") int hexhost(struct xdp_md *ctx)
{
	void *data = (void *)(long)ctx->data, *end = (void *)(long)ctx->data_end;
	struct ethhdr *eth = data;
	struct iphdr *ip = (void *)(eth + 1);
	struct tcphdr *tcp = (void *)(ip + 1);
	if ((void *)(tcp + 1) > end || eth->h_proto != bpf_htons(ETH_P_IP) || ip->ihl != 5 || ip->protocol != IPPROTO_TCP)
		return XDP_PASS;
	if (tcp->dest != bpf_htons(80) || tcp->doff != 5)
		return XDP_PASS;
	__u8 *p = (void *)(tcp + 1);
	if ((void *)(p + 4) > end || __builtin_memcmp(p, "GET ", 4))
		return XDP_PASS;
	p += 4;
	for (int i = 0; i < 24; i++, p++) {
		if ((void *)(p + 3) > end || *p == ' ')
			return XDP_PASS;
		if (*p != '%')
			continue;
		int high = digit[p[1] & 127], low = digit[p[2] & 127];
		if (!high || !low || high - 1 < 2)
			return XDP_DROP;
	}
	return XDP_PASS;
}
