/* Drops IPv4 with a source route option (loose or strict), or with options that can't be read. */
#include <linux/bpf.h>
#include <linux/if_ether.h>
#include <linux/ip.h>
#include <bpf/bpf_endian.h>
#include <bpf/bpf_helpers.h>

#define OPT_END 0
#define OPT_NOOP 1
#define OPT_LSRR 131
#define OPT_SSRR 137

SEC("xdp")
int source_route(struct xdp_md *ctx)
{
	void *data_end = (void *)(long)ctx->data_end;
	void *data = (void *)(long)ctx->data;
	struct ethhdr *eth = data;
	struct iphdr *ip = (void *)(eth + 1);
	__u8 *opt, *end;

	if ((void *)(ip + 1) > data_end || eth->h_proto != bpf_htons(ETH_P_IP))
		return XDP_PASS;
	if (ip->ihl < 5)
		return XDP_DROP;
	if (ip->ihl == 5)
		return XDP_PASS;
	opt = (__u8 *)(ip + 1);
	end = (__u8 *)ip + ip->ihl * 4;
	if ((void *)end > data_end)
		return XDP_DROP;
	for (int i = 0; i < 40 && opt < end; i++) {
		if ((void *)(opt + 1) > data_end)
			return XDP_DROP;
		if (*opt == OPT_END)
			return XDP_PASS;
		if (*opt == OPT_NOOP) {
			opt++;
			continue;
		}
		if (*opt == OPT_LSRR || *opt == OPT_SSRR)
			return XDP_DROP;
		if ((void *)(opt + 2) > data_end)
			return XDP_DROP;
		if (opt[1] < 2)
			return XDP_DROP;
		opt += opt[1];
	}
	return XDP_PASS;
}

char _license[] SEC("license") = "GPL";
