/* Boyer and Moore's vote for the busiest source; its packets are dropped once it leads by five. */
#include <linux/bpf.h>
#include <linux/if_ether.h>
#include <linux/ip.h>
#include <bpf/bpf_endian.h>
#include <bpf/bpf_helpers.h>

static __u32 candidate;
static __u64 lead;
SEC("xdp") int majority(struct xdp_md *ctx)
{
	void *data = (void *)(long)ctx->data, *data_end = (void *)(long)ctx->data_end;
	struct ethhdr *eth = data;
	struct iphdr *ip = (void *)(eth + 1);
	if ((void *)(ip + 1) > data_end || eth->h_proto != bpf_htons(ETH_P_IP))
		return XDP_PASS;
	__u32 src = ip->saddr;
	if (lead == 0) {
		candidate = src;
		lead = 1;
	} else if (candidate == src) {
		lead++;
	} else {
		lead--;
	}
	return candidate == src && lead >= 5 ? XDP_DROP : XDP_PASS;
}
