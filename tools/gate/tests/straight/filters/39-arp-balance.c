/* Drops ARP answers that exceed the requests seen by more than ten. */
#include <linux/bpf.h>
#include <linux/if_ether.h>
#include <bpf/bpf_endian.h>
#include <bpf/bpf_helpers.h>

__u64 requests, answers;
struct arp { __be16 hw, proto; __u8 hlen, plen; __be16 op; };
SEC("xdp") int arp_balance(struct xdp_md *ctx)
{
	void *data = (void *)(long)ctx->data, *data_end = (void *)(long)ctx->data_end;
	struct ethhdr *eth = data;
	struct arp *arp = (void *)(eth + 1);
	if ((void *)(arp + 1) > data_end || eth->h_proto != bpf_htons(ETH_P_ARP))
		return XDP_PASS;
	if (arp->op == bpf_htons(1)) {
		__sync_fetch_and_add(&requests, 1);
		return XDP_PASS;
	}
	if (arp->op != bpf_htons(2))
		return XDP_DROP;
	if (answers >= requests + 10)
		return XDP_DROP;
	__sync_fetch_and_add(&answers, 1);
	return XDP_PASS;
}
