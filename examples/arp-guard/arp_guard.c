/* Passes ARP only from its guest's own addresses, so that the guest can't claim another's; passes all else. */
#include "../headers.h"
#include "../xdp.h"

static const __u8 own_mac[ETH_ALEN] = { 0x02, 0, 0, 0, 0, 0x01 };
static const __u8 own_ip[4] = { 10, 0, 0, 1 };

static __always_inline int differ(const __u8 *a, const __u8 *b, int length)
{
#pragma unroll
	for (int i = 0; i < length; i++)
		if (a[i] != b[i])
			return 1;
	return 0;
}

SEC("xdp")
int arp_guard(struct xdp_md *ctx)
{
	void *data = (void *)(long)ctx->data;
	void *data_end = (void *)(long)ctx->data_end;
	struct ethhdr *eth = data;
	struct ether_arp *arp = (void *)(eth + 1);

	if ((void *)(eth + 1) > data_end)
		return XDP_DROP;
	if (eth->h_proto != bpf_htons(ETH_P_ARP))
		return XDP_PASS;
	if ((void *)(arp + 1) > data_end)
		return XDP_DROP;
	if (arp->ea_hdr.ar_hrd != bpf_htons(ARPHRD_ETHER) || arp->ea_hdr.ar_pro != bpf_htons(ETH_P_IP))
		return XDP_DROP;
	if (differ(arp->arp_sha, own_mac, ETH_ALEN) || differ(arp->arp_spa, own_ip, 4))
		return XDP_DROP;
	return XDP_PASS;
}
