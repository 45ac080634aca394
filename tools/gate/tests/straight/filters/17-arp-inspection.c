/* ARP inspection: sender addresses inside ARP have to be the guest's own, and those of the Ethernet header. */
#include <linux/bpf.h>
#include <linux/if_arp.h>
#include <linux/if_ether.h>
#include <bpf/bpf_endian.h>
#include <bpf/bpf_helpers.h>

struct arp_ipv4 {
	struct arphdr hdr;
	__u8 ar_sha[ETH_ALEN];
	__u8 ar_sip[4];
	__u8 ar_tha[ETH_ALEN];
	__u8 ar_tip[4];
} __attribute__((packed));

SEC("xdp")
int arp_inspection(struct xdp_md *ctx)
{
	static const __u8 guest_mac[ETH_ALEN] = { 0x02, 0x00, 0x00, 0x00, 0x00, 0x01 };
	static const __u8 guest_ip[4] = { 10, 0, 0, 1 };
	void *data_end = (void *)(long)ctx->data_end;
	void *data = (void *)(long)ctx->data;
	struct ethhdr *eth = data;
	struct arp_ipv4 *arp;

	if (data + sizeof(*eth) > data_end)
		return XDP_DROP;
	if (__builtin_memcmp(eth->h_source, guest_mac, ETH_ALEN))
		return XDP_DROP;
	if (eth->h_proto != bpf_htons(ETH_P_ARP))
		return XDP_PASS;
	arp = data + sizeof(*eth);
	if ((void *)(arp + 1) > data_end)
		return XDP_DROP;
	if (arp->hdr.ar_hrd != bpf_htons(1) || arp->hdr.ar_pro != bpf_htons(ETH_P_IP))
		return XDP_DROP;
	if (__builtin_memcmp(arp->ar_sha, eth->h_source, ETH_ALEN) || __builtin_memcmp(arp->ar_sip, guest_ip, 4))
		return XDP_DROP;
	return XDP_PASS;
}

char _license[] SEC("license") = "GPL";
