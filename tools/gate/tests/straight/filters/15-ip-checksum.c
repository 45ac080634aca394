/* Drops IPv4 with a wrong header checksum, options included. */
#include <linux/bpf.h>
#include <linux/if_ether.h>
#include <linux/ip.h>
#include <bpf/bpf_endian.h>
#include <bpf/bpf_helpers.h>

SEC("xdp")
int verify_checksum(struct xdp_md *ctx)
{
	void *data_end = (void *)(long)ctx->data_end;
	void *data = (void *)(long)ctx->data;
	struct ethhdr *eth = data;
	struct iphdr *ip = data + sizeof(*eth);
	__u32 sum = 0;
	__u16 *word;
	int hlen;

	if (data + sizeof(*eth) + sizeof(*ip) > data_end)
		return XDP_DROP;
	if (eth->h_proto != bpf_htons(ETH_P_IP))
		return XDP_PASS;
	hlen = ip->ihl * 4;
	if (hlen < 20 || (void *)ip + hlen > data_end)
		return XDP_DROP;
	word = (__u16 *)ip;
	for (int i = 0; i < hlen / 2; i++) {
		if ((void *)(word + 1) > data_end)
			return XDP_DROP;
		sum += *word++;
	}
	sum = (sum & 0xffff) + (sum >> 16);
	sum = (sum & 0xffff) + (sum >> 16);
	return sum == 0xffff ? XDP_PASS : XDP_DROP;
}

char _license[] SEC("license") = "GPL";
