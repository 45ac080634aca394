/* A guest may ask for an address and may not offer one: drops DHCP messages of a server, by option 53. */
#include <linux/bpf.h>
#include <linux/if_ether.h>
#include <linux/in.h>
#include <linux/ip.h>
#include <linux/udp.h>
#include <bpf/bpf_endian.h>
#include <bpf/bpf_helpers.h>

#define DHCP_FIXED 236
#define DHCP_MAGIC 0x63825363
#define OPT_PAD 0
#define OPT_MESSAGE_TYPE 53
#define OPT_END 255
#define DHCPOFFER 2
#define DHCPACK 5
#define DHCPNAK 6

SEC("xdp")
int dhcp_server(struct xdp_md *ctx)
{
	void *data_end = (void *)(long)ctx->data_end;
	void *data = (void *)(long)ctx->data;
	struct ethhdr *eth = data;
	struct iphdr *ip = (void *)(eth + 1);
	struct udphdr *udp;
	__u8 *cursor;
	__be32 *magic;

	if ((void *)(ip + 1) > data_end)
		return XDP_PASS;
	if (eth->h_proto != bpf_htons(ETH_P_IP) || ip->protocol != IPPROTO_UDP || ip->ihl != 5)
		return XDP_PASS;
	udp = (void *)(ip + 1);
	if ((void *)(udp + 1) > data_end)
		return XDP_PASS;
	if (udp->source != bpf_htons(67) && udp->dest != bpf_htons(67) && udp->dest != bpf_htons(68))
		return XDP_PASS;
	magic = (void *)(udp + 1) + DHCP_FIXED;
	if ((void *)(magic + 1) > data_end || *magic != bpf_htonl(DHCP_MAGIC))
		return XDP_DROP;
	cursor = (__u8 *)(magic + 1);
	for (int i = 0; i < 20; i++) {
		__u8 code, length;

		if ((void *)(cursor + 1) > data_end)
			return XDP_DROP;
		code = *cursor++;
		if (code == OPT_PAD)
			continue;
		if (code == OPT_END)
			return XDP_DROP;
		if ((void *)(cursor + 1) > data_end)
			return XDP_DROP;
		length = *cursor++;
		if (code == OPT_MESSAGE_TYPE) {
			__u8 type;

			if (length != 1 || (void *)(cursor + 1) > data_end)
				return XDP_DROP;
			type = *cursor;
			return type == DHCPOFFER || type == DHCPACK || type == DHCPNAK ? XDP_DROP : XDP_PASS;
		}
		cursor += length;
	}
	return XDP_DROP;
}

char _license[] SEC("license") = "GPL";
