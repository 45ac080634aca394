/* PPPoE: IPv4 and IPv6 of sessions pass, discovery passes too, control protocols but LCP don't. */
#include <linux/bpf.h>
#include <linux/if_ether.h>
#include <bpf/bpf_endian.h>
#include <bpf/bpf_helpers.h>

struct pppoe {
	__u8 vertype;
	__u8 code;
	__be16 session;
	__be16 length;
	__be16 protocol;
} __attribute__((packed));

SEC("xdp")
int pppoe_session(struct xdp_md *ctx)
{
	void *data_end = (void *)(long)ctx->data_end;
	void *data = (void *)(long)ctx->data;
	struct ethhdr *eth = data;
	struct pppoe *ppp = (void *)(eth + 1);

	if ((void *)(eth + 1) > data_end)
		return XDP_DROP;
	if (eth->h_proto == bpf_htons(ETH_P_PPP_DISC))
		return XDP_PASS;
	if (eth->h_proto != bpf_htons(ETH_P_PPP_SES))
		return XDP_DROP;
	if ((void *)(ppp + 1) > data_end)
		return XDP_DROP;
	if (ppp->vertype != 0x11 || ppp->code != 0)
		return XDP_DROP;
	if (bpf_ntohs(ppp->length) + 20 > data_end - data)
		return XDP_DROP;
	switch (bpf_ntohs(ppp->protocol)) {
	case 0x0021:
	case 0x0057:
	case 0xc021:
		return XDP_PASS;
	default:
		return XDP_DROP;
	}
}

char _license[] SEC("license") = "GPL";
