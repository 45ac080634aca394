/* Lets GRE through only if it carries IPv4 to 10.0.0.0/8, whatever of checksum, key and sequence it has. */
#include <linux/bpf.h>
#include <linux/if_ether.h>
#include <linux/in.h>
#include <linux/ip.h>
#include <bpf/bpf_endian.h>
#include <bpf/bpf_helpers.h>

struct gre_base {
	__be16 flags;
	__be16 protocol;
};

#define GRE_CSUM bpf_htons(0x8000)
#define GRE_KEY bpf_htons(0x2000)
#define GRE_SEQ bpf_htons(0x1000)

SEC("xdp")
int gre_inner(struct xdp_md *ctx)
{
	void *data_end = (void *)(long)ctx->data_end;
	void *data = (void *)(long)ctx->data;
	struct ethhdr *eth = data;
	struct iphdr *outer = (void *)(eth + 1), *inner;
	struct gre_base *gre;
	int hdrlen = sizeof(*gre);

	if ((void *)(outer + 1) > data_end)
		return XDP_PASS;
	if (eth->h_proto != bpf_htons(ETH_P_IP) || outer->protocol != IPPROTO_GRE)
		return XDP_PASS;
	gre = (void *)outer + outer->ihl * 4;
	if ((void *)(gre + 1) > data_end)
		return XDP_DROP;
	if (gre->protocol != bpf_htons(ETH_P_IP))
		return XDP_DROP;
	if (gre->flags & GRE_CSUM)
		hdrlen += 4;
	if (gre->flags & GRE_KEY)
		hdrlen += 4;
	if (gre->flags & GRE_SEQ)
		hdrlen += 4;
	inner = (void *)gre + hdrlen;
	if ((void *)(inner + 1) > data_end)
		return XDP_DROP;
	if ((inner->daddr & bpf_htonl(0xff000000)) != bpf_htonl(0x0a000000))
		return XDP_DROP;
	return XDP_PASS;
}

char _license[] SEC("license") = "GPL";
