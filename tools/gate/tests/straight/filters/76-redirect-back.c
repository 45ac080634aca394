/* Redirects to the device that a packet came from. */
#include <linux/bpf.h>
#include <linux/if_ether.h>
#include <bpf/bpf_helpers.h>
SEC("xdp") int f(struct xdp_md *ctx)
{
	__u8 *data = (void *)(long)ctx->data, *end = (void *)(long)ctx->data_end, kept;
	if (data + ETH_HLEN > end) return XDP_DROP;
	if (data[0] == 1) return XDP_PASS;
	for (int i = 0; i < ETH_ALEN; i++) { kept = data[i]; data[i] = data[ETH_ALEN + i]; data[ETH_ALEN + i] = kept; }
	if (data[12] == 8) return bpf_redirect(ctx->ingress_ifindex, 0);
	return XDP_TX;
}
char copying[] SEC("license") = "GPL";
