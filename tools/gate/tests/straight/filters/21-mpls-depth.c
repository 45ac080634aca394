/* Lets MPLS through with at most five labels, none of them reserved but explicit null. */
#include <linux/bpf.h>
#include <linux/if_ether.h>
#include <bpf/bpf_endian.h>
#include <bpf/bpf_helpers.h>

#define MAX_LABELS 5

SEC("xdp")
int mpls_depth(struct xdp_md *ctx)
{
	void *data_end = (void *)(long)ctx->data_end;
	void *data = (void *)(long)ctx->data;
	struct ethhdr *eth = data;
	__be32 *entry = (void *)(eth + 1);

	if ((void *)(eth + 1) > data_end)
		return XDP_DROP;
	if (eth->h_proto != bpf_htons(ETH_P_MPLS_UC))
		return XDP_PASS;
	for (int i = 0; i < MAX_LABELS; i++, entry++) {
		__u32 value, label;

		if ((void *)(entry + 1) > data_end)
			return XDP_DROP;
		value = bpf_ntohl(*entry);
		label = value >> 12;
		if (label < 16 && label != 0 && label != 2)
			return XDP_DROP;
		if (value & 0x100)
			return XDP_PASS;
	}
	return XDP_DROP;
}

char _license[] SEC("license") = "GPL";
