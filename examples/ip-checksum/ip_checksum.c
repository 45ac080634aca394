/* Drops IPv4 packets whose header's checksum is wrong, however long the header is; passes all else. */
#include "../headers.h"
#include "../xdp.h"

#define MOST_HALVES 30	/* a header has up to 60 bytes */

SEC("xdp")
int ip_checksum(struct xdp_md *ctx)
{
	void *data = (void *)(long)ctx->data;
	void *data_end = (void *)(long)ctx->data_end;
	struct ethhdr *eth = data;
	struct iphdr *ip = (void *)(eth + 1);
	__u16 *half = (void *)ip;
	__u32 sum = 0;
	__u32 halves;

	if ((void *)(ip + 1) > data_end || eth->h_proto != bpf_htons(ETH_P_IP))
		return XDP_PASS;
	halves = ip->ihl * 2;
	/* The test stands inside the step: a loop that is left by `break` isn't unrolled. */
#pragma unroll
	for (int i = 0; i < MOST_HALVES; i++) {
		if (i < halves) {
			if ((void *)(half + i + 1) > data_end)
				return XDP_DROP;
			sum += half[i];
		}
	}
	sum = (sum & 0xffff) + (sum >> 16);
	sum = (sum & 0xffff) + (sum >> 16);
	return sum == 0xffff ? XDP_PASS : XDP_DROP;
}
