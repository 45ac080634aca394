/* SCTP: an INIT chunk has to be alone in its packet (RFC 9260, 4.3). */
#include <linux/bpf.h>
#include <linux/if_ether.h>
#include <linux/in.h>
#include <linux/ip.h>
#include <bpf/bpf_endian.h>
#include <bpf/bpf_helpers.h>

struct sctphdr {
	__be16 source;
	__be16 dest;
	__be32 vtag;
	__le32 checksum;
};

struct sctp_chunkhdr {
	__u8 type;
	__u8 flags;
	__be16 length;
};

#define CHUNK_INIT 1
#define MAX_CHUNKS 8

SEC("xdp")
int sctp_init(struct xdp_md *ctx)
{
	void *data_end = (void *)(long)ctx->data_end;
	void *data = (void *)(long)ctx->data;
	struct ethhdr *eth = data;
	struct iphdr *ip = (void *)(eth + 1);
	struct sctp_chunkhdr *chunk;
	int chunks = 0, inits = 0;

	if ((void *)(ip + 1) > data_end)
		return XDP_PASS;
	if (eth->h_proto != bpf_htons(ETH_P_IP) || ip->protocol != IPPROTO_SCTP)
		return XDP_PASS;
	chunk = (void *)ip + ip->ihl * 4 + sizeof(struct sctphdr);
	for (int i = 0; i < MAX_CHUNKS; i++) {
		__u16 length;

		if ((void *)(chunk + 1) > data_end)
			break;
		length = bpf_ntohs(chunk->length);
		if (length < sizeof(*chunk))
			return XDP_DROP;
		chunks++;
		if (chunk->type == CHUNK_INIT)
			inits++;
		chunk = (void *)chunk + ((length + 3) & ~3);
	}
	if (!chunks)
		return XDP_DROP;
	return inits && chunks > 1 ? XDP_DROP : XDP_PASS;
}

char _license[] SEC("license") = "GPL";
