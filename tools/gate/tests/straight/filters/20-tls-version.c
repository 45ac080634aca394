/* Drops TLS client hellos that offer no extension for supported versions (43): clients below TLS 1.3. */
#include <linux/bpf.h>
#include <linux/if_ether.h>
#include <linux/in.h>
#include <linux/ip.h>
#include <linux/tcp.h>
#include <bpf/bpf_endian.h>
#include <bpf/bpf_helpers.h>

#define MAX_EXTENSIONS 16
#define EXT_SUPPORTED_VERSIONS 43

SEC("xdp")
int tls_version(struct xdp_md *ctx)
{
	void *data_end = (void *)(long)ctx->data_end;
	void *data = (void *)(long)ctx->data;
	struct ethhdr *eth = data;
	struct iphdr *ip = (void *)(eth + 1);
	struct tcphdr *tcp;
	__u8 *p;

	if ((void *)(ip + 1) > data_end)
		return XDP_PASS;
	if (eth->h_proto != bpf_htons(ETH_P_IP) || ip->protocol != IPPROTO_TCP || ip->ihl != 5)
		return XDP_PASS;
	tcp = (void *)(ip + 1);
	if ((void *)(tcp + 1) > data_end || tcp->dest != bpf_htons(443))
		return XDP_PASS;
	p = (__u8 *)tcp + tcp->doff * 4;
	/* record header (5), handshake header (4), version (2), random (32), length of the session id (1) */
	if ((void *)(p + 44) > data_end)
		return XDP_PASS;
	if (p[0] != 22 || p[5] != 1)
		return XDP_PASS;
	p += 43;
	p += 1 + *p;
	if ((void *)(p + 2) > data_end)
		return XDP_DROP;
	p += 2 + bpf_ntohs(*(__u16 *)p);
	if ((void *)(p + 1) > data_end)
		return XDP_DROP;
	p += 1 + *p;
	if ((void *)(p + 2) > data_end)
		return XDP_DROP;
	p += 2;
	for (int i = 0; i < MAX_EXTENSIONS; i++) {
		if ((void *)(p + 4) > data_end)
			return XDP_DROP;
		if (bpf_ntohs(*(__u16 *)p) == EXT_SUPPORTED_VERSIONS)
			return XDP_PASS;
		p += 4 + bpf_ntohs(*(__u16 *)(p + 2));
	}
	return XDP_DROP;
}

char _license[] SEC("license") = "GPL";
