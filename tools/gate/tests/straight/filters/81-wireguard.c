/* WireGuard: the length of each type by a table, counts by type in an array that is a global; cookies only after handshakes. */
#include <linux/bpf.h>
#include <linux/if_ether.h>
#include <linux/ip.h>
#include <linux/udp.h>
#include <linux/in.h>
#include <bpf/bpf_helpers.h>
#include <bpf/bpf_endian.h>
enum { INIT = 1, RESPONSE, COOKIE, DATA };
static __u64 by_type[5];
static const __u16 lengths[5] = { 0, 148, 92, 64, 32 };
SEC("xdp") int wg(struct xdp_md *ctx)
{
	void *data = (void *)(long)ctx->data, *end = (void *)(long)ctx->data_end;
	struct ethhdr *eth = data;
	struct iphdr *ip = (void *)(eth + 1);
	struct udphdr *u = (void *)(ip + 1);
	__u32 *w = (void *)(u + 1);
	if ((void *)(w + 1) > end || eth->h_proto != bpf_htons(ETH_P_IP) || ip->ihl != 5 || ip->protocol != IPPROTO_UDP) return XDP_PASS;
	if (u->dest != bpf_htons(51820)) return XDP_PASS;
	__u32 type = *w;
	__u16 len = bpf_ntohs(u->len) - 8;
	if (type < INIT || type > DATA) { by_type[0]++; return XDP_DROP; }
	if (type == DATA ? len < lengths[DATA] || len & 15 : len != lengths[type]) return XDP_DROP;
	by_type[type]++;
	if (type == COOKIE && by_type[COOKIE] > by_type[INIT] + by_type[RESPONSE]) return XDP_DROP;
	return XDP_PASS;
}
char _license[] SEC("license") = "GPL";
