/* Passes TCP and UDP to the ports of a list, behind up to two VLAN tags: the key lies in the packet, behind a header of any length. */
#include <linux/bpf.h>
#include <linux/if_ether.h>
#include <linux/in.h>
#include <linux/ip.h>
#include <linux/ipv6.h>
#include <linux/tcp.h>
#include <linux/udp.h>
#include <bpf/bpf_helpers.h>
#include <bpf/bpf_endian.h>
struct { __uint(type, BPF_MAP_TYPE_HASH); __uint(max_entries, 100); __type(key, __u16); __type(value, __u8); } ports SEC(".maps");
struct { __uint(type, BPF_MAP_TYPE_PERCPU_ARRAY); __uint(max_entries, 5); __type(key, __u32); __type(value, __u64); } stats SEC(".maps");
static __always_inline int count(int action) { __u32 k = action; __u64 *v = bpf_map_lookup_elem(&stats, &k); if (v) (*v)++; return action; }
SEC("xdp") int f(struct xdp_md *ctx) {
	void *data = (void *)(long)ctx->data, *end = (void *)(long)ctx->data_end;
	struct ethhdr *eth = data; __u16 proto; void *p = eth + 1;
	if (p > end) return count(XDP_ABORTED);
	proto = eth->h_proto;
	for (int i = 0; i < 2; i++) {
		if (proto != bpf_htons(ETH_P_8021Q) && proto != bpf_htons(ETH_P_8021AD)) break;
		if (p + 4 > end) return count(XDP_ABORTED);
		proto = *(__u16 *)(p + 2); p += 4;
	}
	__u8 l4;
	if (proto == bpf_htons(ETH_P_IP)) { struct iphdr *ip = p; if ((void *)(ip + 1) > end) return count(XDP_ABORTED); l4 = ip->protocol; p += ip->ihl * 4; }
	else if (proto == bpf_htons(ETH_P_IPV6)) { struct ipv6hdr *ip = p; if ((void *)(ip + 1) > end) return count(XDP_ABORTED); l4 = ip->nexthdr; p = ip + 1; }
	else return count(XDP_PASS);
	if (l4 != IPPROTO_TCP && l4 != IPPROTO_UDP) return count(XDP_PASS);
	struct udphdr *u = p; if ((void *)(u + 1) > end) return count(XDP_DROP);
	if (bpf_map_lookup_elem(&ports, &u->dest)) return count(XDP_PASS);
	return count(XDP_DROP);
}
char _license[] SEC("license") = "GPL";
