/* What was seen last of each of 32 senders, a struct that is stored whole: one that came from elsewhere is dropped. */
#include <linux/bpf.h>
#include <linux/if_ether.h>
#include <linux/ip.h>
#include <linux/udp.h>
#include <linux/in.h>
#include <stdbool.h>
#include <bpf/bpf_helpers.h>
#include <bpf/bpf_endian.h>
struct seen { __u64 when, packets; __u32 addr; __u16 port; __u8 mac[6]; __u32 len; };
struct { __uint(type, BPF_MAP_TYPE_ARRAY); __uint(max_entries, 32); __type(key, __u32); __type(value, struct seen); } last SEC(".maps");
static __u64 packets;
SEC("xdp") int f(struct xdp_md *ctx) {
	void *data = (void *)(long)ctx->data, *end = (void *)(long)ctx->data_end;
	struct ethhdr *eth = data;
	struct iphdr *ip = (void *)(eth + 1);
	struct udphdr *u = (void *)(ip + 1);
	packets++;
	if ((void *)(u + 1) > end || eth->h_proto != bpf_htons(ETH_P_IP) || ip->ihl != 5) return XDP_PASS;
	__u32 k = bpf_ntohl(ip->saddr) & 31;
	struct seen *s = bpf_map_lookup_elem(&last, &k);
	if (!s) return XDP_ABORTED;
	struct seen now = { packets, s->packets + 1, ip->saddr, u->source, {}, end - data };
	__builtin_memcpy(now.mac, eth->h_source, 6);
	bool moved = s->packets && (s->addr != now.addr || s->port != now.port);
	*s = now;
	return moved ? XDP_DROP : XDP_PASS;
}
char _license[] SEC("license") = "GPL";
