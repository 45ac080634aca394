/* Drops what comes from a list of addresses or of networks, and TCP to ports that a table of bits doesn't have. */
#include <linux/bpf.h>
#include <linux/if_ether.h>
#include <linux/ip.h>
#include <linux/tcp.h>
#include <bpf/bpf_endian.h>
#include <bpf/bpf_helpers.h>
struct network { __u32 bits, address; };
struct { __uint(type, BPF_MAP_TYPE_HASH); __uint(max_entries, 1024); __type(key, __u32); __type(value, __u64); } hosts SEC(".maps");
struct { __uint(type, BPF_MAP_TYPE_LPM_TRIE); __uint(max_entries, 1024); __uint(map_flags, BPF_F_NO_PREALLOC); __type(key, struct network); __type(value, __u64); } networks SEC(".maps");
static const __u8 open[8192] = { [22 / 8] = 1 << 22 % 8, [80 / 8] = 1 << 80 % 8, [443 / 8] = 1 << 443 % 8, [65535 / 8] = 1 << 65535 % 8 };
static int is_open(__u16 port) { return open[port >> 3] >> (port & 7) & 1; }
SEC("xdp") int f(struct xdp_md *ctx) {
	void *data = (void *)(long)ctx->data, *end = (void *)(long)ctx->data_end;
	struct ethhdr *eth = data;
	struct iphdr *ip = (void *)(eth + 1);
	struct tcphdr *tcp = (void *)(ip + 1);
	if ((void *)(ip + 1) > end || eth->h_proto != bpf_htons(ETH_P_IP)) return XDP_PASS;
	__u32 source = ip->saddr;
	struct network network = { 32, source };
	__u64 *count = bpf_map_lookup_elem(&hosts, &source);
	if (!count) count = bpf_map_lookup_elem(&networks, &network);
	if (count) {
		__sync_fetch_and_add(count, 1);
		return XDP_DROP;
	}
	if (ip->protocol != 6 || ip->ihl != 5) return XDP_PASS;
	if ((void *)(tcp + 1) > end) return XDP_DROP;
	return is_open(bpf_ntohs(tcp->dest)) ? XDP_PASS : XDP_DROP;
}
char _license[] SEC("license") = "GPL";
