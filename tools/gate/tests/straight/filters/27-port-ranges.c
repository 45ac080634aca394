/* UDP and TCP to a table of port ranges pass, the rest is dropped and counted by the top bits of the port. */
#include <linux/bpf.h>
#include <linux/if_ether.h>
#include <linux/in.h>
#include <linux/ip.h>
#include <linux/udp.h>
#include <bpf/bpf_endian.h>
#include <bpf/bpf_helpers.h>

struct range {
	__u16 low, high;
};

struct histogram {
	__u64 count[8];
};

struct {
	__uint(type, BPF_MAP_TYPE_ARRAY);
	__uint(max_entries, 1);
	__type(key, __u32);
	__type(value, struct histogram);
} dropped SEC(".maps");

SEC("xdp")
int port_ranges(struct xdp_md *ctx)
{
	const struct range ranges[] = { { 22, 22 }, { 80, 88 }, { 443, 443 }, { 5000, 5999 }, { 49152, 65535 } };
	void *data_end = (void *)(long)ctx->data_end;
	void *data = (void *)(long)ctx->data;
	struct ethhdr *eth = data;
	struct iphdr *ip = (void *)(eth + 1);
	struct udphdr *udp;
	struct histogram *value;
	__u32 key = 0;
	__u16 port;

	if ((void *)(ip + 1) > data_end || eth->h_proto != bpf_htons(ETH_P_IP))
		return XDP_PASS;
	if (ip->protocol != IPPROTO_UDP && ip->protocol != IPPROTO_TCP)
		return XDP_PASS;
	udp = (void *)ip + ip->ihl * 4;
	if ((void *)(udp + 1) > data_end)
		return XDP_DROP;
	port = bpf_ntohs(udp->dest);
	for (unsigned int i = 0; i < sizeof(ranges) / sizeof(ranges[0]); i++)
		if (port >= ranges[i].low && port <= ranges[i].high)
			return XDP_PASS;
	value = bpf_map_lookup_elem(&dropped, &key);
	if (value)
		__sync_fetch_and_add(&value->count[port >> 13], 1);
	return XDP_DROP;
}

char _license[] SEC("license") = "GPL";
