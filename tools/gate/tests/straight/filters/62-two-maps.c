/* Counts by protocol, IPv4 in one map and IPv6 behind its extensions in another, with one code behind both lookups. */
#include <linux/bpf.h>
#include <linux/if_ether.h>
#include <linux/ip.h>
#include <linux/ipv6.h>
#include <bpf/bpf_helpers.h>
#include <bpf/bpf_endian.h>
struct row { __u64 packets, bytes; };
#define M(n) struct { __uint(type, BPF_MAP_TYPE_ARRAY); __uint(max_entries, 256); __type(key, __u32); __type(value, struct row); } n SEC(".maps")
M(four); M(six);
SEC("xdp") int f(struct xdp_md *ctx) {
 void *data = (void *)(long)ctx->data, *end = (void *)(long)ctx->data_end;
 struct ethhdr *eth = data; if ((void *)(eth + 1) > end) return XDP_DROP;
 struct row *value; __u32 key;
 if (eth->h_proto == bpf_htons(ETH_P_IP)) {
  struct iphdr *ip = (void *)(eth + 1); if ((void *)(ip + 1) > end) return XDP_DROP;
  key = ip->protocol; value = bpf_map_lookup_elem(&four, &key);
 } else if (eth->h_proto == bpf_htons(ETH_P_IPV6)) {
  struct ipv6hdr *ip = (void *)(eth + 1); if ((void *)(ip + 1) > end) return XDP_DROP;
  __u8 next = ip->nexthdr; __u8 *p = (void *)(ip + 1);
#pragma unroll
  for (int i = 0; i < 4; i++) { 
   if (next == 0 || next == 60 || next == 43) { if ((void *)(p + 8) > end) return XDP_DROP; next = p[0]; p += (p[1] + 1) * 8; }
   else if (next == 44) { if ((void *)(p + 8) > end) return XDP_DROP; next = p[0]; p += 8; }
   else break;
  }
  key = next; value = bpf_map_lookup_elem(&six, &key);
 } else return XDP_PASS;
 if (!value) return XDP_ABORTED;
 __sync_fetch_and_add(&value->packets, 1);
 __sync_fetch_and_add(&value->bytes, end - data);
 return value->packets > 100 ? XDP_DROP : XDP_PASS;
}
