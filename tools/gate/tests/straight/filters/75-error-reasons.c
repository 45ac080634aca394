/* Counts by the reason why a walk over the extensions of IPv6 ended, which a function gives as a negative number. */
#include <linux/bpf.h>
#include <linux/if_ether.h>
#include <linux/ipv6.h>
#include <bpf/bpf_endian.h>
#include <bpf/bpf_helpers.h>
#define MAX_EXT 6
#define NREASONS 8
__u64 reasons[NREASONS];
enum { E_SHORT = 1, E_MANY = 2, E_FRAG = 3, E_ROUTING = 4 };
static __attribute__((noinline)) int skip_ext(void *p, void *end, __u8 next)
{
	for (int i = 0; i < MAX_EXT; i++) {
		struct ipv6_opt_hdr *h = p;
		switch (next) {
		case 44: return -E_FRAG;
		case 43: return -E_ROUTING;
		case 0: case 60: break;
		default: return next;
		}
		if ((void *)(h + 1) > end) return -E_SHORT;
		next = h->nexthdr;
		p += 8 * (h->hdrlen + 1);
	}
	return -E_MANY;
}
SEC("xdp") int f(struct xdp_md *ctx) {
	void *data = (void *)(long)ctx->data, *end = (void *)(long)ctx->data_end;
	struct ethhdr *eth = data;
	struct ipv6hdr *ip = (void *)(eth + 1);
	if ((void *)(ip + 1) > end || eth->h_proto != bpf_htons(ETH_P_IPV6)) return XDP_PASS;
	int r = skip_ext(ip + 1, end, ip->nexthdr);
	if (r < 0) {
		r = -r;
		if (r < NREASONS) reasons[r]++;
		return XDP_DROP;
	}
	return XDP_PASS;
}
char _license[] SEC("license") = "GPL";
