/* The MSS among TCP's options behind one of two headers is lowered, and the sum with it: addresses are kept on the stack meanwhile. */
#include <linux/bpf.h>
#include <linux/tcp.h>
#include <linux/types.h>
#include <bpf/bpf_helpers.h>

#define SWAPPED(n) ((__u16)((n) << 8 | (n) >> 8))

const volatile __u16 most_4 = 1412, most_6 = 1392;

struct seen {
	__u64 all, lowered, without;
};

struct {
	__uint(type, BPF_MAP_TYPE_PERCPU_ARRAY);
	__uint(max_entries, 1);
	__type(key, __u32);
	__type(value, struct seen);
} stats SEC(".maps");

static __always_inline void mend(struct tcphdr *tcp, __u16 old, __u16 new, int is_odd)
{
	__u32 sum = (__u16)~tcp->check;

	sum += is_odd ? (__u16)~old : (__u16)~SWAPPED(old);
	sum += is_odd ? new : SWAPPED(new);
	sum = (sum & 0xffff) + (sum >> 16);
	tcp->check = ~((sum & 0xffff) + (sum >> 16));
}

static __always_inline int lowered(struct tcphdr *tcp, void *end, __u16 most)
{
	__u8 *options = (__u8 *)(tcp + 1);
	__u32 left, at = 0;
	int i;

	if (tcp->doff <= 5)
		return 0;
	left = tcp->doff * 4 - sizeof(*tcp);
	for (i = 0; i < 10; i++) {
		__u8 *option, kind, length;
		__u16 mss;

		if (at >= left || at > 39)
			return 0;
		option = options + at;
		if ((void *)(option + 1) > end)
			return 0;
		kind = option[0];
		if (kind == 0)
			return 0;
		if (kind == 1) {
			at++;
			continue;
		}
		if ((void *)(option + 2) > end)
			return 0;
		length = option[1];
		if (length < 2)
			return 0;
		if (kind == 2) {
			if (length != 4 || (void *)(option + 4) > end)
				return 0;
			mss = option[2] << 8 | option[3];
			if (mss <= most)
				return 1;
			option[2] = most >> 8;
			option[3] = most;
			mend(tcp, mss, most, at & 1);
			return 2;
		}
		at += length;
	}
	return 0;
}

SEC("xdp") int clamp(struct xdp_md *ctx)
{
	__u8 *p = (void *)(long)ctx->data, *end = (void *)(long)ctx->data_end;
	struct tcphdr *tcp;
	__u32 zero = 0;
	struct seen *s;
	__u16 most;

	if (p + 14 > end)
		return XDP_ABORTED;
	if (p[12] == 8) {
		tcp = (void *)(p + 34);
		most = most_4;
	} else if (p[12] == 0x86) {
		if (p + 54 > end || p[20] != 6)
			return XDP_DROP;
		tcp = (void *)(p + 54);
		most = most_6;
	} else {
		return XDP_DROP;
	}
	if ((void *)(tcp + 1) > (void *)end || !tcp->syn)
		return XDP_PASS;
	s = bpf_map_lookup_elem(&stats, &zero);
	if (!s)
		return XDP_PASS;
	s->all++;
	switch (lowered(tcp, end, most)) {
	case 0:
		s->without++;
		break;
	case 2:
		s->lowered++;
		break;
	}
	p[1] = s->lowered;
	return p[0] & 1 ? XDP_TX : XDP_PASS;
}

char _license[] SEC("license") = "GPL";
