#include <linux/bpf.h>
#include <bpf/bpf_helpers.h>

struct histogram {
	__u64 slots[20];
	__u64 total;
};

struct flow {
	__u32 source, destination;
	__u16 port;
	__s16 lowest;
	__u8 flags, steps;
	__u64 packets, bytes;
	__u32 seen;
	char name[6];
	__u64 more[5];
};

struct {
	__uint(type, BPF_MAP_TYPE_ARRAY);
	__uint(max_entries, 3);
	__type(key, __u32);
	__type(value, struct histogram);
} histograms SEC(".maps");

struct {
	__uint(type, BPF_MAP_TYPE_PERCPU_ARRAY);
	__uint(max_entries, 5);
	__type(key, __u32);
	__type(value, struct flow);
} flows SEC(".maps");

__u64 by_length[64];
__u32 by_byte[40] = { 7, 0, 1 << 31 };
__u16 twice[50];
static __u8 last[70];
static struct {
	__u32 head, size;
	__u64 rows[16];
	__u16 low, high;
} ring;

static __attribute__((noinline)) void seen(__u64 *slots, __u32 at)
{
	if (slots && at < 20)
		__sync_fetch_and_add(&slots[at], 3);
}

static __attribute__((noinline)) __u64 sum(struct histogram *of)
{
	__u64 all = 0;

	for (int i = 0; i < 20; i++)
		all += of->slots[i];
	return all;
}

static __attribute__((noinline)) int count_flow(const __u8 *bytes, __u32 key, __u64 length)
{
	struct flow *flow = bpf_map_lookup_elem(&flows, &key);

	if (!flow)
		return 0;
	if (flow->source != bytes[2] || flow->port != bytes[3]) {
		flow->source = bytes[2];
		flow->destination = ~bytes[3];
		flow->port = bytes[3];
		flow->lowest = -bytes[4];
		flow->flags = 0;
		flow->steps++;
		flow->packets = 1;
		flow->bytes = length;
		flow->name[1] = 'x';
	} else {
		flow->packets++;
		flow->bytes += length;
		flow->flags |= bytes[4];
		if (flow->lowest > (signed char)bytes[5])
			flow->lowest = (signed char)bytes[5];
		flow->name[2] = bytes[5];
	}
	__sync_fetch_and_add(&flow->seen, bytes[5] & 1 ? 5 : -1);
	flow->more[3] -= 2;
	return flow->lowest < -100;
}

SEC("xdp")
int large(struct xdp_md *ctx)
{
	const __u8 *bytes = (void *)(long)ctx->data, *end = (void *)(long)ctx->data_end;
	__u32 key, first = 0, at;
	struct histogram *of, *other = 0;
	__u64 length = end - bytes;

	if (bytes + 8 > end)
		return XDP_ABORTED;
	key = bytes[0] & 3;
	of = bpf_map_lookup_elem(&histograms, &key);
	if (bytes[0] & 8)
		other = bpf_map_lookup_elem(&histograms, &first);
	at = bytes[1];
	if (of) {
		if (at < 20)
			of->slots[at]++;
		else if (at == 20)
			of->slots[3] += length;
		of->total++;
		seen(other ? other->slots : 0, at & 31);
		if (bytes[0] & 16 && sum(of) > 40)
			return XDP_TX;
	}
	by_length[length & 63] += length;
	if (at < 40)
		by_byte[at] += 0x40000000;
	if (at < 49)
		twice[at + 1] = twice[at] + bytes[5];
	last[at % 70] = bytes[6];
	ring.rows[ring.head & 15] += bytes[5];
	if (ring.rows[at & 15] > 200)
		ring.high++;
	ring.head++;
	ring.low = ring.size += bytes[3];
	if (by_byte[2] == last[3])
		return XDP_DROP;
	return count_flow(bytes, bytes[7] & 7, length) ? XDP_DROP : XDP_PASS;
}

char _license[] SEC("license") = "GPL";
