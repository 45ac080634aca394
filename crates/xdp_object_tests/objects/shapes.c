/* Maps of each kind that is here, of the least and the greatest sizes; one that isn't; and text in memory. */
#include <linux/bpf.h>
#include <bpf/bpf_helpers.h>

#define MAP(name, kind, entries, keys, values) \
	struct { \
		__uint(type, kind); \
		__uint(max_entries, entries); \
		__uint(key_size, keys); \
		__uint(value_size, values); \
	} name SEC(".maps")

MAP(last, BPF_MAP_TYPE_ARRAY, 65536, 4, 64);
MAP(first, BPF_MAP_TYPE_PERCPU_ARRAY, 1, 4, 1);
MAP(hash, BPF_MAP_TYPE_HASH, 2, 64, 8);
MAP(per_cpu, BPF_MAP_TYPE_PERCPU_HASH, 3, 1, 9);
MAP(recent, BPF_MAP_TYPE_LRU_HASH, 4, 6, 16);
MAP(recent_per_cpu, BPF_MAP_TYPE_LRU_PERCPU_HASH, 5, 13, 63);
MAP(trie, BPF_MAP_TYPE_LPM_TRIE, 6, 5, 7);
MAP(widest, BPF_MAP_TYPE_LPM_TRIE, 7, 68, 17);
MAP(ring, BPF_MAP_TYPE_RINGBUF, 4096, 0, 0);

static __attribute__((always_inline)) int seen(void *map, const void *key)
{
	return bpf_map_lookup_elem(map, key) != 0;
}

SEC("xdp")
int many(struct xdp_md *ctx)
{
	__u8 key[68] = {0};
	int count = seen(&first, key) + seen(&hash, key) + seen(&first, key) + seen(&trie, key);
	count += seen(&per_cpu, key) + seen(&recent, key) + seen(&recent_per_cpu, key) + seen(&widest, key);
	return count + seen(&last, key) > 3 ? XDP_PASS : XDP_DROP;
}

SEC("xdp")
int none(struct xdp_md *ctx)
{
	__u32 key = 0;
	return seen(&last, &key) + seen(&ring, &key) ? XDP_PASS : XDP_DROP;
}

SEC("xdp")
int text(struct xdp_md *ctx)
{
	__u32 key = 0;
	bpf_printk("%d", seen(&last, &key));
	return XDP_PASS;
}

char terms[] SEC("license") = "GPL";
