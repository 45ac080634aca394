/* Maps of long names: of one length, which differ in one byte, and one that another ends with. */
#include <linux/bpf.h>
#include <bpf/bpf_helpers.h>

#define MAP(name, entries) \
	struct { \
		__uint(type, BPF_MAP_TYPE_ARRAY); \
		__uint(max_entries, entries); \
		__uint(key_size, 4); \
		__uint(value_size, 8); \
	} name SEC(".maps")

MAP(packets_of_each_flow_by_its_first_port, 1);
MAP(backets_of_each_flow_by_its_first_port, 2);
MAP(packets_of_each_blow_by_its_first_port, 3);
MAP(packets_of_each_flow_by_its_first_part, 4);
MAP(packets_of_each_flow_by_its_first_porz, 5);
MAP(late_packets_of_each_flow_by_its_first_port, 6);

SEC("xdp")
int names(struct xdp_md *ctx)
{
	__u32 key = 0;
	return bpf_map_lookup_elem(&late_packets_of_each_flow_by_its_first_port, &key) ? XDP_PASS : XDP_DROP;
}
