/* Headers of Ethernet, VLAN, ARP, IPv4, IPv6, TCP, UDP and ICMP, with the names of Linux's uapi headers. It stands in
   for them: include either these or Linux's own. Numbers of more than one byte are in network order. */
#ifndef HEADERS_H
#define HEADERS_H

typedef unsigned char __u8;
typedef unsigned short __u16;
typedef unsigned int __u32;
typedef unsigned long long __u64;

#define bpf_htons(number) __builtin_bswap16(number)
#define bpf_ntohs(number) __builtin_bswap16(number)
#define bpf_htonl(number) __builtin_bswap32(number)
#define bpf_ntohl(number) __builtin_bswap32(number)

#define ETH_ALEN 6
#define ETH_P_IP 0x0800
#define ETH_P_ARP 0x0806
#define ETH_P_8021Q 0x8100
#define ETH_P_IPV6 0x86dd
#define ETH_P_8021AD 0x88a8

struct ethhdr {
	__u8 h_dest[ETH_ALEN];
	__u8 h_source[ETH_ALEN];
	__u16 h_proto;
};

/* after the source address of a tagged frame: ETH_P_8021Q or ETH_P_8021AD, then this */
struct vlan_hdr {
	__u16 h_vlan_TCI;	/* the low 12 bits are the VLAN */
	__u16 h_vlan_encapsulated_proto;
};

#define ARPHRD_ETHER 1
#define ARPOP_REQUEST 1
#define ARPOP_REPLY 2

struct arphdr {
	__u16 ar_hrd, ar_pro;
	__u8 ar_hln, ar_pln;
	__u16 ar_op;
};

/* ARP for IPv4 over Ethernet */
struct ether_arp {
	struct arphdr ea_hdr;
	__u8 arp_sha[ETH_ALEN];
	__u8 arp_spa[4];
	__u8 arp_tha[ETH_ALEN];
	__u8 arp_tpa[4];
};

#define IPPROTO_HOPOPTS 0
#define IPPROTO_ICMP 1
#define IPPROTO_TCP 6
#define IPPROTO_UDP 17
#define IPPROTO_ROUTING 43
#define IPPROTO_FRAGMENT 44
#define IPPROTO_ICMPV6 58
#define IPPROTO_NONE 59
#define IPPROTO_DSTOPTS 60

struct iphdr {
	__u8 ihl : 4, version : 4;	/* ihl counts words of four bytes */
	__u8 tos;
	__u16 tot_len;
	__u16 id;
	__u16 frag_off;	/* 0x2000: more fragments follow; 0x1fff: the offset, in units of eight bytes */
	__u8 ttl;
	__u8 protocol;
	__u16 check;
	__u32 saddr, daddr;
};

struct in6_addr {
	union {
		__u8 u6_addr8[16];
		__u16 u6_addr16[8];
		__u32 u6_addr32[4];
	} in6_u;
};

struct ipv6hdr {
	__u8 priority : 4, version : 4;
	__u8 flow_lbl[3];
	__u16 payload_len;
	__u8 nexthdr;
	__u8 hop_limit;
	struct in6_addr saddr, daddr;
};

/* hop-by-hop options, routing and destination options: hdrlen counts units of eight bytes after the first */
struct ipv6_opt_hdr {
	__u8 nexthdr, hdrlen;
};

struct tcphdr {
	__u16 source, dest;
	__u32 seq, ack_seq;
	__u16 res1 : 4, doff : 4, fin : 1, syn : 1, rst : 1, psh : 1, ack : 1, urg : 1, ece : 1, cwr : 1;
	__u16 window, check, urg_ptr;
};

struct udphdr {
	__u16 source, dest, len, check;
};

struct icmphdr {
	__u8 type, code;
	__u16 checksum;
	union {
		struct { __u16 id, sequence; } echo;
		__u32 gateway;
		struct { __u16 __unused, mtu; } frag;
	} un;
};

#define ICMP_ECHOREPLY 0
#define ICMP_ECHO 8

struct icmp6hdr {
	__u8 icmp6_type, icmp6_code;
	__u16 icmp6_cksum;
	__u32 icmp6_data;
};

#endif
