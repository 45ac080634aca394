/* Packets for tools/xen-guest: traffic send ADDRESS PORT BYTES SECONDS, traffic count PORT SECONDS, traffic segments INTERFACE SECONDS, traffic
 * pairs INTERFACE, or traffic judge INTERFACE SECONDS
 *
 * `send` sends UDP packets of that many bytes as fast as it can, and prints how many. `count` counts what comes to the port, from the first
 * packet on, until nothing has come for that many seconds, and prints how many and in how many milliseconds from the first to the last.
 * `segments` gives an interface frames of TCP that are still to be segmented, now and then with a blank checksum alone, to a station that
 * nobody is. `pairs` sends rounds of the packets in `pairs`, numbered, until it is told to end by SIGTERM, and prints how many. `judge` takes
 * them from an interface, from the first on, until none has come for that many seconds. It prints in how many rounds which of the first two
 * came, how many came of those that no list lets pass, and in how many pieces each flow of the first two came, at least and at most. */
#include <arpa/inet.h>
#include <linux/if_ether.h>
#include <linux/if_packet.h>
#include <linux/virtio_net.h>
#include <net/if.h>
#include <netinet/in.h>
#include <signal.h>
#include <stdint.h>
#include <stdio.h>
#include <stdlib.h>
#include <string.h>
#include <sys/socket.h>
#include <sys/time.h>
#include <time.h>
#include <unistd.h>

enum { LONGEST_WAIT = 60, HEADERS4 = 54, HEADERS6 = 74, TCP_BYTES = 20, CHECKSUM = 16 };

static uint64_t milliseconds(void)
{
	struct timespec now;
	clock_gettime(CLOCK_MONOTONIC, &now);
	return (uint64_t)now.tv_sec * 1000 + (uint64_t)now.tv_nsec / 1000000;
}

static int fail(const char *what)
{
	perror(what);
	return 1;
}

static int sends(const struct sockaddr_in *to, size_t bytes, unsigned seconds)
{
	static char packet[65536];
	int with = socket(AF_INET, SOCK_DGRAM, 0);
	unsigned long sent = 0, failed = 0;
	if (with < 0 || bytes > sizeof packet || connect(with, (const struct sockaddr *)to, sizeof *to))
		return fail("send");
	for (uint64_t end = milliseconds() + 1000 * (uint64_t)seconds; milliseconds() < end;)
		for (int n = 0; n < 64; n++)
			send(with, packet, bytes, 0) == (ssize_t)bytes ? sent++ : failed++;
	printf("sent %lu failed %lu\n", sent, failed);
	return 0;
}

static int counts(const struct sockaddr_in *at, unsigned seconds)
{
	static char packet[65536];
	int with = socket(AF_INET, SOCK_DGRAM, 0), room = 1 << 22;
	struct timeval patience = { .tv_sec = LONGEST_WAIT };
	uint64_t first = 0, last = 0;
	unsigned long packets = 0;
	if (with < 0 || bind(with, (const struct sockaddr *)at, sizeof *at))
		return fail("count");
	setsockopt(with, SOL_SOCKET, SO_RCVBUFFORCE, &room, sizeof room);
	setsockopt(with, SOL_SOCKET, SO_RCVTIMEO, &patience, sizeof patience);
	while (recv(with, packet, sizeof packet, 0) >= 0) {
		last = milliseconds();
		if (packets++)
			continue;
		first = last;
		patience.tv_sec = seconds;
		setsockopt(with, SOL_SOCKET, SO_RCVTIMEO, &patience, sizeof patience);
	}
	printf("counted %lu in %lu ms\n", packets, (unsigned long)(last - first));
	return 0;
}

static uint32_t any(uint32_t below)
{
	static uint32_t seed = 1;
	seed = seed * 1664525 + 1013904223;
	return (seed >> 8) % below;
}

/* A frame of TCP behind what says how it is to be segmented, of so many bytes in all. */
static size_t frame(uint8_t *at, int is_ipv6)
{
	static const uint8_t ipv4[] = { 2, 0, 0, 0, 0, 9, 2, 0, 0, 0, 0, 8, 8, 0, 0x45, [22] = 64, 6, [26] = 10, 0, 1, 2, 10, 0, 9, 9, [46] = 0x50 };
	static const uint8_t ipv6[] = { 2, 0, 0, 0, 0, 9, 2, 0, 0, 0, 0, 8, 0x86, 0xdd, 0x60, [20] = 6, 64, 0xfd, [37] = 2, 0xfd, [53] = 9, [66] = 0x50 };
	uint32_t headers = is_ipv6 ? HEADERS6 : HEADERS4, most = any(4) ? 9000 : 64000, payload = 1 + any(most);
	int is_segmented = payload > 536 && any(8);
	struct virtio_net_hdr header = { .flags = VIRTIO_NET_HDR_F_NEEDS_CSUM, .hdr_len = headers, .csum_start = headers - TCP_BYTES, .csum_offset = CHECKSUM };
	if (is_segmented) {
		header.gso_type = is_ipv6 ? VIRTIO_NET_HDR_GSO_TCPV6 : VIRTIO_NET_HDR_GSO_TCPV4;
		header.gso_size = 536 + any(payload < 1448 ? payload - 536 : 912);
	} else if (payload > 1400) {
		payload = 1400;
	}
	memcpy(at, &header, sizeof header);
	at += sizeof header;
	memset(at, (int)any(256), headers + payload);
	memcpy(at, is_ipv6 ? ipv6 : ipv4, is_ipv6 ? sizeof ipv6 : sizeof ipv4);
	uint32_t length = is_ipv6 ? TCP_BYTES + payload : headers - ETH_HLEN + payload, field = is_ipv6 ? 18 : 16;
	at[field] = (uint8_t)(length >> 8), at[field + 1] = (uint8_t)length;
	return sizeof header + headers + payload;
}

static int segments(const char *interface, unsigned seconds)
{
	static uint8_t room[1 << 17];
	int with = socket(AF_PACKET, SOCK_RAW, 0), on = 1;
	struct sockaddr_ll to = { .sll_family = AF_PACKET, .sll_ifindex = (int)if_nametoindex(interface) };
	unsigned long sent = 0, failed = 0;
	if (with < 0 || !to.sll_ifindex || setsockopt(with, SOL_PACKET, PACKET_VNET_HDR, &on, sizeof on))
		return fail("segments");
	for (uint64_t end = milliseconds() + 1000 * (uint64_t)seconds; milliseconds() < end; usleep(any(8000))) {
		int is_ipv6 = (int)any(2);
		size_t bytes = frame(room, is_ipv6);
		to.sll_protocol = htons(is_ipv6 ? ETH_P_IPV6 : ETH_P_IP);
		sendto(with, room, bytes, 0, (const struct sockaddr *)&to, sizeof to) == (ssize_t)bytes ? sent++ : failed++;
	}
	printf("sent %lu failed %lu\n", sent, failed);
	return 0;
}

/* From and to which network a packet goes, and of which protocol. The old lists have the address and the network 1, the new ones 2. */
static const struct pair { uint8_t from, to, protocol; } pairs[] = {
	{ 1, 1, IPPROTO_UDP }, { 2, 2, IPPROTO_UDP }, { 1, 2, IPPROTO_UDP }, { 2, 1, IPPROTO_UDP }, { 1, 1, IPPROTO_GRE }, { 2, 2, IPPROTO_GRE },
};
enum { PAIRS = sizeof pairs / sizeof *pairs, FLOWS = 4, MOST_ROUNDS = 1 << 16, ROUND_MICROSECONDS = 4000 };
static const uint8_t mark[] = "lists";

/* A round's packet: 10.1.0.FROM to 10.9.TO.7, by the ports of its flow. */
struct numbered {
	uint8_t link[ETH_HLEN], ip[20], ports[4], length[4], mark[sizeof mark], pair;
	uint16_t round;
} __attribute__((packed));
static volatile sig_atomic_t is_enough;
static void enough(int number) { (void)number, is_enough = 1; }

/* Opens an interface for packets of all protocols. */
static int opened(const char *interface)
{
	struct sockaddr_ll at = { .sll_family = AF_PACKET, .sll_protocol = htons(ETH_P_ALL), .sll_ifindex = (int)if_nametoindex(interface) };
	int with = socket(AF_PACKET, SOCK_RAW, htons(ETH_P_ALL));
	return with < 0 || !at.sll_ifindex || bind(with, (const struct sockaddr *)&at, sizeof at) ? -1 : with;
}

static struct numbered packet_of(uint8_t pair, uint16_t round)
{
	struct numbered packet = {
		.link = { 2, 0, 0, 0, 0, 9, 2, 0, 0, 0, 0, 8, 8, 0 },
		.ip = { 0x45, [3] = sizeof packet - ETH_HLEN, [8] = 64, [9] = pairs[pair].protocol, [12] = 10, 1, 0, pairs[pair].from, 10, 9, pairs[pair].to, 7 },
		.ports = { 0x30, round % FLOWS, 0x1b, 0x5a }, .length = { [1] = sizeof packet - ETH_HLEN - 20 }, .pair = pair, .round = round,
	};
	memcpy(packet.mark, mark, sizeof mark);
	return packet;
}

static int sends_pairs(const char *interface)
{
	int with = opened(interface);
	unsigned long failed = 0;
	uint32_t round = 0;
	if (with < 0)
		return fail("pairs");
	signal(SIGTERM, enough);
	for (; !is_enough && round < MOST_ROUNDS; round++, usleep(ROUND_MICROSECONDS))
		for (uint8_t pair = 0; pair < PAIRS; pair++) {
			struct numbered packet = packet_of(pair, (uint16_t)round);
			failed += send(with, &packet, sizeof packet, 0) != (ssize_t)sizeof packet;
		}
	printf("rounds %u failed %lu\n", round, failed);
	return 0;
}

/* What came of each round, as a bit for each of the first two; of those that no list lets pass; and the pieces of each flow of the first two. */
struct judged {
	uint8_t came[MOST_ROUNDS];
	unsigned rounds, mixed, barred, pieces[2][FLOWS], last[2][FLOWS];
};

static void judge_packet(struct judged *all, const struct numbered *packet)
{
	const struct pair *pair = &pairs[packet->pair % PAIRS];
	unsigned flow = packet->round % FLOWS, which = packet->pair;
	if (pair->protocol != IPPROTO_UDP || which > 1) {
		pair->protocol != IPPROTO_UDP ? all->barred++ : all->mixed++;
		return;
	}
	if (!all->pieces[which][flow] || packet->round != all->last[which][flow] + FLOWS)
		all->pieces[which][flow]++;
	all->last[which][flow] = packet->round;
	all->came[packet->round] |= (uint8_t)(1 << which);
	if (packet->round >= all->rounds)
		all->rounds = packet->round + 1u;
}

static void print_judged(const struct judged *all)
{
	unsigned rounds[4] = { 0 };
	for (unsigned round = 0; round < all->rounds; round++)
		rounds[all->came[round]]++;
	printf("old %u new %u both %u neither %u mixed %u barred %u", rounds[1], rounds[2], rounds[3], rounds[0], all->mixed, all->barred);
	for (unsigned which = 0; which < 2; which++) {
		unsigned least = all->pieces[which][0], most = least;
		for (unsigned flow = 1; flow < FLOWS; flow++) {
			unsigned pieces = all->pieces[which][flow];
			least = pieces < least ? pieces : least, most = pieces > most ? pieces : most;
		}
		printf(" pieces %u %u", least, most);
	}
	puts("");
}

static int judges(const char *interface, unsigned seconds)
{
	static struct judged all;
	struct numbered packet;
	struct timeval patience = { .tv_sec = LONGEST_WAIT };
	int with = opened(interface), room = 1 << 24;
	if (with < 0 || setsockopt(with, SOL_SOCKET, SO_RCVBUFFORCE, &room, sizeof room))
		return fail("judge");
	for (uint64_t until = milliseconds() + 1000 * LONGEST_WAIT; milliseconds() < until;) {
		setsockopt(with, SOL_SOCKET, SO_RCVTIMEO, &patience, sizeof patience);
		if (recv(with, &packet, sizeof packet, 0) != (ssize_t)sizeof packet || memcmp(packet.mark, mark, sizeof mark))
			continue;
		judge_packet(&all, &packet);
		patience.tv_sec = seconds;
		until = milliseconds() + 1000 * (uint64_t)seconds;
	}
	print_judged(&all);
	return 0;
}

int main(int count, char **words)
{
	struct sockaddr_in address = { .sin_family = AF_INET };
	if (count == 6 && !strcmp(words[1], "send") && inet_aton(words[2], &address.sin_addr)) {
		address.sin_port = htons((uint16_t)atoi(words[3]));
		return sends(&address, (size_t)atol(words[4]), (unsigned)atoi(words[5]));
	}
	if (count == 4 && !strcmp(words[1], "count")) {
		address.sin_port = htons((uint16_t)atoi(words[2]));
		return counts(&address, (unsigned)atoi(words[3]));
	}
	if (count == 4 && !strcmp(words[1], "segments"))
		return segments(words[2], (unsigned)atoi(words[3]));
	if (count == 3 && !strcmp(words[1], "pairs"))
		return sends_pairs(words[2]);
	if (count == 4 && !strcmp(words[1], "judge"))
		return judges(words[2], (unsigned)atoi(words[3]));
	fprintf(stderr, "traffic send ADDRESS PORT BYTES SECONDS, count PORT SECONDS, segments INTERFACE SECONDS, pairs INTERFACE, or judge INTERFACE SECONDS\n");
	return 2;
}
