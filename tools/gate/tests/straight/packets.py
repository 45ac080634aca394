"""Packets for the thirty filters, each with what the filter has to answer."""
import struct

PASS, DROP, TX, ABORTED = "PASS", "DROP", "TX", "ABORTED"
GUEST, PEER = bytes.fromhex("020000000001"), bytes.fromhex("020000000002")
IPV4, IPV6, ARP, VLAN, MPLS = 0x0800, 0x86DD, 0x0806, 0x8100, 0x8847
ICMP, IGMP, TCP, UDP, GRE, ICMPV6, SCTP = 1, 2, 6, 17, 47, 58, 132
HOP_BY_HOP, ROUTING, FRAGMENT, AUTHENTICATION, DESTINATION = 0, 43, 44, 51, 60
SYN, ACK, FIN, PSH, URG = 0x02, 0x10, 0x01, 0x08, 0x20


def ethernet(kind, payload=b"", to=PEER, source=GUEST):
    return to + source + struct.pack(">H", kind) + payload


def checksum(data):
    total = sum(struct.unpack(f">{len(data) // 2}H", data))
    while total >> 16:
        total = (total & 0xFFFF) + (total >> 16)
    return total ^ 0xFFFF


def ipv4(protocol, payload=b"", options=b"", fragment=0, ttl=64, source="0a000001", to="0a000002", wrong=0):
    options += bytes(-len(options) % 4)
    head = struct.pack(
        ">BBHHHBBH", 0x45 + len(options) // 4, 0, 20 + len(options) + len(payload), 1, fragment, ttl, protocol, 0
    )
    head += bytes.fromhex(source) + bytes.fromhex(to) + options
    head = head[:10] + struct.pack(">H", checksum(head) ^ wrong) + head[12:]
    return ethernet(IPV4, head + payload)


def ipv6(following, payload=b"", hops=64):
    head = struct.pack(">IHBB", 6 << 28, len(payload), following, hops)
    return ethernet(IPV6, head + bytes(15) + b"\1" + bytes(15) + b"\2" + payload)


def extension(following, units=0, fill=b""):
    """A header of IPv6 of 8 * (units + 1) bytes."""
    return (bytes([following, units]) + fill + bytes(8 * units + 6))[: 8 * units + 8]


def udp(source, to, payload=b""):
    return struct.pack(">HHHH", source, to, 8 + len(payload), 0) + payload


def tcp(source, to, flags=ACK, options=b"", payload=b""):
    options += bytes(-len(options) % 4)
    return (
        struct.pack(">HHIIBBHHH", source, to, 1, 0, (5 + len(options) // 4) << 4, flags, 512, 0, 0) + options + payload
    )


def dns(labels, kind, flags=0x0100, questions=1):
    name = b"".join(bytes([len(label)]) + label for label in labels) + b"\0"
    return struct.pack(">HHHHHH", 7, flags, questions, 0, 0, 0) + name + struct.pack(">HH", kind, 1)


def dhcp(options, source=68, to=67, magic=0x63825363):
    return ipv4(UDP, udp(source, to, bytes(236) + struct.pack(">I", magic) + options))


def arp(mac=GUEST, address="0a000001", source=GUEST, kind=1):
    payload = (
        struct.pack(">HHBBH", kind, IPV4, 6, 4, 1) + mac + bytes.fromhex(address) + bytes(6) + bytes.fromhex("0a000002")
    )
    return ethernet(ARP, payload, source=source)


def hello(extensions, session=32):
    listed = b"".join(struct.pack(">HH", kind, len(data)) + data for kind, data in extensions)
    body = (
        struct.pack(">H", 0x0303)
        + bytes(32)
        + bytes([session])
        + bytes(session)
        + struct.pack(">HHH", 4, 0x1301, 0x1302)
    )
    body += b"\1\0" + struct.pack(">H", len(listed)) + listed
    return ipv4(
        TCP,
        tcp(
            40000,
            443,
            PSH | ACK,
            payload=b"\x16\3\1" + struct.pack(">H", len(body) + 4) + b"\1\0" + struct.pack(">H", len(body)) + body,
        ),
    )


def chunk(kind, length, fill=b"x"):
    return struct.pack(">BBH", kind, 0, length) + (fill * length)[: max(0, (length + 3 & ~3) - 4)]


def sctp(*chunks, options=b""):
    return ipv4(SCTP, struct.pack(">HHII", 5000, 5000, 0, 0) + b"".join(chunks), options)


def ppp(protocol, kind=0x8864, version=0x11, more=0):
    return ethernet(kind, struct.pack(">BBHHH", version, 0, 9, 2 + 20 + more, protocol) + bytes(20))


def label(value, bottom=False):
    return struct.pack(">I", value << 12 | bottom << 8 | 64)


ADVERTISEMENT, ECHO_6 = bytes([134]) + bytes(15), bytes([128]) + bytes(7)
PLAIN = [(ipv4(TCP, tcp(1, 2)), PASS), (ethernet(ARP, bytes(28)), PASS)]
FILTERS = {
    "01-fragments": [
        *PLAIN,
        (ipv4(UDP, udp(1, 2), fragment=0x4000), PASS),
        (ipv4(UDP, udp(1, 2), fragment=0x2000), DROP),
        (ipv4(UDP, udp(1, 2), fragment=0x0010), DROP),
        (ipv6(UDP, udp(1, 2)), PASS),
        (ipv6(FRAGMENT, extension(UDP)), DROP),
        (ipv6(HOP_BY_HOP, extension(DESTINATION) + extension(FRAGMENT, 2) + extension(UDP)), DROP),
        (ipv6(HOP_BY_HOP, extension(DESTINATION) + extension(UDP, 1) + udp(1, 2)), PASS),
    ],
    "02-scan-flags": [
        *PLAIN,
        (ipv4(TCP, tcp(1, 2, 0)), DROP),
        (ipv4(TCP, tcp(1, 2, SYN | FIN)), DROP),
        (ipv4(TCP, tcp(1, 2, FIN | PSH | URG), b"\1" * 8), DROP),
        (ipv4(TCP, tcp(1, 2, SYN), b"\1" * 8), PASS),
    ],
    "03-small-mss": [
        *PLAIN,
        (ipv4(TCP, tcp(1, 2, SYN, bytes.fromhex("020405b4"))), PASS),
        (ipv4(TCP, tcp(1, 2, SYN, bytes.fromhex("02040100"))), DROP),
        (ipv4(TCP, tcp(1, 2, SYN, bytes.fromhex("0101080a000000000000000002040064")), b"\1" * 4), DROP),
        (ipv4(TCP, tcp(1, 2, SYN, bytes.fromhex("0402080a000000000000000001030307020405b4"))), PASS),
        (ipv4(TCP, tcp(1, 2, SYN, bytes.fromhex("0300"))), DROP),
    ],
    "04-dns-any": [
        *PLAIN,
        (ipv4(UDP, udp(9, 53, dns([b"example", b"org"], 1))), PASS),
        (ipv4(UDP, udp(9, 53, dns([b"a", b"bc", b"example", b"org"], 255))), DROP),
        (ipv4(UDP, udp(9, 53, dns([b"x"] * 12, 255))), DROP),
        (ipv4(UDP, udp(9, 53, dns([], 255))), DROP),
        (ipv4(UDP, udp(9, 53, dns([b"org"], 255, flags=0x8100))), PASS),
    ],
    "05-ntp-monlist": [
        *PLAIN,
        (ipv4(UDP, udp(5, 123, b"\x17" + bytes(47))), DROP),
        (ipv4(UDP, udp(5, 123, b"\x23" + bytes(47))), PASS),
        (ipv6(UDP, udp(123, 5, b"\x97" + bytes(7))), DROP),
        (ipv4(UDP, udp(5, 123, b"\x17"), b"\1" * 12), DROP),
    ],
    "06-vlan-policy": [
        *PLAIN,
        (ethernet(0x1234, bytes(40)), DROP),
        (ethernet(VLAN, struct.pack(">HH", 5, IPV4) + bytes(40)), PASS),
        (ethernet(0x88A8, struct.pack(">HHHHHH", 5, VLAN, 6, VLAN, 7, IPV6) + bytes(40)), PASS),
        (ethernet(VLAN, struct.pack(">HHHHHHHH", 5, VLAN, 6, VLAN, 7, VLAN, 8, IPV4) + bytes(40)), DROP),
    ],
    "07-gre-inner": [
        *PLAIN,
        (ipv4(GRE, struct.pack(">HH", 0, IPV4) + ipv4(TCP)[14:]), PASS),
        (ipv4(GRE, struct.pack(">HHIII", 0xB000, IPV4, 0, 0, 0) + ipv4(TCP)[14:], b"\1" * 4), PASS),
        (ipv4(GRE, struct.pack(">HHI", 0x2000, IPV4, 0) + ipv4(TCP, to="c0a80001")[14:]), DROP),
        (ipv4(GRE, struct.pack(">HH", 0, IPV6) + bytes(40)), DROP),
    ],
    "08-vxlan-vni": [
        *PLAIN,
        (ipv4(UDP, udp(9, 4789, struct.pack(">II", 1 << 27, 101 << 8))), PASS),
        (ipv4(UDP, udp(9, 4789, struct.pack(">II", 1 << 27, 70000 << 8)), b"\1" * 4), PASS),
        (ipv4(UDP, udp(9, 4789, struct.pack(">II", 1 << 27, 102 << 8))), DROP),
    ],
    "09-dhcp-server": [
        *PLAIN,
        (dhcp(bytes.fromhex("350101ff")), PASS),
        (dhcp(bytes.fromhex("350102ff"), 67, 68), DROP),
        (dhcp(bytes.fromhex("0000370301030633010035010500"), 67, 68), DROP),
        (dhcp(bytes.fromhex("0c026162350103ff")), PASS),
        (dhcp(bytes.fromhex("350101ff"), magic=1), DROP),
    ],
    "10-ra-guard": [
        *PLAIN,
        (ipv6(ICMPV6, ADVERTISEMENT), DROP),
        (ipv6(ICMPV6, ECHO_6), PASS),
        (ipv6(HOP_BY_HOP, extension(DESTINATION, 1) + extension(ICMPV6) + ADVERTISEMENT), DROP),
        (ipv6(FRAGMENT, extension(AUTHENTICATION) + extension(ICMPV6, 4)[:24] + ADVERTISEMENT), DROP),
        (ipv6(ROUTING, extension(UDP, 2) + udp(1, 2)), PASS),
        (ipv6(ROUTING, extension(ICMPV6, 2) + ECHO_6), PASS),
    ],
    "11-icmp-types": [
        *PLAIN,
        (ipv4(ICMP, bytes([8]) + bytes(7)), PASS),
        (ipv4(ICMP, bytes([5]) + bytes(7)), DROP),
        (ipv4(ICMP, bytes([11]) + bytes(7), b"\1" * 8), PASS),
        (ipv4(ICMP, bytes([13]) + bytes(7)), DROP),
    ],
    "12-size-histogram": [
        *PLAIN,
        (ethernet(IPV4, bytes(9100)), DROP),
        (ethernet(IPV4, bytes(9000)), PASS),
        (ethernet(IPV4, bytes(2034)), PASS),
    ],
    "13-traffic-by-protocol": [
        *PLAIN,
        (ipv6(UDP, udp(1, 2)), PASS),
        (ethernet(0x88CC, bytes(40)), DROP),
        (ethernet(IPV4, bytes(10)), DROP),
    ],
    "14-source-route": [
        *PLAIN,
        (ipv4(UDP, udp(1, 2), bytes.fromhex("83070400000000")), DROP),
        (ipv4(UDP, udp(1, 2), bytes.fromhex("01010101")), PASS),
        (ipv4(UDP, udp(1, 2), bytes.fromhex("0194040000" + "01" * 20 + "890304")), DROP),
        (ipv4(UDP, udp(1, 2), bytes.fromhex("94040000" + "01" * 36)), PASS),
        (ipv4(UDP, udp(1, 2), bytes.fromhex("4401")), DROP),
    ],
    "15-ip-checksum": [
        *PLAIN,
        (ipv4(UDP, udp(1, 2), wrong=1), DROP),
        (ipv4(UDP, udp(1, 2), b"\1" * 40), PASS),
        (ipv4(UDP, udp(1, 2), b"\1" * 40, wrong=0x100), DROP),
        (ipv4(UDP, udp(1, 2), b"\1" * 12), PASS),
    ],
    "17-arp-inspection": [
        (arp(), PASS),
        (arp(mac=PEER), DROP),
        (arp(address="0a000003"), DROP),
        (arp(source=PEER), DROP),
        (ipv4(UDP), PASS),
        (arp(kind=6), DROP),
    ],
    "18-mac-table": [
        (ethernet(IPV4, bytes(40), bytes.fromhex("525400123435")), PASS),
        (ethernet(IPV4, bytes(40), b"\xff" * 6), PASS),
        (ethernet(IPV4, bytes(40), bytes.fromhex("525400123437")), DROP),
        (ethernet(IPV4, bytes(40)), DROP),
    ],
    "19-http-methods": [
        *PLAIN,
        (ipv4(TCP, tcp(9, 80, PSH | ACK, payload=b"GET / HTTP/1.1")), PASS),
        (ipv4(TCP, tcp(9, 80, PSH | ACK, b"\1" * 12, b"POST /x")), PASS),
        (ipv4(TCP, tcp(9, 80, PSH | ACK, payload=b"TRACE / HTTP/1.1")), DROP),
        (ipv4(TCP, tcp(9, 80, PSH | ACK, b"\1" * 4, b"PUT /x y"), b"\1" * 4), DROP),
    ],
    "21-mpls-depth": [
        *PLAIN,
        (ethernet(MPLS, label(100, True) + bytes(20)), PASS),
        (ethernet(MPLS, label(3, True) + bytes(20)), DROP),
        (ethernet(MPLS, label(100) * 4 + label(0, True) + bytes(20)), PASS),
        (ethernet(MPLS, label(100) * 6), DROP),
    ],
    "22-sctp-init": [
        *PLAIN,
        (sctp(chunk(1, 20)), PASS),
        (sctp(chunk(1, 20), chunk(0, 17)), DROP),
        (sctp(chunk(0, 17), chunk(1, 20)), DROP),
        (sctp(chunk(0, 17), chunk(3, 16), chunk(0, 21), options=b"\1" * 8), PASS),
        (sctp(chunk(0, 2)), DROP),
        (sctp(), DROP),
    ],
    "23-igmp-snoop": [
        *PLAIN,
        (ipv4(IGMP, bytes([0x16]) + bytes(7)), PASS),
        (ipv4(IGMP, bytes([0x11]) + bytes(7)), DROP),
        (ipv4(IGMP, bytes([0x22]) + bytes(7), bytes.fromhex("94040000")), PASS),
        (ipv4(IGMP, bytes([0x13]) + bytes(7)), DROP),
    ],
    "24-link-protocols": [
        *PLAIN,
        (ethernet(0x0026, bytes(46), bytes.fromhex("0180c2000000")), DROP),
        (ethernet(0x88CC, bytes(46)), DROP),
        (ethernet(IPV4, bytes(46), bytes.fromhex("01000ccccccc")), DROP),
        (ethernet(0x0030, bytes(46)), DROP),
        (ethernet(IPV4, bytes(46), bytes.fromhex("0180c2000020")), PASS),
    ],
    "25-pppoe-session": [
        (ppp(0x0021), PASS),
        (ppp(0xC021), PASS),
        (ppp(0x8021), DROP),
        (ppp(0x0057, 0x8863), PASS),
        (ppp(0x0021, version=0x12), DROP),
        (ppp(0x0021, more=9), DROP),
        (ethernet(IPV4, bytes(40)), DROP),
    ],
    "26-bgp-ttl": [
        *PLAIN,
        (ipv4(TCP, tcp(9, 179), ttl=255), PASS),
        (ipv4(TCP, tcp(9, 179), b"\1" * 4, ttl=254), DROP),
        (ipv6(TCP, tcp(179, 9), 255), PASS),
        (ipv6(TCP, tcp(179, 9), 64), DROP),
    ],
    "27-port-ranges": [
        (ipv4(TCP, tcp(9, 22)), PASS),
        (ipv4(UDP, udp(9, 5999)), PASS),
        (ipv4(UDP, udp(9, 6000)), DROP),
        (ipv4(TCP, tcp(9, 89)), DROP),
        (ipv4(UDP, udp(9, 65535)), PASS),
        (ipv4(UDP, udp(9, 33000), b"\1" * 8), DROP),
        (ipv4(UDP, udp(9, 45000)), DROP),
    ],
    "28-ping-responder": [
        *PLAIN,
        (ipv4(ICMP, bytes([8, 0, 0xF7, 0xFF]) + bytes(12)), TX),
        (ipv4(ICMP, bytes([0]) + bytes(12)), PASS),
        (ipv4(ICMP, bytes([8, 0, 0xFF, 0xFE]) + bytes(4), b"\1" * 4), TX),
    ],
    "29-bogons": [
        (ipv4(UDP, source="08080808"), PASS),
        (ipv4(UDP, source="c0a80105"), DROP),
        (ipv4(UDP, source="ac1f0001"), DROP),
        (ipv4(UDP, source="ac200001"), PASS),
        (ipv4(UDP, source="efffffff"), DROP),
        (ethernet(ARP, bytes(28)), PASS),
    ],
    "30-router-alert": [
        *PLAIN,
        (ipv6(HOP_BY_HOP, extension(ICMPV6, 0, bytes.fromhex("050200000100")) + bytes([131]) + bytes(7)), PASS),
        (ipv6(HOP_BY_HOP, extension(ICMPV6, 0, bytes.fromhex("050200000100")) + ECHO_6), DROP),
        (ipv6(HOP_BY_HOP, extension(UDP, 0, bytes.fromhex("0000 05020000")) + udp(1, 2)), DROP),
        (ipv6(HOP_BY_HOP, extension(UDP, 0, bytes.fromhex("c20400010000")) + udp(1, 2)), DROP),
        (ipv6(HOP_BY_HOP, extension(UDP, 1, bytes.fromhex("010c" + "00" * 12)) + udp(1, 2)), PASS),
    ],
    "20-tls-version": [
        *PLAIN,
        (hello([(0, bytes(12)), (43, b"\2\3\4")]), PASS),
        (hello([(0, bytes(12)), (10, bytes(4))]), DROP),
        (hello([(10, bytes(4))] * 12 + [(43, b"\2\3\4")], 0), PASS),
    ],
}
