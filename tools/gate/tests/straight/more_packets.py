"""Packets for the filters that have constants, counters that are read, and cursors, each with what the filter
answers."""
import struct

from tests.straight.packets import (
    ACK,
    ARP,
    DROP,
    GUEST,
    ICMPV6,
    IPV4,
    IPV6,
    PASS,
    TCP,
    TX,
    UDP,
    dns,
    ethernet,
    ipv4,
    ipv6,
    tcp,
    udp,
)


def to_port(port, payload=b"", **more):
    return ipv4(UDP, udp(1000, port, payload), **more)


def stream(port, payload=b"", options=b"", flags=ACK):
    return ipv4(TCP, tcp(1000, port, flags, options, payload))


OTHERS = [(ethernet(ARP, bytes(28)), PASS), (ipv6(UDP, udp(1, 2)), PASS), (stream(9), PASS)]


def ospf(kind=1, length=44, area=10, secret=1, ttl=1, version=2):
    return ipv4(89, struct.pack(">BBHIIHH", version, kind, length, 1, area, 0, secret), ttl=ttl)


def session(flags, version, rest):
    return to_port(1701, bytes([flags, version]) + rest)


def counted(source, kind=IPV4):
    return ethernet(kind, bytes(20), source=GUEST[:5] + bytes([source]))


def get(path):
    return stream(80, b"GET " + path)


def answer(operation):
    return ethernet(ARP, struct.pack(">HHBBH", 1, 0x800, 6, 4, operation) + bytes(20))


def service(tos):
    packet = bytearray(ipv4(UDP, udp(1, 2)))
    packet[15] = tos
    return bytes(packet)


def message(kind):
    return ipv6(ICMPV6, bytes([kind]) + bytes(7))


def tunnel(flags, kind, rest):
    return to_port(2152, bytes([flags]) + bytes(10) + bytes([kind]) + rest)


FILTERS = {
    "31-syslog": [
        *OTHERS,
        (to_port(514, b"<134>hi"), DROP),
        (to_port(514, b"<133>hi"), PASS),
        (to_port(514, b"<13>hello"), PASS),
        (to_port(514, b"<192>x"), DROP),
        (to_port(514, b"<12x>x"), DROP),
        (to_port(514, b"<>xxxx"), DROP),
        (to_port(514, b"<1>"), DROP),
        (to_port(514, b"<40>aaa"), DROP),
        (to_port(515), PASS),
    ],
    "32-ospf": [
        *OTHERS,
        (ospf(), PASS),
        (ospf(ttl=2), DROP),
        (ospf(version=3), DROP),
        (ospf(kind=6), DROP),
        (ospf(length=43), DROP),
        (ospf(kind=5, length=20), PASS),
        (ospf(kind=5, length=19), DROP),
        (ospf(area=11), DROP),
        (ospf(secret=0), DROP),
    ],
    "33-l2tp": [
        *OTHERS,
        (session(0, 2, b"\0\1\0\7data"), PASS),
        (session(0, 2, b"\0\1\0\0data"), DROP),
        (session(0x80, 2, bytes(9)), DROP),
        (session(0x40, 2, b"\0\x10\0\1\0\7d"), PASS),
        (session(2, 2, b"\0\1\0\7\0\2ab\xff"), DROP),
        (session(2, 2, b"\0\1\0\7\0\2abc"), PASS),
        (session(2, 2, b"\0\1\0\7\xff\xffabc"), DROP),
        (session(0, 2, b"\0\1\0\7"), DROP),
    ],
    "34-sack": [
        (stream(9), PASS),
        (stream(9, options=b"\2\4\5\xb4"), PASS),
        (stream(9, options=b"\2\5\5\xb4\0\0\0\0"), DROP),
        (stream(9, options=b"\1\1\5\x1a" + bytes(24)), PASS),
        (stream(9, options=b"\1\1\5\x22" + bytes(32)), DROP),
        (stream(9, options=b"\5\1\1\1"), DROP),
        (stream(9, options=b"\x1e\4\1\1"), PASS),
        (stream(9, options=b"\x08\x0a" + bytes(8) + b"\1\1"), PASS),
    ],
    "35-dns-types": [
        *OTHERS,
        (to_port(53, dns([b"a", b"bc"], 1)), PASS),
        (to_port(53, dns([b"a"], 255)), DROP),
        (to_port(53, dns([b"a"] * 11, 2)), PASS),
        (to_port(53, dns([b"a"] * 13, 2)), DROP),
        (to_port(53, dns([b"a"], 1, 0x8100)), DROP),
        (to_port(53, dns([b"a" * 63], 6)), PASS),
        (to_port(53, bytes(12)), DROP),
    ],
    "36-quota": [
        *[(counted(1), PASS)] * 5,
        (counted(1), DROP),
        (counted(17), DROP),
        (counted(2), PASS),
        (counted(1, 0x88B5), DROP),
        *[(counted(33), PASS)] * 5,
        (counted(1), DROP),
    ],
    "37-hexhost": [
        (get(b"/index.html HTTP/1.1"), PASS),
        (get(b"/a%20b HTTP/1.1"), PASS),
        (get(b"/a%1fb HTTP/1.1"), DROP),
        (get(b"/a%zzb HTTP/1.1"), DROP),
        (get(b"/a%aFb%Fa HTTP"), PASS),
        (get(b"/" + b"a" * 23 + b"%00 HTTP"), PASS),
        (get(b"/" + b"a" * 22 + b"%00 HTTP"), DROP),
        (stream(80, b"POST /%00 HTTP"), PASS),
    ],
    "38-ports-of-interface": [
        (ethernet(IPV4, bytes(20)), PASS),
        (ethernet(IPV6, bytes(20)), PASS),
        (ethernet(0x88CC, bytes(20)), DROP),
        (ethernet(0x0801, bytes(20)), DROP),
    ],
    "39-arp-balance": [
        *[(answer(2), PASS)] * 10,
        (answer(2), DROP),
        (answer(1), PASS),
        (answer(2), PASS),
        (answer(2), DROP),
        (answer(3), DROP),
    ],
    "40-tos-rewrite": [
        (service(0), PASS),
        (service(0x28), TX),
        (service(0x60), PASS),
        (service(0xC0), TX),
        (service(0x21), PASS),
        (service(0xE3), TX),
    ],
    "41-port-bitmap": [
        *OTHERS,
        (to_port(53), PASS),
        (to_port(54), DROP),
        (to_port(67), PASS),
        (to_port(137), PASS),
        (to_port(5312), PASS),
        (to_port(5314), DROP),
        (to_port(65535), PASS),
        (to_port(65534), DROP),
        (to_port(0), DROP),
    ],
    "42-min-max": [(bytes(length), PASS) for length in (60, 40, 80, 14, 1500)],
    "43-icmp6-limits": [
        *OTHERS,
        *[(message(129), PASS)] * 3,
        (message(129), DROP),
        (message(1), DROP),
        (message(130), PASS),
        (message(128), DROP),
        *[(message(139), PASS)] * 5,
        (message(139), DROP),
    ],
    "44-gtp-extensions": [
        *OTHERS,
        (tunnel(0x30, 0x85, b""), PASS),
        (tunnel(0x34, 0, b""), PASS),
        (tunnel(0x34, 0x85, b"\1\0\0\0"), PASS),
        (tunnel(0x34, 0x85, b"\1\0\0\x85" * 4), DROP),
        (tunnel(0x34, 0x85, b"\1\0\0\x85" * 3 + b"\1\0\0\0"), PASS),
        (tunnel(0x34, 0x85, b"\2\0\0\0"), DROP),
        (tunnel(0x34, 0x85, b"\0\0\0\0"), DROP),
    ],
    "45-options-by-offset": [
        *OTHERS,
        (ipv4(UDP, bytes(8), options=b"\1" * 40), PASS),
        (ipv4(UDP, options=b"\1" * 40), DROP),
        (ipv4(UDP, options=b"\1" * 36 + b"\x83\4\4\0"), DROP),
        (ipv4(UDP, options=b"\x44\x24" + bytes(34) + b"\x89\3\4\0"), DROP),
        (ipv4(UDP, options=b"\x44\4\5\0\0\x83\3\0"), PASS),
        (ipv4(UDP, options=b"\x44\1\5\0"), DROP),
        (ipv4(UDP, options=b"\1\1\1\x94")[:-1], DROP),
    ],
}
