#!/usr/bin/env python3
"""Writes captures of other links and another format beside this script: each has the packets of stateful.pcap, and all but two something else.

The forms are those of https://www.tcpdump.org/linktypes.html, IEEE 802.1Q, RFC 1661, RFC 2516 and, for pcapng, draft-ietf-opsawg-pcapng.
"""
import struct

from packets import ETHERNET, HERE, RAW, write_capture
from stateful import PACKETS

LOOPBACK, PPP, COOKED, COOKED2 = 0, 9, 113, 276
IPV4, ARP, VLAN, OUTER_VLAN, PPPOE = 0x0800, 0x0806, 0x8100, 0x88A8, 0x8864
PPP_IPV4, PPP_LCP = 0x0021, 0xC021
HARDWARE, ADDRESS = 1, bytes.fromhex("020000000001")
QUESTION_OF_ARP, ECHO_OF_LCP = struct.pack(">HHBBH", 1, IPV4, 6, 4, 1) + bytes(20), bytes.fromhex("0901000800000000")


def ethernet(kind, data, tags=b""):
    """A frame whose tags stand between its addresses and its EtherType."""
    whole = ADDRESS + bytes.fromhex("020000000002") + tags + struct.pack(">H", kind) + data
    return whole + b"\0" * (60 - len(whole))


def tag(kind, number):
    return struct.pack(">HH", kind, number)


def cooked(kind, data):
    """Linux's header of one interface or all, of 16 bytes: the packet was for this host."""
    return struct.pack(">HHH8sH", 0, HARDWARE, 6, ADDRESS, kind) + data


def cooked2(kind, data, interface=2, way=0):
    """Linux's second header, of 20 bytes; the way is 0 for a packet to this host and 4 for one from it."""
    return struct.pack(">HHIHBB8s", kind, 0, interface, HARDWARE, way, 6, ADDRESS) + data


def loopback(data):
    """The header of BSD's loopback: AF_INET in the order of the machine."""
    return struct.pack("<I", 2) + data


def ppp(protocol, data):
    return struct.pack(">BBH", 0xFF, 3, protocol) + data


def pppoe(protocol, data):
    return ethernet(PPPOE, struct.pack(">BBHHH", 0x11, 0, 1, 2 + len(data), protocol) + data)


def block(kind, body):
    """A block of pcapng."""
    body += b"\0" * (-len(body) % 4)
    length = struct.pack("<I", 12 + len(body))
    return struct.pack("<I", kind) + length + body + length


def pcapng(link, packets):
    """A section with one interface, and a block for each packet, whose time is in microseconds."""
    whole = block(0x0A0D0D0A, struct.pack("<IHHq", 0x1A2B3C4D, 1, 0, -1)) + block(1, struct.pack("<HHI", link, 0, 262144))
    for second, packet in packets:
        time = second * 10**6
        whole += block(6, struct.pack("<IIIII", 0, time >> 32, time % 2**32, len(packet), len(packet)) + packet)
    return whole


if __name__ == "__main__":
    timed = list(enumerate(PACKETS, 1))
    arp, lcp = QUESTION_OF_ARP, ECHO_OF_LCP
    inner, twice = tag(VLAN, 10), tag(OUTER_VLAN, 100) + tag(VLAN, 10)
    for name, link, wrap, other in [
        ("cooked", COOKED, lambda it: cooked(IPV4, it), cooked(ARP, arp)),
        ("cooked2", COOKED2, lambda it: cooked2(IPV4, it), cooked2(ARP, arp)),
        ("loopback", LOOPBACK, loopback, None),
        ("ppp", PPP, lambda it: ppp(PPP_IPV4, it), ppp(PPP_LCP, lcp)),
        ("pppoe", ETHERNET, lambda it: pppoe(PPP_IPV4, it), pppoe(PPP_LCP, lcp)),
        ("vlan", ETHERNET, lambda it: ethernet(IPV4, it, inner), ethernet(IPV4, PACKETS[0], tag(VLAN, 20))),
        ("qinq", ETHERNET, lambda it: ethernet(IPV4, it, twice), ethernet(ARP, arp, twice)),
    ]:
        write_capture(f"links-{name}.pcap", link, [(0, other)] * (other is not None) + [(n, wrap(it)) for n, it in timed])
    (HERE / "links.pcapng").write_bytes(pcapng(RAW, timed))
