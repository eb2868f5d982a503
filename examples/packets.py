"""Packets and captures for the examples, by Python's standard library alone.

Captures are in the classic format of pcap-savefile(5): little-endian, microseconds. Checksums are right (RFC 1071).
"""
import ipaddress
import pathlib
import struct

HERE = pathlib.Path(__file__).parent
ETHERNET, RAW = 1, 101


def checksum(data):
    """The Internet checksum (RFC 1071)."""
    data += b"\0" * (len(data) % 2)
    total = sum(struct.unpack(f">{len(data) // 2}H", data))
    while total >> 16:
        total = (total & 0xFFFF) + (total >> 16)
    return ~total & 0xFFFF


def packed(address):
    return ipaddress.ip_address(address).packed


def ip(source, destination, protocol, payload, ttl=64, no_fragments=False):
    """A packet of IPv4 (RFC 791) or IPv6 (RFC 8200), by its addresses."""
    ends = packed(source) + packed(destination)
    if len(ends) == 32:
        return struct.pack(">IHBB", 6 << 28, len(payload), protocol, ttl) + ends + payload
    flags = 0x4000 if no_fragments else 0
    front = struct.pack(">BBHHHBB", 0x45, 0, 20 + len(payload), 0, flags, ttl, protocol)
    return front + struct.pack(">H", checksum(front + b"\0\0" + ends)) + ends + payload


def summed(source, destination, protocol, front, behind):
    """A header and what follows it, with its sum, which has its place between the two parts, over the pseudo-header too."""
    whole = front + b"\0\0" + behind
    pseudo = packed(source) + packed(destination) + struct.pack(">II", len(whole), protocol)
    return front + struct.pack(">H", checksum(pseudo + whole) or 0xFFFF) + behind


def udp(source, sport, destination, dport, data=b"", **options):
    """A packet of UDP (RFC 768)."""
    front = struct.pack(">HHH", sport, dport, 8 + len(data))
    return ip(source, destination, 17, summed(source, destination, 17, front, data), **options)


def tcp(source, sport, destination, dport, flags, seq, ack, window=65535, data=b"", tcp_options=b"", **options):
    """A segment of TCP (RFC 9293), by the letters of its control bits."""
    bits = sum(1 << "FSRPAUEW".index(flag) for flag in flags)
    words = (20 + len(tcp_options)) // 4
    front = struct.pack(">HHIIBBH", sport, dport, seq, ack, words << 4, bits, window)
    behind = b"\0\0" + tcp_options + data
    return ip(source, destination, 6, summed(source, destination, 6, front, behind), **options)


def echo(source, destination, kind, identifier):
    """An echo message of ICMP (RFC 792): kind 8 asks, kind 0 answers."""
    behind = struct.pack(">HH", identifier, 1)
    body = struct.pack(">BBH", kind, 0, checksum(struct.pack(">BBH", kind, 0, 0) + behind)) + behind
    return ip(source, destination, 1, body)


def frame(packet, kind=None):
    """An Ethernet frame of at least 60 bytes, as tcpdump records it."""
    kind = kind or (0x86DD if packet[0] >> 4 == 6 else 0x0800)
    whole = bytes.fromhex("020000000001" "020000000002") + struct.pack(">H", kind) + packet
    return whole + b"\0" * (60 - len(whole))


def write_capture(name, link, packets, magic=0xA1B2C3D4):
    """A capture of packets, each with the second of its time."""
    header = struct.pack("<IHHiIII", magic, 2, 4, 0, 0, 262144, link)
    records = (struct.pack("<IIII", second, 0, len(packet), len(packet)) + packet for second, packet in packets)
    (HERE / name).write_bytes(header + b"".join(records))


def write_sent(name, packets):
    """What `npfctl run --write` is to write of packets that pass: raw IP, in nanoseconds."""
    write_capture(name, RAW, packets, magic=0xA1B23C4D)
