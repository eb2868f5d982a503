#!/usr/bin/env python3
"""Writes first.pcap beside this script: raw IPv4 packets of several protocols, a second apart.

The file is in the classic pcap format (pcap-savefile(5)): little-endian, microseconds, link type 101. It needs nothing
but Python's standard library.
"""
import pathlib
import socket
import struct


def checksum(data):
    """The Internet checksum (RFC 1071)."""
    data += b"\0" * (len(data) % 2)
    total = sum(struct.unpack(f">{len(data) // 2}H", data))
    while total >> 16:
        total = (total & 0xFFFF) + (total >> 16)
    return ~total & 0xFFFF


def ipv4(source, destination, protocol, payload, fragment=0):
    """An IPv4 packet (RFC 791) with a header of 20 bytes."""
    ends = socket.inet_aton(source) + socket.inet_aton(destination)
    front = struct.pack(">BBHHHBB", 0x45, 0, 20 + len(payload), 0, fragment, 64, protocol)
    return front + struct.pack(">H", checksum(front + b"\0\0" + ends)) + ends + payload


def udp(source, sport, destination, dport, payload=b""):
    """A UDP packet (RFC 768)."""
    length = 8 + len(payload)
    pseudo = socket.inet_aton(source) + socket.inet_aton(destination) + struct.pack(">BBH", 0, 17, length)
    header = struct.pack(">HHH", sport, dport, length)
    total = checksum(pseudo + header + b"\0\0" + payload) or 0xFFFF
    return ipv4(source, destination, 17, header + struct.pack(">H", total) + payload)


def capture(packets):
    """The bytes of a capture whose packet i was taken at i seconds."""
    header = struct.pack("<IHHiIII", 0xA1B2C3D4, 2, 4, 0, 0, 262144, 101)
    records = (struct.pack("<IIII", i, 0, len(p), len(p)) + p for i, p in enumerate(packets, 1))
    return header + b"".join(records)


PACKETS = [
    udp("10.0.0.1", 5000, "192.0.2.1", 53),
    udp("198.51.100.9", 5353, "192.0.2.66", 53, b"question"),
    ipv4("10.0.0.2", "203.0.113.7", 47, b"\0\0\x08\0" + b"carried by GRE"),
    ipv4("10.0.0.1", "192.0.2.1", 17, b"the second part of a datagram", fragment=1),
    udp("172.16.0.1", 123, "10.0.0.1", 123, bytes(48))[:30],
    udp("192.0.2.1", 53, "10.0.0.1", 5000, b"answer"),
]

if __name__ == "__main__":
    here = pathlib.Path(__file__).parent
    (here / "first.pcap").write_bytes(capture(PACKETS))
