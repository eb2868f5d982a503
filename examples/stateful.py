#!/usr/bin/env python3
"""Writes stateful.pcap beside this script: questions and answers by UDP, a second apart, and what is no answer."""
import pathlib

from first import capture, ipv4, udp

PACKETS = [
    udp("10.0.0.1", 5000, "192.0.2.1", 53, b"question"),
    udp("192.0.2.1", 53, "10.0.0.1", 5000, b"answer"),
    udp("198.51.100.9", 53, "10.0.0.1", 5000, b"answer of another"),
    udp("10.0.0.2", 5000, "192.0.2.66", 53, b"question"),
    udp("10.0.0.1", 5000, "192.0.2.1", 53, b"question"),
    ipv4("10.0.0.1", "203.0.113.7", 47, b"\0\0\x08\0" + b"carried by GRE"),
]

if __name__ == "__main__":
    here = pathlib.Path(__file__).parent
    (here / "stateful.pcap").write_bytes(capture(PACKETS))
