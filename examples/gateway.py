#!/usr/bin/env python3
"""Writes the captures of the gateway beside this script: Ethernet, one for each interface and direction, and what is sent of them.

They have what the filter meets, so what goes out is as it was before any translation. tcpdump on a live gateway records it behind the filter.
"""
from packets import ETHERNET, echo, frame, tcp, udp, write_capture, write_sent

INNER, RESOLVER, OUTER = ("10.1.1.7", 40000), ("198.51.100.7", 53), "203.0.113.1"
CLIENT = "198.51.100.9"

if __name__ == "__main__":
    write_capture("gateway-wm1-in.pcap", ETHERNET, [(1, frame(udp(*INNER, *RESOLVER)))])
    write_capture("gateway-wm0-out.pcap", ETHERNET, [
        (2, frame(udp(*INNER, *RESOLVER))),
        (7, frame(tcp("10.1.1.2", 22, CLIENT, 2000, "SA", 7000, 1001, 1000))),
    ])
    write_capture("gateway-wm0-in.pcap", ETHERNET, [
        (3, frame(udp(*RESOLVER, OUTER, 40000))),
        (5, frame(tcp("192.0.2.66", 1000, OUTER, 80, "S", 1, 0, 1000))),
        (6, frame(tcp(CLIENT, 2000, OUTER, 9022, "S", 1000, 0, 1000))),
        (8, frame(tcp(CLIENT, 2001, OUTER, 23, "S", 1, 0, 1000))),
        (9, frame(b"", 0x0806)),
        (10, frame(echo(CLIENT, OUTER, 8, 7))),
    ])
    write_capture("gateway-wm1-out.pcap", ETHERNET, [(4, frame(udp(*RESOLVER, *INNER)))])
    write_sent("gateway-sent.pcap", [
        (1, udp(*INNER, *RESOLVER)),
        (2, udp(OUTER, 40000, *RESOLVER)),
        (3, udp(*RESOLVER, *INNER)),
        (4, udp(*RESOLVER, *INNER)),
        (6, tcp(CLIENT, 2000, "10.1.1.2", 22, "S", 1000, 0, 1000)),
        (7, tcp(OUTER, 9022, CLIENT, 2000, "SA", 7000, 1001, 1000)),
    ])
