#!/usr/bin/env python3
"""Writes the captures of the host beside this script: Ethernet, one for each direction."""
from packets import ETHERNET, echo, frame, tcp, udp, write_capture

HOST, RESOLVER, CLIENT = "192.0.2.10", "192.0.2.53", "198.51.100.9"

if __name__ == "__main__":
    write_capture("host-out.pcap", ETHERNET, [
        (1, frame(udp(HOST, 40000, RESOLVER, 53, b"question"))),
        (4, frame(tcp(HOST, 22, CLIENT, 50000, "SA", 7000, 1001))),
        (8, frame(echo(HOST, CLIENT, 0, 7))),
    ])
    write_capture("host-in.pcap", ETHERNET, [
        (2, frame(udp(RESOLVER, 53, HOST, 40000, b"answer"))),
        (3, frame(tcp(CLIENT, 50000, HOST, 22, "S", 1000, 0))),
        (5, frame(tcp(CLIENT, 50000, HOST, 22, "A", 1001, 7001))),
        (6, frame(tcp(CLIENT, 50001, HOST, 23, "S", 1, 0))),
        (7, frame(echo(CLIENT, HOST, 8, 7))),
        (9, frame(b"", 0x0806)),
    ])
