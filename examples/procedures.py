#!/usr/bin/env python3
"""Writes the captures of the procedures beside this script, raw IPv4, and what is sent of them."""
import struct

from packets import RAW, tcp, udp, write_capture, write_sent

HOST, SERVER = "192.0.2.10", "198.51.100.80"

if __name__ == "__main__":
    segment_size, smaller = struct.pack(">BBH", 2, 4, 8960), struct.pack(">BBH", 2, 4, 1460)
    write_capture("procedures-out.pcap", RAW, [
        (1, tcp(HOST, 5000, SERVER, 80, "S", 1000, 0, tcp_options=segment_size, ttl=3, no_fragments=True)),
        (3, tcp(HOST, 5000, SERVER, 80, "A", 1001, 7001, no_fragments=True)),
    ])
    write_capture("procedures-in.pcap", RAW, [
        (2, tcp(SERVER, 80, HOST, 5000, "SA", 7000, 1001, tcp_options=segment_size)),
        (4, udp(SERVER, 53, HOST, 5353)),
    ])
    write_sent("procedures-sent.pcap", [
        (1, tcp(HOST, 5000, SERVER, 80, "S", 1000, 0, tcp_options=smaller)),
        (2, tcp(SERVER, 80, HOST, 5000, "SA", 7000, 1001, tcp_options=smaller)),
        (3, tcp(HOST, 5000, SERVER, 80, "A", 1001, 7001)),
    ])
