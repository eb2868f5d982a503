#!/usr/bin/env python3
"""Writes the captures of two hours beside this script, raw IPv4: questions and answers by UDP, the last one later than any connection waits."""
from packets import RAW, udp, write_capture

FIRST, SECOND, SERVER = ("10.0.0.1", 5000), ("10.0.0.2", 5000), ("192.0.2.1", 53)

if __name__ == "__main__":
    write_capture("day-0.pcap", RAW, [
        (10, udp(*FIRST, *SERVER, b"question")),
        (11, udp(*SERVER, *FIRST, b"answer")),
        (3590, udp(*SECOND, *SERVER, b"question")),
    ])
    write_capture("day-1.pcap", RAW, [
        (3605, udp(*SERVER, *SECOND, b"answer")),
        (7000, udp(*SERVER, *FIRST, b"late answer")),
    ])
