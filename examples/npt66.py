#!/usr/bin/env python3
"""Writes the captures of the translated prefix beside this script, raw IPv6, and what is sent of them."""
from packets import RAW, tcp, udp, write_capture, write_sent

INNER, OUTER, SERVER = "fd01:203:405:1::1234", "2001:db8:1:d550::1234", "2001:db8:ffff::53"

if __name__ == "__main__":
    write_capture("npt66-out.pcap", RAW, [
        (1, udp(INNER, 5000, SERVER, 53, b"question")),
        (3, tcp(INNER, 5001, SERVER, 80, "S", 1000, 0)),
    ])
    write_capture("npt66-in.pcap", RAW, [
        (2, udp(SERVER, 53, OUTER, 5000, b"answer")),
        (4, tcp(SERVER, 80, OUTER, 5001, "SA", 7000, 1001)),
    ])
    write_sent("npt66-sent.pcap", [
        (1, udp(OUTER, 5000, SERVER, 53, b"question")),
        (2, udp(SERVER, 53, INNER, 5000, b"answer")),
        (3, tcp(OUTER, 5001, SERVER, 80, "S", 1000, 0)),
        (4, tcp(SERVER, 80, INNER, 5001, "SA", 7000, 1001)),
    ])
