#!/usr/bin/env python3
"""Writes what `tcpdump -i any` records on a router that translates nothing, beside this script: interfaces 2 and 3, and the loopback as 1.

What passes is there twice, as it came in and as it went out, and what the router blocked once.
"""
from links import COOKED2, IPV4, cooked2
from packets import tcp, udp, write_capture

LOOPBACK, OUTSIDE, INSIDE = 1, 2, 3
IN, OUT = 0, 4
HOST, RESOLVER, STRANGER = ("10.1.1.7", 40000), ("198.51.100.7", 53), ("198.51.100.9", 2000)

if __name__ == "__main__":
    write_capture("router-any.pcap", COOKED2, [(second, cooked2(IPV4, packet, interface, way)) for second, interface, way, packet in [
        (1, INSIDE, IN, udp(*HOST, *RESOLVER, b"question")),
        (2, OUTSIDE, OUT, udp(*HOST, *RESOLVER, b"question")),
        (3, LOOPBACK, OUT, udp("127.0.0.1", 514, "127.0.0.1", 514, b"a line of a log")),
        (3, LOOPBACK, IN, udp("127.0.0.1", 514, "127.0.0.1", 514, b"a line of a log")),
        (4, OUTSIDE, IN, udp(*RESOLVER, *HOST, b"answer")),
        (5, INSIDE, OUT, udp(*RESOLVER, *HOST, b"answer")),
        (6, OUTSIDE, IN, tcp(*STRANGER, "10.1.1.2", 23, "S", 1, 0)),
    ]])
