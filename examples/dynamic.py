#!/usr/bin/env python3
"""Writes the capture of the guests beside this script: raw IPv4."""
from packets import RAW, udp, write_capture

if __name__ == "__main__":
    hosts = [1, 1, 2, 1, 2, 3, 3]
    write_capture("dynamic.pcap", RAW, [(second, udp(f"10.0.0.{host}", 5000, "192.0.2.1", 53)) for second, host in enumerate(hosts, 1)])
