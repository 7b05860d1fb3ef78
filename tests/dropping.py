#!/usr/bin/env python3
"""Passes on the NOTIFYs that a primary sends to a secondary, and the replies, but for every second NOTIFY, which is lost (RFC 1996, 3.6).
It writes a line a NOTIFY: `passed` or `dropped`, the serial in its answer section, and its ID.

Usage: tests/dropping.py PORT SECONDARY-PORT LOG; both ports are of 127.0.0.1. It runs until it is ended."""
import socket
import struct
import sys

port, secondary, log = int(sys.argv[1]), int(sys.argv[2]), open(sys.argv[3], "a", encoding="utf-8")
ours = socket.socket(socket.AF_INET, socket.SOCK_DGRAM)
ours.bind(("127.0.0.1", port))
primary = None
count = 0
while True:
    octets, sender = ours.recvfrom(65535)
    if sender[1] == secondary:
        if primary is not None:
            ours.sendto(octets, primary)
        continue
    primary = sender
    count += 1
    # an SOA's serial stands 20 octets before its end (RFC 1035, 3.3.13)
    serial = struct.unpack(">I", octets[-20:-16])[0]
    passes = count % 2 == 0
    print("passed" if passes else "dropped", serial, octets[:2].hex(), file=log, flush=True)
    if passes:
        ours.sendto(octets, ("127.0.0.1", secondary))
