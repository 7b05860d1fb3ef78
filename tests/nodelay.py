#!/usr/bin/env python3
"""Tries that the system is asked to send small replies at once: strace sees that TCP_NODELAY is set on each connection that the server accepts, before it is
read. Usage: [DNSD=PROGRAM] tests/nodelay.py, by default crates/dnsd/out/dnsd. It takes a second; status 1 where it failed. It listens on 127.0.0.1 alone, and
needs strace."""
import os
import re
import signal
import socket
import subprocess
import sys
import tempfile

top = os.path.dirname(os.path.dirname(os.path.abspath(__file__)))
program = os.environ.get("DNSD", f"{top}/crates/dnsd/out/dnsd")
# a query for the zone's SOA, with its length
ASK = bytes.fromhex("001e" "123401000001000000000000076578616d706c6504746573740000060001")
CALLS = re.compile(r"accept4?\(.* = (\d+)$|setsockopt\((\d+), SOL_TCP, TCP_NODELAY, \[1\], 4\) += 0|(?:read|recvfrom)\((\d+),")


def orders(calls):
    """For each connection that was accepted, whether TCP_NODELAY was set on it before it was read."""
    is_set = {}
    asked = []
    for accepted, told, read in (found.groups() for found in map(CALLS.search, calls) if found):
        if accepted:
            is_set[accepted] = False
        elif told in is_set:
            is_set[told] = True
        elif read in is_set:
            asked.append(is_set.pop(read))
    return asked


def main():
    """Asks on three connections, one after another, and prints whether it was set on each."""
    with tempfile.TemporaryDirectory() as room:
        words = ["strace", "-f", "-qq", "-e", "trace=accept,accept4,setsockopt,read,recvfrom", "-o", f"{room}/calls"]
        words += [program, "serve", "--listen", "127.0.0.1:0", "--workers", "1", f"{top}/zones/example.test.zone"]
        with subprocess.Popen(words, stderr=subprocess.PIPE, text=True, start_new_session=True) as server:
            found = re.search(r"listening on 127\.0\.0\.1:(\d+)", server.stderr.readline())
            if not found:
                os.killpg(server.pid, signal.SIGTERM)
                sys.exit("nodelay: the server doesn't listen")
            replied = 0
            for _ in range(3):
                with socket.create_connection(("127.0.0.1", int(found[1])), timeout=10) as client:
                    client.sendall(ASK)
                    replied += len(client.recv(2)) == 2
            os.killpg(server.pid, signal.SIGTERM)
        with open(f"{room}/calls") as calls:
            asked = orders(calls.read().splitlines())
    is_well = replied == 3 and asked == [True] * 3
    print(f"nodelay: {replied} replies, TCP_NODELAY before the first read on {asked.count(True)} of {len(asked)} connections: {'ok' if is_well else 'FAILED'}")
    return 0 if is_well else 1


if __name__ == "__main__":
    sys.exit(main())
