#!/usr/bin/env python3
"""Tries UDP in bursts: 1,000 queries that are sent at once, again and again for ten seconds, to a server of one worker. None may be lost, by the replies and by the
count of the server's socket (`drops` of /proc/net/udp), where the system keeps the 4 MiB of --udp-buffer (net.core.rmem_max; else that is said, and nothing is tried);
and with --udp-buffer 16K some are, so that a loss would be seen.
Usage: [DNSD=PROGRAM] tests/bursts.py, by default crates/dnsd/out/dnsd. It takes 15 seconds; status 1 where one failed. It listens on 127.0.0.1 alone."""
import os
import re
import socket
import subprocess
import sys
import time

top = os.path.dirname(os.path.dirname(os.path.abspath(__file__)))
program = os.environ.get("DNSD", f"{top}/crates/dnsd/out/dnsd")
zone = f"{top}/zones/example.test.zone"
# www.example.test., type A, without its ID
ASK = bytes.fromhex("0100000100000000000003777777076578616d706c6504746573740000010001")
BURST = 1000
BUFFER = 4 << 20


def served(*words):
    """A server of one worker, and its port."""
    server = subprocess.Popen([program, "serve", "--listen", "127.0.0.1:0", "--workers", "1", *words, zone], stderr=subprocess.PIPE, text=True)
    for line in server.stderr:
        if found := re.search(r"listening on 127\.0\.0\.1:(\d+)", line):
            return server, int(found[1])
    sys.exit("bursts: the server doesn't listen")


def drops(port):
    """How many datagrams the system has dropped at a port."""
    with open("/proc/net/udp", encoding="ascii") as it:
        return sum(int(line.split()[-1]) for line in it if line.split()[1].endswith(f":{port:04X}"))


def burst(client):
    """Sends a burst, and gives how many of its queries have no reply within a second."""
    for number in range(BURST):
        client.send(number.to_bytes(2, "big") + ASK)
    left = set(range(BURST))
    try:
        while left:
            left.discard(int.from_bytes(client.recv(600)[:2], "big"))
    except TimeoutError:
        pass
    return len(left)


def lost(seconds, *words):
    """How many queries a server hasn't answered, and how many the system has dropped for it, of how many."""
    server, port = served(*words)
    try:
        with socket.socket(socket.AF_INET, socket.SOCK_DGRAM) as client:
            client.setsockopt(socket.SOL_SOCKET, socket.SO_RCVBUF, BUFFER)
            client.connect(("127.0.0.1", port))
            client.settimeout(1)
            missing = sent = 0
            end = time.monotonic() + seconds
            while time.monotonic() < end:
                missing += burst(client)
                sent += BURST
            return missing, drops(port), sent
    finally:
        server.kill()
        server.wait()


def main():
    with open("/proc/sys/net/core/rmem_max", encoding="ascii") as it:
        most = int(it.read())
    if most < BUFFER:
        print(f"left out: net.core.rmem_max is {most}, and {BUFFER} is needed")
        return 0
    missing, dropped, sent = lost(10)
    well = missing == dropped == 0
    print(f"{'ok     ' if well else 'FAILED '}of {sent} queries in bursts of {BURST}, {missing} weren't answered and {dropped} dropped")
    missing, dropped, sent = lost(2, "--udp-buffer", "16K")
    seen = missing > 0 and dropped > 0
    print(f"{'ok     ' if seen else 'FAILED '}with a buffer of 16K {missing} of {sent} weren't answered, and {dropped} dropped")
    return 0 if well and seen else 1


if __name__ == "__main__":
    sys.exit(main())
