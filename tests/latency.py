#!/usr/bin/env python3
"""Tries that a reply over TCP waits for no clock: of a server of one worker, the mean latency on 4 connections with 2 queries outstanding on each may be at most twice
that on one connection with as many outstanding in all, in the same run. A server that sleeps before it looks which of its connections are ready, so as to write
several replies together, takes many times as long with 4. A client of its own (tests/latency.c) measures it, which never waits; the figures are the least of many
short rounds by turns, so that other work on the machine counts little.
Usage: [DNSD=PROGRAM] tests/latency.py, by default crates/dnsd/out/dnsd. It takes 10 seconds; status 1 where it failed. It listens on 127.0.0.1 alone, and needs a C
compiler, `cc` or $CC."""
import os
import re
import subprocess
import sys
import tempfile

top = os.path.dirname(os.path.dirname(os.path.abspath(__file__)))
program = os.environ.get("DNSD", f"{top}/crates/dnsd/out/dnsd")
zone = f"{top}/zones/example.test.zone"
ROUNDS = 100
MILLISECONDS = 40
OUTSTANDING = 8


def served():
    """A server of one worker, and its port."""
    server = subprocess.Popen([program, "serve", "--listen", "127.0.0.1:0", "--workers", "1", zone], stderr=subprocess.PIPE, text=True)
    for line in server.stderr:
        if found := re.search(r"listening on 127\.0\.0\.1:(\d+)", line):
            return server, found[1]
    sys.exit("latency: the server doesn't listen")


def mean(client, port, connections):
    """The mean latency on so many connections, in nanoseconds."""
    words = [client, port, str(connections), str(OUTSTANDING // connections), str(MILLISECONDS)]
    return int(subprocess.run(words, check=True, stdout=subprocess.PIPE, text=True, timeout=60).stdout.split()[0])


def main():
    """Prints both figures, and whether they are as they are to be."""
    with tempfile.TemporaryDirectory() as room:
        client = f"{room}/latency"
        subprocess.run([os.environ.get("CC", "cc"), "-O2", "-o", client, f"{top}/tests/latency.c"], check=True)
        server, port = served()
        try:
            pairs = [(mean(client, port, 1), mean(client, port, 4)) for _ in range(ROUNDS)]
        finally:
            server.terminate()
            server.wait()
    one, four = (min(which) / 1000 for which in zip(*pairs))
    is_well = four <= 2 * one
    print(f"latency: {OUTSTANDING} queries outstanding on one connection {one:.0f} microseconds, on 4 connections {four:.0f}: {'ok' if is_well else 'FAILED'}")
    return 0 if is_well else 1


if __name__ == "__main__":
    sys.exit(main())
