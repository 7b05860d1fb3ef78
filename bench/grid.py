#!/usr/bin/env python3
"""Measures replies over TCP where few connections are open: `dnsd serve`, knotd and nsd, each with one worker, by turns in one run, on 1, 2, 4, 8, 16 and 50 connections
with 1, 2 and 8 queries outstanding on each. The client (tests/latency.c) sends the next query as soon as a reply has come, and never sleeps, so that none of its own
waiting is measured. Of each cell it prints the replies a second, the mean latency and the server's processor time a query, in microseconds: the median of the rounds.
Usage: [DNSD=PROGRAM] bench/grid.py [--rounds N] [--milliseconds N], by default crates/dnsd/out/dnsd, 5 rounds of 300 milliseconds: three minutes. It needs a C compiler,
`cc` or $CC; Debian's knot and nsd for the figures beside."""
import argparse
import os
import statistics
import subprocess
import tempfile

from servers import TOP, compiled, started, turns

CONNECTIONS = (1, 2, 4, 8, 16, 50)
OUTSTANDING = (1, 2, 8)


def measure(client, server, connections, outstanding, milliseconds):
    """Replies a second, mean latency, and processor time a query."""
    before = server.seconds()
    words = [client, str(server.port), str(connections), str(outstanding), str(milliseconds)]
    latency, replies = map(int, subprocess.run(words, check=True, stdout=subprocess.PIPE, text=True, timeout=60).stdout.split())
    return replies * 1000 / milliseconds, latency / 1000, (server.seconds() - before) * 1e6 / replies


def table(room, rounds, milliseconds):
    """Prints the table, and gives its cells: by connections and queries outstanding, and then by server, the three figures."""
    client, cells = compiled(room, "tests/latency.c"), {}
    servers = started(f"{TOP}/zones/example.test.zone", room)
    try:
        names = [server.name for server in servers]
        print("| Connections | Outstanding each | " + " | ".join(f"{name}: replies a second, latency, processor" for name in names) + " |")
        print("|---" * (2 + len(names)) + "|")
        for connections in CONNECTIONS:
            for outstanding in OUTSTANDING:
                told = turns(servers, rounds, lambda server: measure(client, server, connections, outstanding, milliseconds))
                own = {name: [statistics.median(which) for which in zip(*of_it)] for name, of_it in told.items()}
                cells[connections, outstanding] = own
                said = (f"{rate:,.0f}, {latency:.0f}, {spent:.1f}" for rate, latency, spent in (own[name] for name in names))
                print(f"| {connections} | {outstanding} | " + " | ".join(said) + " |", flush=True)
    finally:
        for server in servers:
            server.end()
    return cells


def main():
    parser = argparse.ArgumentParser()
    parser.add_argument("--rounds", type=int, default=5)
    parser.add_argument("--milliseconds", type=int, default=300)
    args = parser.parse_args()
    with tempfile.TemporaryDirectory() as room:
        os.chmod(room, 0o755)
        table(room, args.rounds, args.milliseconds)


if __name__ == "__main__":
    main()
