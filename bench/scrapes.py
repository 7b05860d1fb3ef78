#!/usr/bin/env python3
"""Measures the latencies of queries of `dnsd serve` over UDP without --metrics, with it, and with it while /metrics is asked for 100 times a second, by turns. Of each it
prints the median and the 99th percentile over all rounds, and how many scrapes there were. Usage: [DNSD=PROGRAM] bench/scrapes.py [ROUNDS [SECONDS]], by default 5 rounds of 4 seconds
each. It listens on 127.0.0.1 alone."""
import os
import re
import socket
import struct
import subprocess
import sys
import threading
import time

top = os.path.dirname(os.path.dirname(os.path.abspath(__file__)))
program = os.environ.get("DNSD", f"{top}/crates/dnsd/out/dnsd")
zone = f"{top}/zones/example.test.zone"
ROUNDS, SECONDS = (int(sys.argv[at]) if len(sys.argv) > at else default for at, default in ((1, 5), (2, 4)))
QUERY = struct.pack(">6H", 7, 0x100, 1, 0, 0, 0) + bytes.fromhex("03777777076578616d706c65047465737400") + struct.pack(">2H", 1, 1)


def free_port():
    with socket.socket() as taken:
        taken.bind(("127.0.0.1", 0))
        return taken.getsockname()[1]


def served(web):
    """A server of one worker, and its port; its metrics are at a port, if any."""
    options = ["--metrics", f"127.0.0.1:{web}"] if web else []
    server = subprocess.Popen([program, "serve", "--listen", "127.0.0.1:0", "--workers", "1", *options, zone], stderr=subprocess.PIPE, text=True)
    for line in server.stderr:
        if found := re.search(r"listening on 127\.0\.0\.1:(\d+)", line):
            threading.Thread(target=server.stderr.read, daemon=True).start()
            return server, int(found[1])
    sys.exit("scrapes: the server doesn't listen")


def asks(port, seconds, latencies):
    """Asks a query each half millisecond, one at a time; the latencies in microseconds."""
    client = socket.socket(socket.AF_INET, socket.SOCK_DGRAM)
    client.connect(("127.0.0.1", port))
    client.settimeout(5)
    end = time.monotonic() + seconds
    while time.monotonic() < end:
        begun = time.perf_counter()
        client.send(QUERY)
        client.recv(512)
        latencies.append((time.perf_counter() - begun) * 1e6)
        time.sleep(0.0005)


SCRAPER = """
import socket, sys, time
web, end, count = int(sys.argv[1]), time.monotonic() + float(sys.argv[2]), 0
while time.monotonic() < end:
    begun = time.monotonic()
    with socket.create_connection(("127.0.0.1", web), timeout=5) as connection:
        connection.sendall(b"GET /metrics HTTP/1.0\\r\\n\\r\\n")
        reply = b""
        while part := connection.recv(1 << 17): reply += part
    assert b" 200 " in reply[:16] and b"dnsd_queries_total" in reply
    count += 1
    time.sleep(max(0, 0.01 - (time.monotonic() - begun)))
print(count)
"""


def scrapers(web, seconds):
    """Four processes that ask for /metrics: a scrape is answered within the 25 milliseconds after which the server looks."""
    return [subprocess.Popen([sys.executable, "-c", SCRAPER, str(web), str(seconds)], stdout=subprocess.PIPE, text=True) for _ in range(4)]


def main():
    latencies = {"without --metrics": [], "with --metrics": [], "with 100 scrapes a second or more": []}
    scrapes = 0
    for _ in range(ROUNDS):
        for kind, all_of in latencies.items():
            web = free_port() if "with " in kind else 0
            server, port = served(web)
            asking = scrapers(web, SECONDS) if "scrapes" in kind else []
            asks(port, SECONDS, all_of)
            scrapes += sum(int(each.communicate()[0]) for each in asking)
            server.terminate()
            server.wait()
    for kind, all_of in latencies.items():
        all_of.sort()
        print(f"{kind}: median {all_of[len(all_of) // 2]:.0f}, p99 {all_of[len(all_of) * 99 // 100]:.0f} microseconds, {len(all_of)} queries")
    print(f"{scrapes} scrapes, {scrapes / ROUNDS / SECONDS:.0f} a second")


main()
