#!/usr/bin/env python3
"""Measures two programs `dnsd` by turns, in one run: processor time of the server a query over UDP and over TCP, in whole and the
part that isn't the kernel's (dnsperf asks; names that exist, that don't, and aliases), updates a second, one behind the reply to the one before, with the processor time of one, and an IXFR after one
update, on a connection that stays: processor time and time. It prints each round's figures, and then the medians and how the second program's stand
to the first's, round by round. Usage: bench/beside.py FIRST SECOND [--rounds N] [--seconds N] [--records N] [--workers N] [--ixfrs N], by default
9 rounds of 2 seconds a figure, 1000 records, 1 worker and 30000 IXFRs. It needs Debian's dnsperf."""
import argparse
import os
import re
import socket
import statistics
import struct
import subprocess
import tempfile
import time

from soak import APEX, framed, parsed, read_frame, wire

words = argparse.ArgumentParser()
words.add_argument("programs", nargs=2)
for word, number in (("rounds", 9), ("seconds", 2), ("records", 1000), ("workers", 1), ("ixfrs", 30000)):
    words.add_argument(f"--{word}", type=int, default=number)
given = words.parse_args()
TICKS = os.sysconf("SC_CLK_TCK")
SOA, UPDATE = 6, 0x2800


def write_zone(path):
    with open(path, "w") as file:
        file.write("example.test. 3600 IN SOA ns1.example.test. admin.example.test. 1 7200 900 1209600 300\n")
        file.write("example.test. 3600 IN NS ns1.example.test.\n")
        for i in range(given.records - 2):
            file.write(f"h{i}.example.test. 3600 IN CNAME h{i - 1}.example.test.\n" if i % 10 == 9 else f"h{i}.example.test. 3600 IN A 192.0.2.{i % 256}\n")


def write_questions(path):
    with open(path, "w") as file:
        for i in range(100_000):
            at = i * 7919 % (given.records - 2) // 10 * 10
            file.write((f"h{at}", f"x{at}", f"h{at + 9}")[i % 3] + ".example.test A\n")


def updated(number):
    """An address at a name of its own is added, or deleted again (RFC 2136, 2.5.1 and 2.5.4)."""
    label = b"u%d" % (number // 2)
    record = bytes([len(label)]) + label + b"\xc0\x0c" + (b"\0\1\0\1\0\0\x0e\x10" if number % 2 == 0 else b"\0\1\0\xfe\0\0\0\0") + b"\0\4\xc0\0\2\1"
    return struct.pack(">6H", number % 65536, UPDATE, 1, 0, 1, 0) + wire(APEX) + struct.pack(">2H", SOA, 1) + record


def ixfr(serial):
    soa = wire(APEX) + struct.pack(">2HIH", SOA, 1, 0, 22) + b"\0\0" + struct.pack(">5I", serial, 0, 0, 0, 0)
    return struct.pack(">6H", 7, 0, 1, 0, 1, 0) + wire(APEX) + struct.pack(">2H", 251, 1) + soa


class Server:
    def __init__(self, program, zone):
        self.process = subprocess.Popen([program, "serve", "--listen", "127.0.0.1:0", "--workers", str(given.workers), zone], stderr=subprocess.PIPE, text=True)
        self.port = int(re.match(r"listening on [^ ]*:(\d+):", self.process.stderr.readline()).group(1))
        self.updates = 0

    def parts(self):
        """Seconds of processor time: in whole, and the user's part."""
        with open(f"/proc/{self.process.pid}/stat") as file:
            said = file.read().rpartition(")")[2].split()
        return (int(said[11]) + int(said[12])) / TICKS, int(said[11]) / TICKS

    def spent(self):
        return self.parts()[0]

    def end(self):
        self.process.terminate()
        self.process.wait()

    def queries(self, over, questions):
        """Microseconds of processor time a query: in whole, and the user's part."""
        before = self.parts()
        said = subprocess.run(
            ["dnsperf", "-m", over, "-s", "127.0.0.1", "-p", str(self.port), "-d", questions, "-l", str(given.seconds), "-c", str(given.workers), "-T", "1", "-q", str(50 * given.workers)],
            capture_output=True, text=True, check=True).stdout
        done = int(re.search(r"Queries completed: +(\d+)", said).group(1))
        return tuple(1e6 * (now - then) / done for now, then in zip(self.parts(), before))

    def update(self, client):
        client.send(updated(self.updates))
        if client.recv(512)[3] != 0:
            raise SystemExit("beside: an update is refused")
        self.updates += 1

    def update_all(self, client):
        """Updates a second, and microseconds of processor time of one."""
        before, first, began = self.spent(), self.updates, time.monotonic()
        while time.monotonic() - began < given.seconds:
            self.update(client)
        made = self.updates - first
        return made / (time.monotonic() - began), 1e6 * (self.spent() - before) / made

    def transfers(self, client):
        """Microseconds of processor time of an IXFR after one update, and of the clock: an SOA of each of the two versions, and one record."""
        self.update(client)
        with socket.create_connection(("127.0.0.1", self.port)) as stream:
            stream.sendall(framed(ixfr(0)))
            serial = parsed(read_frame(stream))[2][0][2]
            asked = framed(ixfr(serial - 1))
            before, began = self.spent(), time.monotonic()
            for _ in range(given.ixfrs):
                stream.sendall(asked)
                reply = read_frame(stream)
            took, spent = time.monotonic() - began, self.spent() - before
        records = parsed(reply)[2]
        if reply[3] & 15 or sum(1 for record in records if record[1] == SOA) != 4 or len(records) != 5:
            raise SystemExit("beside: what changed was to come")
        return 1e6 * spent / given.ixfrs, 1e6 * took / given.ixfrs


FIGURES = ("us a query, UDP", "the user's part", "us a query, TCP", "the user's part of it", "updates a second", "us an update", "us an IXFR", "us of the clock an IXFR")
got = {program: [] for program in given.programs}
with tempfile.TemporaryDirectory() as work:
    write_zone(f"{work}/zone")
    write_questions(f"{work}/questions")
    for turn in range(given.rounds):
        # which one is first changes with each round
        for program in given.programs if turn % 2 == 0 else given.programs[::-1]:
            server = Server(program, f"{work}/zone")
            client = socket.socket(socket.AF_INET, socket.SOCK_DGRAM)
            client.connect(("127.0.0.1", server.port))
            client.settimeout(5)
            try:
                figures = (*server.queries("udp", f"{work}/questions"), *server.queries("tcp", f"{work}/questions"), *server.update_all(client), *server.transfers(client))
            finally:
                server.end()
            got[program].append(figures)
            print(turn + 1, program, *(f"{name} {figure:.2f}" for name, figure in zip(FIGURES, figures)), sep="; ", flush=True)
for place, name in enumerate(FIGURES):
    first, second = ([figures[place] for figures in got[program]] for program in given.programs)
    ratios = sorted(b / a for a, b in zip(first, second))
    print(f"{name}: medians {statistics.median(first):.2f} and {statistics.median(second):.2f}; the second of the first, round by round: median {statistics.median(ratios):.3f}, {ratios[0]:.3f} to {ratios[-1]:.3f}")
