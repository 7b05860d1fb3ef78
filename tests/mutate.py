#!/usr/bin/env python3
"""Sends mutated requests to a running `dnsd serve`, over UDP and TCP at once: those of the tables in tests/rows, with bits turned, octets cut off, put in
and doubled, lengths, counts and pointers that are wrong, and ends of other requests. Each reply has to be one that the octets sent allow, by a reader
of its own (tests/mutate.c); a plain query, after each 10,000, has to be answered; and in the end the server has to have the descriptors that it had,
and hardly more memory than what came to its zone by updates takes. It is no part of the gate.

Usage: [DNSD=PROGRAM] tests/mutate.py [--requests N] [--seconds N] [--seed N] [--more FILE], by default 10,000,000 requests in spans of 180 seconds, each
with two seeds of its own, which it prints with their counts, and the program crates/dnsd/out/dnsd. FILE has further requests, in hexadecimal, a line
each. By turns who asks may update and transfer, and may not. It needs a C compiler, `cc` or $CC. Its status is 1 where something was wrong."""
import argparse
import os
import re
import socket
import subprocess
import sys
import tempfile
import time

top = os.path.dirname(os.path.dirname(os.path.abspath(__file__)))
program = os.environ.get("DNSD", f"{top}/crates/dnsd/out/dnsd")
words = argparse.ArgumentParser()
for word, number in (("requests", 10_000_000), ("seconds", 180), ("seed", 1)):
    words.add_argument(f"--{word}", type=int, default=number)
words.add_argument("--more")
given = words.parse_args()

# A record that an update puts in takes some 400 octets, and what the versions kept beside it as much again.
OCTETS_A_RECORD = 2_000
SLACK = 4 << 20


def requests_of_rows(folder):
    """The requests of the tables, by a program in the server's place that keeps what it reads."""
    keeper = f"{folder}/keeper"
    with open(keeper, "w") as file:
        file.write(f"#!/bin/sh\ncat >>{folder}/read\n")
    os.chmod(keeper, 0o755)
    subprocess.run([f"{top}/tests/rows.sh"], env={**os.environ, "DNSD": keeper}, stdout=subprocess.DEVNULL, stderr=subprocess.DEVNULL)
    with open(f"{folder}/read", "rb") as file:
        text = file.read().decode("latin-1")
    if given.more:
        with open(given.more, encoding="latin-1") as file:
            text += "\n" + file.read()
    found = re.findall(r"^(?:(?:ask|ixfr) \w+ |update |begin \w+ (?:update|ixfr \w+) )?((?:[0-9A-Fa-f]{2}){2,4096})\s*$", text, re.M)
    return sorted(set(octets.lower() for octets in found))


def memory(server):
    """What of its memory a process has in use, in octets (Linux, proc(5))."""
    with open(f"/proc/{server.pid}/status") as file:
        return 1024 * next(int(line.split()[1]) for line in file if line.startswith("VmRSS"))


def descriptors(server):
    return len(os.listdir(f"/proc/{server.pid}/fd"))


def records_of(port):
    """How many records the zone has, by a transfer of it over TCP, which 127.0.0.1 may have; None where it mayn't."""
    request = bytes.fromhex("123400000001000000000000076578616d706c6504746573740000fc0001")
    count, soas = 0, 0
    with socket.create_connection(("127.0.0.1", port), timeout=20) as client, client.makefile("rb") as stream:
        client.sendall(len(request).to_bytes(2, "big") + request)
        closing = None
        while True:
            message = stream.read(int.from_bytes(stream.read(2), "big"))
            if message[3] & 15:
                return None
            count += int.from_bytes(message[6:8], "big")
            # the closing SOA has the numbers of the first
            if closing is None:
                at = 12 + 18
                size = int.from_bytes(message[at + 10 : at + 12], "big")
                closing = message[at + 12 + size - 20 : at + 12 + size]
                soas = 1 if count > 1 else 0
            if message.endswith(closing) and (soas or count > 1):
                return count


def span(sender, requests, folder, allow, seed, count):
    """A span: how many requests were sent, and whether all was right."""
    words = [program, "serve", "--listen", "127.0.0.1:0", "--workers", "2", "--allow", allow, f"{top}/zones/example.test.zone"]
    server = subprocess.Popen(words, stderr=subprocess.PIPE, text=True)
    port = int(server.stderr.readline().split(": ")[0].rsplit(":", 1)[1])
    drain = subprocess.Popen(["cat"], stdin=server.stderr, stdout=subprocess.DEVNULL)
    is_right = True
    try:
        began, open_before = None, descriptors(server)
        seeds = {"udp": seed, "tcp": seed + 1}
        senders = [
            subprocess.Popen([sender, over, str(port), str(own), str(count // 2), str(given.seconds), requests], stdout=subprocess.PIPE, text=True)
            for over, own in seeds.items()
        ]
        began = time.time()
        early = None
        while any(one.poll() is None for one in senders):
            time.sleep(0.2)
            if server.poll() is not None:
                print("WRONG the server has ended", server.returncode)
                is_right = False
                break
            if early is None and time.time() - began > 10:
                early = memory(server)
        sent = 0
        for one in senders:
            said, _ = one.communicate(timeout=60)
            print(said, end="")
            is_right = is_right and one.returncode == 0
            sent += int((re.findall(r": (\d+) requests", said) or ["0"])[0])
        if server.poll() is not None:
            return sent, False
        time.sleep(0.5)
        late, open_after = memory(server), descriptors(server)
        records = records_of(port) if allow else None
        grown = late - (early or late)
        bound = SLACK + OCTETS_A_RECORD * (records or 0)
        print(f"memory {(early or late) >> 10} KiB after 10 seconds and {late >> 10} KiB in the end, {open_before} and {open_after} descriptors"
              + (f", {records} records in the zone" if records else "") + f"; who asks may {'update' if allow else 'not update'}", flush=True)
        if grown > bound or open_after > open_before:
            print("WRONG memory or descriptors have grown")
            is_right = False
        return sent, is_right
    finally:
        server.kill()
        server.wait()
        drain.wait()


def main():
    with tempfile.TemporaryDirectory() as folder:
        sender, requests = f"{folder}/mutate", f"{folder}/requests"
        subprocess.run([os.environ.get("CC", "cc"), "-O2", "-o", sender, f"{top}/tests/mutate.c"], check=True)
        own = requests_of_rows(folder)
        with open(requests, "w") as file:
            file.write("".join(f"{octets}\n" for octets in own))
        print(f"{len(own)} requests of the tables", flush=True)
        sent, seed, is_right, turn = 0, given.seed, True, 0
        while sent < given.requests:
            more, was_right = span(sender, requests, folder, ("127.0.0.1", "")[turn % 2], seed, given.requests - sent)
            sent, seed, turn, is_right = sent + more, seed + 2, turn + 1, is_right and was_right
            if not more or not was_right:
                break
        print(f"{sent} requests, seeds {given.seed} to {seed - 1}: {'all right' if is_right else 'WRONG'}")
        return 0 if is_right else 1


if __name__ == "__main__":
    sys.exit(main())
