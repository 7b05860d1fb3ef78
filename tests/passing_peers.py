#!/usr/bin/env python3
"""Tries a running `dnsd serve` of one worker by 100,000 connections that pass: they ask and are closed, are reset behind the reply, before it, or inside a
request, are half-closed behind a request (whose reply has to come) or inside one, or send nothing. Each is served or ended, and in the end the server
has the descriptors that it had, and hardly more memory.
Usage: [DNSD=PROGRAM] tests/passing_peers.py [PORT], by default crates/dnsd/out/dnsd and port 15255. It takes a minute; status 1 where one failed."""
import os
import socket
import struct
import subprocess
import sys
import time

top = os.path.dirname(os.path.dirname(os.path.abspath(__file__)))
program = os.environ.get("DNSD", f"{top}/crates/dnsd/out/dnsd")
port = int(sys.argv[1]) if len(sys.argv) > 1 else 15255
COUNT = 100_000
# www.example.test. A (RFC 1035, 4.1), with its length in front (4.2.2)
query = bytes.fromhex("12340100000100000000000003777777076578616d706c6504746573740000010001")
ask = len(query).to_bytes(2, "big") + query
# as tests/rows has it
reply = bytes.fromhex("004412348500000100020000000003777777076578616d706c6504746573740000010001c00c0005000100000e10000603776562c010c02e0001000100000e100004c000020a")


def is_replied(client):
    """Whether the reply comes, in whole."""
    octets = b""
    while len(octets) < len(reply):
        more = client.recv(len(reply) - len(octets))
        if not more:
            return False
        octets += more
    return octets == reply


def reset(client):
    """Has the closing of a connection reset it."""
    client.setsockopt(socket.SOL_SOCKET, socket.SO_LINGER, struct.pack("ii", 1, 0))


def passes(kind):
    """Whether a connection of a kind goes as it should."""
    with socket.create_connection(("127.0.0.1", port), timeout=5) as client:
        if kind == 0:
            client.sendall(ask)
            return is_replied(client)
        if kind == 1:
            client.sendall(ask)
            reset(client)
            return is_replied(client)
        if kind == 2:
            client.sendall(ask)
            reset(client)
        elif kind == 3:
            client.sendall(ask[:20])
            reset(client)
        elif kind == 4:
            client.sendall(ask + ask)
            client.shutdown(socket.SHUT_WR)
            return is_replied(client) and is_replied(client) and client.recv(1) == b""
        elif kind == 5:
            client.sendall(ask[:20])
            client.shutdown(socket.SHUT_WR)
            return client.recv(1) == b""
        return True


def state(server):
    """How many descriptors a server has, and how many KiB of memory (Linux, proc(5))."""
    with open(f"/proc/{server.pid}/status") as status:
        memory = next(int(line.split()[1]) for line in status if line.startswith("RssAnon:"))
    return len(os.listdir(f"/proc/{server.pid}/fd")), memory


server = subprocess.Popen(
    [program, "serve", "--listen", f"127.0.0.1:{port}", "--workers", "1", f"{top}/zones/example.test.zone"], stderr=subprocess.PIPE, text=True
)
failed = 0
try:
    server.stderr.readline()
    for kind in range(1000):
        passes(kind % 7)
    time.sleep(2)
    before = state(server)
    wrong = [0] * 7
    for number in range(COUNT):
        try:
            wrong[number % 7] += not passes(number % 7)
        except OSError as fault:
            wrong[number % 7] += 1
            print(f"{number}: {fault}")
    time.sleep(2)
    after = state(server)
    print(f"{COUNT} connections: descriptors {before[0]} and then {after[0]}, memory {before[1]} and then {after[1]} KiB; wrong by kind {wrong}")
    failed = any(wrong) or after[0] > before[0] or after[1] > before[1] + 512
finally:
    server.kill()
    server.wait()
print("FAILED" if failed else "ok")
sys.exit(1 if failed else 0)
