#!/usr/bin/env python3
"""Tries how `dnsd serve` ends: with `--workers 1 --count 2` one datagram and one connection are answered, in either order, or two of one kind, with
`--count 1` one of them, and its status is 0; behind updates, which made versions, too, of which the last is answered from to the end; where an address can't be
listened on, because another program listens there by UDP or by TCP, or because it isn't this machine's, its status is 3, and no worker begins; so too where
any one thread of it is refused, by tests/refuse.c in front of the C library. SIGTERM, SIGINT and SIGHUP end it, and SIGXFSZ where its store passes a file size limit.
Usage: [DNSD=PROGRAM] tests/ending.py, by default crates/dnsd/out/dnsd. It takes a second; status 1 where one failed. It listens on 127.0.0.1 alone, and needs a C compiler, `cc` or $CC."""
import os
import resource
import signal
import socket
import struct
import subprocess
import sys
import tempfile

top = os.path.dirname(os.path.dirname(os.path.abspath(__file__)))
program = os.environ.get("DNSD", f"{top}/crates/dnsd/out/dnsd")
zone = f"{top}/zones/example.test.zone"
# www.example.test., type A, and its reply: the alias, and the address of its target
ASK = bytes.fromhex("12340100000100000000000003777777076578616d706c6504746573740000010001")
REPLY = bytes.fromhex("12348500000100020000000003777777076578616d706c6504746573740000010001c00c0005000100000e10000603776562c010c02e0001000100000e100004c000020a")
# new.example.test. 192.0.2.77 is added, and deleted again (RFC 2136, 2.5); its address is asked, and the zone's SOA
APEX = bytes.fromhex("076578616d706c65047465737400")
ADDED = bytes.fromhex("123428000001000000010000") + APEX + bytes.fromhex("00060001036e6577c00c0001000100000e100004c000024d")
DELETED = bytes.fromhex("123428000001000000010000") + APEX + bytes.fromhex("00060001036e6577c00c000100ff000000000000")
NEW = bytes.fromhex("123401000001000000000000036e6577") + APEX + bytes.fromhex("00010001")
SOA = bytes.fromhex("123401000001000000000000") + APEX + bytes.fromhex("00060001")
failed = 0


def told(is_right, what):
    global failed
    failed += not is_right
    print(("ok     " if is_right else "FAILED ") + what, flush=True)


def served(*words):
    """A server, and its port by the first line of its log."""
    server = subprocess.Popen([program, "serve", *words, zone], stderr=subprocess.PIPE, text=True)
    line = server.stderr.readline()
    return server, int(line.split(": ")[0].rsplit(":", 1)[1]) if line.startswith("listening on") else line


def over_udp(port, message=ASK):
    with socket.socket(socket.AF_INET, socket.SOCK_DGRAM) as client:
        client.settimeout(5)
        client.connect(("127.0.0.1", port))
        client.send(message)
        return client.recv(2000)


def over_tcp(port, message=ASK):
    with socket.create_connection(("127.0.0.1", port), timeout=5) as client, client.makefile("rb") as replies:
        client.sendall(struct.pack(">H", len(message)) + message)
        return replies.read(struct.unpack(">H", replies.read(2))[0])


def ends(what, *asked):
    server, port = served("--listen", "127.0.0.1:0", "--workers", "1", "--count", str(len(asked)))
    try:
        told(all(ask(port) == REPLY for ask in asked), f"{what}: answered")
        told(server.wait(10) == 0, f"{what}: then the server has ended with status {server.returncode}")
    finally:
        server.kill()


def ends_behind_updates(what, over, keep):
    """A server that ends behind so many updates, by turns of an address added and deleted: each is answered from, and at its end nobody holds a version."""
    server, port = served("--listen", "127.0.0.1:0", "--workers", "1", "--keep", keep, "--count", "61")
    try:
        for serial in range(2, 22):
            code = over(port, ADDED if serial % 2 == 0 else DELETED)[3] & 15
            there = over(port, NEW).endswith(bytes.fromhex("c000024d"))
            at = struct.unpack(">I", over(port, SOA)[-20:-16])[0]
            if (code, there, at) != (0, serial % 2 == 0, serial):
                return told(False, f"{what}: code {code}, serial {at} for {serial}, the address is {'' if there else 'not '}there")
        told(over(port) == REPLY, f"{what}: 20 versions, each answered from")
        told(server.wait(10) == 0, f"{what}: then the server has ended with status {server.returncode}")
    finally:
        server.kill()


def ended_by(number):
    """A signal ends a server: its status is the signal's."""
    server, port = served("--listen", "127.0.0.1:0")
    try:
        answered = over_udp(port) == REPLY
        server.send_signal(number)
        told(answered and server.wait(10) == -number, f"{signal.Signals(number).name} ends it: status {server.returncode}")
    finally:
        server.kill()


def over_file_size(limit):
    """A server whose files may have so many octets is ended by SIGXFSZ at an update that passes them."""
    with tempfile.TemporaryDirectory() as room:
        words = [program, "serve", "--listen", "127.0.0.1:0", "--store", room, zone]
        bound = lambda: resource.setrlimit(resource.RLIMIT_FSIZE, (limit, limit))
        server = subprocess.Popen(words, stderr=subprocess.PIPE, text=True, preexec_fn=bound)
        try:
            line = next(line for line in server.stderr if line.startswith("listening on"))
            with socket.socket(socket.AF_INET, socket.SOCK_DGRAM) as client:
                client.sendto(ADDED, ("127.0.0.1", int(line.split(": ")[0].rsplit(":", 1)[1])))
            told(server.wait(10) == -signal.SIGXFSZ, f"an update over a file size limit: status {server.returncode}, SIGXFSZ is {-signal.SIGXFSZ}")
        finally:
            server.kill()


def refused(address, what, *kinds):
    """A server that can't listen on an address, whatever it may be beside."""
    others = []
    try:
        for kind in kinds:
            other = socket.socket(socket.AF_INET, kind)
            other.bind(address)
            if kind == socket.SOCK_STREAM:
                other.listen()
            address = other.getsockname()
            others.append(other)
        words = [program, "serve", "--listen", "%s:%d" % address, "--workers", "1", zone]
        ran = subprocess.run(words, stderr=subprocess.PIPE, text=True, timeout=10)
        told(ran.returncode == 3 and "cannot listen on" in ran.stderr and "listening on" not in ran.stderr, f"{what}: status {ran.returncode}, {ran.stderr.strip()}")
    finally:
        for other in others:
            other.close()


def without_a_thread(threads):
    """A server of two workers, of which each of its threads is refused in turn."""
    with tempfile.TemporaryDirectory() as room:
        refuse = f"{room}/refuse.so"
        subprocess.run([os.environ.get("CC", "cc"), "-O2", "-shared", "-fPIC", "-o", refuse, f"{top}/tests/refuse.c"], check=True)
        for first in range(1, threads + 1):
            own = dict(os.environ, LD_PRELOAD=refuse, REFUSE_WHAT="threads", REFUSE_FIRST=str(first), REFUSE_COUNT="1")
            words = [program, "serve", "--listen", "127.0.0.1:0", "--workers", "2", zone]
            ran = subprocess.run(words, stderr=subprocess.PIPE, text=True, timeout=10, env=own)
            is_right = ran.returncode == 3 and "a request was refused" in ran.stderr and "listening on" not in ran.stderr
            told(is_right, f"thread {first} is refused: status {ran.returncode}, {ran.stderr.splitlines()[-1:]}")


ends("a datagram", over_udp)
ends("a connection", over_tcp)
ends("a datagram, then a connection", over_udp, over_tcp)
ends("a connection, then a datagram", over_tcp, over_udp)
ends("two connections", over_tcp, over_tcp)
for keep in ("0", "8"):
    ends_behind_updates(f"updates as datagrams, {keep} versions kept", over_udp, keep)
    ends_behind_updates(f"updates on connections, {keep} versions kept", over_tcp, keep)
refused(("127.0.0.1", 0), "another listens by TCP", socket.SOCK_STREAM)
refused(("127.0.0.1", 0), "another has the port for UDP", socket.SOCK_DGRAM)
refused(("192.0.2.1", 5353), "not an address of this machine")
for number in (signal.SIGTERM, signal.SIGINT, signal.SIGHUP):
    ended_by(number)
over_file_size(4096)
# the log's, and two for each worker
without_a_thread(5)
sys.exit(1 if failed else 0)
