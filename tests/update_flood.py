#!/usr/bin/env python3
"""Tries what large updates cost a running `dnsd serve` in memory. From eight ports of an address that may update come updates of nearly 64 KiB, by UDP, for some
seconds, far more than are judged; then by TCP, on 64 connections at once. The memory that the server has in use (VmRSS) is told before,
at most while they come, and after: while they come it may not take more than MOST, and after them no more than 32 MiB over what it had before, or, by TCP, where
the C library keeps what many threads had, no more than KEPT. Meanwhile queries are answered, and updates either have their effect or are told SERVFAIL; after them a small update is taken.
Usage: [DNSD=PROGRAM] tests/update_flood.py [SECONDS], by default crates/dnsd/out/dnsd and 5 seconds. It takes half a minute; status 1 where one failed.
It needs Linux, and listens on 127.0.0.1 alone."""
import os
import re
import socket
import struct
import subprocess
import sys
import tempfile
import threading
import time

top = os.path.dirname(os.path.dirname(os.path.abspath(__file__)))
program = os.environ.get("DNSD", f"{top}/crates/dnsd/out/dnsd")
seconds = float(sys.argv[1]) if len(sys.argv) > 1 else 5
APEX = b"\7example\4test\0"
MIB = 1 << 20
SENDERS = 8
# how many connections each has by TCP
CONNECTIONS = 8
# within how many seconds what has waited is judged, and a small update taken behind it
WITHIN = 120
# how much more memory a server may have in use while they come, with --update-queue as it is by itself, and after them
MOST = 160 * MIB
AFTER = 32 * MIB
KEPT = 128 * MIB
# a program of tests/compile.sh keeps what is freed for a while, unless it is told otherwise; to another one this says nothing
ENVIRONMENT = os.environ | {"ASAN_OPTIONS": "quarantine_size_mb=0:thread_local_quarantine_size_kb=0:allocator_release_to_os_interval_ms=100"}
failed = 0


def told(is_right, what):
    global failed
    failed += not is_right
    print(("ok     " if is_right else "FAILED ") + what, flush=True)


def update(records):
    """An update of these records, each its octets (RFC 2136, 2)."""
    return struct.pack(">6H", 9, 0x2800, 1, 0, len(records), 0) + APEX + struct.pack(">2H", 6, 1) + b"".join(records)


def large(room):
    """An update of so many octets at most: deletions of sets that aren't there, 12 octets each (RFC 2136, 2.5.2), so that the zone stays as it is."""
    record = b"\xc0\x0c" + struct.pack(">2HIH", 16, 255, 0, 0)
    return update([record] * ((room - len(update([]))) // len(record)))


class Server:
    """A server of a small zone on a free port."""

    def __init__(self):
        self.zone = tempfile.NamedTemporaryFile("w", suffix=".zone")
        self.zone.write("$ORIGIN example.test.\n$TTL 60\n@ SOA ns1 admin 1 7200 900 1209600 300\n@ NS ns1\nns1 A 192.0.2.1\n")
        self.zone.flush()
        self.process = subprocess.Popen([program, "serve", "--listen", "127.0.0.1:0", "--workers", "2", self.zone.name], stderr=subprocess.PIPE, text=True, env=ENVIRONMENT)
        self.port = None
        for line in self.process.stderr:
            if found := re.search(r"listening on 127\.0\.0\.1:(\d+)", line):
                self.port = int(found[1])
                break
        if self.port is None:
            sys.exit("update_flood: the server doesn't listen")
        threading.Thread(target=lambda: [None for _ in self.process.stderr], daemon=True).start()

    def memory(self):
        """How many octets of memory it has in use (Linux, proc(5))."""
        with open(f"/proc/{self.process.pid}/status") as file:
            return next(int(line.split()[1]) * 1024 for line in file if line.startswith("VmRSS:"))

    def end(self):
        self.process.kill()
        self.process.wait()
        self.zone.close()


class Watching:
    """The highest that a server's memory is, and whether queries by a transport are answered, until it is told to stop."""

    def __init__(self, server, kind):
        self.server, self.kind, self.stop = server, kind, False
        self.highest = self.asked = self.answered = 0
        self.threads = [threading.Thread(target=it, daemon=True) for it in (self.measure, self.ask)]
        for thread in self.threads:
            thread.start()

    def measure(self):
        while not self.stop:
            self.highest = max(self.highest, self.server.memory())
            time.sleep(0.01)

    def ask(self):
        query = struct.pack(">6H", 7, 0x0100, 1, 0, 0, 0) + b"\3ns1" + APEX + struct.pack(">2H", 1, 1)
        frame = struct.pack(">H", len(query)) if self.kind == socket.SOCK_STREAM else b""
        with socket.socket(socket.AF_INET, self.kind) as client:
            client.settimeout(5)
            client.connect(("127.0.0.1", self.server.port))
            while not self.stop:
                self.asked += 1
                try:
                    client.sendall(frame + query)
                    self.answered += client.recv(600).endswith(b"\0\4\xc0\0\2\1")
                except OSError:
                    pass
                time.sleep(0.02)

    def end(self):
        self.stop = True
        for thread in self.threads:
            thread.join(6)
        return self.highest


def send_by_datagrams(port, message, end, codes):
    """Sends an update again and again from a port of its own, and counts the codes that come back."""
    with socket.socket(socket.AF_INET, socket.SOCK_DGRAM) as client:
        client.setsockopt(socket.SOL_SOCKET, socket.SO_SNDBUF, 4 * MIB)
        client.connect(("127.0.0.1", port))
        client.setblocking(False)
        while time.monotonic() < end:
            try:
                client.send(message)
                codes["sent"] = codes.get("sent", 0) + 1
            except (BlockingIOError, ConnectionRefusedError, OSError):
                time.sleep(0.001)
            try:
                while True:
                    code = client.recv(600)[3] & 15
                    codes[code] = codes.get(code, 0) + 1
            except (BlockingIOError, ConnectionRefusedError):
                pass


def send_by_streams(port, message, end, codes):
    """Sends an update on many connections, one on each, and reads the replies only then, again and again."""
    while time.monotonic() < end:
        clients = []
        try:
            for _ in range(CONNECTIONS):
                client = socket.create_connection(("127.0.0.1", port), timeout=5)
                clients.append(client)
                client.sendall(struct.pack(">H", len(message)) + message)
                codes["sent"] = codes.get("sent", 0) + 1
            for client in clients:
                reply = client.recv(600)
                if len(reply) > 5:
                    codes[reply[5] & 15] = codes.get(reply[5] & 15, 0) + 1
        except OSError:
            pass
        for client in clients:
            client.close()


def is_taken(port):
    """Whether a small update is taken by UDP, once there is room for it, and its record then stands in the zone."""
    small = update([b"\5small\xc0\x0c" + struct.pack(">2HIH", 1, 1, 60, 4) + b"\xc0\0\2\x09"])
    query = struct.pack(">6H", 8, 0x0100, 1, 0, 0, 0) + b"\5small" + APEX + struct.pack(">2H", 1, 1)
    with socket.socket(socket.AF_INET, socket.SOCK_DGRAM) as client:
        client.connect(("127.0.0.1", port))
        client.settimeout(2)
        end = time.monotonic() + WITHIN
        while time.monotonic() < end:
            try:
                client.send(small)
                if client.recv(600)[3] & 15:
                    time.sleep(0.1)
                    continue
                client.send(query)
                return client.recv(600).endswith(b"\xc0\0\2\x09")
            except socket.timeout:
                pass
    return False


def flooded(says, send, message, kind, most_after):
    """What a flood costs a server, with queries by another transport beside it."""
    server = Server()
    try:
        time.sleep(0.5)
        before = server.memory()
        watching = Watching(server, kind)
        end, counts = time.monotonic() + seconds, [{} for _ in range(SENDERS)]
        senders = [threading.Thread(target=send, args=(server.port, message, end, codes), daemon=True) for codes in counts]
        for sender in senders:
            sender.start()
        for sender in senders:
            sender.join(seconds + 20)
        taken = is_taken(server.port)
        time.sleep(2)
        highest, after = watching.end(), server.memory()
        codes = {}
        for own in counts:
            for code, count in own.items():
                codes[code] = codes.get(code, 0) + count
        sent = codes.pop("sent", 0)
        print(f"       {says}: {sent} of {len(message)} octets were sent, replies by code {dict(sorted(codes.items()))}; {before / MIB:.0f} MiB before, {highest / MIB:.0f} at most, {after / MIB:.0f} after")
        told(sent > 100 and set(codes) <= {0, 2}, f"{says}: updates are told NOERROR or SERVFAIL")
        told(highest - before <= MOST, f"{says}: {(highest - before) / MIB:.0f} MiB more while they come, of {MOST / MIB:.0f}")
        told(after - before <= most_after, f"{says}: {(after - before) / MIB:.0f} MiB more after them, of {most_after / MIB:.0f}")
        told(watching.asked - watching.answered <= 1 and watching.asked > seconds, f"{says}: {watching.answered} of {watching.asked} queries are answered meanwhile")
        told(taken, f"{says}: a small update is taken after them")
    finally:
        server.end()


flooded("by UDP", send_by_datagrams, large(65_000), socket.SOCK_STREAM, AFTER)
flooded("by TCP", send_by_streams, large(65_535), socket.SOCK_DGRAM, KEPT)
sys.exit(1 if failed else 0)
