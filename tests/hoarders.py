#!/usr/bin/env python3
"""Tries a running `dnsd serve` of one worker by clients that hoard its places: 60 from one address, for 60 places, each of which sends an octet of a
request and comes again at once as it is ended; and then 10,000 such that come and go, 150 at once for 100 places. Each of 50 queries in a row from each of two other addresses has
to be answered within a second. And a transfer that its reader takes at a KiB a second has to be ended, while one that is taken at full speed, and one
that is taken slowly where `--transfer-rate 0` says so, go on.
Usage: [DNSD=PROGRAM] tests/hoarders.py [PORT], by default crates/dnsd/out/dnsd and port 15256. It takes three minutes; status 1 where one failed.
127.0.0.1 to 127.0.0.3 have to be addresses of the host, as they are on Linux."""
import multiprocessing
import os
import re
import selectors
import socket
import subprocess
import sys
import tempfile
import time

top = os.path.dirname(os.path.dirname(os.path.abspath(__file__)))
program = os.environ.get("DNSD", f"{top}/crates/dnsd/out/dnsd")
port = int(sys.argv[1]) if len(sys.argv) > 1 else 15256
HOARDERS = "127.0.0.2"
OTHERS = ("127.0.0.1", "127.0.0.3")
TRIES = 50
RECORDS = 10_000


def query(name, rtype):
    """A query of a name below example.test., behind its length (RFC 1035, 4.1 and 4.2.2)."""
    labels = b"".join(bytes([len(label)]) + label.encode() for label in (*name, "example", "test"))
    message = bytes.fromhex("123401000001000000000000") + labels + b"\0" + rtype.to_bytes(2, "big") + b"\0\1"
    return len(message).to_bytes(2, "big") + message


ask = query(("www",), 1)
transfer = query((), 252)


def come():
    """A connection of a hoarder, which is to be opened."""
    client = socket.socket()
    client.setblocking(False)
    client.setsockopt(socket.SOL_SOCKET, socket.SO_REUSEADDR, 1)
    client.bind((HOARDERS, 0))
    client.connect_ex(("127.0.0.1", port))
    return client


def hoard(at_once, come_so_far, lives):
    """Holds so many connections, each with an octet of a request, and comes again at once where one is ended, or after so many seconds where it isn't."""
    clients = selectors.DefaultSelector()
    born = {}

    def begin():
        client = come()
        born[client] = time.time()
        clients.register(client, selectors.EVENT_WRITE)

    def end(client):
        clients.unregister(client)
        client.close()
        del born[client]

    for _ in range(at_once):
        begin()
    while True:
        for key, events in clients.select(0.05):
            client = key.fileobj
            try:
                if events & selectors.EVENT_WRITE:
                    client.send(ask[:1])
                    come_so_far.value += 1
                    clients.modify(client, selectors.EVENT_READ)
                    continue
                client.recv(1)
            except OSError:
                pass
            end(client)
            begin()
        now = time.time()
        for client in [client for client, at in born.items() if now - at > lives]:
            end(client)
            begin()


def asked(address):
    """How many seconds a new client from an address waits for its reply; None where it gets none within a second."""
    began = time.time()
    try:
        with socket.create_connection(("127.0.0.1", port), timeout=1, source_address=(address, 0)) as client:
            client.sendall(ask)
            reply = client.recv(2000)
            waited = time.time() - began
            return waited if reply[2:4] == ask[2:4] and waited < 1 else None
    except OSError:
        return None


def zone_file():
    """A zone of 10,000 records."""
    file = tempfile.NamedTemporaryFile("w", suffix=".zone", delete=False)
    file.write("$ORIGIN example.test.\n$TTL 3600\n@ IN SOA ns1 admin 1 7200 900 1209600 300\n@ IN NS ns1\nns1 IN A 192.0.2.1\nwww IN A 192.0.2.2\n")
    for number in range(1, RECORDS - 3):
        file.write(f"h{number} IN A 10.{number >> 16}.{number >> 8 & 255}.{number & 255}\n")
    file.close()
    return file.name


class Server:
    """A server of the zone, and its log."""

    def __init__(self, zone, *options):
        self.log = tempfile.TemporaryFile("w+")
        words = [program, "serve", "--listen", f"127.0.0.1:{port}", "--workers", "1", *options, zone]
        self.process = subprocess.Popen(words, stderr=self.log)

    def __enter__(self):
        while asked("127.0.0.1") is None:
            if self.process.poll() is not None:
                sys.exit("it doesn't run")
        return self

    def __exit__(self, *_):
        self.process.kill()
        self.process.wait()
        self.log.seek(0)
        lost = {}
        for line in self.log:
            for count, kind in re.findall(r"(\d+) ([^,\n]+)", line.partition("(TCP): ")[2]):
                lost[kind] = lost.get(kind, 0) + int(count)
        print("  " + ", ".join(f"{count} {kind}" for kind, count in lost.items()), flush=True)

    def connections(self):
        """How many connections it has open (Linux, proc(5))."""
        with open("/proc/net/tcp") as table:
            rows = [line.split() for line in table]
        return sum(row[1].endswith(f":{port:04X}") and row[3] in ("01", "08") for row in rows[1:] if row[9] != "0")


def tried(what, at_once, lives, least, *options):
    """Whether others are answered while clients hoard, at least so many of which have come in the end."""
    with Server(f"{top}/zones/example.test.zone", *options):
        come_so_far = multiprocessing.Value("L", 0, lock=False)
        hoarder = multiprocessing.Process(target=hoard, args=(at_once, come_so_far, lives), daemon=True)
        hoarder.start()
        try:
            while come_so_far.value < at_once:
                time.sleep(0.05)
            time.sleep(1)
            waits, end = [], time.time() + 120
            while len(waits) < 2 * TRIES or (come_so_far.value < least and time.time() < end):
                waits += [asked(address) for address in OTHERS]
            silent = sum(it is None for it in waits)
            longest = max((it for it in waits if it is not None), default=None)
            has_come = come_so_far.value
        finally:
            hoarder.kill()
            hoarder.join()
        print(f"{what}: {has_come} came; of {len(waits)} queries {silent} without a reply within a second, the longest wait {longest} s")
    return silent == 0 and has_come >= least


def slow_reader():
    """A connection that takes the zone's transfer, of which nothing is read yet."""
    client = socket.socket()
    # so that the systems between both keep little of it
    client.setsockopt(socket.SOL_SOCKET, socket.SO_RCVBUF, 4096)
    client.setsockopt(socket.IPPROTO_TCP, socket.TCP_MAXSEG, 536)
    client.connect(("127.0.0.1", port))
    client.sendall(transfer)
    return client


def taken_whole():
    """How many records a transfer at full speed has."""
    with socket.create_connection(("127.0.0.1", port), timeout=10) as client:
        client.sendall(transfer)
        stream, records = client.makefile("rb"), 0
        while records < RECORDS + 1:
            length = int.from_bytes(stream.read(2), "big")
            message = stream.read(length)
            if len(message) < 12:
                break
            records += int.from_bytes(message[6:8], "big")
        return records


def reads_slowly(zone, span, *options):
    """After how many seconds a transfer is ended of which a KiB is read each second; None where it isn't within so many. And whether one at full speed beside
    it comes whole."""
    with Server(zone, *options) as server:
        client, began, ended = slow_reader(), time.time(), None
        while time.time() < began + span and ended is None:
            time.sleep(1)
            client.recv(1024)
            if server.connections() == 0:
                ended = time.time() - began
        records = taken_whole()
        client.close()
    return ended, records == RECORDS + 1


failed = 0
zone = zone_file()
try:
    for what, is_right in (
        ("60 for 60 places", lambda: tried("60 for 60 places", 60, 3600, 0, "--connections", "60")),
        ("10,000 that come and go", lambda: tried("10,000 that come and go", 150, 0.5, 10_000, "--connections", "100")),
    ):
        good = is_right()
        failed += not good
        print(f"{'ok    ' if good else 'FAILED'} {what}", flush=True)
    for what, is_right, options in (
        ("a transfer that is read at a KiB a second is ended", lambda ended: ended is not None, ()),
        # (its end may fit into the kernel's buffers, and the connection then waits for the next request)
        ("with --transfer-rate 0 it goes on", lambda ended: ended is None, ("--transfer-rate", "0", "--idle", "1h")),
    ):
        ended, is_whole = reads_slowly(zone, 60, "--reply", "1h", *options)
        good = is_right(ended) and is_whole
        failed += not good
        print(f"{'ok    ' if good else 'FAILED'} {what}: ended after {ended} s; one at full speed came {'whole' if is_whole else 'in part'}", flush=True)
finally:
    os.unlink(zone)
sys.exit(1 if failed else 0)
