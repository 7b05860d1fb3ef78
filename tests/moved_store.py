#!/usr/bin/env python3
"""Tries a running `dnsd serve --store DIR` whose directory is moved, removed, or replaced by another one, or whose journal is: updates are told NOERROR only where a
start of DIR would find them. While DIR isn't there each update that would change the zone gets SERVFAIL, and one line of the log says why; queries go on. Once it is
moved back updates are written again, as another line says, and are there at the next start; and so a second time. In a directory that was put in its place nothing is written.
Usage: [DNSD=PROGRAM] tests/moved_store.py, by default crates/dnsd/out/dnsd. It takes some seconds; status 1 where one failed. It listens on 127.0.0.1 alone."""
import os
import shutil
import socket
import struct
import sys
import tempfile

top = os.path.dirname(os.path.dirname(os.path.abspath(__file__)))
sys.path.insert(0, f"{top}/tests")
import crash_server
import crash_zone

program = os.environ.get("DNSD", f"{top}/crates/dnsd/out/dnsd")
UPDATES = 200
failed = 0


def told(is_right, what):
    global failed
    failed += not is_right
    print(("ok     " if is_right else "FAILED ") + what, flush=True)


class Client:
    """Updates and queries by UDP, one at a time."""

    def __init__(self, port):
        self.socket = socket.socket(socket.AF_INET, socket.SOCK_DGRAM)
        self.socket.connect(("127.0.0.1", port))
        self.socket.settimeout(20)

    def code(self, message):
        self.socket.send(message)
        return self.socket.recv(2000)[3] & 15

    def codes(self, first, count):
        """The codes of updates, how often each."""
        codes = {}
        for number in range(first, first + count):
            code = self.code(crash_zone.update(number, behind=1 << 30))
            codes[code] = codes.get(code, 0) + 1
        return codes

    def has(self, number):
        """Whether the record of an update is in the zone."""
        label = b"n%d" % number
        return self.code(struct.pack(">6H", 7, 0, 1, 0, 0, 0) + bytes([len(label)]) + label + crash_zone.APEX + struct.pack(">2H", 1, 1)) == 0

    def close(self):
        self.socket.close()


def contents(folder):
    """The names and the octets of a folder."""
    found = {}
    for name in sorted(os.listdir(folder)):
        with open(f"{folder}/{name}", "rb") as file:
            found[name] = file.read()
    return found


def moved(room):
    os.rename(f"{room}/store", f"{room}/moved")


def removed(room):
    shutil.copytree(f"{room}/store", f"{room}/moved")
    shutil.rmtree(f"{room}/store")


def replaced(room):
    moved(room)
    os.mkdir(f"{room}/store")


def replaced_by_a_store(room):
    """Another store, as a copy of the same one is."""
    moved(room)
    shutil.copytree(f"{room}/moved", f"{room}/store")


def journal_removed(room):
    os.makedirs(f"{room}/moved", exist_ok=True)
    os.rename(f"{room}/store/journal", f"{room}/moved/journal")


def back(room):
    shutil.rmtree(f"{room}/store", ignore_errors=True)
    os.rename(f"{room}/moved", f"{room}/store")


def journal_back(room):
    os.rename(f"{room}/moved/journal", f"{room}/store/journal")


def tried(says, lose, mend):
    """What is told of updates before a store is lost, while it is, and after it is there again."""
    with tempfile.TemporaryDirectory() as room:
        os.mkdir(f"{room}/store")
        with open(f"{room}/zone", "w", encoding="ascii") as file:
            file.write(crash_zone.TEXT)
        options = ("--workers", "1", "--journal", "4K")
        server = crash_server.Served(program, f"{room}/store", f"{room}/zone", options)
        client = Client(server.port)
        try:
            codes = client.codes(1, UPDATES)
            told(codes == {0: UPDATES}, f"{says}: before, the codes are {codes}")
            server.drain()
            for time in (1, 2) if mend else (1,):
                lose(room)
                other = contents(f"{room}/store") if os.path.isdir(f"{room}/store") else None
                codes = client.codes(1000 * time + 1, UPDATES)
                said = server.drain()
                told(codes == {2: UPDATES}, f"{says}, time {time}: {UPDATES} updates then have the codes {codes}")
                told(said.count("store: cannot write updates: ") == 1 and said.count("moved or removed") == 1, f"{says}, time {time}: the log says so in one line")
                told(client.has(1) and not client.has(1000 * time + 1), f"{says}, time {time}: queries are answered from the zone as it was")
                if other is not None:
                    told(contents(f"{room}/store") == other, f"{says}, time {time}: nothing is written to what stands there")
                if mend:
                    mend(room)
                    codes = client.codes(1000 * time + 5001, UPDATES)
                    said = server.drain()
                    told(codes == {0: UPDATES}, f"{says}, time {time}: once it is back the codes are {codes}")
                    told(said.count("store: updates are written again") == 1, f"{says}, time {time}: the log says in one line that updates are written again")
        finally:
            client.close()
            server.kill()
        if mend:
            server = crash_server.Served(program, f"{room}/store", f"{room}/zone", options)
            client = Client(server.port)
            there = [sum(client.has(number) for number in range(first, first + UPDATES)) for first in (1, 1001, 6001, 2001, 7001)]
            told(there == [UPDATES, 0, UPDATES, 0, UPDATES], f"{says}: a start then has {there} of them, of {UPDATES} each")
            client.close()
            server.kill()


tried("moved", moved, back)
tried("removed", removed, None)
tried("replaced by an empty directory", replaced, back)
tried("replaced by a copy of it", replaced_by_a_store, back)
tried("its journal moved away", journal_removed, journal_back)
sys.exit(1 if failed else 0)
