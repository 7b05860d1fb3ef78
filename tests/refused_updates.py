#!/usr/bin/env python3
"""Tries a running `dnsd serve` whose worker is refused memory while it serves an update of three records, over UDP and over TCP: its first request alone, then
its second alone, and so on until none is left to be refused; and then each with all behind it. The update is NOERROR and there in whole, with the next
serial, or SERVFAIL and nothing of it is there; a query by UDP is answered while memory is refused; and behind it the same update is taken.
Usage: [DNSD=PROGRAM] tests/refused_updates.py [--port N], by default crates/dnsd/out/dnsd and port 15263. It takes seconds; status 1 where one
failed. It listens on 127.0.0.1 alone, and needs Linux and a C compiler, `cc` or $CC."""
import os
import socket
import struct
import subprocess
import sys
import tempfile

import memory

first_name = 0


def by_datagram(message):
    """The code of the reply to a datagram; None where none comes within a second."""
    with socket.socket(socket.AF_INET, socket.SOCK_DGRAM) as client:
        client.settimeout(1)
        client.connect(("127.0.0.1", memory.given.port))
        client.send(message)
        try:
            return client.recv(2000)[3] & 15
        except TimeoutError:
            return None


def swept(server, file, over, count):
    """How many requests of an update were refused, the codes that came, and what was wrong."""
    global first_name
    codes, wrong = {}, []
    for first in range(1, 1000):
        first_name += 3
        message = memory.adds(first_name, 3)
        seen = lambda: [server.serial(), *(server.code(memory.query(memory.owner(first_name + k), 1)) for k in range(3))]
        serial = server.serial()
        os.pwrite(file, struct.pack("3Q", first, count, 0), 0)
        code, beside = over(message), by_datagram(memory.query(b"\3ns1", 1))
        made = struct.unpack("3Q", os.pread(file, 24, 0))[2]
        os.pwrite(file, bytes(24), 0)
        codes[code] = codes.get(code, 0) + 1
        taken, refused = [serial + 1, 0, 0, 0], [serial, 3, 3, 3]
        if seen() not in {0: (taken,), 2: (refused,), None: (taken, refused)}.get(code, ()) or beside != 0 or over(message) != 0 or seen() != taken:
            wrong.append(f"request {first}: code {code}, {beside} of a query beside it, then {seen()} behind serial {serial}")
        if made < first:
            return first - 1, codes, wrong
    return 999, codes, ["there is no end of its requests"]


with tempfile.TemporaryDirectory() as room:
    subprocess.run([os.environ.get("CC", "cc"), "-O2", "-shared", "-fPIC", "-o", f"{room}/refuse.so", f"{memory.top}/tests/refuse.c"], check=True)
    file = os.open(f"{room}/told", os.O_RDWR | os.O_CREAT)
    os.pwrite(file, bytes(24), 0)
    os.environ.update(LD_PRELOAD=f"{room}/refuse.so", REFUSE_FILE=f"{room}/told")
    server = memory.Server()
    for name, over in (("a datagram", by_datagram), ("a connection", server.code)):
        for count, what in ((1, "each refused"), (1 << 40, "each refused with all behind it")):
            requests, codes, wrong = swept(server, file, over, count)
            memory.told(not wrong, f"an update by {name}, {requests} requests, {what}: codes {codes}{''.join(f'; {it}' for it in wrong[:3])}")
    server.end()
sys.exit(1 if memory.failed else 0)
