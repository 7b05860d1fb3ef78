#!/usr/bin/env python3
"""Tries updates that come one after another on one connection, before any reply: they share syncs, are answered in their order, and a query after them sees them all.
Over a disk whose sync takes 20 ms (tests/disk.c), so that the first update is still being synced when the others are there. Of 32 updates that come in one write at most three
syncs are made, and of 200, of which at most 64 wait together, at most one for each eight. The same updates, each sent once the reply to the one before is there, take a sync each.
Usage: tests/pipelined.py PROGRAM. It prints a line a check, and its status is 1 where one failed. It takes ten seconds. It needs Linux, python3 and a C compiler, `cc` or $CC."""
import os
import socket
import struct
import sys
import tempfile

import crash_disk
import crash_server
import crash_zone

SLOW = "20"
MANY = 1 << 24
failed = 0


def tell(is_right, what):
    global failed
    failed += not is_right
    print(("ok     " if is_right else "FAILED ") + what, flush=True)


def syncs(log):
    """How many syncs have been made."""
    return sum(kind == crash_disk.SYNCED for kind, *_ in crash_disk.told(log))


def received(client, count):
    """So many messages of a connection."""
    octets, messages = b"", []
    while len(messages) < count:
        more = client.recv(1 << 16)
        if not more:
            break
        octets += more
        while len(octets) >= 2 and len(octets) >= 2 + struct.unpack(">H", octets[:2])[0]:
            size = struct.unpack(">H", octets[:2])[0]
            messages.append(octets[2 : 2 + size])
            octets = octets[2 + size :]
    return messages


def framed(message):
    return struct.pack(">H", len(message)) + message


def query():
    return crash_zone.question(crash_zone.SOA)


def together(server, log, first, count, most):
    """So many updates from a number on, and a query, in one write."""
    before = syncs(log)
    with socket.create_connection(("127.0.0.1", server.port), timeout=20) as client:
        client.sendall(b"".join(framed(crash_zone.update(number, MANY)) for number in range(first, first + count)) + framed(query()))
        replies = received(client, count + 1)
    made = syncs(log) - before
    codes = [reply[3] & 15 for reply in replies]
    numbers = [struct.unpack(">H", reply[:2])[0] for reply in replies[:count]]
    tell(codes == [0] * (count + 1), f"{count} updates in one write, and a query: {codes.count(0)} replies with NOERROR")
    tell(numbers == [number & 0xFFFF for number in range(first, first + count)], "the replies come in the order of the requests")
    serials = [crash_zone.serial_of(record) for record in crash_zone.records_of(replies[-1])] if len(replies) > count else []
    tell(serials == [first + count], f"the query after them sees them all: serial {serials}")
    tell(made <= most, f"they share {made} syncs, at most {most}")


def one_by_one(server, log, first, count):
    """The same, each after the reply to the one before."""
    before = syncs(log)
    with socket.create_connection(("127.0.0.1", server.port), timeout=20) as client:
        for number in range(first, first + count):
            client.sendall(framed(crash_zone.update(number, MANY)))
            if not received(client, 1):
                break
    made = syncs(log) - before
    tell(made >= count, f"{count} updates, each after the reply to the one before: {made} syncs")


def main():
    with tempfile.TemporaryDirectory() as room:
        zone, folder, log = f"{room}/zone", f"{room}/store", f"{room}/log"
        os.mkdir(folder)
        with open(zone, "w", encoding="ascii") as file:
            file.write(crash_zone.TEXT)
        environment = {"LD_PRELOAD": crash_disk.library(room), "DISK_DIR": folder, "DISK_LOG": log, "DISK_SLOW": SLOW}
        server = crash_server.Served(sys.argv[1], folder, zone, [], environment=environment)
        try:
            together(server, log, 1, 32, 3)
            one_by_one(server, log, 33, 8)
            together(server, log, 41, 200, 25)
        finally:
            server.kill()
    return 1 if failed else 0


if __name__ == "__main__":
    sys.exit(main())
