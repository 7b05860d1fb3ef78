#!/usr/bin/env python3
"""Asks a running `dnsd serve` for what changed while a client holds a transfer open: 60 updates, one a second; a client that takes the zone in whole
all that while, slowly; a secondary that asks each second what changed, and one that asks every third second. What each holds after each
transfer must be the zone of the serial that it was told, and the slow client's zone that of one version. It prints how often each was told what
changed, and how often the zone in whole (RFC 1995, 4), and what memory the server has; status 1 where something is wrong.
Usage: [DNSD=PROGRAM] bench/held_transfer.py [--keep N] [--records N] [--updates N] [--port N], by default 0, 6000, 60 and 15653."""
import argparse
import os
import socket
import struct
import subprocess
import sys
import tempfile
import threading
import time

from soak import APEX, TYPES, framed, of, parsed, query, read_frame, update, wire

top = os.path.dirname(os.path.dirname(os.path.abspath(__file__)))
words = argparse.ArgumentParser()
for word, number in (("keep", 0), ("records", 6000), ("updates", 60), ("port", 15653)):
    words.add_argument(f"--{word}", type=int, default=number)
given = words.parse_args()
# slow enough that a transfer of so many records isn't over before the updates are, quick enough that the server ends no connection
OCTETS_A_SECOND = given.records * 2400 / (given.updates + 15)
program = os.environ.get("DNSD", f"{top}/crates/dnsd/out/dnsd")
wrong = []


def fail(what):
    wrong.append(what)
    print("WRONG", what, flush=True)


def ixfr(serial):
    """A request for what changed since a serial (RFC 1995, 3)."""
    soa = wire(APEX) + struct.pack(">2HIH", TYPES["SOA"], 1, 0, 22) + b"\0\0" + struct.pack(">5I", serial, 0, 0, 0, 0)
    return struct.pack(">6H", 7, 0, 1, 0, 1, 0) + wire(APEX) + struct.pack(">2H", 251, 1) + soa


def connected(room=None):
    sock = socket.socket()
    if room:
        sock.setsockopt(socket.SOL_SOCKET, socket.SO_RCVBUF, room)
    sock.connect(("127.0.0.1", given.port))
    sock.settimeout(30)
    return sock


def records_of(sock, asked):
    """The records of a transfer: those up to its last SOA, which is the first one again, or the first alone."""
    sock.sendall(framed(asked))
    records = []
    while True:
        _, rcode, more = parsed(read_frame(sock))
        if rcode != 0 or not more:
            raise ValueError(f"RCODE {rcode}, {len(more)} records")
        records += more
        soas = of(records, "SOA")
        # in steps there are two SOAs a version, and that of the whole at both ends; the zone in whole has these two alone
        if len(records) == 1 or (records[-1][1] == TYPES["SOA"] and len(soas) > 1 and soas[-1] == soas[0] and (records[1][1] != TYPES["SOA"] or len(soas) % 2 == 0)):
            return records


def applied(zone, records):
    """The zone (its records but the SOA, and its serial) that a transfer makes of a held one, and how it was told (RFC 1995, 4)."""
    held, serial = zone
    last = records[0][2]
    if len(records) == 1:
        return zone, "current" if last == serial else "SOA alone"
    if records[1][1] != TYPES["SOA"]:
        return ({it for it in records if it[1] != TYPES["SOA"]}, last), "in whole"
    held, adding = set(held), True
    for record in records[1:-1]:
        if record[1] == TYPES["SOA"]:
            adding = not adding
            if not adding and record[2] != serial:
                fail(f"a step from serial {record[2]} to one who has {serial}")
            serial = record[2]
        elif adding:
            held.add(record)
        elif record in held:
            held.remove(record)
        else:
            fail(f"{record} isn't there, and goes")
    return (held, serial), "what changed"


def is_version(zone):
    held, serial = zone
    held = list(held)
    hosts = [o for o, _, _ in held if o.startswith("v")]
    return of(held, "TXT", APEX) == [str(serial)] and of(held, "CNAME") == [f"t{serial % 16}.{APEX}"] and hosts == [f"v{serial}.{APEX}"] and len(held) == given.records


def secondary(pace, told, is_on):
    """Asks at a pace what changed, and counts how it is told."""
    zone = (set(), 0)
    while True:
        goes_on = is_on()
        try:
            with connected() as sock:
                records = records_of(sock, ixfr(zone[1]) if zone[1] else query(7, APEX, "AXFR"))
            was = zone[1]
            zone, how = applied(zone, records)
            if was:
                told[how] = told.get(how, 0) + 1
            if not is_version(zone):
                fail(f"a secondary that holds no version, at serial {zone[1]}")
        except (OSError, ValueError) as fault:
            fail(f"a secondary: {fault}")
        if not goes_on:
            told["serial"] = zone[1]
            return
        time.sleep(pace)


def slow(is_on, ends):
    """Takes the zone in whole, some of it a second, and the rest at the end."""
    try:
        with connected(32768) as sock:
            sock.sendall(framed(query(7, APEX, "AXFR")))
            records = []
            while not (len(records) > 1 and records[-1][1] == TYPES["SOA"]):
                message = read_frame(sock)
                _, rcode, more = parsed(message)
                if rcode != 0 or not more:
                    raise ValueError(f"RCODE {rcode}, {len(more)} records")
                records += more
                if is_on():
                    time.sleep(len(message) / OCTETS_A_SECOND)
            serials = of(records, "SOA")
            if serials[0] != serials[-1] or not is_version(({it for it in records if it[1] != TYPES["SOA"]}, serials[0])):
                fail("the slow client holds no version")
            ends.append(serials[0])
    except (OSError, ValueError) as fault:
        fail(f"the slow client: {fault}")


def memory(pid):
    with open(f"/proc/{pid}/status", encoding="ascii") as it:
        return next(int(line.split()[1]) for line in it if line.startswith("VmRSS"))


def main():
    with tempfile.NamedTemporaryFile("w", suffix=".zone") as zone:
        zone.write(f"{APEX}. 60 IN SOA ns1.{APEX}. admin.{APEX}. 1 2 2 1209600 60\n{APEX}. 60 IN NS ns1.{APEX}.\n{APEX}. 60 IN TXT \"1\"\n")
        zone.write(f"ns1.{APEX}. 60 IN A 192.0.2.1\nalias.{APEX}. 60 IN CNAME t1.{APEX}.\nv1.{APEX}. 60 IN A 10.0.0.1\n")
        long_text = " ".join(['"' + "a long text " * 10 + '"'] * 20)
        zone.writelines(f"h{at}.{APEX}. 60 IN TXT {long_text}\n" for at in range(given.records - 5))
        zone.flush()
        server = subprocess.Popen(
            [program, "serve", "--listen", f"127.0.0.1:{given.port}", "--workers", "6", "--keep", str(given.keep), zone.name], stderr=subprocess.PIPE, text=True
        )
        try:
            return run(server)
        finally:
            server.kill()


def run(server):
    print(server.stderr.readline(), end="", flush=True)
    threading.Thread(target=server.stderr.read, daemon=True).start()
    on = [True]
    each, third, ends = {}, {}, []
    players = [
        threading.Thread(target=secondary, args=(1, each, lambda: on[0])),
        threading.Thread(target=secondary, args=(3, third, lambda: on[0])),
        threading.Thread(target=slow, args=(lambda: on[0], ends)),
    ]
    for player in players:
        player.start()
    time.sleep(3)
    sock = socket.socket(socket.AF_INET, socket.SOCK_DGRAM)
    sock.settimeout(20)
    sock.connect(("127.0.0.1", given.port))
    kept = [memory(server.pid)]
    for n in range(2, given.updates + 2):
        sock.send(update(n))
        if sock.recv(512)[3] & 15:
            fail(f"update {n} isn't told NOERROR")
        time.sleep(1)
        if (n - 1) % 20 == 0:
            kept.append(memory(server.pid))
    on[0] = False
    for player in players:
        player.join(120)
    last = given.updates + 1
    for name, told in (("asks each second", each), ("asks every third second", third)):
        serial = told.pop("serial", None)
        print(f"a secondary that {name}: " + ", ".join(f"{how} {count}" for how, count in sorted(told.items())) + f"; it holds serial {serial}")
        if serial != last:
            fail(f"it holds serial {serial}, not {last}")
    print(f"the slow client holds serial {ends[0] if ends else None}, in whole; KiB of memory before, and after each 20 updates, and at the end: {kept + [memory(server.pid)]}")
    return 1 if wrong else 0


sys.exit(main())
