#!/usr/bin/env python3
"""Prints what a running `dnsd serve` needs of memory for a zone of so many records, each with an owner and an address of its own, and for each version
that it keeps beside the last: octets from malloc, those between blocks too, counted by a library that is loaded before the program (bench/counted.c).
The octets of a record are those that stay and those at most while the zone is read, less what a server of ten records has. Those of a version are the eighth part of what
a server that keeps eight has more than one that keeps none, both behind the same updates: of one address each, at a new name somewhere in the zone, and
of 2,000 addresses each.
Usage: [DNSD=PROGRAM] bench/kept_versions.py [RECORDS ..], by default 1000 100000 900000. It needs a C compiler (`cc` or $CC)."""
import os
import struct
import subprocess
import sys
import tempfile

sys.path.insert(0, os.path.dirname(os.path.abspath(__file__)))
from worst import A, APEX, IN, UPDATE, Message, Server, label, small_zone

here = os.path.dirname(os.path.abspath(__file__))
program = os.environ.get("DNSD", f"{os.path.dirname(here)}/crates/dnsd/out/dnsd")
# how many versions are made, and how many addresses a large one adds
VERSIONS, LARGE = 24, 2000


def update(records, number, count):
    """An update that adds so many addresses, each below a host somewhere in the zone."""
    message = Message(UPDATE)
    for own in range(number * count, number * count + count):
        owner = label(b"d%d" % own) + label(b"h%d" % (own * 104_729 % records)) + APEX
        message.put(owner, A, IN, 3600, b"\xc0\0\2\1", section=1)
    return message.octets()


def counted(work, zone, keep, updates):
    """The octets of a server behind these updates, and those that it had at most."""
    path = f"{work}/counts"
    with open(path, "wb") as file:
        file.write(bytes(16))
    os.environ.update(LD_PRELOAD=f"{work}/counted.so", COUNTED=path)
    server = Server(program, zone, "--keep", str(keep))
    del os.environ["LD_PRELOAD"]
    try:
        if any(server.ask(message)[0][3] & 15 for message in updates):
            sys.exit("bench: an update is refused")
        if server.stream:
            server.stream.close()
        server.spent()
        with open(path, "rb") as file:
            return struct.unpack("2q", file.read())
    finally:
        server.end()


def zone_of(records):
    return small_zone("".join(f"h{n} A 198.51.{n >> 8 & 255}.{n & 255}\n" for n in range(records - 2)))


def main():
    with tempfile.TemporaryDirectory() as work:
        subprocess.run([os.environ.get("CC", "cc"), "-O2", "-shared", "-fPIC", "-o", f"{work}/counted.so", f"{here}/counted.c", "-ldl"], check=True)
        least = counted(work, zone_of(10), 8, [])[0]
        print(f"a server of ten records: {least:,} octets\n  records  a record  at most  a version of one address  of {LARGE} addresses, by the address")
        for records in [int(word) for word in sys.argv[1:]] or [1000, 100_000, 900_000]:
            now, most = counted(work, zone_of(records), 8, [])
            versions = []
            for count in (1, LARGE):
                updates = [update(records, number, count) for number in range(VERSIONS)]
                kept, alone = (counted(work, zone_of(records), keep, updates)[0] for keep in (8, 0))
                versions.append((kept - alone) / 8 / count)
            print(f"{records:9,} {(now - least) / records:9.0f} {(most - least) / records:8.0f} {versions[0]:25.0f} {versions[1]:25.0f}", flush=True)


if __name__ == "__main__":
    main()
