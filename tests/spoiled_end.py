#!/usr/bin/env python3
"""Puts octets of many kinds after the last batch of a journal, up to 64 MB of them, and asks that `dnsd zone` and a start of `dnsd serve --store` tell a torn end from
damage as docs/FORMATS.md says, and that each takes a time that grows with the octets alone, whatever they are: a second of the processor for 64 MB, or, where a machine
is slow or loaded, twice what a start takes that digests each octet once. What is right is told by a reading of the octets of its own, with the sums of Python's
hashlib.
Usage: tests/spoiled_end.py PROGRAM [--megabytes N] [--seconds S]; PROGRAM may be left out where $DNSD names it. It prints what each kind took, and its status is 1 where
one wasn't so. It needs python3 alone, and three times the octets in the folder for temporary files."""
import argparse
import hashlib
import os
import random
import re
import resource
import shutil
import struct
import subprocess
import sys
import tempfile

import crash_zone
from crash_server import NotServed, Served, fill

# the octets of a journal's head, and those of a frame beside its body; where the salt stands in a head, and how many octets of it a frame's mark has
HEAD, FRAME, SALT, MARK = 156, 52, 124, 8
# a frame's body has fewer octets
LIMIT = 1 << 24


def frame(salt, number, body, sum_of=None):
    """A frame (docs/FORMATS.md); with octets to take the sum of in place of its own, one whose sum is wrong."""
    text = struct.pack(">IQ", len(body), number) + body
    return salt[:MARK] + text + hashlib.sha256(salt + (text if sum_of is None else sum_of)).digest()


def batch(number):
    update = crash_zone.update(number)
    return struct.pack(">H", len(update)) + update


def is_frame(salt, rest, at, size):
    text = rest[at + MARK : at + MARK + 12 + size]
    return hashlib.sha256(salt + text).digest() == rest[at + FRAME - 32 + size : at + FRAME + size]


def told_of(salt, number, rest):
    """What is to be told of octets after the last whole frame, where the next one has this number: blank, torn, or the place of damage in them."""
    if not rest.strip(b"\0"):
        return "blank"
    mark, at = salt[:MARK], -1
    while (at := rest.find(mark, at + 1)) >= 0:
        if at + 20 > len(rest):
            continue
        size, told = struct.unpack_from(">IQ", rest, at + MARK)
        if told <= number or size >= LIMIT or at + FRAME + size > len(rest):
            continue
        if rest.find(mark, at + 1, at + FRAME + size) >= 0 or is_frame(salt, rest, at, size):
            return at
    return "torn"


def spaced(salt, many, space, number_of, length_of):
    """A mark each so many octets, with a length and a number after it, and zeros up to the next mark."""
    out = bytearray(many)
    for at in range(0, many - space + 1, space):
        struct.pack_into(">8sIQ", out, at, salt[:MARK], length_of(at), number_of(at))
    return bytes(out)


def repeated(octets, many):
    return (octets * (many // len(octets) + 1))[:many]


def digested_once(salt, number, many):
    """Later frames of a megabyte with another sum, one after another: each octet is digested once."""
    wide = 1_048_576
    return spaced(salt, many, wide, lambda at: number + 1 + at, lambda at: wide - FRAME)


def ends(salt, number, first, many):
    """Each kind of octets after the last frame, where the next one has this number; `first` is the journal's own first frame."""
    other = hashlib.sha256(b"another journal").digest()
    chance = random.Random(1)
    wide = 1_048_576
    yield "nothing", b""
    for updates in (2_000, 6_000):
        yield f"{updates} frames of another journal", b"".join(frame(other, k, batch(k)) for k in range(updates))
    yield "00 08 00 00 again and again", repeated(b"\0\x08\0\0", many)
    yield "zeros", bytes(many)
    yield "zeros, and one octet at their end", bytes(many - 1) + b"\1"
    yield "random octets", chance.randbytes(many)
    yield "the first frame again and again", repeated(first, many)
    yield "the mark again and again", repeated(salt[:MARK], many)
    yield "the first octet of the mark again and again", repeated(salt[:1], many)
    yield "the first seven octets of the mark again and again", repeated(salt[:7], many)
    yield "marks with lengths to the end, of later numbers", spaced(salt, many, 20, lambda at: number + 1 + at, lambda at: max(0, many - at - FRAME))
    yield "marks with lengths to the end, of the next number", spaced(salt, many, 20, lambda at: number, lambda at: max(0, many - at - FRAME))
    yield "marks with lengths beyond the end", spaced(salt, many, 20, lambda at: number + 1, lambda at: many - at)
    yield "later frames of no body and another sum", spaced(salt, many, FRAME, lambda at: number + 1 + at, lambda at: 0)
    yield "later frames of 1,024 octets and another sum", spaced(salt, many, 1_024, lambda at: number + 1 + at, lambda at: 1_024 - FRAME)
    yield "later frames of a megabyte and another sum", digested_once(salt, number, many)
    # later frames within what begins as the next one: its octets are digested twice, which has a limit
    for length in (LIMIT - 1, LIMIT, many - FRAME):
        lead = struct.pack(">8sIQ", salt[:MARK], min(length, many - FRAME), number)
        yield f"the next frame with {length} octets, later ones within it, and other sums", lead + spaced(salt, many - len(lead), wide, lambda at: number + 1 + at, lambda at: wide - FRAME)
    # of 2^24 octets no frame is one, whatever its sum
    yield "a frame of the next number with 2^24 octets", frame(salt, number, bytes(LIMIT))
    yield "a frame of a later number with 2^24 octets", frame(salt, number + 1, bytes(LIMIT))
    yield "a frame of a later number with an octet less", frame(salt, number + 1, bytes(LIMIT - 1))
    whole = frame(salt, number + 2, batch(number + 3))
    yield "random octets, and a whole later frame at their end", chance.randbytes(many - len(whole)) + whole
    yield "later frames of another sum, and a whole one at their end", spaced(salt, many - len(whole), 1_024, lambda at: number + 1, lambda at: 1_024 - FRAME) + whole
    yield "a whole frame of the next number but one", frame(salt, number + 1, batch(number + 2))
    yield "a frame of a later number that is cut", frame(salt, number + 1, batch(number + 2))[:-1]


class Store:
    """A folder that a server has filled, one update a batch."""

    def __init__(self, program, room, updates=3):
        self.program, self.room, self.zone, self.number = program, room, f"{room}/zone", updates
        fill(program, room, updates)
        with open(f"{room}/store/journal", "rb") as file:
            journal = file.read()
        at = HEAD
        for _ in range(updates):
            at += FRAME + struct.unpack_from(">I", journal, at + MARK)[0]
        self.journal, self.salt = journal[:at], journal[SALT:HEAD]
        self.first = journal[HEAD : HEAD + FRAME + struct.unpack_from(">I", journal, HEAD + MARK)[0]]
        if b"".join(frame(self.salt, k, batch(k + 1)) for k in range(updates)) != self.journal[HEAD:] or any(journal[at:]):
            sys.exit("spoiled_end: the journal isn't as docs/FORMATS.md says")

    def with_end(self, octets):
        """A folder anew with these octets after the last batch."""
        folder = f"{self.room}/tried"
        shutil.rmtree(folder, ignore_errors=True)
        shutil.copytree(f"{self.room}/store", folder)
        with open(f"{folder}/journal", "wb") as file:
            file.write(self.journal)
            file.write(octets)
        return folder


def processor():
    spent = resource.getrusage(resource.RUSAGE_CHILDREN)
    return spent.ru_utime + spent.ru_stime


def printed(store, folder):
    """What `dnsd zone` finds: the numbers of the updates, status, words; and its processor time."""
    before = processor()
    ran = subprocess.run([store.program, "zone", folder], capture_output=True, text=True)
    numbers = {int(name) for name in re.findall(r"^n(\d+)\.example\.test\. ", ran.stdout, re.M)}
    return numbers, ran.returncode, ran.stderr, processor() - before


def served(store, folder):
    """What a start of `dnsd serve` finds, likewise."""
    before = processor()
    try:
        server = Served(store.program, folder, store.zone, [])
    except NotServed as fault:
        return None, fault.status, fault.said, processor() - before
    try:
        numbers = crash_zone.numbers_of(crash_zone.zone(server.port)[1])
    finally:
        server.kill()
    return numbers, 0, server.said, processor() - before


def faults_of(store, octets, want, zone, serve):
    """What isn't as it is to be."""
    end, all_of = len(store.journal), set(range(1, store.number + 1))
    damage = isinstance(want, int)
    for name, (numbers, status, said, _) in (("zone", zone), ("serve", serve)):
        if damage and (status != 1 or f"damaged before octet {end + want};" not in said):
            yield f"{name}: damage at {end + want} isn't told: {status} {said[:300]!r}"
        if not damage and (status or numbers != all_of):
            yield f"{name}: {numbers}, status {status}: {said[:300]!r}"
    if not damage and (want == "torn") != ("incomplete batch" in serve[2]):
        yield f"serve: the end is {want}: {serve[2][:300]!r}"


def main():
    parser = argparse.ArgumentParser()
    parser.add_argument("program", nargs="?", default=os.environ.get("DNSD"))
    parser.add_argument("--megabytes", type=int, default=64)
    parser.add_argument("--seconds", type=float, default=1.0, help="how many seconds of the processor each start may take")
    args = parser.parse_args()
    if not args.program:
        parser.error("no program, and no $DNSD")
    wrong = 0
    with tempfile.TemporaryDirectory(prefix="spoiled-") as room:
        store = Store(os.path.abspath(args.program), room)
        many = args.megabytes << 20
        base = printed(store, store.with_end(b""))[3], served(store, store.with_end(b""))[3]
        once = printed(store, store.with_end(digested_once(store.salt, store.number, many)))[3] - base[0]
        limit = max(args.seconds, 2 * once)
        print(f"{many:>10} octets that are digested once: zone {once:6.2f} s, so at most {limit:.2f} s")
        for name, octets in ends(store.salt, store.number, store.first, many):
            want = told_of(store.salt, store.number, octets)
            folder = store.with_end(octets)
            zone = printed(store, folder)
            serve = served(store, folder)
            faults = list(faults_of(store, octets, want, zone, serve))
            if isinstance(want, str):
                again = served(store, folder)
                faults += [f"the next start: {fault}" for fault in faults_of(store, octets, "blank", (*again[:3], 0), again)]
            took = zone[3] - base[0], serve[3] - base[1]
            if max(took) > limit:
                faults.append(f"it takes more than {limit:.2f} s")
            wrong += bool(faults)
            print(f"{len(octets):>10} octets: zone {took[0]:6.2f} s, serve {took[1]:6.2f} s, {want if isinstance(want, str) else f'damage at {want}'}: {name}")
            for fault in faults:
                print(f"    WRONG: {fault}")
            sys.stdout.flush()
    print(f"spoiled_end: {wrong} wrong")
    sys.exit(1 if wrong else 0)


main()
