#!/usr/bin/env python3
"""Turns each octet of a small journal in turn, and cuts it at each length, and each octet of the zone text that it belongs to: a start of each such store serves a zone
that some of the updates made, taken from the first on (RFC 2136, 3.5), or is refused with a line that says why, and then nothing in the folder has changed. What is
cut, or turned in the last batch or in the room behind it, is told as torn and cut off; what is turned in an earlier one is told as damage, with the octet, and
`dnsd zone --before-fault` prints the zone in front of it.
Usage: tests/turned.py PROGRAM [--batches N]. It prints what it found, and its status is 1 where a start wasn't so. It needs python3 alone."""
import argparse
import os
import re
import shutil
import struct
import subprocess
import sys
import tempfile

import crash_zone
from crash_server import NotServed, Served, fill

# the octets of a journal's head, those of a frame beside its body, and those of its mark
HEAD, FRAME, MARK = 156, 52, 8


class Store:
    """A folder that a server has filled, one update a batch, with the zones that a start of it may serve."""

    def __init__(self, program, room, batches):
        self.program, self.room, self.zone = program, room, f"{room}/zone"
        fill(program, room, batches)
        self.files = {name: self.read(f"{room}/store", name) for name in ("journal", "zone-0")}
        # where each batch begins, by the lengths in front of them, and where the last one ends
        self.begins = self.batches_of(self.files["journal"], batches)
        # the room behind it, zeros
        self.space = self.files["journal"][self.begins[-1] :]
        self.files["journal"] = self.files["journal"][: self.begins[-1]]

    @staticmethod
    def batches_of(journal, batches):
        begins = [HEAD]
        while any(journal[begins[-1] :]):
            (length,) = struct.unpack_from(">I", journal, begins[-1] + MARK)
            begins.append(begins[-1] + FRAME + length)
        if len(begins) != batches + 1 or begins[-1] >= len(journal):
            sys.exit(f"turned: {len(journal)} octets aren't {batches} batches with room behind them")
        return begins

    @staticmethod
    def read(folder, name):
        with open(f"{folder}/{name}", "rb") as file:
            return file.read()

    def with_file(self, name, octets):
        """A folder anew with these octets in one of its files."""
        folder = f"{self.room}/tried"
        shutil.rmtree(folder, ignore_errors=True)
        os.mkdir(folder)
        for it, own in self.files.items():
            with open(f"{folder}/{it}", "wb") as file:
                file.write(octets if it == name else own)
        return folder


def zone_of(words):
    """The numbers of the records that `dnsd zone` prints, with its status and what it says."""
    ran = subprocess.run(words, capture_output=True, text=True)
    numbers = {int(name) for name in re.findall(r"^n(\d+)\.example\.test\. ", ran.stdout, re.M)}
    return numbers, ran.returncode, ran.stderr


def started(store, folder):
    """What a server that begins with a folder holds, with what it says; no zone where it doesn't serve."""
    try:
        server = Served(store.program, folder, store.zone, [], tries=1)
    except NotServed as fault:
        return None, fault.status, fault.said
    try:
        return crash_zone.numbers_of(crash_zone.zone(server.port)[1]), 0, server.said
    finally:
        server.kill()


class Findings:
    def __init__(self):
        self.counts, self.wrong = {}, 0

    def count(self, what):
        self.counts[what] = self.counts.get(what, 0) + 1

    def is_wrong(self, where, why):
        self.wrong += 1
        if self.wrong < 20:
            print(f"WRONG {where}: {why}")


def tried(store, findings, name, octets, where, wanted):
    """Starts a store with these octets: what it serves is the first so many updates, where so many are wanted; else it is refused, and unchanged."""
    folder = store.with_file(name, octets)
    printed, status, told = zone_of([store.program, "zone", folder])
    numbers, ended, said = started(store, folder)
    while "address in use" in said:
        numbers, ended, said = started(store, store.with_file(name, octets))
    if wanted is None:
        if numbers is not None or ended != 1 or status != 1 or not said.startswith("error: ") or not told.startswith("error: "):
            findings.is_wrong(where, f"it isn't refused: {ended} {said[:200]!r}, {status} {told[:200]!r}")
        elif store.read(folder, name) != octets or sorted(os.listdir(folder)) not in (["journal", "lock", "zone-0"], ["journal", "zone-0"]):
            findings.is_wrong(where, f"the folder has changed: {os.listdir(folder)}")
        findings.count("refused")
        return said
    if numbers != set(range(1, wanted + 1)) or printed != numbers or status:
        findings.is_wrong(where, f"{numbers} served, {printed} printed, {wanted} are wanted: {ended} {said[:200]!r}, {told[:200]!r}")
    findings.count(f"{wanted} updates served" + (", torn" if "cut off" in said else ""))
    return said


def turned_journal(store, findings):
    journal, begins = store.files["journal"], store.begins
    last = len(begins) - 2
    for at in range(len(journal)):
        octets = bytearray(journal)
        octets[at] ^= 1 << at % 8
        batch = max((k for k, begin in enumerate(begins) if begin <= at), default=-1)
        where = f"octet {at} of the journal turned"
        if at < HEAD:
            tried(store, findings, "journal", bytes(octets), where, None)
        elif batch == last:
            said = tried(store, findings, "journal", bytes(octets), where, last)
            if "incomplete batch" not in said:
                findings.is_wrong(where, "the end isn't told as torn")
        else:
            said = tried(store, findings, "journal", bytes(octets), where, None)
            if str(begins[batch + 1]) not in said and "damaged" not in said:
                findings.is_wrong(where, f"the damage isn't told: {said[:200]!r}")
            numbers, status, _ = zone_of([store.program, "zone", "--before-fault", f"{store.room}/tried"])
            if numbers != set(range(1, batch + 1)) or status:
                findings.is_wrong(where, f"{numbers} in front of the fault")


def turned_room(store, findings):
    """The journal with its room is read whole; an octet in it that is none of zeros is told as torn."""
    journal, space = store.files["journal"], store.space
    wanted = len(store.begins) - 1
    if "incomplete batch" in tried(store, findings, "journal", journal + space, "a journal with its room", wanted):
        findings.is_wrong("a journal with its room", "it is told as torn")
    for at in (0, len(space) // 2, len(space) - 1):
        octets = bytearray(space)
        octets[at] ^= 1 << at % 8
        where = f"octet {at} of the room turned"
        if "incomplete batch" not in tried(store, findings, "journal", journal + bytes(octets), where, wanted):
            findings.is_wrong(where, "the end isn't told as torn")


def cut_journal(store, findings):
    journal, begins = store.files["journal"], store.begins
    for length in range(len(journal)):
        whole = max((k for k, begin in enumerate(begins) if begin <= length), default=None)
        said = tried(store, findings, "journal", journal[:length], f"a journal of {length} octets", whole)
        # zeros alone behind the last batch are no torn one
        is_torn = whole is not None and any(journal[begins[whole] : length])
        if is_torn != ("incomplete batch" in said):
            findings.is_wrong(f"a journal of {length} octets", "a torn end isn't told as such, or another is")


def turned_text(store, findings):
    text = store.files["zone-0"]
    for at in range(len(text)):
        octets = bytearray(text)
        octets[at] ^= 1 << at % 8
        tried(store, findings, "zone-0", bytes(octets), f"octet {at} of the zone text turned", None)


def main():
    parser = argparse.ArgumentParser()
    parser.add_argument("program")
    parser.add_argument("--batches", type=int, default=4)
    args = parser.parse_args()
    with tempfile.TemporaryDirectory(prefix="turned-") as room:
        store, findings = Store(os.path.abspath(args.program), room, args.batches), Findings()
        turned_journal(store, findings)
        turned_room(store, findings)
        cut_journal(store, findings)
        turned_text(store, findings)
        sizes = ", ".join(f"{name} of {len(octets)} octets" for name, octets in store.files.items())
    print(f"turned: {sizes}; " + ", ".join(f"{count} {what}" for what, count in sorted(findings.counts.items())) + f"; {findings.wrong} wrong")
    sys.exit(1 if findings.wrong else 0)


main()
