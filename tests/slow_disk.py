#!/usr/bin/env python3
"""Tries a running `dnsd serve --store` over disks that are slow, full, read-only, or faulty.
- Over a disk whose sync takes a second (tests/disk.c), the 99th percentile of plain queries' times over UDP, and of transfers of what changed over TCP, is as without updates
  while 32 updates are outstanding: within 5 ms, or what --within says. Of 200 updates that come at once over a disk whose sync takes 20 ms each is told NOERROR.
- The folder's disk is full; it becomes read-only, as the files are made immutable, and as the system makes it where it meets a fault (an image of ext4 whose mount is
  aborted: a plain `mount -o remount,ro` is refused while a file is open for writing): updates are told SERVFAIL, queries and transfers go on, and the zone
  is the one of what was answered NOERROR. A start over the folder while it is so serves or ends with status 3; one behind that has all that was answered, and takes updates.
- Each of the first 40 writes, cuts, syncs and renames, or as many as --faults says, fails in turn: the same. A start over the same folder, and over one that a power cut could
  have left there, has all that was answered NOERROR; of what was told SERVFAIL it may have some, and nothing that wasn't sent. The log has a line when updates can't be written any more, and none for each of them, and one when they are written again.
- With the option --journal behind `--`: on a small disk 8,000 updates, whose journal would be three times as long as it, are all told NOERROR.
With --goes-on the server has also to take updates again by itself, within 20 seconds from the end of the fault.
Usage: tests/slow_disk.py PROGRAM [--only times|bursts|full|cramped|immutable|aborted|faults] [--seconds N] [--turns N] [--within MS] [--records N] [--faults N] [--first N] [--count N]
[--goes-on] [-- OPTION ..], by default 3 turns of 5 seconds over a zone of 1000 records; --first is the first call that fails, and --count how many in a row do. The options are
given to `serve`. It prints a line a check, and its status is 1 where one failed. It takes two minutes, most of them waiting, and with --goes-on some seconds more for each call
that fails. It needs Linux, python3 and a C compiler, `cc` or $CC. What is full or read-only wants root, for mount, chattr and mkfs.ext4, and is left out with a line else."""
import argparse
import contextlib
import os
import shutil
import socket
import subprocess
import sys
import tempfile
import time

import crash_disk
import crash_server
import crash_zone
import slow_disk_times

GOES_ON = 20
MANY = 1 << 24
SERVFAIL = 2
BURST = 200
CRAMPED = 8000


class Trial:
    def __init__(self, args, options, room):
        self.args, self.program, self.options, self.room = args, args.program, options, room
        self.zone, self.library = f"{room}/zone", crash_disk.library(room)
        with open(self.zone, "w") as file:
            file.write(crash_zone.TEXT)
        self.folders = self.failed = 0

    def tell(self, is_right, what):
        self.failed += not is_right
        print(("ok     " if is_right else "FAILED ") + what, flush=True)

    def folder(self):
        self.folders += 1
        os.mkdir(f"{self.room}/store{self.folders}")
        return f"{self.room}/store{self.folders}"

    def preloaded(self, folder):
        return {"LD_PRELOAD": self.library, "DISK_DIR": folder}


class Store:
    """A folder with a server over it, the updates that were sent to it, one behind the reply to the one before, and those that were answered NOERROR."""

    def __init__(self, trial, folder):
        self.trial, self.folder, self.server = trial, folder, None
        self.sent, self.answered, self.wrong, self.log = 0, set(), [], ""

    def start(self, environment=None):
        self.log = ""
        self.server = crash_server.Served(self.trial.program, self.folder, self.trial.zone, self.trial.options, environment=environment)

    def end(self):
        if self.server:
            self.server.kill()
        self.server = None

    def expect(self, is_right, what):
        if not is_right:
            self.wrong.append(what)

    def update(self, behind=MANY):
        """Sends the next update, which deletes the record of so many before: its code; none where no reply comes within ten seconds."""
        self.sent += 1
        with socket.socket(socket.AF_INET, socket.SOCK_DGRAM) as client:
            client.settimeout(10)
            client.connect(("127.0.0.1", self.server.port))
            try:
                client.send(crash_zone.update(self.sent, behind))
                code = client.recv(2000)[3] & 15
            except OSError:
                code = None
        self.log += self.server.drain()
        if code == 0:
            self.answered.add(self.sent)
        self.expect(code in (0, SERVFAIL), f"update {self.sent} is told {code}")
        return code

    def update_until(self, code, most):
        """Whether an update was told that code, of at most so many."""
        return any(self.update() == code for _ in range(most))

    def goes_on(self, faults=1):
        """Whether an update is taken in time, where so many further tries may fail."""
        end = time.monotonic() + GOES_ON * faults
        while time.monotonic() < end:
            if self.update() == 0:
                return True
            time.sleep(0.5)
        return False

    def has_told(self, name, faults, ends):
        """So many lines of the log say that updates can't be written, and so many that they are written again."""
        self.log += self.server.drain()
        told = self.log.count("store: cannot write updates: "), self.log.count("store: updates are written again")
        self.expect(told == (faults, ends), f"{name}: the log says {told[0]} times that updates can't be written, and {told[1]} that they are written again")

    def asks(self, name):
        """Queries are answered, and a transfer is the zone with what was answered, and nothing else."""
        try:
            asker = slow_disk_times.Asker(self.server.port)
            asker.query()
            serial, records = crash_zone.zone(self.server.port)
        except OSError as fault:
            self.wrong.append(f"{name}: {fault}")
            return
        there = crash_zone.numbers_of(records)
        self.expect(there == self.answered, f"{name}: missing {sorted(self.answered - there)[:5]}, too many {sorted(there - self.answered)[:5]}")
        self.expect(serial == 1 + len(there), f"{name}: serial {serial} with {len(there)} updates")

    def starts(self, name):
        """A start has all that was answered, and nothing that wasn't sent, and takes an update."""
        try:
            self.start()
        except crash_server.NotServed as fault:
            self.wrong.append(f"{name}: the start has {fault}")
            return
        serial, records = crash_zone.zone(self.server.port)
        there = crash_zone.numbers_of(records)
        lost, strange = sorted(self.answered - there), sorted(number for number in there if number > self.sent)
        self.expect(not lost and not strange, f"{name}: lost {lost[:5]}, not sent {strange[:5]}")
        self.expect(serial == 1 + len(there), f"{name}: serial {serial} with {len(there)} updates")
        self.answered = there
        self.expect(self.update() == 0, f"{name}: an update isn't taken")
        self.asks(name)
        self.end()

    def start_is_no_fault(self, name):
        """A start beside a disk's fault serves, or ends with status 3."""
        try:
            self.start()
            self.end()
        except crash_server.NotServed as fault:
            self.expect(fault.status == 3, f"{name}: the start has {fault}")

    def tell(self, name):
        self.trial.tell(not self.wrong, f"{name}: {len(self.answered)} of {self.sent} updates answered{''.join(f'; {it}' for it in self.wrong[:4])}")


def faulty(trial, store, begin, end):
    """A store that meets a fault between two calls, in front of which it has taken updates, and is started again behind it."""
    store.start()
    store.expect(not store.update_until(SERVFAIL, 30), "an update isn't taken in front of the fault")
    begin()
    store.expect(store.update_until(SERVFAIL, 2000), "no update is told SERVFAIL")
    store.asks("beside the fault")
    store.expect(not store.update_until(0, 3), "an update is taken beside the fault")
    time.sleep(0.1)
    store.has_told("beside the fault", 1, 0)
    if trial.args.goes_on and end:
        end()
        store.expect(store.goes_on(), f"no update is taken {GOES_ON} s behind the fault")
        store.expect(not store.update_until(SERVFAIL, 10), "an update isn't taken when it goes on")
        store.asks("when it goes on")
        store.has_told("when it goes on", 1, 1)
        begin()
        store.update_until(SERVFAIL, 2000)
    store.end()
    store.start_is_no_fault("beside the fault")


class Unable(Exception):
    """What this machine doesn't let a test do."""


def run(*words):
    try:
        subprocess.run(words, check=True, capture_output=True, text=True)
    except FileNotFoundError as fault:
        raise Unable(str(fault)) from fault
    except subprocess.CalledProcessError as fault:
        raise Unable(f"{' '.join(words[:3])} ..: {fault.stderr.strip()}") from fault


@contextlib.contextmanager
def mounted(folder, *words):
    run("mount", *words, folder)
    try:
        yield
    finally:
        run("umount", folder)


def full(trial):
    """A small tmpfs, filled by a file beside the store's."""
    folder = trial.folder()

    def fill():
        with open(f"{folder}/filler", "ab", buffering=0) as file, contextlib.suppress(OSError):
            while True:
                file.write(bytes(4096))

    def clear():
        os.unlink(f"{folder}/filler")

    with mounted(folder, "-t", "tmpfs", "-o", "size=64k", "tmpfs"):
        store = Store(trial, folder)
        try:
            faulty(trial, store, fill, clear)
            clear()
            store.starts("behind it")
        finally:
            store.end()
    store.tell("a full disk")


def cramped(trial):
    """A small tmpfs, which many times the octets of the zone text and the journal go through: where the journal is kept short there is always room."""
    if "--journal" not in trial.options:
        raise Unable("it wants the option --journal, as -- --journal 4K")
    folder, number = trial.folder(), 0
    store = Store(trial, folder)
    with mounted(folder, "-t", "tmpfs", "-o", "size=256k", "tmpfs"):
        try:
            store.start()
            while number < CRAMPED and not store.wrong:
                number += 1
                store.expect(store.update(CRAMPED // 20) == 0, f"update {number} isn't taken, beside {sorted(os.listdir(folder))}")
            store.end()
            store.start()
            serial, records = crash_zone.zone(store.server.port)
            wanted = set(range(number + 1 - CRAMPED // 20, number + 1))
            store.expect(serial == number + 1 and crash_zone.numbers_of(records) == wanted, f"a start has serial {serial} and {len(records)} records")
        finally:
            store.end()
    store.tell("a small disk, with a journal that is kept short")


def immutable(trial):
    """The folder and its files are made immutable, and not so again."""
    store = Store(trial, trial.folder())

    def flag(sign):
        run("chattr", "-R", f"{sign}i", store.folder)

    flag("-")
    try:
        faulty(trial, store, lambda: flag("+"), lambda: flag("-"))
    finally:
        store.end()
        flag("-")
    store.starts("behind it")
    store.tell("an immutable folder")


def aborted(trial):
    """A file system of its own, whose mount is aborted as at a fault: what wasn't synced then is gone at the next mount."""
    folder, image = trial.folder(), f"{trial.room}/image"
    with open(image, "wb") as file:
        file.truncate(8 << 20)
    run("mkfs.ext4", "-q", image)
    store = Store(trial, folder)
    for is_first in (True, False):
        with mounted(folder, "-o", "loop", image):
            try:
                if is_first:
                    faulty(trial, store, lambda: run("mount", "-o", "remount,abort", folder), None)
                else:
                    store.starts("behind it")
            finally:
                store.end()
    store.tell("a file system that is read-only behind a fault")


def burst(server, first):
    """How many of a burst's updates were told each code."""
    codes = {}
    with socket.socket(socket.AF_INET, socket.SOCK_DGRAM) as client:
        client.settimeout(10)
        client.connect(("127.0.0.1", server.port))
        for number in range(first, first + BURST):
            client.send(crash_zone.update(number, MANY))
        for _ in range(BURST):
            code = client.recv(2000)[3] & 15
            codes[code] = codes.get(code, 0) + 1
    server.drain()
    return codes


def bursts(trial):
    """Many updates at once over a disk whose sync takes 20 ms: each waits for its turn, and is taken."""
    folder = trial.folder()
    server = crash_server.Served(trial.program, folder, trial.zone, trial.options, environment={**trial.preloaded(folder), "DISK_SLOW": "20"})
    try:
        codes = [burst(server, first) for first in range(1, 1 + 10 * BURST, BURST)]
        serial, records = crash_zone.zone(server.port)
    finally:
        server.kill()
    taken, others = sum(told.pop(0, 0) for told in codes), [told for told in codes if told]
    is_right = not others and taken == 10 * BURST == serial - 1 == len(crash_zone.numbers_of(records))
    trial.tell(is_right, f"10 bursts of {BURST} updates at once, over a disk whose sync takes 20 ms: {taken} NOERROR, others {others[:3]}, serial {serial}")


def failing(trial, store, number):
    """The call of a number fails, whether it comes at the start or later."""
    folder, disk = store.folder, crash_disk.Disk(trial.library, store.folder, number)
    try:
        store.start(disk.environment(FAIL=number, COUNT=trial.args.count))
        if store.update_until(SERVFAIL, 60):
            store.asks("beside the fault")
            if trial.args.goes_on:
                store.expect(store.goes_on(trial.args.count), "no update is taken any more")
                store.asks("when it goes on")
    except crash_server.NotServed as fault:
        store.expect(fault.status == 3, f"the start has {fault}")
    store.end()
    shutil.copytree(folder, f"{folder}-same")
    for name in ("behind a power cut", "over the same folder"):
        answered, sent = set(store.answered), store.sent
        if name == "over the same folder":
            shutil.rmtree(folder)
            os.rename(f"{folder}-same", folder)
        else:
            disk.cut()
        store.starts(name)
        store.end()
        store.answered, store.sent = answered, sent
    shutil.rmtree(folder)


def faults(trial):
    """Each of the first calls fails in turn."""
    stores, wrong = [], 0
    for number in range(trial.args.first, trial.args.first + trial.args.faults):
        store = Store(trial, trial.folder())
        stores.append(store)
        try:
            failing(trial, store, number)
        finally:
            store.end()
        if store.wrong:
            wrong += 1
            store.tell(f"call {number} fails")
    refused = sum(len(store.answered) < store.sent for store in stores)
    at_start = sum(not store.sent for store in stores)
    trial.tell(
        not wrong,
        f"of {len(stores)} calls that failed in turn, {at_start} ended a start, {refused} had an update told SERVFAIL; "
        f"{sum(len(store.answered) for store in stores)} updates were answered, and each start behind it has them, but of {wrong}",
    )


def main():
    own = sys.argv[1:]
    options = own[own.index("--") + 1 :] if "--" in own else []
    parser = argparse.ArgumentParser()
    parser.add_argument("program")
    for word, number in (("seconds", 5), ("turns", 3), ("within", 5), ("records", 1000), ("faults", 40), ("first", 1), ("count", 1)):
        parser.add_argument(f"--{word}", type=int, default=number)
    parser.add_argument("--only", choices=("times", "bursts", "full", "cramped", "immutable", "aborted", "faults"))
    parser.add_argument("--goes-on", action="store_true")
    args = parser.parse_args(own[: own.index("--")] if "--" in own else own)
    with tempfile.TemporaryDirectory(prefix="slow-disk-") as room:
        trial = Trial(args, options, room)
        for part in (bursts, full, cramped, immutable, aborted, faults):
            if args.only in (None, part.__name__):
                try:
                    if part not in (bursts, faults) and os.geteuid():
                        raise Unable("it wants root")
                    part(trial)
                except Unable as reason:
                    print(f"left out: {part.__name__}: {reason}", flush=True)
        if args.only in (None, "times"):
            slow_disk_times.compared(trial, args.seconds, args.turns, args.within)
    sys.exit(1 if trial.failed else 0)


main()
