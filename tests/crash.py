#!/usr/bin/env python3
"""Kills a server whose updates last, at a random moment while updates come at full rate, and starts it again, so many times. After each start the zone has every
update that was answered NOERROR, and none that wasn't sent; its serial has gone up by one for each update that it has, and no zone texts are left over. In a third of the
times so few updates come that the serial that was held before the kill is at most as far back as versions are kept: then a transfer of what changed since has to come as
that, over TCP, and whatever comes has to make the zone in whole of what was held (RFC 1995). In a quarter of the times updates come by TCP, else by UDP. A new folder is
begun each few times; `-- --journal 20000` has its journal begun anew many times before.
  --disk         the folder is left as a power cut could have left it, by tests/crash_disk.py: of what wasn't synced, whatever chance keeps. In half of the times the server
                 is killed in front of one of its calls to the disk, also while it starts, and in an eighth a call fails. No other start may end by itself
  --secondaries  NSD and BIND follow the server, by NOTIFY and by refreshes of two seconds. In each round both hold the serial, then at most as many updates come as
                 versions are kept, and the server is killed and started again on its port: both have to reach the new serial, and never by a transfer in whole; at the end
                 they hold the zone record by record
Usage: tests/crash.py PROGRAM [--disk] [--secondaries] [--times N] [--seed N] [--outstanding N] [--anew N] [--port N] [--save DIR] [-- OPTION ..], by default 1,000 times, 32
updates outstanding, a new folder each 20 times; of secondaries 100 times in one folder, ports 15853 to 15855, and no round is begun behind five minutes. The options are given
to `serve`. It prints a line each hundred times, and its status is 1 where something is lost, or there that wasn't sent, or another check failed; DIR then gets a copy of the
folder as the start found it. It needs Linux and python3; --disk a C compiler, `cc` or $CC; --secondaries bash and Debian's nsd and bind9. A thousand times take some four
minutes of two processors."""
import argparse
import os
import random
import shutil
import signal
import sys
import tempfile
import time

import crash_disk
import crash_secondaries
import crash_server
import crash_zone

KEPT = 8
# the store's own, the one before, and the next one while it is written
TEXTS = 3
CONNECTIONS = 16
# with which status a start ends that is killed, or meets a fault of the disk
MEANT = {"END": -signal.SIGKILL, "FAIL": 3}


class NoStart(Exception):
    """A folder that no server starts with."""


class Trial:
    """A server that is killed and started again, what is known of its zone, and how many checks failed."""

    def __init__(self, args, options, room):
        self.args, self.options, self.room = args, options, room
        self.chance = random.Random(args.seed)
        self.keep = int(options[options.index("--keep") + 1]) if "--keep" in options else KEPT
        self.zone = f"{room}/zone"
        with open(self.zone, "w") as file:
            file.write(crash_zone.TEXT)
        self.library = crash_disk.library(room) if args.disk else None
        self.server = self.disk = self.folder = None
        self.total = self.wrong = self.starts = self.changed = self.others = 0

    def tell(self, text):
        self.wrong += 1
        print(f"crash: start {self.starts}: {text}", flush=True)
        if self.args.save and os.path.exists(f"{self.room}/found"):
            shutil.copytree(f"{self.room}/found", f"{self.args.save}/start{self.starts}", dirs_exist_ok=True)

    def told(self):
        others = f", {self.others} of folders other than they were left" if self.disk else ""
        return f"{self.total} updates answered NOERROR, {self.starts} starts{others}, {self.changed} transfers of what changed, {self.wrong} wrong"

    def begin(self, number, is_calm=False):
        """A new folder, with nothing in it."""
        self.end()
        if self.folder:
            shutil.rmtree(self.folder)
        self.folder = f"{self.room}/store{number}"
        os.mkdir(self.folder)
        self.disk = crash_disk.Disk(self.library, self.folder, self.chance.random()) if self.args.disk else None
        self.next, self.held = 1, None
        self.held = self.start(is_calm)

    def end(self):
        if self.server is not None:
            self.server.kill()
        self.server = None

    def faults(self):
        """What the library does to the next server: in half of the times it is killed in front of one of its calls, in an eighth some of these fail."""
        call, way = self.chance.choice((self.chance.randint(1, 40), self.chance.randint(1, 400))), self.chance.random()
        return {"END": call} if way < 0.5 else {"FAIL": call, "COUNT": self.chance.randint(1, 3)} if way < 0.625 else {}

    def start(self, is_calm=False):
        """Starts the server, and again where a kill that was meant came in it, which comes in no calm start: the serial and the records that it has."""
        while True:
            faults = {}
            if self.disk:
                self.others += self.disk.cut()
                if not is_calm:
                    faults = self.faults()
            if self.args.save:
                shutil.rmtree(f"{self.room}/found", ignore_errors=True)
                shutil.copytree(self.folder, f"{self.room}/found")
            environment = self.disk.environment(**faults) if self.disk else None
            self.starts += 1
            try:
                self.server = crash_server.Served(self.args.program, self.folder, self.zone, self.options, self.args.port, environment)
                return crash_zone.zone(self.server.port)
            except (crash_server.NotServed, OSError) as fault:
                status = getattr(fault, "status", None) or self.server.was_killed() and -signal.SIGKILL
                self.end()
                if status not in [MEANT[word] for word in faults if word in MEANT]:
                    self.tell(f"the server doesn't serve: {fault}")
                    raise NoStart from fault
                is_calm = True

    def round(self, longest=0.002):
        """Updates come, the server is killed and started again, and has what was answered."""
        few = self.args.secondaries or self.chance.random() < 1 / 3
        moment = self.chance.uniform(0.0, longest if few else 0.15)
        first = self.next
        connections = CONNECTIONS if self.chance.random() < 1 / 4 else 0
        sender = crash_server.Sender(self.server.port, first, self.args.outstanding, self.keep if few else None, connections)
        self.next, answered, status = crash_server.sent_until_killed(self.server, sender, moment)
        self.server = None
        if status is not None and not (self.disk and status == -signal.SIGKILL):
            self.tell(f"the server ended by itself, with status {status}")
        self.total += len(answered)
        now = self.start()
        self.check(first, answered, now)
        self.check_changes(now)
        self.held = now

    def check(self, first, answered, now):
        """All that was answered is there, and of the records that were there before; the serial has gone up for each update that was taken."""
        before, there = crash_zone.numbers_of(self.held[1]), crash_zone.numbers_of(now[1])
        made, sent = now[0] - self.held[0], self.next - first
        lost = sorted(n for n in answered | before if n not in there and n + crash_zone.BEHIND >= self.next)
        strange = sorted(n for n in there if n not in before and not first <= n < self.next)
        if lost or strange or not len(answered) <= made <= sent:
            self.tell(f"lost {lost[:5]}, not sent {strange[:5]}, {made} versions of {len(answered)} answered and {sent} sent")
        texts = sorted(name for name in os.listdir(self.folder) if name.startswith("zone-"))
        if len(texts) > TEXTS:
            self.tell(f"the folder has {len(texts)} zone texts: {texts}")

    def check_changes(self, now):
        """What changed since the serial that was held is told as that where its version is kept, and gives the zone."""
        try:
            records = crash_zone.transfer(self.server.port, self.held[0])
            whole = crash_zone.is_whole(records)
            got = crash_zone.applied(self.held, records)
        except (OSError, ValueError) as fault:
            if not (self.disk and self.server.was_killed()):
                self.tell(f"what changed since {self.held[0]}: {fault}")
            return
        back = now[0] - self.held[0]
        self.changed += not whole
        if got != now or back <= self.keep and whole:
            self.tell(f"what changed since {self.held[0]}, {back} versions back, {'in whole, ' if whole else ''}gives {'the zone' if got == now else 'another zone'}")


def plain(trial, times, anew):
    is_broken = False
    for number in range(times):
        try:
            if number % anew == 0 or is_broken:
                trial.begin(number)
            trial.round()
            is_broken = False
        except NoStart:
            is_broken = True
        if (number + 1) % 100 == 0 or number + 1 == times:
            print(f"{number + 1} times: {trial.told()}", flush=True)


def main():
    own = sys.argv[1:]
    options = own[own.index("--") + 1 :] if "--" in own else []
    parser = argparse.ArgumentParser()
    parser.add_argument("program")
    parser.add_argument("--disk", action="store_true")
    parser.add_argument("--secondaries", action="store_true")
    parser.add_argument("--times", type=int)
    for word, number in (("seed", 1), ("outstanding", 32), ("anew", 20), ("port", 0)):
        parser.add_argument(f"--{word}", type=int, default=number)
    parser.add_argument("--save")
    args = parser.parse_args(own[: own.index("--")] if "--" in own else own)
    if args.secondaries:
        args.port = args.port or 15853
    began = time.monotonic()
    with tempfile.TemporaryDirectory(prefix="crash-") as room:
        trial = Trial(args, options, room)
        try:
            if args.secondaries:
                crash_secondaries.followed(trial, args.times or 100)
            else:
                plain(trial, args.times or 1000, args.anew)
        finally:
            trial.end()
    print(f"crash: seed {args.seed}, {time.monotonic() - began:.0f} s: {trial.told()}")
    sys.exit(1 if trial.wrong else 0)


if __name__ == "__main__":
    main()
