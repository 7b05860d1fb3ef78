#!/usr/bin/env python3
"""What the proofs cost: the processor seconds of each crate, of its own proof, of its tests' and of its edits.
Usage: tests/gate_times.py record LOG COMMAND [WORD..]   runs the command, which proves crates (`rt ci`), and writes a line for each check
                                                         that it made to LOG; its status is the command's
       tests/gate_times.py show LOG.. [--cores N]        prints a table of the crates in these logs, dearest first, their sums, and how long
                                                         so many cores (2) need for the same checks, in the order that `rt ci` takes
A line of a log is: the crate, what was done (proof, tests, edits, or program: a proved program is compiled), processor seconds, seconds of
the clock, and when it began, in seconds from the start of the run; the last line has what the run took besides, for tests and programs as
they ran among others; a line that begins with # says something of the log. Later logs replace what earlier ones say of a crate. It reads /proc, twice a second."""
import os
import resource
import subprocess
import sys
import time

TICKS = os.sysconf("SC_CLK_TCK")
KINDS = ("proof", "tests", "edits", "program")
TOP = os.path.join(os.path.dirname(os.path.abspath(__file__)), "..")


def processes():
    """The parent and the processor seconds of each process, with those of its children that have ended."""
    found = {}
    for pid in filter(str.isdigit, os.listdir("/proc")):
        try:
            with open(f"/proc/{pid}/stat", encoding="utf-8", errors="replace") as it:
                parts = it.read().rsplit(")", 1)[1].split()
        except OSError:
            continue
        found[int(pid)] = int(parts[1]), sum(map(int, parts[11:15])) / TICKS
    return found


def words_of(pid):
    """The words that a process was started with; none where it has ended."""
    try:
        with open(f"/proc/{pid}/cmdline", encoding="utf-8", errors="replace") as it:
            return it.read().split("\0")
    except OSError:
        return []


def checked_by(words):
    """The crate that a process works on, and what it does; None for another process."""
    if "--crate-name" not in words or os.path.basename(words[0]) != "rattle":
        return None
    name = words[words.index("--crate-name") + 1]
    if "--crate-checked" in words:
        return name, "program"
    if "--test" in words:
        return name, "tests"
    return name, "edits" if words[1] == "check" and "-o" not in words else "proof"


class Checks:
    """The checks below a process: what each is, its processor seconds, and when it was seen first and last."""

    def __init__(self, top):
        self.top, self.start, self.seen = top, time.time(), {}

    def look(self):
        """Looks at the processes that there are. A check's own children belong to it."""
        now, found, below = time.time() - self.start, processes(), {}
        for pid, (parent, _) in found.items():
            below.setdefault(parent, []).append(pid)
        left = [self.top]
        while left:
            pid = left.pop()
            what = self.seen[pid][0] if pid in self.seen else checked_by(words_of(pid))
            if not what:
                left += below.get(pid, [])
                continue
            check = self.seen.setdefault(pid, [what, 0.0, now, now])
            check[1], check[3] = max(check[1], self.seconds(pid, found, below)), now

    def seconds(self, pid, found, below):
        """The processor seconds of a process and of those below it."""
        return found.get(pid, (0, 0.0))[1] + sum(self.seconds(it, found, below) for it in below.get(pid, []))


def record(log, command):
    """Runs a command and writes a line for each check that it made."""
    ran = subprocess.Popen(command)
    checks = Checks(ran.pid)
    while ran.poll() is None:
        checks.look()
        time.sleep(0.5)
    used = resource.getrusage(resource.RUSAGE_CHILDREN)
    rest = used.ru_utime + used.ru_stime - sum(it[1] for it in checks.seen.values())
    with open(log, "w", encoding="utf-8") as it:
        for what, seconds, begun, seen in checks.seen.values():
            print(*what, f"{seconds:.1f}", f"{seen - begun:.1f}", f"{begun:.1f}", file=it)
        print("besides rest", f"{max(rest, 0.0):.1f}", f"{time.time() - checks.start:.1f}", "0.0", file=it)
    return ran.returncode


def read(logs):
    """The processor seconds of each check of the logs: of a crate's proof and tests the last one's, of its edits the sum in a log."""
    found = {}
    for log in logs:
        seen = {}
        with open(log, encoding="utf-8") as it:
            for line in it:
                if line.startswith("#"):
                    continue
                name, what, seconds, _, _ = line.split()
                seen[name, what] = seen.get((name, what), 0.0) + float(seconds)
        found.update(seen)
    return found


def libraries():
    """The crates that each crate stands on, as crates.txt has them."""
    with open(f"{TOP}/crates.txt", encoding="utf-8") as it:
        lines = [line.split("#")[0].strip().split(":", 1) for line in it if ":" in line.split("#")[0]]
    names = {head.split()[0]: libs.split() for head, libs in lines}
    return {name: [it for it in libs if it in names] for name, libs in names.items()}


def schedule(found, cores):
    """How many seconds so many cores need for the checks: each once the crates below are proved, first those with most after them."""
    below = {it: [lib for lib in libs if (lib, "proof") in found] for it, libs in libraries().items()}
    waits = {key: {(lib, "proof") for lib in below.get(key[0], [])} | ({(key[0], "proof")} if key[1] in ("edits", "program") else set()) for key in found}
    # (what an earlier run proved isn't waited for)
    waits = {key: it & set(found) for key, it in waits.items()}
    after = dict.fromkeys(found, 0.0)

    def longest(key):
        """The seconds of a check and of the longest chain of others that wait for it."""
        if not after[key]:
            after[key] = found[key] + max((longest(it) for it in found if key in waits[it]), default=0.0)
        return after[key]

    left, running, done, now = sorted(found, key=longest, reverse=True), [], set(), 0.0
    while left or running:
        for key in [it for it in left if waits[it] <= done][: cores - len(running)]:
            left.remove(key)
            running.append((now + found[key], key))
        now, key = min(running)
        running.remove((now, key))
        done.add(key)
    return now


def show(logs, cores):
    """Prints the table, and returns the status."""
    found = read(logs)
    rest = found.pop(("besides", "rest"), 0.0)
    names = {name for name, _ in found}
    rows = {name: [found.get((name, what), 0.0) for what in KINDS] for name in names}
    print(f"{'crate':<20}" + "".join(f"{it:>8}" for it in KINDS) + f"{'seconds':>9}")
    for name, row in sorted(rows.items(), key=lambda it: -sum(it[1])):
        print(f"{name:<20}" + "".join(f"{it:8.0f}" for it in row) + f"{sum(row):9.0f}")
    print(f"{'besides':<52}{rest:9.0f}")
    sums = [sum(it) / 60 for it in zip(*rows.values())] or [0.0] * len(KINDS)
    print(f"{'processor minutes':<20}" + "".join(f"{it:8.1f}" for it in sums) + f"{sum(sums) + rest / 60:9.1f}")
    print(f"on {cores} cores, by these seconds: {schedule(found, cores) / 60:.0f} minutes of the clock")
    lacking = sorted(set(libraries()) - names)
    if lacking:
        print(f"not in these logs: {' '.join(lacking)}")
    return 0


def main(words):
    if len(words) > 2 and words[0] == "record":
        return record(words[1], words[2:])
    if len(words) > 1 and words[0] == "show":
        cores = int(words[words.index("--cores") + 1]) if "--cores" in words else 2
        logs = [it for at, it in enumerate(words[1:], 1) if it != "--cores" and words[at - 1] != "--cores"]
        return show(logs, cores)
    print(__doc__, file=sys.stderr)
    return 2


if __name__ == "__main__":
    sys.exit(main(sys.argv[1:]))
