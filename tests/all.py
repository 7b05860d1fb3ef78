#!/usr/bin/env python3
"""All tests at once, with nothing proved: each crate with tests by `rt try --test`, which compiles it with checks of overflow, bounds and
access, as many side by side as there are processors and memory for (a crate takes some 2 GB), and beside them the tables of rows, by the
program as it compiles. It prints a line a crate and for the tables, with its seconds, what failed, and last 'N passed, N failed'; its status
is 1 where something failed. No contract is looked at: `make prove` does that. Usage: tests/all.py [NAME ..]: the crates of these names alone."""
import os
import re
import subprocess
import sys
import tempfile
import time
from concurrent.futures import ThreadPoolExecutor, as_completed

TOP = os.path.join(os.path.dirname(os.path.abspath(__file__)), "..")
# What `rt try --test` takes of the memory at most, and what it may take of the clock, in seconds, to compile and to run.
MEMORY = 2.5e9
MOST = 1200
# Crates whose tests run for minutes, though they have few lines.
LONG = {"test_changes"}


def lanes():
    """How many crates are tried side by side."""
    with open("/proc/meminfo", encoding="utf-8") as it:
        free = 1024 * int(re.search(r"MemAvailable:\s+(\d+)", it.read())[1])
    return max(1, min(len(os.sched_getaffinity(0)), int(free / MEMORY)))


def crates_with_tests():
    """The crates of crates.txt that have tests, first those whose tests are long, then those with most lines."""
    found = []
    with open(f"{TOP}/crates.txt", encoding="utf-8") as it:
        names = [line.split("#")[0].split(":")[0].split() for line in it]
    for name in (it[0] for it in names if it):
        folder, lines, has_tests = f"{TOP}/crates/{name}/src", 0, False
        for at, _, files in os.walk(folder):
            for file in files:
                with open(f"{at}/{file}", encoding="utf-8") as it:
                    text = it.read()
                lines += text.count("\n")
                has_tests |= "#[test]" in text
        if has_tests:
            found.append((name in LONG, lines, name))
    return [name for _, _, name in sorted(found, reverse=True)]


def said_by(command, folder, **more):
    """What a command printed on both outputs, and its status; one that takes too long is ended."""
    with tempfile.TemporaryFile("w+", errors="replace") as out:
        try:
            status = subprocess.run(command, cwd=folder, stdin=subprocess.DEVNULL, stdout=out, stderr=subprocess.STDOUT, timeout=MOST, **more).returncode
        except subprocess.TimeoutExpired:
            status = -1
        out.seek(0)
        return out.read(), status


def try_crate(name):
    """Compiles and runs the tests of a crate: how many passed, how many failed, and what is to be told of those."""
    said, status = said_by(["rt", "try", "--test", "--seconds", str(MOST)], f"{TOP}/crates/{name}")
    counted = re.search(r"^test result: .* (\d+) passed; (\d+) failed;", said, re.M)
    if not counted:
        return 0, 1, f"it doesn't compile, or has not ended:\n{said[-3000:]}"
    passed, failed = int(counted[1]), int(counted[2])
    if failed or status:
        return passed, max(failed, 1), said[-3000:]
    return passed, 0, ""


def try_rows(_):
    """Compiles the program and runs the tables of rows over it."""
    with tempfile.TemporaryDirectory() as room:
        said, status = said_by(["tests/compile.sh", room], TOP)
        if status:
            return 0, 1, f"dnsd doesn't compile:\n{said[-3000:]}"
        said, status = said_by(["tests/rows.sh"], TOP, env={**os.environ, "DNSD": f"{room}/dnsd", "ROW_SECONDS": "600"})
    counted = re.search(r"^(\d+) passed, (\d+) failed\Z", said.strip(), re.M)
    if not counted:
        return 0, 1, said[-3000:]
    passed, failed = int(counted[1]), int(counted[2])
    return passed, max(failed, 1) if status else failed, said[-6000:] if status else ""


def timed(call, name):
    """What a call gives, and its seconds."""
    start = time.time()
    return *call(name), time.time() - start


def main(names):
    known = crates_with_tests()
    lacking = [it for it in names if it not in known]
    if lacking:
        print(f"tests: no crate {lacking[0]} with tests", file=sys.stderr)
        return 2
    passed = failed = 0
    with ThreadPoolExecutor(lanes()) as pool:
        tasks = {} if names else {pool.submit(timed, try_rows, None): "rows of dnsd"}
        tasks |= {pool.submit(timed, try_crate, it): it for it in names or known}
        for task in as_completed(tasks):
            well, bad, told, seconds = task.result()
            print(f"{tasks[task]}: {well} passed, {bad} failed, {seconds:.0f} s", flush=True)
            if bad:
                print(f"== {tasks[task]} FAILED: {told}", flush=True)
            passed, failed = passed + well, failed + bad
    print(f"{passed} passed, {failed} failed")
    return 1 if failed else 0


if __name__ == "__main__":
    sys.exit(main(sys.argv[1:]))
