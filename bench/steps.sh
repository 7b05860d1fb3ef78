#!/usr/bin/env bash
# Plays long scripts with `dnsd steps`: whole loads, requests and drops by turns; the same loads and drops a step at a time, eight under
# way; and updates, a sixth as many, each of which makes a version, beside an owner of version 0 (of a program that takes none in scripts
# it prints the line that is refused). Prints for each kind the lines and the steps on words a second of processor time (the run less one
# with no script), the peak memory without and with the script, and how many lines weren't enabled, which is to be none.
# Usage: [DNSD=PROGRAM] bench/steps.sh [LINES], by default 600000 lines a script.
set -euo pipefail
cd "$(dirname "$0")/.."
. bench/program.sh
lines=${1:-600000}
zone=zones/example.test.zone

# A script of a kind; its number of steps on words goes to a file.
script() {
    python3 - "$1" "$lines" "$work/steps" <<'PY'
import sys
kind, n, path = sys.argv[1], int(sys.argv[2]), sys.argv[3]
def name(*labels): return b"".join(bytes([len(l)]) + l for l in labels) + b"\0"
apex = name(b"example", b"test")
query = ("123401000001000000000000" + name(b"www", b"example", b"test").hex() + "00010001")
# An address at new.example.test. that is added, or the set there that is deleted (RFC 2136, 2.5.1 and 2.5.2).
head = bytes.fromhex("432128000001000000010000") + apex + bytes.fromhex("00060001") + b"\3new\xc0\x0c\0\1"
add = (head + bytes.fromhex("000100000e100004c0000207")).hex()
delete = (head + bytes.fromhex("00ff000000000000")).hex()
steps, out = 0, []
if kind == "whole":
    for i in range(n // 3):
        out += [f"load h{i % 7}", f"ask h{i % 7} {query}", f"drop h{i % 7}"]
        steps += 2
elif kind == "begun":
    for i in range(n // 32):
        out += [f"begin x{j} load h{j}" for j in range(8)] + [f"next x{j}" for j in range(8)]
        out += [f"begin x{j} drop h{j}" for j in range(8)] + [f"next x{j}" for j in range(8)]
        steps += 16
else:
    # The owner of an older version keeps slot 0. A publication probes it, and slots 1 and 2 by turns are free: 2 or 3 probes. Behind
    # them come prepare, swap, settle, load and two releases, of which but in the first update the second is followed by bury and free.
    updates = n // 6
    out = ["load old"] + [f"update {delete if i % 2 else add}" for i in range(updates)]
    steps = 1 + sum(10 + i % 2 for i in range(updates)) - 2
print("\n".join(out))
open(path, "w").write(str(steps))
PY
}

# The seconds of processor time and the peak memory in KiB of a run; its output goes to a file.
run() { /usr/bin/time -f '%U %S %M' -o "$work/cost" "$program" steps "$zone" <"$1" >"$work/out" 2>"$work/told" && cat "$work/cost"; }

: >"$work/none"
without=$(run "$work/none")
for kind in whole begun updates; do
    script "$kind" >"$work/script"
    if ! with=$(run "$work/script"); then
        printf '%-8s %s\n' "$kind" "$(head -n 1 "$work/told")"
        continue
    fi
    refused=$(grep -c '^not enabled$' "$work/out" || true)
    python3 - "$kind" "$(wc -l <"$work/script")" "$(cat "$work/steps")" "$refused" $without $with <<'PY'
import sys
kind, lines, steps, refused = sys.argv[1], *map(int, sys.argv[2:5])
u0, s0, m0, u1, s1, m1 = map(float, sys.argv[5:11])
spent = max(u1 + s1 - u0 - s0, 0.01)
print(f"{kind:8} {lines:>9,} lines  {lines / spent:>9,.0f} lines/s  {steps / spent:>9,.0f} steps/s  {m0 / 1024:6.1f} and {m1 / 1024:6.1f} MiB  {refused} not enabled")
PY
done
