#!/usr/bin/env bash
# Makes zones of so many records and prints what their transfers cost: a whole zone sent by `dnsd answer --tcp` (the run with the AXFR
# less the run without), the messages taken in by `dnsd apply` into a zone of an SOA and an NS, and an IXFR of 1,000 versions taken in
# by the zone itself; processor time, records or versions a second, peak memory. A reader of its own reads the messages: each is read
# to its end, the answers are counted, and the zone's SOA is the first and the last of them. What is taken in must be the zone's text.
# Usage: [DNSD=PROGRAM] bench/transfer.sh [RECORDS ..], by default 100000 1000000. `make dnsd` builds the program.
set -euo pipefail
cd "$(dirname "$0")/.."
. bench/program.sh
versions=1000

# An SOA with this serial, an NS, and hosts in canonical order.
zone() {
    python3 - "$1" "$2" <<'PY'
import sys
n, serial = int(sys.argv[1]), sys.argv[2]
print(f"example.test. 3600 IN SOA ns1.example.test. admin.example.test. {serial} 7200 900 1209600 300")
print("example.test. 3600 IN NS ns1.example.test.")
for i in range(n - 2):
    print(f"host{i:07d}.example.test. 3600 IN A 198.51.100.{i % 256}")
PY
}

# The messages of an IXFR from serial 1: by turns a version without the first host, and one with it again.
changes() {
    python3 - "$1" <<'PY'
import sys
n = int(sys.argv[1])
def name(*labels): return b"".join(bytes([len(l)]) + l for l in labels) + b"\0"
apex = name(b"example", b"test")
def record(owner, rtype, data): return owner + rtype.to_bytes(2, "big") + b"\0\1" + (3600).to_bytes(4, "big") + len(data).to_bytes(2, "big") + data
def soa(serial):
    numbers = b"".join(k.to_bytes(4, "big") for k in (serial, 7200, 900, 1209600, 300))
    return record(apex, 6, name(b"ns1", b"example", b"test") + name(b"admin", b"example", b"test") + numbers)
host = record(name(b"host0000000", b"example", b"test"), 1, b"\xc6\x33\x64\0")
records = [soa(n + 1)]
for i in range(1, n + 1):
    taken, put = ([host], []) if i % 2 else ([], [host])
    records += [soa(i), *taken, soa(i + 1), *put]
records.append(soa(n + 1))
part, size = [], 0
def tell():
    print((bytes.fromhex("123484000000") + len(part).to_bytes(2, "big") + bytes(4) + b"".join(part)).hex())
for r in records:
    if size + len(r) > 16000:
        tell()
        part, size = [], 0
    part.append(r)
    size += len(r)
tell()
PY
}

# Reads the messages on one line, and prints how many there are, how many answers they have, and whether they begin and end by an SOA.
read_messages() {
    python3 - "$1" <<'PY'
import sys
def pass_name(m, at):
    while True:
        length = m[at]
        if length >= 0xc0: return at + 2
        if length == 0: return at + 1
        at += 1 + length
messages, types = 0, []
for message in open(sys.argv[1]).read().split():
    m = bytes.fromhex(message)
    questions, answers = m[4] * 256 + m[5], m[6] * 256 + m[7]
    at = 12
    for _ in range(questions): at = pass_name(m, at) + 4
    for _ in range(answers):
        at = pass_name(m, at)
        types.append(m[at] * 256 + m[at + 1])
        at += 10 + m[at + 8] * 256 + m[at + 9]
    if at != len(m) or len(m) > 16384: sys.exit("transfer: a message of %d octets ends at %d" % (len(m), at))
    messages += 1
print(messages, len(types), "yes" if types[0] == types[-1] == 6 and 6 not in types[1:-1] else "no")
PY
}

# The seconds of processor time and the peak memory in KiB of a run of the program on a file; its output goes to another.
run() {
    local input=$1 output=$2
    shift 2
    /usr/bin/time -f '%U %S %M' -o "$work/cost" "$program" "$@" <"$input" >"$output"
    cat "$work/cost"
}

# Prints the difference of two runs: what is done, how much of it, and their costs.
tell() {
    python3 - "$@" <<'PY'
import sys
what, unit, count = sys.argv[1], sys.argv[2], int(sys.argv[3])
u0, s0, m0, u1, s1, m1 = map(float, sys.argv[4:10])
spent = max(u1 + s1 - u0 - s0, 0.001)
print(f"  {what:34} {spent:7.2f} s {count / spent:11,.0f} {unit}/s  {m0 / 1024:6.1f} and {m1 / 1024:6.1f} MiB")
PY
}

: >"$work/none"
echo 123400000001000000000000076578616d706c6504746573740000fc0001 >"$work/axfr"
changes "$versions" >"$work/changes"
[ $# -gt 0 ] || set -- 100000 1000000
for records in "$@"; do
    zone "$records" 1 >"$work/zone"
    zone 2 7 >"$work/small"
    without=$(run "$work/none" "$work/out" answer --tcp "$work/zone")
    with=$(run "$work/axfr" "$work/out" answer --tcp "$work/zone")
    read -r messages answers closed < <(read_messages "$work/out")
    [ "$answers $closed" = "$((records + 1)) yes" ] || { echo "transfer: $answers answers, closed by an SOA: $closed" >&2; exit 1; }
    echo "$records records, $messages messages"
    tell "sent in whole" records "$records" $without $with

    tr ' ' '\n' <"$work/out" >"$work/messages"
    "$program" check "$work/zone" >"$work/text"
    without=$(run "$work/none" "$work/out" check "$work/small")
    with=$(run "$work/messages" "$work/out" apply "$work/small")
    cmp -s "$work/text" "$work/out" || { echo "transfer: what is taken in isn't the zone" >&2; exit 1; }
    tell "taken in, and printed" records "$records" $without $with

    without=$(run "$work/none" "$work/text" check "$work/zone")
    with=$(run "$work/changes" "$work/out" apply "$work/zone")
    sed -i "1,2s/ 1 7200/ $((versions + 1)) 7200/" "$work/text"
    cmp -s "$work/text" "$work/out" || { echo "transfer: what the versions make isn't the zone" >&2; exit 1; }
    tell "$versions versions taken in" versions "$versions" $without $with
done
