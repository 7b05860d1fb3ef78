#!/usr/bin/env bash
# Makes zones of so many records and sends updates to `dnsd answer`, each of which adds an address at a new name or deletes one that was
# added; each makes a version of its own. Prints updates a second, the time of one (the run with the updates less the run without), and the
# peak memory of both runs.
# Usage: [DNSD=PROGRAM] [UPDATES=N] bench/update.sh [RECORDS ..], by default 100000 updates and 1000 100000 900000 records (a zone of 1,000,000 takes no more).
set -euo pipefail
cd "$(dirname "$0")/.."
. bench/program.sh
updates=${UPDATES:-100000}

# An SOA, an NS, and hosts in canonical order.
zone() {
    python3 - "$1" <<'PY'
import sys
n = int(sys.argv[1])
print("example.test. 3600 IN SOA ns1.example.test. admin.example.test. 1 7200 900 1209600 300")
print("example.test. 3600 IN NS ns1.example.test.")
for i in range(n - 2):
    print(f"host{i:07d}.example.test. 3600 IN A 198.51.100.{i % 256}")
PY
}

# By turns: an address at a new name somewhere in the zone, and the address that was added four lines before it deleted.
requests() {
    python3 - "$1" "$2" <<'PY'
import sys
records, n = int(sys.argv[1]), int(sys.argv[2])
def name(*labels): return b"".join(bytes([len(l)]) + l for l in labels) + b"\0"
apex = name(b"example", b"test")
def message(owner, cls, ttl):
    head = bytes.fromhex("4321280000010000000100") + b"\0"
    record = owner + (1).to_bytes(2, "big") + cls.to_bytes(2, "big") + ttl.to_bytes(4, "big") + b"\0\4\xc0\0\2\1"
    return (head + apex + bytes.fromhex("00060001") + record).hex()
def owner(i): return name(b"dhcp%d" % (i * 7919 % 1000003), b"host%07d" % (i * 104729 % max(records, 1)), b"example", b"test")
for i in range(n // 2):
    print(message(owner(i), 1, 3600))
    print(message(owner(i - 2), 254, 0) if i >= 2 else message(owner(i), 1, 60))
PY
}

# The seconds of processor time and the peak memory in KiB of a run; its output goes to a file.
run() { /usr/bin/time -f '%U %S %M' -o "$work/cost" "$program" answer "$work/zone" <"$1" >"$work/out"; cat "$work/cost"; }

[ $# -gt 0 ] || set -- 1000 100000 900000
for records in "$@"; do
    zone "$records" >"$work/zone"
    requests "$records" "$updates" >"$work/requests"
    : >"$work/none"
    without=$(run "$work/none")
    with=$(run "$work/requests")
    refused=$(grep -vc '^4321a8000000000000000000$' "$work/out" || true)
    python3 - "$records" "$updates" "$refused" $without $with <<'PY'
import sys
records, updates, refused = map(int, sys.argv[1:4])
u0, s0, m0, u1, s1, m1 = map(float, sys.argv[4:10])
spent = u1 + s1 - u0 - s0
print(f"{records:>9,} records  {updates / spent:>9,.0f} updates/s  {spent / updates * 1e6:6.1f} us an update  {m0 / 1024:6.1f} and {m1 / 1024:6.1f} MiB  {refused} refused")
PY
done
