#!/usr/bin/env bash
# Lets `dnsd serve` of four workers run for a while under all at once that is hostile to it:
# - the dearest messages, updates and transfers of bench/worst.py (bench/hostile_dear.py), over sets that the zone has for them: each kind once a second, and each of
#   the seven that hold updates up for more than 20 ms once in ten seconds; what they change is undone, and they change nothing in the last minute; the zone in whole
#   once a second, of which 2,000 names have 112 labels, of half of them with the octet 1, and what changed in five to eight versions four times a second, over 24
#   connections by turns, so that each worker sends of them;
# - mutated requests over UDP and TCP (tests/mutate.c), 500 connections that send an octet a second or never read and 500 that are idle;
# - 5,000 updates a second, of which a third are refused, but for four pauses of 4 seconds in the first minute, in which what the kept versions changed is as large as
#   at the end; in the last minute one a second;
# - Knot and NSD as secondaries that follow, and a plain query 100 times a second, with a bare UDP echo beside it.
# Status 1 unless nine tenths of these updates, of a third that are refused, and of the dear ones are reached; both secondaries take what changed, and
# nothing in whole, from ten seconds into the last minute on, and hold at the end the server's zone record by record; memory and descriptors in the last minute are those of the first
# (2 in 100 and 1 MiB, and 20); no reply is one that its request doesn't allow; and in each minute the 99th percentile of the plain query's time is at most 20 ms
# above the echo's. It listens on 127.0.0.1 alone, and ends what it starts.
# Usage: [DNSD=PROGRAM] bench/hostile.sh [--minutes N] [--updates N] [--dear N] [--port N] [--seed N]
#   by default 60 minutes, 5000 updates a second, each dear kind once a second, ports 15653 to 15656, and seed 1
# It needs python3, a C compiler (`cc` or $CC), and Debian's knot, nsd and bind9-dnsutils; `ulimit -n` of 4,096. `make dnsd` builds the program.
set -euo pipefail
cd "$(dirname "$0")/.."
. bench/program.sh
. tests/secondary.sh
minutes=60
updates=5000
dear=1
port=15653
seed=1
while [ $# -gt 0 ]; do
    case $1 in
        --minutes) minutes=$2; shift 2 ;;
        --updates) updates=$2; shift 2 ;;
        --dear) dear=$2; shift 2 ;;
        --port) port=$2; shift 2 ;;
        --seed) seed=$2; shift 2 ;;
        *) echo "bench: no option $1" >&2; exit 2 ;;
    esac
done
PATH=$PATH:/usr/sbin:/sbin
for command in dig knotc knotd nsd python3 "${CC:-cc}"; do
    command -v "$command" >/dev/null || { echo "bench: no $command: it needs python3, a C compiler, and Debian's knot, nsd and bind9-dnsutils" >&2; exit 2; }
done
[ "$(ulimit -n)" -ge 4096 ] || ulimit -n 4096
started=()
trap 'kill ${started[@]+"${started[@]}"} 2>/dev/null || true; wait 2>/dev/null || true; rm -rf "$work"' EXIT
"${CC:-cc}" -O2 -o "$work/mutate" tests/mutate.c

# the zone, and the names that updates add and delete beside it
{
    echo 'example.test. 60 IN SOA ns1.example.test. admin.example.test. 1 2 2 1209600 60'
    echo 'example.test. 60 IN NS ns1.example.test.'
    echo 'ns1.example.test. 60 IN A 192.0.2.1'
    for i in $(seq 0 1999); do echo "h$i.example.test. 60 IN A 192.0.2.$((i % 256))"; done
    python3 bench/hostile_dear.py
} >"$work/zone"
# the program's own lines of the log but for those of updates, of which there are too many
"$program" serve --listen "127.0.0.1:$port" --workers 4 --allow 127.0.0.1 --notify "127.0.0.1:$((port + 1))" --notify "127.0.0.1:$((port + 2))" "$work/zone" \
    2> >(grep --line-buffered -v '^update from' >"$work/log") &
server=$!
started+=("$server")
for _ in $(seq 100); do ! grep -q '^listening on' "$work/log" || break; sleep 0.1; done
grep -q '^listening on' "$work/log" || { cat "$work/log" >&2; exit 2; }

knotd_secondary "$work/knotd" $((port + 1)) "$port"
sed -i 's/action: transfer/action: [notify, transfer]/' "$work/knotd/knotd.conf"
knotd -c "$work/knotd/knotd.conf" >"$work/knotd.log" 2>&1 &
started+=($!)
nsd_secondary "$work/nsd" "$((port + 2))" "$port" "allow-notify: 127.0.0.1 NOKEY" "store-ixfr: yes" "ixfr-number: 60" "${nsd_often[@]}"
nsd -d -c "$work/nsd.conf" >"$work/nsd.log" 2>&1 &
started+=($!)

status=0
python3 bench/hostile.py "$server" "$port" "$minutes" "$updates" "$dear" "$seed" "$work" || status=1

# the zone that a server holds, in order
held() { dig @127.0.0.1 -p "$1" +noall +answer +onesoa example.test. axfr | awk 'NF { $1 = $1; print }' | LC_ALL=C sort; }
held_by_nsd() { held $((port + 2)); }
# Knot is asked over its own socket, since it sends no set of more octets than a message has
held_by_knot() {
    knotc -s "$work/knotd/knot.sock" zone-read example.test. \
        | awk '$1 == "[example.test.]" { line = $2 " " $3 " IN"; for (i = 4; i <= NF; i++) line = line " " $i; print line }' | LC_ALL=C sort
}
for name in Knot NSD; do
    its=held_by_${name,,}
    for _ in $(seq 60); do [ "$(held "$port")" != "$($its)" ] || break; sleep 0.5; done
    if [ "$(held "$port")" = "$($its)" ]; then
        echo "$name holds the same $(held "$port" | wc -l) records"
    else
        echo "WRONG $name holds other records"
        diff <(held "$port") <($its) | cut -c1-200 | head -10 || true
        status=1
    fi
done
echo "Knot took $(grep -c 'IXFR, incoming.*finished' "$work/knotd.log" || true) transfers as what changed, $(grep -c 'AXFR, incoming.*finished' "$work/knotd.log" || true) in whole; NSD took $(grep -c 'received update to serial' "$work/nsd.log" || true)"
echo "the server's log, its last lines:"
grep -v '^listening' "$work/log" | tail -3 || true
exit $status
