#!/usr/bin/env bash
# Lets `dnsd serve` run for a while under 8 clients by UDP, 8 by TCP, one that sends nonsense and closes connections early, an updater,
# and knotd as a secondary that follows where it is installed: each reply must be of one version of the zone, that of the serial that
# it tells, and memory must stay flat; at the end the secondary must hold the same records. Status 1 where something is wrong.
# Usage: [DNSD=PROGRAM] bench/soak.sh [--seconds N] [--rate N] [--updates N] [--port N] [--without-transfers]
#   by default 600 seconds, 100 queries a second of each client, 20 updates a second, ports 15553 and 15554
# It needs python3, and Debian's knot and bind9-dnsutils for the secondary. `make dnsd` builds the program.
set -euo pipefail
cd "$(dirname "$0")/.."
. bench/program.sh
. tests/secondary.sh
seconds=600
rate=100
updates=20
port=15553
transfers=yes
while [ $# -gt 0 ]; do
    case $1 in
        --seconds) seconds=$2; shift 2 ;;
        --rate) rate=$2; shift 2 ;;
        --updates) updates=$2; shift 2 ;;
        --port) port=$2; shift 2 ;;
        --without-transfers) transfers=no; shift ;;
        *) echo "bench: no option $1" >&2; exit 2 ;;
    esac
done
PATH=$PATH:/usr/sbin:/sbin
started=()
trap 'kill ${started[@]+"${started[@]}"} 2>/dev/null || true; wait 2>/dev/null || true; rm -rf "$work"' EXIT
clients=$PWD/bench/soak.py

{
    echo "example.test. 60 IN SOA ns1.example.test. admin.example.test. 1 2 2 1209600 60"
    echo "example.test. 60 IN NS ns1.example.test."
    echo 'example.test. 60 IN TXT "1"'
    echo "ns1.example.test. 60 IN A 192.0.2.1"
    echo "alias.example.test. 60 IN CNAME t1.example.test."
    echo "v1.example.test. 60 IN A 10.0.0.1"
    for i in $(seq 0 15); do echo "t$i.example.test. 60 IN TXT \"a target\""; done
} >"$work/zone"

"$program" serve --listen "127.0.0.1:$port" --workers 20 "$work/zone" 2>"$work/log" &
server=$!
started+=("$server")
for _ in $(seq 100); do ! grep -q '^listening on' "$work/log" || break; sleep 0.1; done
grep -q '^listening on' "$work/log" || { cat "$work/log" >&2; exit 2; }

# the zone that a server holds, in order
held() { dig @127.0.0.1 -p "$1" +noall +answer +onesoa example.test. axfr | awk 'NF { $1 = $1; print }' | LC_ALL=C sort; }
second=0
if [ $transfers = yes ] && command -v knotd >/dev/null && command -v dig >/dev/null; then
    if [ "$(held "$port" | wc -l)" -gt 20 ]; then
        second=$((port + 1))
        knotd_secondary "$work/knotd" "$second" "$port"
        knotd -c "$work/knotd/knotd.conf" >"$work/knotd.log" 2>&1 &
        started+=($!)
        for _ in $(seq 100); do [ "$(held $second | wc -l)" -le 20 ] || break; sleep 0.2; done
    else
        echo "this program sends no transfers: there is no secondary"
    fi
fi

cd "$work"
status=0
python3 "$clients" "$server" "$port" "$second" "$seconds" "$rate" "$updates" || status=1
if [ "$second" != 0 ]; then
    last=$(cat last)
    for _ in $(seq 100); do ! held $second | grep -q " SOA .* $last 2 2 " || break; sleep 0.2; done
    if [ "$(held "$port")" = "$(held $second)" ] && held $second | grep -q " SOA .* $last 2 2 "; then
        echo "the secondary holds the same $(held $second | wc -l) records, at serial $last"
    else
        echo "WRONG the secondary holds other records"
        diff <(held "$port") <(held $second) | head -20 || true
        status=1
    fi
    echo "the secondary took $(grep -c 'IXFR, incoming.*finished' knotd.log || true) transfers as what changed, $(grep -c 'AXFR, incoming.*finished' knotd.log || true) in whole"
fi
exit $status
