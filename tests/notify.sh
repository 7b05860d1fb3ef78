#!/usr/bin/env bash
# Tries `dnsd serve --notify` with BIND, Knot and NSD as secondaries of a zone whose refresh is two hours: they must hold the last of a
# hundred updates within two seconds of it, record by record; with every second NOTIFY lost within four; and each that is stopped in
# between, and started again, within four seconds of its own start (RFC 1996). It prints a line a check and a count, and its status is 1 where one failed.
# It listens on 127.0.0.1 alone, and ends what it starts.
# Usage: [DNSD=PROGRAM] tests/notify.sh [--port N] [--updates N]
#   --port N       dnsd listens on N (by default 16353), and the secondaries and what stands between on the eight behind it
#   --updates N    so many updates, by default 100
# It needs python3, Debian's packages bind9-dnsutils, bind9, knot and nsd, and the program that `make dnsd` builds.
set -euo pipefail
cd "$(dirname "$0")/.."
. tests/secondary.sh
program=${DNSD:-$PWD/crates/dnsd/out/dnsd}
port=16353
updates=100
while [ $# -gt 0 ]; do
    case $1 in
        --port) port=$2; shift 2 ;;
        --updates) updates=$2; shift 2 ;;
        *) echo "notify: no option $1" >&2; exit 2 ;;
    esac
done
[ -x "$program" ] || { echo "notify: no program at $program: run make dnsd first" >&2; exit 2; }
PATH=$PATH:/usr/sbin:/sbin
for command in dig nsupdate named knotd nsd python3; do
    command -v "$command" >/dev/null || {
        echo "notify: no $command: it needs python3, and Debian's bind9-dnsutils, bind9, knot and nsd" >&2
        exit 2
    }
done

. tests/asking.sh

names="named knotd nsd"
declare -A ports between
at=$port
for name in $names; do
    at=$((at + 1)); ports[$name]=$at
    at=$((at + 1)); between[$name]=$at
done

# BIND, Knot and NSD as secondaries: each on its port, in a folder of its own, told by 127.0.0.1.
start_named() {
    mkdir -p "$work/named"
    cat >"$work/named.conf" <<end
options {
    directory "$work/named"; pid-file none; session-keyfile none;
    listen-on port ${ports[named]} { 127.0.0.1; }; listen-on-v6 { none; };
    recursion no; notify no; dnssec-validation no; allow-transfer { 127.0.0.1; };
};
controls { };
zone "example.test" { type secondary; primaries port $port { 127.0.0.1; }; file "zone"; masterfile-format text; };
end
    named -g -n 1 -c "$work/named.conf" >>"$work/named.log" 2>&1 &
    pids[named]=$!
    started+=($!)
}

start_knotd() {
    mkdir -p "$work/knotd"
    cat >"$work/knotd.conf" <<end
server:
    rundir: "$work/knotd"
    listen: 127.0.0.1@${ports[knotd]}
    udp-workers: 1
    tcp-workers: 1
database:
    storage: "$work/knotd"
remote:
  - id: primary
    address: 127.0.0.1@$port
acl:
  - id: primary
    address: 127.0.0.1
    action: [notify, transfer]
zone:
  - domain: example.test.
    storage: "$work/knotd"
    file: zone
    zonefile-sync: -1
    master: primary
    acl: primary
log:
  - target: stderr
    any: info
end
    knotd -c "$work/knotd.conf" >>"$work/knotd.log" 2>&1 &
    pids[knotd]=$!
    started+=($!)
}

start_nsd() {
    nsd_secondary "$work/nsd" "${ports[nsd]}" "$port" "allow-notify: 127.0.0.1 NOKEY"
    nsd -d -c "$work/nsd.conf" >>"$work/nsd.log" 2>&1 &
    pids[nsd]=$!
    started+=($!)
}

# The serial that a server on a port has; none where it doesn't answer.
serial() {
    dig @127.0.0.1 -p "$1" +short +tries=1 +timeout=1 "$d" SOA 2>/dev/null | awk '{ print $3 }'
}

# All records that a server on a port has, in order.
records() {
    dig @127.0.0.1 -p "$1" +noall +answer +onesoa "$d" AXFR 2>/dev/null | awk '{ $1 = $1; print }' | LC_ALL=C sort
}

# Milliseconds since some time ago.
now() { date +%s%3N; }

# Waits until a server has a serial or a greater one, and tells how long after a time that was: PORT SERIAL SINCE. At most half a minute.
reached() {
    local began held
    began=$(now)
    while [ $(($(now) - began)) -lt 30000 ]; do
        held=$(serial "$1")
        if [ "${held:-0}" -ge "$2" ]; then
            echo $(($(now) - $3))
            return
        fi
        sleep 0.05
    done
    echo never
}

# Whether a time is at most another one.
within() { [ "$1" != never ] && [ "$1" -le "$2" ] && echo yes || echo "no: $1 ms"; }

# Updates, one every 300 ms, each of an address; the time of the last is in `last`.
update_all() {
    local first=$1 i
    for i in $(seq "$first" $((first + updates - 1))); do
        printf 'server 127.0.0.1 %s\nzone %s\nupdate add n%s.%s 60 A 192.0.2.%s\nsend\n' "$port" "$d" "$i" "$d" $((i % 250 + 1)) | nsupdate
        [ "$i" != "$((first + updates - 1))" ] || last=$(now)
        sleep 0.3
    done
}

# How many transfers in whole a secondary has had, by its log: those of as many records or octets as the first, which was one.
whole() {
    case $1 in
        named) sed -nE 's/.*Transfer completed: .* ([0-9]+) records.*/\1/p' "$work/named.log" ;;
        knotd) sed -nE 's/.*AXFR, incoming.*finished.*/1/p' "$work/knotd.log" ;;
        nsd) sed -nE 's/.*received update to serial .* of ([0-9]+) bytes.*/\1/p' "$work/nsd.log" ;;
    esac | awk 'NR == 1 { first = $1 } $1 >= first { count++ } END { print count + 0 }'
}

# All secondaries have a serial in so many milliseconds after the last update, and the server's records.
all_hold() {
    local name want
    for name in $names; do
        (reached "${ports[$name]}" "$2" "$last" >"$work/reached.$name") &
        waits[$name]=$!
    done
    for name in $names; do wait "${waits[$name]}"; done
    want=$(records "$port")
    for name in $names; do
        echo "       $name: $(cat "$work/reached.$name") ms after the last update"
        check "$name, $1, in $3 ms" yes "$(within "$(cat "$work/reached.$name")" "$3")"
        check "$name, $1, record by record" "$want" "$(records "${ports[$name]}")"
    done
}

# And they took only what changed.
by_changes() {
    local name
    for name in $names; do check "$name, $1, by what changed alone" "${wholes[$name]}" "$(whole "$name")"; done
}

declare -A pids waits wholes
sed -E 's/^(.*SOA[[:space:]].*[[:space:]])([0-9]+)[[:space:]]+[0-9]+[[:space:]]+[0-9]+[[:space:]]+([0-9]+)[[:space:]]+([0-9]+)[[:space:]]*$/\1\2 7200 900 \3 \4/' tests/interop.zone >"$work/zone"
grep -q ' 7200 900 ' "$work/zone" || { echo "notify: no SOA on one line in tests/interop.zone" >&2; exit 2; }

told() { for name in $names; do echo "--notify 127.0.0.1:${ports[$name]}"; done; }
# shellcheck disable=SC2046
serve "$work/zone" $(told)
for name in $names; do "start_$name"; done
for name in $names; do
    last=$(now)
    check "$name, the first zone" yes "$(within "$(reached "${ports[$name]}" 1 "$last")" 30000)"
done
for name in $names; do wholes[$name]=$(whole "$name"); done
update_all 1
all_hold "all told" $((updates + 1)) 2000
by_changes "all told"

# each is stopped, and started again while updates go on
for name in $names; do kill "${pids[$name]}"; done
for name in $names; do wait "${pids[$name]}" 2>/dev/null || true; done
all=$updates
updates=30
(update_all $((all + 1)); echo "$last" >"$work/last") &
updating=$!
while [ "$(serial "$port")" -lt $((all + 11)) ]; do sleep 0.1; done
for name in $names; do
    want=$(serial "$port")
    last=$(now)
    "start_$name"
    check "$name, started again, in 4000 ms" yes "$(within "$(reached "${ports[$name]}" "$want" "$last")" 4000)"
done
wait "$updating"
last=$(cat "$work/last")
updates=$all
all_hold "started again" $((all + 31)) 2000
unserve

# the same with every second NOTIFY lost
for name in $names; do
    python3 tests/dropping.py "${between[$name]}" "${ports[$name]}" "$work/$name.dropped" &
    started+=($!)
done
for name in $names; do kill "${pids[$name]}"; done
for name in $names; do wait "${pids[$name]}" 2>/dev/null || true; rm -rf "$work/$name"; done
told() { for name in $names; do echo "--notify 127.0.0.1:${between[$name]}"; done; }
# shellcheck disable=SC2046
serve "$work/zone" $(told)
for name in $names; do "start_$name"; done
for name in $names; do
    last=$(now)
    check "$name, the first zone again" yes "$(within "$(reached "${ports[$name]}" 1 "$last")" 30000)"
done
for name in $names; do wholes[$name]=$(whole "$name"); done
update_all 1
all_hold "every second NOTIFY lost" $((updates + 1)) 4000
by_changes "every second NOTIFY lost"
for name in $names; do
    echo "       $name: $(grep -c passed "$work/$name.dropped") passed, $(grep -c dropped "$work/$name.dropped") dropped"
done
sed 's/^/       dnsd: /' "$work/dnsd.log" | tail -5
echo "$passed passed, $failed failed"
[ "$failed" = 0 ]
