#!/usr/bin/env bash
# Tries BIND, Knot and NSD, by the configurations of contrib/, as secondaries of a zone with a set of 200 records and a name of 120 types: each must hold
# dnsd's records, octet by octet, after the transfer in whole and after an update, which has a set and a name pass a hundred and is taken as what
# changed (RFC 1995), and the log must warn of the zone and of the update, once each. Then BIND without max-records-per-type or max-types-per-name, which refuses such a zone and such an update.
# It prints a line a check and a count, and its status is 1 where one failed. It listens on 127.0.0.1 alone, and ends what it starts.
# Usage: [DNSD=PROGRAM] tests/large_sets.sh [--port N]
#   --port N    dnsd listens on N (by default 17353), and the secondaries on the four after it
# It needs Debian's packages bind9-dnsutils, bind9, knot and nsd, and the program that `make dnsd` builds.
set -euo pipefail
cd "$(dirname "$0")/.."
program=${DNSD:-$PWD/crates/dnsd/out/dnsd}
port=17353
while [ $# -gt 0 ]; do
    case $1 in
        --port) port=$2; shift 2 ;;
        *) echo "large_sets: no option $1" >&2; exit 2 ;;
    esac
done
PATH=$PATH:/usr/sbin:/sbin
. tests/asking.sh
. tests/contrib.sh
need "bind9-dnsutils, bind9, knot and nsd" dig nsupdate named knotd nsd

# A zone where a set has so many records, and a name so many types.
zone_of() {
    printf '%s\n' "$d 3600 IN SOA ns1.$d admin.$d 1 7200 900 1209600 300" "$d 3600 IN NS ns1.$d" "ns1.$d 3600 IN A 192.0.2.1"
    for i in $(seq "$1"); do echo "set.$d 3600 IN A 198.51.100.$i"; done
    for i in $(seq "$2"); do echo "types.$d 3600 IN TYPE$((65279 + i)) \\# 0"; done
    for i in $(seq 98); do echo "grows.$d 3600 IN TXT \"$i\""; done
    for i in $(seq 98); do echo "gains.$d 3600 IN TYPE$((65279 + i)) \\# 1 aa"; done
}

# How a secondary took its last transfer, by its log: an update here has less than 30 records and 1,000 octets, the zone many more.
taken() {
    case $1 in
        named) sed -nE 's/.*Transfer completed: .* ([0-9]+) records.*/\1/p' "$work/named.log" | tail -1 | awk '{ print ($1 < 30 ? "changes" : "whole") }' ;;
        knotd) sed -nE 's/.*(AXFR|IXFR), incoming.*finished.*/\1/p' "$work/knotd.log" | tail -1 | sed 's/IXFR/changes/; s/AXFR/whole/' ;;
        nsd) sed -nE 's/.*received update to serial .* of ([0-9]+) bytes.*/\1/p' "$work/nsd.log" | tail -1 | awk '{ print ($1 < 1000 ? "changes" : "whole") }' ;;
    esac
}

# All three hold what dnsd has, with this serial, and took it so.
all_hold() {
    local want name at=$port
    want=$(octets "$port")
    for name in named knotd nsd; do
        at=$((at + 1))
        reaches $at "$1"
        same "$name, serial $1, $(wc -l <<<"$want") records octet by octet" "$want" "$(octets $at)"
        check "$name, how serial $1 came" "$2" "$(taken $name)"
    done
}

# So many lines of the log begin so, and each tells what BIND needs.
warned() {
    check "the log warns of $3" "$2" "$(grep -cE "$1.* (a set of more than 100 records|more than 100 types): BIND as a secondary takes the zone only with 'max-records-per-type 256; max-types-per-name 0;'$" "$work/dnsd.log" || true)"
}

# BIND without an option refuses the zone: the option, and why it does.
refuses_zone() {
    local name=without-$1
    start_named named.conf "$name" $((port + 4)) "/$1/d"
    for _ in $(seq 50); do
        ! grep -qs 'Transfer completed' "$work/$name.log" || break
        sleep 0.2
    done
    check "BIND without $1 refuses the zone: $2" "$2" "$(sed -nE "s/.*Transfer status: //p" "$work/$name.log" | head -1)"
    check "BIND without $1 has no zone" '' "$(serial $((port + 4)))"
    stop "$name"
}

# BIND without both holds a zone that has less, and refuses an update that makes a hundred and one: it stays at the version before.
refuses_update() {
    serve "$work/small" --notify "127.0.0.1:$((port + 4))"
    start_named named.conf without-both $((port + 4)) '/max-(records-per-type|types-per-name)/d'
    reaches $((port + 4)) 1
    check "BIND without both holds a zone with less" "$(octets "$port")" "$(octets $((port + 4)))"
    update "update add grows.$d 3600 TXT 99" "update add grows.$d 3600 TXT 100" "update add grows.$d 3600 TXT 101"
    for _ in $(seq 50); do
        ! grep -qs 'Transfer status: too many records' "$work/without-both.log" || break
        sleep 0.2
    done
    check "BIND without both refuses an update" 'too many records' "$(grep -o 'too many records$' "$work/without-both.log" | head -1)"
    check "dnsd has serial 2, and BIND without both stays at 1" '2 1' "$(serial "$port") $(serial $((port + 4)))"
    unserve
}

zone_of 200 120 >"$work/zone"
zone_of 10 10 >"$work/small"
serve "$work/zone" --notify "127.0.0.1:$((port + 1))" --notify "127.0.0.1:$((port + 2))" --notify "127.0.0.1:$((port + 3))"
start_named named.conf named $((port + 1))
start_knotd knot.conf knotd $((port + 2))
start_nsd nsd.conf nsd $((port + 3))
all_hold 1 whole
update "update add set.$d 3600 A 198.51.100.201" "update add set.$d 3600 A 198.51.100.202" "update delete set.$d A 198.51.100.1" \
    "update add types.$d 3600 TYPE65500 \\# 0" "update delete types.$d TYPE65280" \
    "update add grows.$d 3600 TXT 99" "update add grows.$d 3600 TXT 100" "update add grows.$d 3600 TXT 101" \
    "update add gains.$d 3600 TYPE65501 \\# 0" "update add gains.$d 3600 TYPE65502 \\# 0" "update add gains.$d 3600 TYPE65503 \\# 0"
all_hold 2 changes
warned '^warning: set\.' 1 "the zone"
warned '^(grows|gains)\.' 1 "an update by which owners pass a hundred"
update "update add set.$d 3600 A 198.51.100.203" "update add grows.$d 3600 TXT 102" "update add gains.$d 3600 TYPE65504 \\# 0"
all_hold 3 changes
warned '^(warning: )?(set|types|grows|gains)\.' 2 "an update to owners that have passed it (nothing further)"
refuses_zone max-records-per-type 'too many records'
refuses_zone max-types-per-name 'too many records'
unserve
refuses_update
echo "$passed checks passed, $failed failed"
[ $failed -eq 0 ]
