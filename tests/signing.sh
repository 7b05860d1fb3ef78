#!/usr/bin/env bash
# Tries the two configurations of contrib/ with which BIND and Knot sign the zone as secondaries: within 4 seconds of its start each answers with
# signatures, and within 4 seconds of each update with the update's, serves all that dnsd has, and has it signed whole (dnssec-verify). Each starts
# again while dnsd is stopped, and answers the same within 4 seconds. It prints a line a check and a count, and its status is 1 where one failed.
# It listens on 127.0.0.1 alone, and ends what it starts.
# Usage: [DNSD=PROGRAM] tests/signing.sh [--port N] [--updates N]
#   --port N       dnsd listens on N (by default 17403), and BIND and Knot on the two after it
#   --updates N    so many updates, by default 5
# It needs Debian's packages bind9-dnsutils, bind9-utils, bind9 and knot, and the program that `make dnsd` builds.
set -euo pipefail
cd "$(dirname "$0")/.."
program=${DNSD:-$PWD/crates/dnsd/out/dnsd}
port=17403
updates=5
while [ $# -gt 0 ]; do
    case $1 in
        --port) port=$2; shift 2 ;;
        --updates) updates=$2; shift 2 ;;
        *) echo "signing: no option $1" >&2; exit 2 ;;
    esac
done
PATH=$PATH:/usr/sbin:/sbin
. tests/asking.sh
. tests/contrib.sh
need "bind9-dnsutils, bind9-utils, bind9 and knot" dig nsupdate named knotd dnssec-verify

names="named knotd"
declare -A ports=([named]=$((port + 1)) [knotd]=$((port + 2))) waits

start_signers() {
    start_named named-signing.conf named "${ports[named]}"
    start_knotd knot-signing.conf knotd "${ports[knotd]}"
}

# Milliseconds since some time ago.
now() { date +%s%3N; }

# What a server answers with signatures: PORT NAME TYPE; for each type the number of its records.
signed() {
    dig @127.0.0.1 -p "$1" +dnssec +noall +answer +tries=1 +timeout=1 "$2" "$3" 2>/dev/null | awk 'NF && !/^;/ { count[$4]++ }
        END { for (type in count) print type, count[type] }' | LC_ALL=C sort | paste -sd' '
}

# How many milliseconds after a time the server on a port answers with one record and its signature: PORT TIME NAME TYPE. At most half a minute.
reached() {
    local want
    want=$(printf '%s\n' "$4 1" "RRSIG 1" | LC_ALL=C sort | paste -sd' ')
    while [ $(($(now) - $2)) -lt 30000 ]; do
        if [ "$(signed "$1" "$3" "$4")" = "$want" ]; then
            echo $(($(now) - $2))
            return
        fi
        sleep 0.05
    done
    echo 30000
}

# Each signer answers with a record and its signature within 4 seconds of a time: what was done, the time, NAME TYPE
answers() {
    local name took
    for name in $names; do
        reached "${ports[$name]}" "$2" "$3" "$4" >"$work/$name.reached" &
        waits[$name]=$!
    done
    for name in $names; do
        wait "${waits[$name]}"
        took=$(cat "$work/$name.reached")
        check "$name, $1: $3 $4 is signed after $took ms" yes "$([ "$took" -le 4000 ] && echo yes)"
    done
}

# All that dnsd has, but for the SOA, is in the zone of each signer, which has beside it what signs it alone, and is signed whole.
whole() {
    local name list
    for name in $names; do
        dig @127.0.0.1 -p "${ports[$name]}" +noall +answer +onesoa "$d" axfr >"$work/$name.signed" || true
        list=$(octets "${ports[$name]}" | awk '$4 !~ /^TYPE(6|46|47|48|59|60|65534)$/')
        same "$name, $1: the zone" "$(octets "$port" | awk '$4 != "TYPE6"')" "$list"
        check "$name, $1: dnssec-verify" 'Zone fully signed:' "$(dnssec-verify -z -o "$d" "$work/$name.signed" 2>&1 | grep -o 'Zone fully signed:')"
    done
}

# shellcheck disable=SC2046
serve tests/interop.zone $(for name in $names; do echo "--notify 127.0.0.1:${ports[$name]}"; done)
begun=$(now)
start_signers
answers "at the start" "$begun" "$d" SOA
answers "at the start" "$begun" "sip.$d" A
whole "at the start"
for i in $(seq "$updates"); do
    update "update add n$i.$d 3600 A 192.0.2.$i" "update delete n$((i - 1)).$d" "update add m$i.$d 3600 CAA 0 issue \"ca.example.net\""
    begun=$(now)
    answers "after update $i" "$begun" "n$i.$d" A
    answers "after update $i" "$begun" "m$i.$d" CAA
done
whole "after $updates updates"
unserve
for name in $names; do stop "$name"; done
begun=$(now)
start_signers
answers "started while dnsd is stopped" "$begun" "n$updates.$d" A
echo "$passed checks passed, $failed failed"
[ $failed -eq 0 ]
