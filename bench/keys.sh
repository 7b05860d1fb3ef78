#!/usr/bin/env bash
# Measures what signatures (TSIG, RFC 8945) cost `dnsd serve --keys`, beside BIND's named and Knot's knotd, by turns in one run, with one worker and one zone: processor
# time of the server a query over UDP (dnsperf), an update over UDP (dnsperf -u; each server keeps it in its store or journal on the same disk), and a whole transfer
# (dig and kdig, which verify it, and their time); each not signed, signed by a key of hmac-sha256, and by one of hmac-sha512. Each figure is the middle of all rounds. Then
# of dnsd alone: the part of SHA-2 in its time for queries and for updates signed by hmac-sha256 and by hmac-sha512, by perf, of the user's time and in whole.
# Usage: [DNSD=PROGRAM] bench/keys.sh [--rounds N] [--seconds N] [--port N] [--only queries|updates|transfers|shares] [RECORDS], by default 5 rounds, 2 seconds a figure, port 15963, and a zone of 100000 records
# With TMPDIR on a file system in memory nothing waits for the disk. It needs Debian's dnsperf, bind9, bind9-dnsutils, knot and knot-dnsutils, and linux-perf for the shares. `make dnsd` builds the program.
set -euo pipefail
cd "$(dirname "$0")/.."
. bench/program.sh
. bench/servers.sh
rounds=5
seconds=2
port=15963
only=
records=100000
while [ $# -gt 0 ]; do
    case $1 in
        --rounds) rounds=$2; shift 2 ;;
        --seconds) seconds=$2; shift 2 ;;
        --port) port=$2; shift 2 ;;
        --only) only=$2; shift 2 ;;
        *) records=$1; shift ;;
    esac
done
for command in dnsperf named knotd dig kdig; do
    command -v "$command" >/dev/null || { echo "bench: no $command: it needs Debian's dnsperf, bind9, bind9-dnsutils, knot and knot-dnsutils" >&2; exit 2; }
done

secret=AAECAwQFBgcICQoLDA0ODxAREhMUFRYXGBkaGxwdHh8=
declare -A key=([plain]= [sha256]=hmac-sha256:k1.key:$secret [sha512]=hmac-sha512:k2.key:$secret)
kinds="plain sha256 sha512"

start_signed_dnsd() {
    rm -rf "$work/store"
    mkdir "$work/store"
    start_dnsd 1 --store "$work/store" --journal 1G --keys "$work/keys" --may '127.0.0.1: update, transfer' --may 'key k1.key: update, transfer' --may 'key k2.key: update, transfer'
}

start_signed_named() {
    rm -rf "$work/named"
    mkdir "$work/named"
    cp "$work/zone" "$work/named/zone"
    cat >"$work/named.conf" <<end
options { directory "$work/named"; pid-file none; session-keyfile none; listen-on port $port { 127.0.0.1; }; listen-on-v6 { none; };
    recursion no; notify no; dnssec-validation no; };
logging { category default { null; }; };
controls { };
key "k1.key" { algorithm hmac-sha256; secret "$secret"; };
key "k2.key" { algorithm hmac-sha512; secret "$secret"; };
zone "example.test" { type primary; file "zone"; allow-update { key k1.key; key k2.key; 127.0.0.1; }; allow-transfer { key k1.key; key k2.key; 127.0.0.1; }; };
end
    named -f -n 1 -c "$work/named.conf" >"$work/log" 2>&1 &
    server=$!
}

start_signed_knotd() {
    rm -rf "$work/knotd"
    mkdir "$work/knotd"
    cp "$work/zone" "$work/knotd/zone"
    cat >"$work/knotd.conf" <<end
server:
    rundir: "$work/knotd"
    listen: 127.0.0.1@$port
    udp-workers: 1
    tcp-workers: 1
    background-workers: 1
database:
    storage: "$work/knotd"
key:
  - id: k1.key.
    algorithm: hmac-sha256
    secret: $secret
  - id: k2.key.
    algorithm: hmac-sha512
    secret: $secret
acl:
  - id: keys
    key: [ k1.key., k2.key. ]
    action: [ query, update, transfer ]
  - id: here
    address: 127.0.0.1
    action: [ query, update, transfer ]
zone:
  - domain: example.test.
    storage: "$work/knotd"
    file: zone
    zonefile-sync: -1
    acl: [ keys, here ]
log:
  - target: stderr
    any: error
end
    knotd -c "$work/knotd.conf" >"$work/log" 2>&1 &
    server=$!
}

# Nanoseconds that all threads of the server have run (Linux).
ran() { cat "/proc/$server/task/"*/schedstat | awk '{ t += $1 } END { printf "%.0f", t }'; }

# Updates for dnsperf: each adds an address at a name of its own, or deletes the one that was added forty before.
updates() {
    awk -v from="$1" 'BEGIN {
        for (i = from; i < from + 100000; i++) {
            printf "example.test\nadd u%d 60 A 192.0.2.1\nsend\n", i
            if (i >= from + 40) printf "example.test\ndelete u%d A\nsend\n", i - 40
        }
    }'
}

# Prints what a run of dnsperf took of the server's processor time, in microseconds for each that was done: WHAT NAME KIND [OPTION ..]
one_run() {
    local what=$1 name=$2 kind=$3 before after done rate
    shift 3
    before=$(ran)
    dnsperf -s 127.0.0.1 -p "$port" -l "$seconds" -c 10 -T 1 -q 50 ${key[$kind]:+-y "${key[$kind]}"} "$@" >"$work/told" 2>/dev/null
    after=$(ran)
    read -r done rate < <(awk '/(Queries|Updates) completed:/ { done = $3 } /(Queries|Updates) per second:/ { print done, $4 }' "$work/told")
    if grep 'codes:' "$work/told" | grep -qE 'REFUSED|NOTAUTH|SERVFAIL|FORMERR'; then echo "bench: $name, $what, $kind: $(grep codes: "$work/told")" >&2; fi
    awk -v t=$((after - before)) -v n="$done" -v r="$rate" 'BEGIN { printf "%.2f %d\n", t / 1000 / (n ? n : 1), r }' >>"$work/$what.$name.$kind"
}

# A transfer by dig and by kdig, five each: milliseconds of the server's processor time a transfer, and of the clock, that of the tool in it.
one_transfer() {
    local name=$1 kind=$2 tool before began
    for tool in dig kdig; do
        before=$(ran)
        began=$(date +%s%N)
        for _ in 1 2 3 4 5; do "$tool" @127.0.0.1 -p "$port" ${key[$kind]:+-y "${key[$kind]}"} example.test axfr >"$work/told" 2>&1 || true; done
        awk -v t=$(($(ran) - before)) -v c=$(($(date +%s%N) - began)) 'BEGIN { printf "%.2f %.1f\n", t / 5e6, c / 5e6 }' >>"$work/$tool.$name.$kind"
        [ "$(grep -c '^[^;].*[[:space:]]IN[[:space:]]' "$work/told")" = "$((records + 1))" ] && ! grep -qE "[Cc]ouldn.t verify|[Ff]ailed to verify|TSIG error" "$work/told" || {
            echo "bench: $tool has $(grep -c '^[^;].*[[:space:]]IN[[:space:]]' "$work/told") records of $name, $kind: $(grep -E 'verif|TSIG error' "$work/told" | head -1)" >&2
        }
    done
}

# The middle of a column of a file's lines.
middle() { cut -d ' ' -f "$2" "$1" | sort -g | awk '{ at[NR] = $1 } END { print at[int((NR + 1) / 2)] }'; }

# A line for each server, of each kind, and how much the signed ones are over the plain one: WHAT WORDS
tell() {
    local name kind line
    for name in dnsd named knotd; do
        line="$name, $2:"
        for kind in $kinds; do line+=" $kind $(middle "$work/$1.$name.$kind" 1) ($(middle "$work/$1.$name.$kind" 2));"; done
        echo "${line%;}, in the middle of $rounds"
    done
}

# Part of the samples of dnsd's time that stand in functions of SHA-2 and HMAC, while dnsperf sends what is signed: queries|updates KIND
shares() {
    local file=questions option=()
    [ "$1" = queries ] || file=updates option=(-u)
    perf record -q -e cpu-clock -F 4999 -p "$server" -o "$work/perf" -- sleep "$seconds" 2>/dev/null &
    peers=$!
    dnsperf -s 127.0.0.1 -p "$port" "${option[@]}" -d "$work/$file" -l "$((seconds + 1))" -c 10 -T 1 -q 50 -y "${key[$2]}" >/dev/null 2>&1
    wait "$peers"
    peers=
    perf report -i "$work/perf" --no-children -q --stdio -F overhead,dso,symbol -t '|' 2>/dev/null | awk -F '|' -v what="$1" -v kind="$2" '
        { share = $1 + 0; kernel = $2 ~ /kernel|vdso/; all += share; if (!kernel) user += share }
        !kernel && tolower($3) ~ /sha2|sha256|sha512|compress/ { sha += share; if (n++ < 4) names = names ", " $3 }
        !kernel && tolower($3) ~ /hmac/ { hmac += share }
        END { printf "dnsd, %s signed by %s: SHA-2 has %.0f in 100 of the user'"'"'s time and %.0f of all, the rest of HMAC %.0f of the user'"'"'s; the kernel has %.0f of all%s\n",
            what, kind, 100 * sha / user, 100 * sha / all, 100 * hmac / user, 100 * (all - user) / all, names }'
}

# The server's middle figures are of its own rounds; servers and kinds take turns.
printf '%s\n' "hmac-sha256:k1.key:$secret" "hmac-sha512:k2.key:$secret" >"$work/keys"
chmod 600 "$work/keys"
{ zone "$((records - 1))" && echo "ns1.example.test. 3600 IN A 192.0.2.1"; } >"$work/zone"
questions "$((records - 1))" >"$work/questions"
for round in $(seq "$rounds"); do
    for name in dnsd named knotd; do
        "start_signed_$name" 1
        wait_for
        for kind in $kinds; do
            if [ -z "$only" ] || [ "$only" = queries ]; then one_run queries "$name" "$kind" -d "$work/questions"; fi
            if [ -z "$only" ] || [ "$only" = transfers ]; then one_transfer "$name" "$kind"; fi
        done
        at=0
        for kind in $kinds; do
            at=$((at + 1))
            if [ -z "$only" ] || [ "$only" = updates ]; then
                updates "${at}00000" >"$work/updates"
                one_run updates "$name" "$kind" -u -d "$work/updates"
            fi
        done
        if [ "$round $name" = "1 dnsd" ] && { [ -z "$only" ] || [ "$only" = shares ]; }; then
            if command -v perf >/dev/null; then
                at=3
                for kind in sha256 sha512; do
                    at=$((at + 1))
                    updates "${at}00000" >"$work/updates"
                    shares queries "$kind"
                    shares updates "$kind"
                done
            else
                echo "bench: no perf, for the part of SHA-2: it needs Debian's linux-perf" >&2
            fi
        fi
        stop
    done
done
[ ! -s "$work/queries.dnsd.plain" ] || tell queries "microseconds of processor time a query, and queries a second"
[ ! -s "$work/updates.dnsd.plain" ] || tell updates "microseconds of processor time an update, and updates a second"
[ ! -s "$work/dig.dnsd.plain" ] || {
    tell dig "milliseconds of processor time a transfer of $records records to dig, and of the clock"
    tell kdig "the same to kdig"
}
