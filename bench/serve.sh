#!/usr/bin/env bash
# Measures `dnsd serve` by dnsperf, beside knotd and nsd where these are installed, each with as many workers, in the same run: queries
# a second over UDP, by a client for each worker, by 20, and by 60 with 500 queries outstanding, and over TCP on 20 and on 50 connections, mean latency, and
# processor time a query (of the server alone, from /proc), in whole and the part that isn't the kernel's; of another program of dnsd too, where --beside names one, and of this one with --metrics, where that is given; with more rounds than one
# the servers take turns, and the middle of each figure is told at the end; then of dnsd the same
# with 3,000 places a worker, without and beside idle connections that are opened anew as they end, updates a second, and the 99th percentile of queries' times without updates, while updates go to another dnsd on the same machine, and while as
# many go to the one that is asked.
# Usage: [DNSD=PROGRAM] bench/serve.sh [--seconds N] [--workers "N .."] [--port N] [--updates N] [--idle N] [--beside PROGRAM] [--metrics] [--queries-only] [--udp-only] [--grid] [--rounds N] [RECORDS ..]
#   by default 5 seconds a figure, one round, 1, 2 and 4 workers, ports 15453 to 15455, at most 10000 updates a second beside queries, 2000 idle
#   connections, and zones of 1000 and 1000000 records; --queries-only leaves out idle connections and updates, and --udp-only queries over TCP too; --grid asks over TCP alone, on 1, 2, 4, 8, 16 and 50 connections with 1, 2 and 8
#   queries outstanding on each, the servers by turns
# It needs Debian's dnsperf, and knot and nsd for the figures beside. `make dnsd` builds the program.
set -euo pipefail
cd "$(dirname "$0")/.."
. bench/program.sh
. bench/servers.sh
seconds=5
workers="1 2 4"
port=15453
most=10000
idle=2000
other_program=
metrics=
whole=yes
over_tcp=yes
grid=
rounds=1
sizes=()
while [ $# -gt 0 ]; do
    case $1 in
        --seconds) seconds=$2; shift 2 ;;
        --workers) workers=$2; shift 2 ;;
        --port) port=$2; shift 2 ;;
        --updates) most=$2; shift 2 ;;
        --idle) idle=$2; shift 2 ;;
        --beside) other_program=$2; shift 2 ;;
        --metrics) metrics=yes; shift ;;
        --queries-only) whole=; shift ;;
        --udp-only) whole= over_tcp=; shift ;;
        --grid) whole= grid=yes; shift ;;
        --rounds) rounds=$2; shift 2 ;;
        *) sizes+=("$1"); shift ;;
    esac
done
[ ${#sizes[@]} -gt 0 ] || sizes=(1000 1000000)
ulimit -n 10000

# Sends updates to a port for so many seconds, each behind the reply to the one before, and at most so many a second (0: no bound): an address
# at a name of its own is added, and then deleted. Prints how many are taken a second. PORT SECONDS MOST
updates() {
    python3 - "$@" <<'PY'
import socket, sys, time
port, seconds, most = int(sys.argv[1]), float(sys.argv[2]), int(sys.argv[3])
zone = bytes.fromhex("076578616d706c65047465737400000600") + b"\1"  # example.test. SOA IN
client = socket.socket(socket.AF_INET, socket.SOCK_DGRAM)
client.connect(("127.0.0.1", port))
client.settimeout(5)
taken, began = 0, time.time()
while time.time() - began < seconds:
    label = b"u%d" % (taken // 2)
    owner = bytes([len(label)]) + label + b"\xc0\x0c"
    record = owner + (b"\0\1\0\1\0\0\x0e\x10" if taken % 2 == 0 else b"\0\1\0\xfe\0\0\0\0") + b"\0\4\xc0\0\2\1"
    while most and taken > most * (time.time() - began):
        pass
    client.send((taken % 65536).to_bytes(2, "big") + b"\x28\0\0\1\0\0\0\1\0\0" + zone + record)
    if client.recv(512)[3] != 0:
        sys.exit("bench: an update is refused")
    taken += 1
print(round(taken / (time.time() - began)))
PY
}

# The 99th percentile of the times that dnsperf -v tells, in milliseconds.
percentile() {
    awk '/^> / { print $NF }' | sort -g | awk '{ at[NR] = $1 } END { if (NR) printf "%.3f", 1000 * at[int(NR * 0.99 + 0.5)] }'
}

hertz=$(getconf CLK_TCK)
# One server by so many clients, each with a socket or a connection, with so many queries outstanding in all, by default 50 a worker:
# NAME WORKERS RECORDS OVER CLIENTS [OUTSTANDING]
measure_over() {
    local before after user_before user_after done rate lost latency most=${6:-$((50 * $2))}
    read -r before user_before < <(spent)
    read -r done rate lost latency < <(dnsperf -m "$4" -s 127.0.0.1 -p "$port" -d "$work/questions" -l "$seconds" -c "$5" -T 1 -q "$most" 2>/dev/null | figures)
    read -r after user_after < <(spent)
    awk -v name="$1" -v w="$2" -v n="$3" -v over="$4" -v c="$5" -v q="$most" -v done="$done" -v rate="$rate" -v lost="$lost" -v latency="$latency" -v t=$((after - before)) -v u=$((user_after - user_before)) -v hz="$hertz" 'BEGIN {
        each = 1000000 / hz / (done ? done : 1)
        printf "%s, %d workers, %d records, %s, %d clients, %d outstanding: %d queries a second, %.2f microseconds of processor time a query, %.2f of them the user'"'"'s, %s lost, mean latency %d microseconds\n",
            name, w, n, toupper(over), c, q, rate, t * each, u * each, lost, latency
    }' | tee -a "$work/figures"
}

# The middle of the figures of all rounds, a line for each server and way of asking.
middles() {
    awk -F ': ' '{ if (!($1 in count)) order[++kinds] = $1
            split($2, word, / /); at = ++count[$1]
            rate[$1, at] = word[1]; time[$1, at] = word[5]; user[$1, at] = word[12]; latency[$1, at] = word[20] }
        function middle(figure, kind, n,    i, j, own, list) {
            for (i = 1; i <= n; i++) {
                own = figure[kind, i] + 0
                for (j = i - 1; j > 0 && list[j] > own; j--) list[j + 1] = list[j]
                list[j + 1] = own
            }
            return (list[int((n + 1) / 2)] + list[int(n / 2) + 1]) / 2
        }
        END {
            for (k = 1; k <= kinds; k++) {
                kind = order[k]; n = count[kind]
                printf "middle of %d: %s: %d queries a second, %.2f microseconds of processor time a query, %.2f of them the user'"'"'s, mean latency %d microseconds\n",
                    n, kind, middle(rate, kind, n), middle(time, kind, n), middle(user, kind, n), middle(latency, kind, n)
            }
        }' "$work/figures"
}

# One server over UDP and then over TCP: NAME WORKERS RECORDS
measure() {
    local clients
    "start_$1" "$2"
    wait_for
    for clients in "$2" 20; do measure_over "$1" "$2" "$3" udp "$clients"; done
    measure_over "$1" "$2" "$3" udp 60 500
    if [ -n "$over_tcp" ]; then
        for clients in 20 50; do measure_over "$1" "$2" "$3" tcp "$clients"; done
    fi
    stop
}

# One server over TCP, on so many connections, with so many queries outstanding on each: NAME WORKERS RECORDS
measure_grid() {
    local clients each
    "start_$1" "$2"
    wait_for
    for clients in 1 2 4 8 16 50; do
        for each in 1 2 8; do measure_over "$1" "$2" "$3" tcp "$clients" $((clients * each)); done
    done
    stop
}

# dnsd with 3,000 places a worker, alone and beside idle connections: WORKERS RECORDS
measure_idle() {
    local clients
    start_dnsd "$1" --connections 3000
    wait_for
    for clients in 20 50; do measure_over "dnsd alone" "$1" "$2" tcp "$clients"; done
    bench/idle.py "$port" "$idle" "$server" >"$work/idle" &
    peers=$!
    until [ -s "$work/idle" ]; do sleep 0.1; done
    for clients in 20 50; do measure_over "dnsd beside $idle idle connections" "$1" "$2" tcp "$clients"; done
    kill "$peers"
    wait "$peers" || true
    peers=
    paste -sd ' ' "$work/idle"
    stop
}

# The 99th percentile of 2000 queries a second, while at most so many updates a second go to a port, where one is given: [PORT]
beside() {
    local updater=
    if [ $# -gt 0 ]; then
        updates "$1" "$((seconds + 1))" "$most" >"$work/beside" &
        updater=$!
        sleep 0.5
    fi
    dnsperf -v -s 127.0.0.1 -p "$port" -d "$work/questions" -l "$seconds" -c 4 -T 1 -Q 2000 2>/dev/null | percentile
    [ -z "$updater" ] || wait "$updater"
}

# Updates, alone and beside queries: WORKERS RECORDS. The other server's queries are nobody's.
measure_updates() {
    local updated alone elsewhere here there at=$port
    port=$((at + 1))
    start_dnsd "$1"
    wait_for
    second=$server port=$at
    start_dnsd "$1"
    wait_for
    alone=$(beside)
    elsewhere=$(beside "$((at + 1))")
    there=$(cat "$work/beside")
    here=$(beside "$at")
    updated=$(updates "$at" "$seconds" 0)
    awk -v w="$1" -v n="$2" -v u="$updated" -v a="$alone" -v e="$elsewhere" -v h="$here" -v there="$there" -v to="$(cat "$work/beside")" 'BEGIN {
        printf "dnsd, %d workers, %d records: %d updates a second, one after another; of 2000 queries a second 99 in 100 take at most %s ms without updates, %s ms while %d a second go to another dnsd, and %s ms while %d a second go to this one\n", w, n, u, a, e, there, h, to
    }'
    stop
}

for records in "${sizes[@]}"; do
    zone "$records" >"$work/zone"
    questions "$records" >"$work/questions"
    for w in $workers; do
        for _ in $(seq "$rounds"); do
            "measure${grid:+_grid}" dnsd "$w" "$records"
            [ -z "$other_program" ] || "measure${grid:+_grid}" before "$w" "$records"
            [ -z "$metrics" ] || "measure${grid:+_grid}" dnsd_with_metrics "$w" "$records"
            for other in knotd nsd; do
                if command -v $other >/dev/null; then "measure${grid:+_grid}" $other "$w" "$records"; fi
            done
        done
    done
    if [ "$rounds" -gt 1 ]; then middles && : >"$work/figures"; fi
    [ -n "$whole" ] || continue
    for w in $workers; do measure_idle "$w" "$records"; done
    # a zone of a million records is full (a limit of its own): the records that updates add need room
    [ "$records" -lt 1000000 ] || { records=999000 && zone "$records" >"$work/zone"; }
    measure_updates 4 "$records"
done
