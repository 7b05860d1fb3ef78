#!/usr/bin/env bash
# Tells what of a query is the kernel's, for `dnsd serve` of one worker, for another program of it where --beside names one, and for knotd and nsd where these are
# installed, each over UDP by one client and by twenty, and over TCP on twenty connections: microseconds of processor time a query, in the program and in
# the kernel, by perf's samples, 4,000 a second; the system calls a query, by name, which strace counts in a run of its own (it slows all, so that fewer queries
# come at once); and the kernel's functions in which most of its part goes.
# Usage: [DNSD=PROGRAM] bench/kernel.sh [--seconds N] [--port N] [--records N] [--functions N] [--beside PROGRAM]
#   by default 3 seconds a run, port 15473, 1000 records, 12 functions
# It needs Debian's dnsperf, strace and linux-perf, and root for samples of the kernel. `make dnsd` builds the program.
set -euo pipefail
cd "$(dirname "$0")/.."
. bench/program.sh
. bench/servers.sh
seconds=3
port=15473
records=1000
functions=12
other_program=
while [ $# -gt 0 ]; do
    case $1 in
        --seconds) seconds=$2; shift 2 ;;
        --port) port=$2; shift 2 ;;
        --records) records=$2; shift 2 ;;
        --functions) functions=$2; shift 2 ;;
        --beside) other_program=$2; shift 2 ;;
        *) echo "bench: no option $1" >&2; exit 2 ;;
    esac
done
command -v strace >/dev/null || { echo "bench: no strace: it is Debian's package strace" >&2; exit 1; }
perf record -q -o "$work/perf" -e cpu-clock:k true >/dev/null 2>&1 || { echo "bench: perf takes no samples of the kernel here" >&2; exit 1; }

# The server's processes, with a word in front of each: PID WORD
all_of() {
    local child
    printf '%s %s ' "$2" "$1"
    for child in $(cat "/proc/$1/task/"*/children 2>/dev/null); do all_of "$child" "$2"; done
}

# Asks over UDP or TCP by so many clients, while another command watches the server, and prints how many queries were answered: OVER CLIENTS WORD ..
ask_beside() {
    local over=$1 clients=$2
    shift 2
    "$@" >/dev/null 2>&1 &
    peers=$!
    sleep 0.5
    dnsperf -m "$over" -s 127.0.0.1 -p "$port" -d "$work/questions" -l "$seconds" -c "$clients" -T 1 -q 50 2>/dev/null | figures | cut -d ' ' -f 1
    kill "$peers" 2>/dev/null || true
    wait "$peers" || true
}

# The system calls a query, by name, of those that are at least one in a hundred queries, and in all: QUERIES
calls() {
    awk -v queries="$1" '$1 !~ /^[0-9.]+$/ { next }
        $NF == "total" { printf "; %.2f in all", $4 / queries; next }
        $4 / queries >= 0.01 { printf "%s%s %.2f", n++ ? ", " : "", $NF, $4 / queries }' "$work/calls"
}

# What perf's samples say, in microseconds a query: of the program and of the kernel, and then of the kernel's functions. QUERIES
parts() {
    perf report -i "$work/perf" --stdio --no-children --sort symbol -F sample,symbol 2>/dev/null | sort -k 1,1nr |
        awk -v queries="$1" -v most="$functions" '$1 !~ /^[0-9]+$/ { next }
            { us = 250 * $1 / queries }
            $2 == "[k]" { kernel += us; if (n < most) list[++n] = sprintf("    %5.2f %s", us, $3); next }
            { own += us }
            END { printf "%.2f us a query in the program, %.2f in the kernel\n", own, kernel; for (i = 1; i <= n; i++) print list[i] }'
}

# One server, over UDP or TCP, by so many clients: NAME OVER CLIENTS
measure() {
    local queries
    # shellcheck disable=SC2046
    queries=$(ask_beside "$2" "$3" strace -c -f -qq -o "$work/calls" $(all_of "$server" -p))
    echo "$1, ${2^^}, $3 clients: system calls a query: $(calls "$((queries ? queries : 1))")"
    queries=$(ask_beside "$2" "$3" perf record -q -o "$work/perf" -e cpu-clock -F 4000 -p "$(all_of "$server" '' | xargs | tr ' ' ,)")
    echo "$1, ${2^^}, $3 clients: $(parts "$((queries ? queries : 1))")"
}

zone "$records" >"$work/zone"
questions "$records" >"$work/questions"
for name in dnsd before knotd nsd; do
    case $name in
        dnsd) ;;
        before) [ -n "$other_program" ] || continue ;;
        *) command -v "$name" >/dev/null || continue ;;
    esac
    "start_$name" 1
    wait_for
    measure "$name" udp 1
    measure "$name" udp 20
    measure "$name" tcp 20
    stop
done
