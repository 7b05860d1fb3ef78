# Sourced by the scripts here that run servers beside one another: starts one of `dnsd`, knotd and nsd over $work/zone on $port of 127.0.0.1, waits until it
# answers, and tells its processor time. The script has sourced bench/program.sh and set `port`, and `other_program` where another dnsd is beside.
# shellcheck shell=bash
PATH=$PATH:/usr/sbin:/sbin
command -v dnsperf >/dev/null || { echo "bench: no dnsperf: it is Debian's package dnsperf" >&2; exit 1; }

server=
second=
peers=
stop() {
    local one
    for one in $server $second $peers; do
        kill "$one" 2>/dev/null || true
        wait "$one" 2>/dev/null || true
    done
    server=
    second=
    peers=
}
trap 'stop; rm -rf "$work"' EXIT

# The queries, type A: by turns a name that exists, one that does not, and an alias.
questions() {
    awk -v n="$1" 'BEGIN {
        for (i = 0; i < 100000; i++) {
            at = int((i * 7919) % (n - 2) / 10) * 10
            print (i % 3 == 0 ? "h" at : i % 3 == 1 ? "x" at : "h" (at + 9)) ".example.test A"
        }
    }'
}

# dnsd of so many workers, with further options: WORKERS [OPTION ..]
start_dnsd() {
    local w=$1
    shift
    "$program" serve --listen "127.0.0.1:$port" --workers "$w" "$@" "$work/zone" 2>"$work/log" &
    server=$!
}

# dnsd with metrics: WORKERS
start_dnsd_with_metrics() {
    start_dnsd "$1" --metrics "127.0.0.1:$((port + 2))"
}

# the program that --beside names
start_before() {
    "$other_program" serve --listen "127.0.0.1:$port" --workers "$1" "$work/zone" 2>"$work/log" &
    server=$!
}

start_knotd() {
    mkdir -p "$work/knotd"
    cat >"$work/knotd.conf" <<end
server:
    rundir: "$work/knotd"
    listen: 127.0.0.1@$port
    udp-workers: $1
    tcp-workers: $1
    background-workers: 1
database:
    storage: "$work/knotd"
zone:
  - domain: example.test.
    storage: "$work"
    file: zone
    zonefile-sync: -1
    journal-content: none
log:
  - target: stderr
    any: error
end
    knotd -c "$work/knotd.conf" >"$work/log" 2>&1 &
    server=$!
}

start_nsd() {
    mkdir -p "$work/nsd"
    cat >"$work/nsd.conf" <<end
server:
    ip-address: 127.0.0.1@$port
    username: ""
    server-count: $1
    zonesdir: "$work"
    xfrdir: "$work/nsd"
    database: ""
    zonelistfile: "$work/nsd/zone.list"
    xfrdfile: "$work/nsd/xfrd.state"
    pidfile: ""
    rrl-ratelimit: 0
    minimal-responses: no
    tcp-count: 1000
remote-control:
    control-enable: no
zone:
    name: example.test
    zonefile: zone
end
    nsd -d -c "$work/nsd.conf" >"$work/log" 2>&1 &
    server=$!
}

# Waits, at most a minute, until the server answers.
wait_for() {
    echo "example.test SOA" >"$work/one"
    for _ in $(seq 120); do
        if dnsperf -s 127.0.0.1 -p "$port" -d "$work/one" -n 1 -t 0.5 2>/dev/null | grep -q 'NOERROR 1'; then return 0; fi
        kill -0 "$server" 2>/dev/null || break
        sleep 0.2
    done
    cat "$work/log" >&2
    echo "bench: the server doesn't answer" >&2
    exit 1
}

# Processor time of a process and of those below it, in ticks, a line each: in whole, and the user's part.
ticks() {
    local child
    awk '{ sub(/.*\) /, ""); print $12 + $13, $12 }' "/proc/$1/stat" 2>/dev/null || true
    for child in $(cat "/proc/$1/task/"*/children 2>/dev/null); do ticks "$child"; done
}
spent() { ticks "$server" | awk '{ t += $1; u += $2 } END { print t, u }'; }

# dnsperf's figures: queries completed, queries a second, the share that was lost, and the mean latency in microseconds.
figures() {
    awk '/Queries completed:/ { done = $3 } /Queries lost:/ { lost = $4 } /per second:/ { rate = $4 } /Average Latency/ { latency = $4 }
        END { gsub(/[()]/, "", lost); print done, rate, lost, 1000000 * latency }'
}
