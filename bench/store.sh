#!/usr/bin/env bash
# Measures what it costs `dnsd serve --store` to keep updates, beside BIND's named with its journal on the same disk, in one run, each a second by turns, over a zone of 100,000
# records; and a restart with 100,000 updates in the journal of a zone of nearly 1,000,000 records, beside the plain load of that zone. Beside each round stands how
# long an append of 4 KiB and its fdatasync take on the same disk. Of each figure the middle of all rounds is held against these bounds, and the status is 1 where one
# doesn't hold:
# - one update outstanding, by UDP: at least 3 times as many a second as named takes where that append takes less than 150 microseconds, else at least 1.8 times;
# - 32 outstanding: at least 10 times;
# - a restart, up to the line `listening on`: at most 1.5 times the plain load and 12 microseconds an update. So too its processor time.
# Each update adds an address at a name of its own, or deletes one that was added (bench/sending.c). The logs of both go nowhere: a file that grows on the
# same disk would be written with each sync.
# Usage: [DNSD=PROGRAM] bench/store.sh [--rounds N] [--seconds N] [--records N] [--replayed N] [--large N] [--port N] [--only rates|restart] [-- OPTION ..]
#   by default 9 rounds of a second a figure, of restarts a third of them, 100000 records, 100000 updates replayed on 999000 records (a zone takes no more than 1,000,000), ports 15953 and 15954; the options
#   are given to `serve --store`: where it shortens its journal, one that lets it grow to all of the updates
# It needs python3, a C compiler (`cc` or $CC), and Debian's dnsperf and bind9; TMPDIR on the disk that is meant (some 200 MB). `make dnsd` builds the program.
set -euo pipefail
cd "$(dirname "$0")/.."
. bench/program.sh
. bench/servers.sh
rounds=9
seconds=1
records=100000
replayed=100000
large=999000
port=15953
only=
options=()
while [ $# -gt 0 ]; do
    case $1 in
        --rounds) rounds=$2; shift 2 ;;
        --seconds) seconds=$2; shift 2 ;;
        --records) records=$2; shift 2 ;;
        --replayed) replayed=$2; shift 2 ;;
        --large) large=$2; shift 2 ;;
        --port) port=$2; shift 2 ;;
        --only) only=$2; shift 2 ;;
        --) shift; options=("$@"); break ;;
        *) echo "bench: no option $1" >&2; exit 2 ;;
    esac
done
command -v named >/dev/null || { echo "bench: no named: it is Debian's package bind9" >&2; exit 2; }
"${CC:-cc}" -O2 -o "$work/sending" bench/sending.c

# The zone of so many records; named takes none whose apex has an NS within it without an address.
make_zone() { { zone "$(($1 - 1))" && echo "ns1.example.test. 3600 IN A 192.0.2.1"; } >"$work/zone"; }

# Microseconds of an append of 4 KiB and its fdatasync in the folder of the run: of 500 the middle, and what a tenth and nine tenths take at most.
synced() {
    python3 - "$work/append" <<'PY'
import os, sys, time
file, times = os.open(sys.argv[1], os.O_WRONLY | os.O_CREAT | os.O_APPEND), []
for _ in range(500):
    began = time.perf_counter()
    os.write(file, bytes(4096))
    os.fdatasync(file)
    times.append(time.perf_counter() - began)
os.unlink(sys.argv[1])
print(*(round(1e6 * sorted(times)[at]) for at in (250, 50, 450)))
PY
}

start_store() {
    rm -rf "$work/store"
    mkdir "$work/store"
    "$program" serve --listen "127.0.0.1:$port" --store "$work/store" ${options[@]+"${options[@]}"} "$work/zone" 2>/dev/null &
    server=$!
}

# named on a port.
start_named() {
    rm -rf "$work/named"
    mkdir "$work/named"
    cp "$work/zone" "$work/named/zone"
    cat >"$work/named.conf" <<end
options {
    directory "$work/named"; pid-file none; session-keyfile none;
    listen-on port $1 { 127.0.0.1; }; listen-on-v6 { none; };
    recursion no; notify no; dnssec-validation no;
};
logging { category default { null; }; };
controls { };
zone "example.test" { type primary; file "zone"; allow-update { 127.0.0.1; }; };
end
    named -f -c "$work/named.conf" >"$work/log" 2>&1 &
    server=$!
}

# Updates a second of the server on a port, so many outstanding, each told NOERROR: PORT OUTSTANDING
rate() { "$work/sending" "$1" "$2" "$seconds" 0 | cut -d ' ' -f 3; }

# The middle of the first numbers of a file's lines, or of standard input.
middle() { cut -d ' ' -f 1 "${1:--}" | sort -g | awk '{ at[NR] = $1 } END { print at[int((NR + 1) / 2)] }'; }

status=0
# Prints a figure with its bound, and whether it holds: WORDS FIGURE BOUND, where the figure has to be at least the bound; with a fourth word at most.
hold() {
    if awk -v f="$2" -v b="$3" -v most="${4:-}" 'BEGIN { exit !(most ? f <= b : f >= b) }'; then echo "holds  $1"; else echo "FAILED $1"; status=1; fi
}

# Both servers run all the time, and are sent updates by turns, so that they find the disk alike; a round's figures stand beside one another.
rates() {
    local name outstanding sync least own others ratio
    declare -A at=([store]=$port [named]=$((port + 1)))
    make_zone "$records"
    start_named $((port + 1))
    second=$server port=$((port + 1))
    wait_for
    port=${at[store]}
    start_store
    wait_for
    for _ in $(seq "$rounds"); do
        synced >>"$work/syncs"
        for outstanding in 1 32; do
            for name in store named; do rate "${at[$name]}" "$outstanding" >>"$work/$name.$outstanding"; done
            paste "$work/store.$outstanding" "$work/named.$outstanding" | tail -1 | awk -v o=$outstanding -v s="$(tail -1 "$work/syncs")" '{
                printf "%d outstanding: dnsd %d updates a second, named %d, %.2f times; a sync of 4 KiB, middle, tenth and nine tenths: %s us\n", o, $1, $2, $1 / $2, s
            }'
        done
    done
    stop
    sync=$(middle "$work/syncs")
    least=$(awk -v s="$sync" 'BEGIN { print (s < 150 ? 3 : 1.8) }')
    for outstanding in 1 32; do
        [ "$outstanding" = 1 ] || least=10
        own=$(middle "$work/store.$outstanding") others=$(middle "$work/named.$outstanding")
        ratio=$(paste "$work/store.$outstanding" "$work/named.$outstanding" | awk '{ printf "%.2f\n", $1 / $2 }' | middle)
        hold "$outstanding outstanding, $records records, a sync of 4 KiB in $sync us: dnsd $own updates a second, named $others, $ratio times in the middle of $rounds rounds; at least $least" "$ratio" "$least"
    done
}

# Starts dnsd over the zone, with further words, and prints its seconds, its processor seconds and the serial when it listens.
started_in() {
    python3 - "$program" "$port" "$work/zone" "$@" <<'PY'
import os, re, subprocess, sys, time
began = time.perf_counter()
server = subprocess.Popen([sys.argv[1], "serve", "--listen", f"127.0.0.1:{sys.argv[2]}", *sys.argv[4:], sys.argv[3]], stderr=subprocess.PIPE, text=True)
for line in server.stderr:
    if found := re.match(r"listening on .* with serial (\d+),", line):
        break
else:
    sys.exit("bench: the server doesn't run")
took = time.perf_counter() - began
with open(f"/proc/{server.pid}/stat") as file:
    said = file.read().rpartition(")")[2].split()
server.terminate()
server.wait()
print(f"{took:.3f} {(int(said[11]) + int(said[12])) / os.sysconf('SC_CLK_TCK'):.2f} {found.group(1)}")
PY
}

restart() {
    local plain own serial name
    make_zone "$large"
    start_store
    wait_for
    "$work/sending" "$port" 32 0 "$replayed" >/dev/null
    stop
    echo "a journal of $(stat -c %s "$work/store/journal") octets"
    for _ in $(seq $(((rounds + 2) / 3))); do
        plain=$(started_in)
        own=$(started_in --store "$work/store" ${options[@]+"${options[@]}"})
        serial=${own##* }
        [ "$serial" -eq $((replayed + 1)) ] || { echo "FAILED the restart has serial $serial, not $((replayed + 1))"; status=1; }
        echo "plain load, seconds, and of the processor: ${plain% *}; a restart: ${own% *}"
        for name in plain own; do echo "${!name}" >>"$work/starts.$name"; done
    done
    for field in 1 2; do
        for name in plain own; do cut -d ' ' -f $field "$work/starts.$name" >"$work/$name.$field"; done
        plain=$(middle "$work/plain.$field") own=$(middle "$work/own.$field")
        bound=$(awk -v p="$plain" -v n="$replayed" 'BEGIN { print p * 1.5 + 12e-6 * n }')
        hold "a restart with $replayed updates on $large records: $own s$([ $field = 1 ] || echo ' of the processor'), plain load $plain s; at most $bound s" "$own" "$bound" most
    done
}

[ "$only" = restart ] || rates
[ "$only" = rates ] || restart
exit $status
