#!/usr/bin/env bash
# Makes a zone and queries, runs the proved program over them, and prints records read a second, queries answered a second
# and peak memory; then, over a zone of a dozen records, messages parsed and replies written a second; and last how often a query
# searches the zone, by bench/searches.sh.
# Usage: [DNSD=PROGRAM] bench/answer.sh [RECORDS ..], by default 1000 and 100000. `make dnsd` builds the program.
set -euo pipefail
cd "$(dirname "$0")/.."
. bench/program.sh
queries=500000
messages=1000000

# The queries, type A: by turns a name that exists, one that does not, and an alias.
requests() {
    awk -v n="$1" -v q="$queries" 'BEGIN {
        for (i = 0; i < 128; i++) code[sprintf("%c", i)] = i
        for (i = 0; i < q; i++) {
            at = int((i * 7919) % (n - 2) / 10) * 10
            name = i % 3 == 0 ? "h" at : i % 3 == 1 ? "x" at : "h" (at + 9)
            line = sprintf("%04x01000001000000000000%02x", i % 65536, length(name))
            for (j = 1; j <= length(name); j++) line = line sprintf("%02x", code[substr(name, j, 1)])
            print line "076578616d706c6504746573740000010001"
        }
    }'
}

# A zone in which `m` has ten mail exchanges.
exchanges() {
    echo "example.test. 3600 IN SOA ns1.example.test. admin.example.test. 1 7200 900 1209600 300"
    echo "example.test. 3600 IN NS ns1.example.test."
    for i in 0 1 2 3 4 5 6 7 8 9; do echo "m.example.test. 3600 IN MX 10 mx$i.example.test."; done
}

# So many requests for `m`, with these flags and of this type, and with an OPT where one is given, in hexadecimal.
asked() {
    awk -v q="$messages" -v flags="$1" -v type="$2" -v opt="${3:-}" 'BEGIN {
        count = opt == "" ? "0000" : "0001"
        for (i = 0; i < q; i++) printf "%04x%s000100000000%s016d076578616d706c65047465737400%s0001%s\n", i % 65536, flags, count, type, opt
    }'
}

# Runs the program over a zone's text and requests, and prints seconds and peak memory in KiB.
measure() {
    python3 - "$program" "$1" "$2" <<'PY'
import resource, subprocess, sys, time
program, zone, requests = sys.argv[1:]
start = time.monotonic()
with open(requests) as lines, open("/dev/null", "w") as out:
    subprocess.run([program, "answer", zone], stdin=lines, stdout=out, check=True)
print(f"{time.monotonic() - start:.3f} {resource.getrusage(resource.RUSAGE_CHILDREN).ru_maxrss}")
PY
}

for n in "${@:-1000 100000}"; do for records in $n; do
    zone "$records" > "$work/zone"
    requests "$records" > "$work/requests"
    : > "$work/none"
    read -r reading _ < <(measure "$work/zone" "$work/none")
    read -r both memory < <(measure "$work/zone" "$work/requests")
    awk -v n="$records" -v q="$queries" -v r="$reading" -v b="$both" -v m="$memory" 'BEGIN {
        printf "%d records: %d records read a second, %d queries answered a second, %.1f MiB at most\n", n, n / r, q / (b > r ? b - r : 0.001), m / 1024
    }'
done; done

# Each figure has the line's reading and the reply's writing in it. A reply (QR 1) is read and not answered. Of an IXFR (type 251)
# the whole request is parsed and a header alone is written; a query of type MX (15) is parsed, looked up and answered by ten
# records, without an OPT and with one.
exchanges > "$work/zone"
asked 8100 000f > "$work/none"
asked 0100 00fb > "$work/parsed"
asked 0100 000f > "$work/written"
asked 0100 000f 00002904d0000000000000 > "$work/extended"
read -r none _ < <(measure "$work/zone" "$work/none")
read -r parsed _ < <(measure "$work/zone" "$work/parsed")
read -r written _ < <(measure "$work/zone" "$work/written")
read -r extended _ < <(measure "$work/zone" "$work/extended")
awk -v q="$messages" -v n="$none" -v p="$parsed" -v w="$written" -v e="$extended" 'BEGIN {
    printf "%d messages a second passed over, %d parsed, %d answered by ten records, %d with an OPT\n", q / n, q / p, q / w, q / e
}'

bench/searches.sh
