#!/usr/bin/env bash
# Counts the instructions of a query of `dnsd serve` over UDP, from its datagram to that of its reply: by turns a name that exists, one that doesn't, and an alias,
# asked by one client that waits for each reply. Each figure is the difference of two runs under callgrind, of 300 and of 3,300 queries. Prints
# what a query takes in whole; what of it tells whether its peer may update and transfer (less where --allow names nobody); and the functions that take most,
# as they are called once the compiler has put others in them. What bench/instructions.sh counts for these three kinds is the answering alone; the rest is the loop, the
# system calls, the cell and the head.
# Usage: [DNSD=PROGRAM] bench/serve_instructions.sh [--port N] [--functions N] [RECORDS], by default port 15483, 20 functions and 1000 records
# It needs python3 and Debian's valgrind. `make dnsd` builds the program.
set -euo pipefail
cd "$(dirname "$0")/.."
. bench/program.sh
. bench/counting.sh
port=15483
functions=20
while [ $# -gt 0 ]; do
    case $1 in
        --port) port=$2; shift 2 ;;
        --functions) functions=$2; shift 2 ;;
        *) records=$1; shift ;;
    esac
done

zone "$records" >"$work/zone"
count few 300
few=$counted
count many 3300
many=$counted
count nobody 300 --allow ''
nobody_few=$counted
count nobody 3300 --allow ''
nobody_many=$counted
for file in few many; do callgrind_annotate --threshold=100 --show-percs=no "$work/$file" >"$work/$file.told"; done
awk -v a="$few" -v b="$many" -v c="$nobody_few" -v d="$nobody_many" -v n="$records" 'BEGIN {
    all = (b - a) / 3000; nobody = (d - c) / 3000
    printf "%d records: %.0f instructions a query over UDP; %.0f of them tell by the list of --allow whether its peer may update and transfer\n", n, all, all - nobody }'
python3 - "$work/few.told" "$work/many.told" "$functions" <<'PY'
import re, sys
def parts(path):
    rows = {}
    for line in open(path):
        row = re.match(r" *([\d,]+) +(?:\([^)]*\) +)?\S*?:(\S.*?)(?: \[.*\])?$", line)
        if row:
            rows[row[2]] = rows.get(row[2], 0) + int(row[1].replace(",", ""))
    return rows
few, many = parts(sys.argv[1]), parts(sys.argv[2])
for name in sorted(many, key=lambda it: few.get(it, 0) - many[it])[:int(sys.argv[3])]:
    print(f"  {(many[name] - few.get(name, 0)) / 3000:8.1f}  {name}")
PY
