#!/usr/bin/env bash
# Counts the instructions of a query of `dnsd serve` over UDP, from its datagram to that of its reply, as bench/serve_instructions.sh does: a plain query and one with an
# OPT, without --metrics and with it.
# Usage: [DNSD=PROGRAM] bench/metrics_instructions.sh [--port N] [RECORDS], by default port 15493 (and the next one for metrics) and 1000 records
# It needs python3 and Debian's valgrind. `make dnsd` builds the program. Its status is 1 where --metrics adds more than 60 instructions to a query.
set -euo pipefail
cd "$(dirname "$0")/.."
. bench/program.sh
. bench/counting.sh
port=15493
options "$@"

zone "$records" >"$work/zone"
status=0
for asked in plain opt; do
    each
    without=$each
    each --metrics "127.0.0.1:$((port + 1))"
    echo "$records records, $asked: $without instructions a query, $each with --metrics, $((each - without)) more"
    [ $((each - without)) -le 60 ] || { echo "FAILED: at most 60"; status=1; }
done
exit $status
