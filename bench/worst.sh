#!/usr/bin/env bash
# Prints what the dearest messages known cost a running `dnsd serve` of one worker, each beside a plain one of as many octets and records of the same
# kinds, whose names are in full and differ; an answer of 16 aliases beside 17 plain ones; and transfers beside a plain one of as many octets of
# replies (bench/worst.py says how it is measured). With --search it looks for dearer ones for so many seconds, by a seed
# (bench/worst_search.py), and its status is 1 where one is dearer than ten times.
# Usage: [DNSD=PROGRAM] bench/worst.sh [--rounds N] [--search SECONDS [--seed N]] [queries] [updates] [filled] [fitting] [aliases] [transfers]
#   by default 5 rounds, and all six kinds. It needs python3. `make dnsd` builds the program.
set -euo pipefail
cd "$(dirname "$0")/.."
. bench/program.sh
rounds=5
search=
seed=1
kinds=()
while [ $# -gt 0 ]; do
    case $1 in
        --rounds) rounds=$2; shift 2 ;;
        --search) search=$2; shift 2 ;;
        --seed) seed=$2; shift 2 ;;
        queries | updates | filled | fitting | aliases | transfers) kinds+=("$1"); shift ;;
        *) echo "bench: no option $1" >&2; exit 2 ;;
    esac
done
if [ -n "$search" ]; then
    python3 bench/worst_search.py "$program" "$search" "$seed"
else
    python3 bench/worst.py "$program" "$rounds" ${kinds[@]+"${kinds[@]}"}
fi
