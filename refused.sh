#!/usr/bin/env bash
# Refuses each request for memory in turn, in the tests that say what holds then: those with `refused_growth` or `memory_is_refused` in
# their names, of the crates given, else of all; and each request for a thread, in those with `thread_is_refused`. `rt test` proves and builds
# a crate's tests; each of these is then run with tests/refuse.c in front of the C library, which refuses its first request, then its second
# alone, and so on until none is left to be refused; where the test's name ends in `twice`, the request behind it too, and where it ends in
# `ever_after`, all behind it. Prints a line a test, and its status is 1 where a run failed.
# Usage: ./refused.sh [NAME ..], or make refused [CRATE="NAME .."]. It needs a C compiler, `cc` or $CC.
set -euo pipefail
cd "$(dirname "$0")"
names=("$@")
if [ $# -eq 0 ]; then
    mapfile -t names < <(grep -lrE --include='*.rt' 'fn \w*(refused_growth|memory_is_refused|thread_is_refused)' crates/*/src | cut -d/ -f2 | sort -u)
fi

room=$(mktemp -d)
trap 'rm -rf "$room"' EXIT
"${CC:-cc}" -O2 -shared -fPIC -o "$room/refuse.so" tests/refuse.c

failed=0
# runs a test of a program with each request for memory, or for threads, refused, so many in a row
sweep() {
    local program=$1 test=$2 count=$3 what=memory first=0 bad=0 said status
    [[ $test != *thread_is_refused* ]] || what=threads
    while first=$((first + 1)); do
        status=0
        said=$(REFUSE_WHAT=$what REFUSE_FIRST=$first REFUSE_COUNT=$count LD_PRELOAD="$room/refuse.so" "$program" "$test" 2>&1) || status=$?
        if [ $status -ne 0 ] || [[ $said != *'test result: ok'* ]]; then
            bad=$((bad + 1))
            [ $bad -gt 3 ] || echo "$test: failed where request $first is refused"
        fi
        [[ $said == *'a request was refused'* ]] || break
    done
    echo "$(basename "${program%_tests}") $test: $((first - 1)) requests, each refused, $bad failed"
    [ $bad -eq 0 ] || failed=1
}

for name in "${names[@]}"; do
    (cd "crates/$name" && rt test >"$room/log" 2>&1) || { tail -20 "$room/log"; echo "refused: the tests of $name fail" >&2; exit 2; }
    program=$PWD/crates/$name/out/${name}_tests
    for test in $("$program" --list | sed -n 's/: test$//p' | grep -E 'refused_growth|memory_is_refused|thread_is_refused'); do
        case $test in
            *twice) sweep "$program" "$test" 2 ;;
            *ever_after) sweep "$program" "$test" 1000000000 ;;
            *) sweep "$program" "$test" 1 ;;
        esac
    done
done
exit $failed
