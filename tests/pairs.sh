#!/usr/bin/env bash
# Tries random pairs of zones in one process: the update that takes the one to the other is accepted, and makes of it the zone that it is to become. `make test` tries 1,000
# (test_changes, pairs); this tries as many as are wanted, in a copy of the crates, compiled with checks and nothing proved. Usage: tests/pairs.sh [PAIRS], by default
# 100000, which takes some minutes. Its status is 1 where a pair became another zone.
set -euo pipefail
pairs=${1:-100000}
top=$(cd "$(dirname "$0")/.." && pwd)
room=$(mktemp -d)
trap 'rm -rf "$room"' EXIT
git -C "$top" archive HEAD | tar -x -C "$room"
cd "$room"
git init -q
sed -i "s/^const PAIRS: u32 = .*;$/const PAIRS: u32 = $pairs;/" crates/test_changes/src/pairs.rt
grep -q "^const PAIRS: u32 = $pairs;$" crates/test_changes/src/pairs.rt || { echo "pairs: the test's number isn't set" >&2; exit 1; }
cd crates/test_changes
rt try --test --seconds 3600 --steps 2000000000000 >"$room/said" 2>&1 || true
line=$(grep 'pairs::each_pair_of_zones_is_changed' "$room/said" || true)
[[ $line == *'... ok' ]] || { cat "$room/said"; echo "pairs: a pair failed"; exit 1; }
echo "$pairs pairs passed"
