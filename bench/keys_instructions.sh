#!/usr/bin/env bash
# Counts the instructions of a query of `dnsd serve` over UDP, from its datagram to that of its reply, as bench/serve_instructions.sh does: a plain query and one with an
# OPT, without --keys and with them; a signed one by keys of hmac-sha256 and hmac-sha512, and how many of its instructions are of SHA-2; and a plain one with rules of
# --may and with none.
# Usage: [DNSD=PROGRAM] bench/keys_instructions.sh [--port N] [RECORDS], by default port 15483 and 1000 records
# It needs python3 and Debian's valgrind. `make dnsd` builds the program. Its status is 1 where --keys adds more than 20 instructions to a plain query, or more than 80 to one with an OPT.
set -euo pipefail
cd "$(dirname "$0")/.."
. bench/program.sh
. bench/counting.sh
port=15483
options "$@"

# Prints the figure, and how far it is from another: WORDS [OTHER]
tell() { echo "$records records, $1: $each instructions a query${2:+, $((each - $2)) more}"; }

# Instructions a query of the functions of SHA-2, of the last two runs.
sha() {
    local file
    for file in few many; do
        callgrind_annotate --threshold=100 --show-percs=no "$work/$file" | awk '/sha2|sha256|sha512/ { gsub(/,/, "", $1); n += $1 } END { printf "%.0f\n", n }'
    done | awk '{ n[NR] = $1 } END { printf "%.0f", (n[2] - n[1]) / 3000 }'
}

zone "$records" >"$work/zone"
printf '%s\n' "hmac-sha256:sha256.key:$secret" "hmac-sha512:sha512.key:$secret" >"$work/keys"
chmod 600 "$work/keys"
keys=(--keys "$work/keys")
status=0
for asked in plain opt; do
    each
    tell "$asked, without --keys"
    without=$each
    each "${keys[@]}"
    tell "$asked, with --keys" "$without"
    most=20
    [ "$asked" = plain ] || most=80
    [ $((each - without)) -le $most ] || { echo "FAILED: at most $most"; status=1; }
    [ "$asked" = opt ] || plain=$without
done
for asked in sha256 sha512; do
    each "${keys[@]}"
    tell "signed by hmac-$asked" "$plain"
    echo "    $(sha) of them in SHA-2"
done
asked=plain
each --allow ''
tell "plain, with --allow ''"
nobody=$each
each --allow '' --may '127.0.0.1: update, transfer'
tell "plain, with a rule for its address" "$nobody"
each --may '10.0.0.0/8: transfer' --may '192.0.2.0/28: update at-or-below dyn.example.test. A AAAA' --may '2001:db8::7: update tcp, transfer'
tell "plain, with three rules for other addresses" "$nobody"
each --allow '127.0.0.1,::1'
tell "plain, with --allow 127.0.0.1,::1" "$nobody"
exit $status
