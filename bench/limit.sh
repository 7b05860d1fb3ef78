#!/usr/bin/env bash
# Shows the limit of a zone's records by the program: a text of 1,000,000 records is read, and an update that adds one more gets
# SERVFAIL; a text of 1,000,001 records is refused at the line of the last one. It takes a minute or two, and so stands beside the gate.
# Usage: [DNSD=PROGRAM] bench/limit.sh. `make dnsd` builds the program.
set -euo pipefail
cd "$(dirname "$0")/.."
. bench/program.sh
limit=1000000

# A zone of so many records, one a line: an SOA, an NS, and addresses.
zone() {
    awk -v n="$1" 'BEGIN {
        print "example.test. 3600 IN SOA ns1.example.test. admin.example.test. 1 7200 900 1209600 300"
        print "example.test. 3600 IN NS ns1.example.test."
        for (i = 2; i < n; i++) printf "h%d.example.test. 3600 IN A 192.0.2.%d\n", i, i % 256
    }'
}

# Updates of the zone (RFC 2136, 2): `new` A 192.0.2.77 is added; `h2` is deleted; `new` is added again.
add=432128000001000000010000076578616d706c6504746573740000060001036e6577c00c0001000100000e100004c000024d
delete=432228000001000000010000076578616d706c6504746573740000060001026832c00c00ff00ff000000000000

fail() {
    echo "bench: $1" >&2
    exit 1
}

zone "$limit" > "$work/zone"
replies=$(printf '%s\n' "$add" "$delete" "$add" | "$program" answer "$work/zone") || fail "$limit records are refused"
[ "$replies" = $'4321a8020000000000000000\n4322a8000000000000000000\n4321a8000000000000000000' ] || fail "the updates got $replies"
echo "$limit records are read; one more by an update is SERVFAIL, and NOERROR once another is deleted"

zone $((limit + 1)) > "$work/zone"
if told=$("$program" answer "$work/zone" < /dev/null 2>&1); then fail "$((limit + 1)) records are read"; fi
[ "${told%%$'\n'*}" = "line $((limit + 1)): M13 Limit" ] || fail "$((limit + 1)) records are told as $told"
echo "$((limit + 1)) records are refused: ${told%%$'\n'*}"
