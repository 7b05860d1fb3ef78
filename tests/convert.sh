#!/usr/bin/env bash
# Tries contrib/convert: what dnsd serves of a zone file that it has converted is what BIND serves of that file, octet by octet, of
# tests/convert.zone with $INCLUDE, $GENERATE, TTLs with units and twenty types, of names with capital letters, and of a signed zone without what
# signing put there; and a file with a fault gives no zone. It prints a line a check and a count, and its status is 1 where one failed. It listens
# on 127.0.0.1 alone, and ends what it starts.
# Usage: [DNSD=PROGRAM] tests/convert.sh [--port N]
#   --port N    dnsd listens on N (by default 17393), and BIND on the one after it
# It needs Debian's packages bind9-dnsutils, bind9-utils, bind9 and ldnsutils, and the program that `make dnsd` builds.
set -euo pipefail
cd "$(dirname "$0")/.."
program=${DNSD:-$PWD/crates/dnsd/out/dnsd}
port=17393
while [ $# -gt 0 ]; do
    case $1 in
        --port) port=$2; shift 2 ;;
        *) echo "convert: no option $1" >&2; exit 2 ;;
    esac
done
PATH=$PATH:/usr/sbin:/sbin
. tests/asking.sh
. tests/contrib.sh
need "bind9-dnsutils, bind9-utils, bind9 and ldnsutils" dig named named-compilezone dnssec-keygen dnssec-signzone ldns-read-zone

# Converts a file in $work/primary, where its $INCLUDE is looked for: the zone, the file, and where the text goes. Its status is that of the script.
converts() {
    (cd "$work/primary" && DNSD=$program "$OLDPWD/contrib/convert" "$1" "$2" >"$work/$3" 2>"$work/$3.told")
}

# What dnsd serves of a file that was converted is what BIND serves of it, but for the types that a pattern names: ZONE FILE PATTERN
serves_the_same() {
    local want
    want=$(octets $((port + 1)) "$1" | awk -v left="$3" '$4 !~ left')
    check "$1 is converted" yes "$(converts "$1" "$2" zone && echo yes || cat "$work/zone.told")"
    serve "$work/zone"
    same "$1, $(wc -l <<<"$want") records octet by octet" "$want" "$(octets "$port" "$1")"
    unserve
}

# A file that isn't a zone has no text, and a status other than 0: what is wrong, and the lines after a zone's.
refuses() {
    printf '%s\n' '$TTL 1h' '@ SOA ns1 admin 1 2h 15m 2w 5m' '@ NS ns1' 'ns1 A 127.0.0.1' "${@:2}" >"$work/primary/faulty"
    check "$1" 'status 1, 0 octets' "status $(converts "$d" faulty faulty && echo 0 || echo $?), $(wc -c <"$work/faulty") octets"
}

# The zone signed, as example.test's file with NSEC or, with -3, with NSEC3: the zone's name, and how it is signed.
sign() {
    local zone=$1
    shift
    (
        cd "$work/primary"
        named-compilezone -q -i none -o - "$zone" tests/convert.zone | grep -v DNSKEY >"$zone.plain"
        dnssec-keygen -q -a ECDSAP256SHA256 "$zone" >/dev/null
        cat "K$zone"*.key >>"$zone.plain"
        dnssec-signzone -q -z -o "$zone" "$@" -f "$zone.signed" "$zone.plain" "K$zone"*.key >/dev/null 2>&1
    )
}

mkdir -p "$work/primary/tests"
cp tests/convert.zone tests/types.zone "$work/primary/tests"
printf '%s\n' '$TTL 1h' '@ SOA Ns1 Admin 1 2h 15m 2w 5m' '@ NS Ns1' 'Ns1 A 127.0.0.1' 'Mail MX 10 Web.Capitals.TEST.' 'w CNAME WEB' >"$work/primary/capitals"
sign signed.test
sign nsec3.test -3 abcd
start_primary $((port + 1)) example.test tests/convert.zone capitals.test capitals signed.test signed.test.signed nsec3.test nsec3.test.signed
for zone in "$d" capitals.test. signed.test. nsec3.test.; do reaches $((port + 1)) 1 $zone; done

serves_the_same "$d" tests/convert.zone '^$'
check "it has at least twenty types" yes "$([ "$(awk '{ print $4 }' "$work/zone" | sort -u | wc -l)" -ge 20 ] && echo yes)"
serves_the_same signed.test. signed.test.signed '^TYPE(46|47)$'
serves_the_same nsec3.test. nsec3.test.signed '^TYPE(46|50|51)$'
converts capitals.test. capitals zone || true
serve "$work/zone"
same "capitals.test., but for the case of names" "$(words $((port + 1)) capitals.test.)" "$(words "$port" capitals.test.)"
unserve
converts "$d" tests/convert.zone zone || true
converts "$d" - from_input <tests/convert.zone || true
check "a file from standard input" same "$(cmp "$work/zone" "$work/from_input" && echo same)"
refuses "a word that is no type" 'x NOTYPE 1'
refuses "an alias beside other data" 'x CNAME ns1' 'x A 192.0.2.1'
refuses "an included file that isn't there" '$INCLUDE nowhere'
refuses "a set of 257 records" '$GENERATE 1-257 x TXT $'
echo "$passed checks passed, $failed failed"
[ $failed -eq 0 ]
