#!/usr/bin/env bash
# Compares how `dnsd check --wide` reads zone files, and how --words writes them, with BIND's named-compilezone and NLnet Labs' ldns-read-zone: records of each
# type that has words, in the forms of the RFCs' examples, with times, parentheses and files that are included. Each of the two programs reads a file
# itself, dnsd's zone with its data after \# (RFC 3597, 5), and dnsd's zone in words: what it prints of the three is the same. Records that ldns prints in
# another way after \# than in words, and directives that it doesn't read, are BIND's alone.
# It prints a line a file and program, and a count, and its status is 1 where one differed.
# Usage: [DNSD=PROGRAM] tests/words.sh. It needs Debian's packages bind9-utils and ldnsutils, and the program that `make dnsd` builds.
set -euo pipefail
cd "$(dirname "$0")/.."
program=${DNSD:-$PWD/crates/dnsd/out/dnsd}
for command in named-compilezone ldns-read-zone; do
    command -v "$command" >/dev/null || { echo "words: no $command: it needs Debian's bind9-utils and ldnsutils" >&2; exit 2; }
done
[ -x "$program" ] || { echo "words: no program at $program: run make dnsd first" >&2; exit 2; }
work=$(mktemp -d)
trap 'rm -rf "$work"' EXIT

# The records, each under an owner of its own. In this order: RFC 1035; 1183; 1876; 2782; 3403; 2230; 4398; 6672; 4034, 4509, 6605; 4255, 6594;
# 4034, 8080; 7344, 8078; 4701; 6698; 8162; 7929; 9460; 7043; 7553; 8659; 7208; 3597; classes, TTLs and types in other places and cases.
cat >"$work/records" <<'end'
A 192.0.2.1
AAAA 2001:db8::1
AAAA ::ffff:192.0.2.1
NS a
CNAME a
PTR a
MX 10 a
TXT "a;b" "\"c\"" d\101
TXT a b "c d" ""
HINFO "INTEL-386" UNIX
HINFO Pentium "a b"
RP a b
RP lam1.people.umd.edu. LAM1
RP . .
AFSDB 1 a
AFSDB 2 bigbird.toaster.com.
LOC 42 21 54 N 71 06 18 W -24m 30m
LOC 42 21 43.952 N 71 5 6.344 W -24m 1m 200m
LOC 52 14 05 N 00 08 50 E 10m
LOC 32 7 19 S 116 2 25 E 10m
LOC 42 21 28.764 N 71 00 51.617 W -44m 2000m
LOC 52 22 23.000 N 4 53 32.000 E -2.00m 0.00m 10000m 10m
LOC 90 S 180 E 42849672.95m 90000000.00m 0.01m 0.5m
LOC 1 N 2 E 15m 15m 99.99m
SRV 0 1 53 a
SRV 1 3 5269 xmpp.example.com.
NAPTR 100 50 "s" "z3950+I2L+I2C" "" _z3950._tcp.gatech.edu.
NAPTR 10 20 "u" "E2U+sip" "!^.*$!sip:info@example.com!" .
NAPTR 100 10 "" "" "!^urn:cid:.+@([^\\.]+\\.)(.*)$!\\2!i" .
NAPTR 102 10 "u" "smtp+E2U" "!^.*$!mailto:information@foo.se!i" .
KX 10 a
CERT PKIX 0 RSASHA256 AQID
CERT PGP 0 0 AQID
CERT SPKI 65535 RSASHA1 AQID
CERT 65280 1 ECDSAP256SHA256 AQID BAUG
CERT URI 0 0 AQID
DNAME Example.NET.
DNAME frobozz-division.acme.example.
DS 60485 RSASHA1 1 ( 2BB183AF5F22588179A53B0A
    98631FAD1A292118 )
DS 60485 5 2 ( D4B7D520E7BB5F0F67674A0C
    CEB1E3E0614B93C4F9E99B83
    83F6A1E4469DA50A )
DS 55648 ECDSAP256SHA256 2 b4c8c1fe2e7477127b27115656ad6256f424625bf5c1e2770ce6d6e37df61d17
SSHFP 1 1 dd465c09cfa51fb45020cc83316fff21b9ec74ac
SSHFP 2 1 123456789abcdef67890123456789abcdef67890
SSHFP 3 2 ( 821eb6c1c98d9cc827ab7f456304c0f1
    4785b7008d9e8646a8519de80849afc7 )
DNSKEY 256 3 RSASHA256 AwEAAcw=
DNSKEY 256 3 5 ( AQPSKmynfzW4kyBv015MUG2DeIQ3
    Cbl+BBZH4b/0PY1kxkmvHjcZc8no
    kfzj31GajIQKY+5CptLr3buXA10h
    WqTkF7H6RfoRqXQeogmMHfpftf6z
    Mv1LyBUgia7za6ZEzOJBOztyvhjL
    742iU/TpPSEDhm2SNKLijfUppn1U
    aNvv4w==  )
DNSKEY 257 3 15 l02Woi0iS8Aa25FQkUd9RMzZHJpBoRQwAQEX1SxZJA4=
CDS 60485 5 1 2BB183AF5F22588179A53B0A98631FAD1A292118
CDS 0 0 0 00
CDNSKEY 257 3 13 AwEA Acw=
CDNSKEY 0 3 0 AA==
DHCID AAIBY2/AuCccgoJbsaxcQc9TUapptP69lOjxfNuVAA2kjEA=
DHCID AAEBOSD+XR3Os/0LozeXVqcNc7FwCfQdWL3b/NaiUDlW2No=
DHCID ( AAABxLmlskllE0MVjd57zHcWmEH3pCQ6VytcKD//7es/deY= )
TLSA 3 1 1 92003ba34942dc74152e2f2c408d29eca5a520e7f2e06bb944f4dca346baf63c
TLSA ( 0 0 1 d2abde240d7cd3ee6b4b28c54df034b9
    7983a1d16e8a410e4561cb106618e971 )
TLSA ( 1 1 2 92003ba34942dc74152e2f2c408d29ec
    a5a520e7f2e06bb944f4dca346baf63c
    1b177615d466f6c4b71c216a50292bd5
    8c9ebdd2f74e38fe51ffd48c43326cbc )
SMIMEA 0 0 1 d2abde240d7cd3ee6b4b28c54df034b97983a1d16e8a410e4561cb106618e971
OPENPGPKEY AQIDBA==
OPENPGPKEY AQID BAUG
HTTPS 0 foo.example.com.
SVCB 0 foo.example.com.
SVCB 1 .
SVCB 16 foo.example.com. port=53
SVCB 1 foo.example.com. key667=hello
SVCB 1 foo.example.com. key667="hello\210qoo"
SVCB 1 foo.example.com. ( ipv6hint="2001:db8::1,2001:db8::53:1" )
SVCB 1 example.com. ipv6hint="2001:db8:122:344::192.0.2.33"
SVCB 16 foo.example.org. ( alpn=h2,h3-19 mandatory=ipv4hint,alpn
    ipv4hint=192.0.2.1 )
SVCB 3 . key65333=ex1 key65444=ex2 mandatory=key65333,key65444 key10=abc
HTTPS 1 . alpn=h2 no-default-alpn port=8443 ipv4hint=192.0.2.1,192.0.2.2 ipv6hint=2001:db8::1
HTTPS 1 . alpn="h2,h3" ipv4hint=192.0.2.3
HTTPS 16 . ipv4hint=192.0.2.1 port=443 alpn="h3,h2" ech=AQIDBA==
EUI48 00-00-5e-00-53-2a
EUI64 00-00-5e-ef-10-00-00-2a
URI 10 1 "ftp://ftp1.example.com/public"
CAA 0 issue "letsencrypt.org"
CAA 0 issue ";"
CAA 0 issue "ca1.example.net; account=230123"
CAA 0 issuewild "ca1.example.org"
CAA 0 iodef "mailto:security@example.com"
CAA 128 tbs "Unknown"
CAA 128 issue "%%%%%"
SPF "v=spf1 -all" "more"
TYPE65280 \# 3 0a0b0c
TYPE65281 \# 0
A \# 4 c0000201
1d12h IN TXT "a"
in caa 0 issue ";"
1W2D3H4M5S Tlsa 3 1 1 00ff
end
# Those that are BIND's alone (RFC 9460, D.2; RFC 8659): octets that are escaped, a text of no octets, and a class before a TTL.
cat >"$work/escaped" <<'end'
SVCB 16 foo.example.org. alpn="f\\\\oo\\,bar,h2"
SVCB 16 foo.example.org. alpn=f\\\092oo\092,bar,h2
CAA 0 issue ""
IN 1w A 192.0.2.2
end
# A zone of these records, with the lines of a file after its first ones: FILE
zone() {
    echo '$TTL 1h30m'
    echo '@ SOA a b 1 2h 15m 2w 1d'
    echo '@ NS a'
    echo 'a A 192.0.2.1'
    awk '/^ / { print; next } { print "r" ++n " " $0 }' "$1"
}
{ zone "$work/records"; echo '$INCLUDE included'; } >"$work/zone"
echo 'i 1w2d AAAA 2001:db8::1' >"$work/included"
zone "$work/escaped" >"$work/zone_escaped"

# Files that include others, with origins of their own or that in force, and no TTL but the SOA's MINIMUM.
mkdir "$work/parts"
printf '%s\n' '@ SOA ns1 admin ( 1 ; serial' '  2h 15m 2W 5m )' ' NS ns1' '$INCLUDE hosts' 'www CAA 0 issue ";"' '$include sites sub ; with an origin' '$origin later' '@ CNAME ns1.x.' >"$work/parts/zone"
printf '%s\n' 'ns1 A 192.0.2.1' '$ORIGIN host' 'a A 192.0.2.2' >"$work/parts/hosts"
printf '%s\n' '@ TXT "one"' '$INCLUDE more' 'c TXT "c"' >"$work/parts/sites"
printf '%s\n' 'b MX 10 mail' '$INCLUDE last deep.x.' 'mail A 192.0.2.3' >"$work/parts/more"
printf '%s\n' '@ TXT "three"' '_443._tcp TLSA 3 1 1 00' >"$work/parts/last"

# Each type of the table stands there.
for type in $(sed -n 's/^ *word: "\([A-Z0-9]*\)",$/\1/p' crates/wide_text/src/forms.rt); do
    grep -q "^$type \|@ $type " "$work/records" "$work/zone" || { echo "words: no record of the type $type" >&2; exit 1; }
done

# What each program prints of a zone.
bind() { named-compilezone -i none -k ignore -n ignore -m ignore -r ignore -S ignore -T ignore -F text -o - x. "$1" 2>"$work/said" | awk '{ $1 = $1; print }' | LC_ALL=C sort; }
ldns() { ldns-read-zone -c "$1" 2>"$work/said" | awk '{ $1 = $1; print }' | LC_ALL=C sort; }

# What dnsd makes of a zone, and what it writes in words: FILE NAME
dnsd() {
    "$program" check --wide --origin x. "$1" >"$work/plain_$2"
    "$program" check --wide --words --origin x. "$1" >"$work/words_$2"
}
dnsd "$work/zone" all
dnsd "$work/zone_escaped" escaped
dnsd "$work/parts/zone" parts
# (ldns reads a whole file alone, and each name below the origin that the file has)
sed -e "/^\\\$INCLUDE/{r $work/included" -e 'd}' "$work/zone" | sed '1i $ORIGIN x.' >"$work/whole_all"
cp "$work/zone_escaped" "$work/whole_escaped"

passed=0 failed=0
# Checks that what a program prints of two zones is the same, record by record.
same() {
    local lines lost more
    lines=$(wc -l <"$2")
    if diff "$2" "$3" >"$work/diff"; then
        passed=$((passed + lines))
        echo "ok     $1: $lines records"
    else
        lost=$(grep -c '^<' "$work/diff" || true) more=$(grep -c '^>' "$work/diff" || true)
        failed=$((failed + (lost > more ? lost : more)))
        passed=$((passed + lines - lost))
        echo "FAILED $1"
        sed 's/^/           /' "$work/diff"
    fi
}
# What a program makes of a zone's file, of dnsd's zone, and of this in words: PROGRAM NAME FOLDER FILE
three() {
    local zone
    (cd "$3" && "$1" "$4") >"$work/file.$1" || { echo "words: $1 refuses $2:" >&2; cat "$work/said" >&2; exit 1; }
    for zone in plain words; do
        "$1" "$work/${zone}_$2" >"$work/$zone.$1" || { echo "words: $1 refuses dnsd's zone of $2 ($zone):" >&2; cat "$work/said" >&2; exit 1; }
    done
    [ -s "$work/file.$1" ] || { echo "words: $1 prints nothing of $2" >&2; exit 1; }
    same "$1, $2: dnsd's zone is the file" "$work/file.$1" "$work/plain.$1"
    same "$1, $2: dnsd's zone in words is the file" "$work/file.$1" "$work/words.$1"
}
three bind all "$work" "$work/whole_all"
three ldns all "$work" "$work/whole_all"
three bind escaped "$work" "$work/whole_escaped"
three bind parts "$work/parts" "$work/parts/zone"
left=$(grep -c '\\#' "$work/words_all" || true)
echo "$left records stand after \\# in dnsd's words"
echo "$passed records the same, $failed not"
[ "$failed" -eq 0 ]
