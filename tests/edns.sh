#!/usr/bin/env bash
# Tries EDNS (RFC 6891) of a running `dnsd serve` by the programs that people have, each with its own defaults: which OPT record a reply has,
# up to which size it comes over UDP, and BIND as a resolver that forwards to it, through a relay that tells what was asked.
# What is expected stands here, from the RFC. It prints a line a check and a count, and its status is 1 where one failed. It listens on
# 127.0.0.1 alone, and ends what it starts.
# Usage: [DNSD=PROGRAM] tests/edns.sh [--port N]
#   --port N    dnsd listens on N (by default 15363), the relay and the resolver on the two behind it
# It needs Debian's packages bind9-dnsutils, knot-dnsutils, ldnsutils, bind9 and python3-dnspython, and the program that `make dnsd` builds.
set -euo pipefail
cd "$(dirname "$0")/.."
program=${DNSD:-$PWD/crates/dnsd/out/dnsd}
port=15363
while [ $# -gt 0 ]; do
    case $1 in
        --port) port=$2; shift 2 ;;
        *) echo "edns: no option $1" >&2; exit 2 ;;
    esac
done
[ -x "$program" ] || { echo "edns: no program at $program: run make dnsd first" >&2; exit 2; }
PATH=$PATH:/usr/sbin:/sbin
python=
for candidate in python3 /usr/bin/python3; do
    ! "$candidate" -c 'import dns.query' 2>/dev/null || python=$candidate
done
for command in dig kdig delv drill nsupdate knsupdate named "${python:-python3-dnspython}"; do
    command -v "$command" >/dev/null || {
        echo "edns: no $command: it needs Debian's bind9-dnsutils, knot-dnsutils, ldnsutils, bind9 and python3-dnspython" >&2
        exit 2
    }
done
. tests/asking.sh

# so many times a letter
letters() {
    head -c "$1" /dev/zero | tr '\0' "$2"
}

# A TXT record of which a reply with an OPT has so many octets: header 12, question 20, owner, type, class, TTL and length 12, OPT 11, and
# strings of at most 255 octets, each behind its length (RFC 1035, 3.3.14).
text_for() {
    local left=$(($2 - 55)) strings=''
    while [ $left -gt 256 ]; do
        strings="$strings \"$(letters 255 x)\""
        left=$((left - 256))
    done
    echo "$1.$d 3600 IN TXT$strings \"$(letters $((left - 1)) y)\""
}

# The zone: that of the other tests, with texts for these sizes, and a set of a hundred addresses.
zone="$work/zone"
{
    cat tests/interop.zone
    text_for s 512
    text_for t 513
    text_for u 1232
    text_for v 1233
    for i in $(seq 100); do echo "all.$d 3600 IN A 192.0.2.$i"; done
} >"$zone"

# What dig tells of a reply: its status, its flags, the OPT in it or that there is none, and how many octets came.
told() {
    dig @127.0.0.1 -p "$port" +ignore +retry=0 +timeout=5 "$@" 2>&1 | awk '
        /->>HEADER<<-/ { match($0, /status: [A-Z]+/); status = substr($0, RSTART + 8, RLENGTH - 8); opt = "no OPT" }
        /^;; flags:/ { sub(/^;; flags: */, ""); sub(/;.*/, ""); flags = $0 }
        /^; EDNS:/ { sub(/^; EDNS: */, ""); opt = $0 }
        /^;; MSG SIZE/ { print status, flags ", " opt ", " $NF }'
}

ok='NOERROR qr aa rd'
plain='version: 0, flags:; udp: 1232'
with_do='version: 0, flags: do; udp: 1232'

# The OPT of a reply, by dig's options. The reply to `web A` has 66 octets without an OPT, 77 with one.
opts() {
    local options over
    for over in +notcp +tcp; do
        for options in '' +bufsize=0 +bufsize=512 +bufsize=1232 +bufsize=4096 +ednsopt=65001:00 +cookie +nocookie +nsid +subnet=192.0.2.0/24; do
            # shellcheck disable=SC2086
            check "dig $over $options" "$ok, $plain, 77" "$(told $over $options "web.$d" A)"
        done
        check "dig $over +dnssec: DO is copied" "$ok, $with_do, 77" "$(told $over +dnssec "web.$d" A)"
        check "dig $over +noedns: no OPT" "$ok, no OPT, 66" "$(told $over +noedns "web.$d" A)"
        # another version than 0 gets BADVERS, header, question and OPT (RFC 6891, 6.1.3)
        check "dig $over +edns=1" "BADVERS qr rd, $plain, 45" "$(told $over +edns=1 +noednsneg "web.$d" A)"
        check "dig $over +edns=1 +dnssec" "BADVERS qr rd, $with_do, 45" "$(told $over +edns=1 +noednsneg +dnssec "web.$d" A)"
        check "dig $over +edns=1, asked again with version 0" "$ok, $plain, 77" "$(told $over +edns=1 "web.$d" A | tail -1)"
        # refusals have the OPT too
        check "dig $over of a name outside" "REFUSED qr rd, $plain, 45" "$(told $over host.example.net. A)"
        check "dig $over of type 253" "NOTIMP qr rd, $plain, 45" "$(told $over "web.$d" TYPE253)"
        check "dig $over of a name that isn't there" "NXDOMAIN qr aa rd, $plain" "$(told $over "nope.$d" A | sed 's/, [0-9]*$//')"
    done
}

# Up to which size a reply comes over UDP: the lesser of the asker's and 1,232 octets, and 512 without an OPT (RFC 6891, 6.2.3 to 6.2.5).
sizes() {
    check "512 octets, asked with 512" "$ok, $plain, 512" "$(told +notcp +bufsize=512 "s.$d" TXT)"
    check "512 octets, asked with 100, which counts as 512" "$ok, $plain, 512" "$(told +notcp +bufsize=100 "s.$d" TXT)"
    check "513 octets, asked with 512" "NOERROR qr aa tc rd, $plain, 43" "$(told +notcp +bufsize=512 "t.$d" TXT)"
    check "513 octets, asked with 513" "$ok, $plain, 513" "$(told +notcp +bufsize=513 "t.$d" TXT)"
    check "513 octets, asked by default" "$ok, $plain, 513" "$(told +notcp "t.$d" TXT)"
    check "1,232 octets, asked with 1,231" "NOERROR qr aa tc rd, $plain, 43" "$(told +notcp +bufsize=1231 "u.$d" TXT)"
    check "1,232 octets, asked by default" "$ok, $plain, 1232" "$(told +notcp "u.$d" TXT)"
    check "1,232 octets, asked with 4,096" "$ok, $plain, 1232" "$(told +notcp +bufsize=4096 "u.$d" TXT)"
    check "1,233 octets, asked with 4,096" "NOERROR qr aa tc rd, $plain, 43" "$(told +notcp +bufsize=4096 "v.$d" TXT)"
    check "1,233 octets, by TCP" "$ok, $plain, 1233" "$(told +tcp "v.$d" TXT)"
    check "502 octets, asked without an OPT" "NOERROR qr aa rd, no OPT, 502" "$(told +notcp +noedns "t.$d" TXT)"
    check "1,221 octets, asked without an OPT" "NOERROR qr aa tc rd, no OPT, 32" "$(told +notcp +noedns "u.$d" TXT)"
    check "a hundred addresses come by TCP" 100 "$(dig @127.0.0.1 -p "$port" +short "all.$d" A | wc -l)"
    check "an IXFR over UDP of more than 512 octets" "1 (UDP)" "$(ixfr_over_udp)"
}

# Whether an IXFR over UDP came whole after a text of 750 octets was added, and how it came; dig shows no OPT of a transfer.
ixfr_over_udp() {
    {
        echo "server 127.0.0.1 $port"
        echo "zone $d"
        echo "update add long.$d 3600 TXT \"$(letters 250 z)\" \"$(letters 250 z)\" \"$(letters 250 z)\""
        echo send
    } | nsupdate >/dev/null 2>&1
    dig @127.0.0.1 -p "$port" +ignore +retry=0 "$d" IXFR=1 +notcp 2>&1 | awk '
        $4 == "TXT" && /zzz/ { n++ }
        /^;; SERVER:/ { over = $NF }
        END { print n, over }'
}

# Other programs, as they ask by default.
programs() {
    local want
    want=$(rr web A 192.0.2.10 192.0.2.11)
    check "delv -i" "$want" "$(delv -i @127.0.0.1 -p "$port" "web.$d" A 2>&1 | records)"
    check "drill" "$want" "$(drill -p "$port" @127.0.0.1 "web.$d" A 2>&1 | records)"
    check "drill -b 4096 -D" "$want" "$(drill -b 4096 -D -p "$port" @127.0.0.1 "web.$d" A 2>&1 | records)"
    check "kdig" "$want" "$(kdig @127.0.0.1 -p "$port" "web.$d" A 2>&1 | records)"
    check "kdig +edns" "$want" "$(kdig @127.0.0.1 -p "$port" +edns "web.$d" A 2>&1 | records)"
    check "kdig +dnssec +tcp" "$want" "$(kdig @127.0.0.1 -p "$port" +dnssec +tcp "web.$d" A 2>&1 | records)"
    check "dnspython, use_edns(0, payload=1232)" "NOERROR 0 1232 False 2" "$(by_dnspython 0 0)"
    check "dnspython, use_edns(0, DO)" "NOERROR 0 1232 True 2" "$(by_dnspython 0 0x8000)"
    check "dnspython, use_edns(1)" "BADVERS 0 1232 False 0" "$(by_dnspython 1 0)"
    local tool
    for tool in nsupdate knsupdate; do
        check "$tool" "$(rr "$tool" A 192.0.2.77)" "$({ echo "server 127.0.0.1 $port"; echo "zone $d"; echo "update add $tool.$d 3600 A 192.0.2.77"; echo send; } | $tool >/dev/null 2>&1; dig @127.0.0.1 -p "$port" "$tool.$d" A | records)"
    done
}

# The A records among what a program printed, with one space between words, in order.
records() {
    awk '!/^;/ && $4 == "A" { $1 = $1; print }' | LC_ALL=C sort
}

# What dnspython tells of a reply: its code, the OPT's version, size and DO, and how many records of the set came.
by_dnspython() {
    "$python" - "$port" "web.$d" "$1" "$2" <<'end2'
import sys
import dns.flags
import dns.message
import dns.query
import dns.rcode
port, name, version, flags = int(sys.argv[1]), sys.argv[2], int(sys.argv[3]), int(sys.argv[4], 0)
query = dns.message.make_query(name, "A")
query.use_edns(version, flags, payload=1232)
reply = dns.query.udp(query, "127.0.0.1", port=port, timeout=5)
count = sum(len(rrset) for rrset in reply.answer)
print(dns.rcode.to_text(reply.rcode()), reply.edns, reply.payload, bool(reply.ednsflags & dns.flags.DO), count)
end2
}

# BIND as a resolver that forwards the zone's names to a port.
start_resolver() {
    mkdir "$work/named"
    cat >"$work/named.conf" <<end
options {
    directory "$work/named"; pid-file none; session-keyfile none;
    listen-on port $1 { 127.0.0.1; }; listen-on-v6 { none; };
    recursion yes; notify no; dnssec-validation no; qname-minimization off; allow-query { 127.0.0.1; };
};
controls { };
zone "example.test" { type forward; forward only; forwarders { 127.0.0.1 port $2; }; };
end
    named -g -n 1 -c "$work/named.conf" >"$work/named.log" 2>&1 &
    started+=($!)
    for _ in $(seq 100); do
        ! grep -q ' running$' "$work/named.log" || return 0
        sleep 0.1
    done
    echo "edns: named doesn't run" >&2
    exit 2
}

# Records without their TTLs, which a resolver counts down.
kept() {
    awk '{ $2 = ""; print }'
}

# A resolver's answers, and how it asked: each request has an OPT, none is sent again without one, and the set of a hundred comes by TCP.
resolver() {
    local relay=$((port + 1)) at=$((port + 2))
    "$python" tests/relay.py $relay "$port" "$work/asked" &
    started+=($!)
    start_resolver $at $relay
    check "by a resolver: a name" "$(rr web A 192.0.2.10 192.0.2.11 | kept)" "$(dig @127.0.0.1 -p $at "web.$d" A | records | kept)"
    check "by a resolver: an alias" "$(rr web A 192.0.2.10 192.0.2.11 | kept)" "$(dig @127.0.0.1 -p $at "www.$d" A | records | kept)"
    check "by a resolver: a wildcard" "$(rr p.q.dyn A 192.0.2.99 | kept)" "$(dig @127.0.0.1 -p $at "p.q.dyn.$d" A | records | kept)"
    check "by a resolver: a name error" NXDOMAIN "$(dig @127.0.0.1 -p $at "nope.$d" A | reply | awk 'NR == 1 { print $1 }')"
    check "by a resolver: a hundred addresses" 100 "$(dig @127.0.0.1 -p $at +tcp +short "all.$d" A | wc -l)"
    check "requests without an OPT" '' "$(grep -v ' opt$' "$work/asked" || true)"
    check "requests over UDP that were sent twice" '' "$(grep '^udp' "$work/asked" | sort | uniq -d)"
    check "what came by TCP" "tcp all.$d 1 opt" "$(grep '^tcp' "$work/asked" | sort -u)"
}

serve "$zone"
opts
sizes
programs
resolver
unserve
echo "$passed checks passed, $failed failed"
[ $failed -eq 0 ]
