#!/usr/bin/env bash
# Tries a running `dnsd serve --keys` by dnspython and by drill, with keys of hmac-sha256 and hmac-sha512 (RFC 8945): queries, updates and transfers over
# UDP and TCP, whose replies dnspython verifies, and transfers by drill, which signs nothing else. Then keys that aren't known or are of another
# algorithm, other secrets, and a clock that is ten minutes fast: what these two, dig, kdig, nsupdate and knsupdate report is what they report of BIND
# (dig and nsupdate don't run by faketime). It prints a line a check and a count, and its status is 1 where one failed. It listens on 127.0.0.1 alone,
# and ends what it starts.
# Usage: [DNSD=PROGRAM] tests/tsig_clients.sh [--port N]
#   --port N    dnsd listens on N (by default 15423), BIND on the next
# It needs Debian's packages bind9, bind9-dnsutils, knot-dnsutils, python3-dnspython, ldnsutils and faketime, and the program that `make dnsd` builds.
set -euo pipefail
cd "$(dirname "$0")/.."
program=${DNSD:-$PWD/crates/dnsd/out/dnsd}
port=15423
while [ $# -gt 0 ]; do
    case $1 in
        --port) port=$2; shift 2 ;;
        *) echo "tsig_clients: no option $1" >&2; exit 2 ;;
    esac
done
PATH=$PATH:/usr/sbin:/sbin
. tests/asking.sh
. tests/contrib.sh
need "bind9, bind9-dnsutils, knot-dnsutils, ldnsutils and faketime" named dig nsupdate kdig knsupdate drill faketime
# Debian packages dnspython for its own Python
/usr/bin/python3 -c 'import dns.tsig' 2>/dev/null || { echo "tsig_clients.sh: no dnspython: it needs Debian's python3-dnspython" >&2; exit 2; }

s1=AAECAwQFBgcICQoLDA0ODxAREhMUFRYXGBkaGxwdHh8=
s2=AAECAwQFBgcICQoLDA0ODxAREhMUFRYXGBkaGxwdHh8gISIjJCUmJygpKissLS4vMDEyMzQ1Njc4OTo7PD0+Pw==
s3=ZGlmZmVyZW50IHNlY3JldCBvZiBvY3RldHM=
other=$((port + 1))

# What dnspython, whose replies are verified, makes of an action: PORT KEY ALGORITHM SECRET udp|tcp query|axfr|ixfr|update|delete [NAME]
dnspython() {
    "${fast[@]}" /usr/bin/python3 - "$d" "$@" <<'end'
import sys
import dns.message, dns.name, dns.query, dns.rcode, dns.rdatatype, dns.tsig, dns.update, dns.xfr, dns.zone
zone, port, name, algorithm, secret, over, action, *owner = sys.argv[1:]
to = {"where": "127.0.0.1", "port": int(port), "timeout": 5}
key = dns.tsig.Key(name, secret, algorithm)
ask = dns.query.udp if over == "udp" else dns.query.tcp
try:
    if action in ("axfr", "ixfr"):
        copy = dns.zone.Zone(zone)
        query, serial = dns.xfr.make_query(copy, keyring=key, serial=None if action == "axfr" else 1)
        if action == "ixfr":
            # one version ago, of a zone that has the rest
            with copy.writer() as writer:
                writer.add(dns.name.empty, dns.rdataset.from_text("IN", "SOA", 3600, f"ns1.{zone} admin.{zone} 1 7200 900 1209600 300"))
            query, serial = dns.xfr.make_query(copy, keyring=key)
        dns.query.inbound_xfr("127.0.0.1", copy, query, port=int(port), timeout=5)
        print(len(list(copy.iterate_rdatas())), "records")
        sys.exit()
    if action == "query":
        message = dns.message.make_query(zone, "SOA", use_edns=0)
        message.use_tsig(key)
    else:
        message = dns.update.UpdateMessage(zone, keyring=key)
        message.add(*owner, 60, "A", "192.0.2.7") if action == "update" else message.delete(*owner, "A")
    reply = ask(message, **to)
    print(dns.rcode.to_text(reply.rcode()), "signed" if reply.had_tsig else "unsigned", *(["aa"] if reply.flags & dns.flags.AA else []))
except dns.exception.DNSException as error:
    print(type(error).__name__)
end
}

# What drill makes of a transfer: how many records, or the code and the number of the error in the reply's TSIG. PORT KEY ALGORITHM SECRET
drills() {
    "${fast[@]}" drill -t -p "$1" -y "$2:$4:$3" @127.0.0.1 "$d" AXFR 2>&1 | awk '
        /->>HEADER<<-/ { match($0, /rcode: [A-Z]+/); code = substr($0, RSTART + 7, RLENGTH - 7) }
        / TSIG |\tTSIG\t/ { error = ", error " ($NF ~ /^[0-9]+$/ ? $(NF - 1) : $(NF - 2)) }
        /^[^;].*\tIN\t/ { n++ }
        END { print (code ? code error : n " records") }'
}

# What a tool reports of a request that is refused, each word once: dig|kdig|nsupdate|knsupdate PORT KEY ALGORITHM SECRET
reports() {
    local key=$4:$3:$5
    case $1 in
        dig | kdig) "${fast[@]}" "$1" @127.0.0.1 -p "$2" -y "$key" +retry=0 +time=5 "$d" SOA ;;
        *) printf '%s\n' "server 127.0.0.1 $2" "zone $d" "update add new.$d 60 A 192.0.2.7" send | "${fast[@]}" "$1" -y "$key" ;;
    esac 2>&1 | { grep -oE 'NOERROR|REFUSED|NOTAUTH|BAD[A-Z]+|verify (TSIG|signature)|out of time window|indicates error' || true; } | uniq | paste -sd ' ' || true
}

# BIND, which has the same zone and keys.
serve_bind() {
    mkdir -p "$work/bind"
    cp zones/example.test.zone "$work/bind/zone"
    cat >"$work/bind/named.conf" <<end
options { directory "$work/bind"; listen-on port $other { 127.0.0.1; }; listen-on-v6 { none; }; pid-file none; recursion no;
    session-keyfile none; allow-query { any; }; dnssec-validation no; };
controls { };
key "k1.key" { algorithm hmac-sha256; secret "$s1"; };
key "k2.key" { algorithm hmac-sha512; secret "$s2"; };
key "none.key" { algorithm hmac-sha512; secret "$s2"; };
zone "example.test" { type primary; file "zone"; allow-update { key k1.key; key k2.key; }; allow-transfer { key k1.key; key k2.key; }; };
end
    start bind named -g -n 1 -c "$work/bind/named.conf"
    reaches "$other" 1
}

# What should be taken: NAME ALGORITHM SECRET
taken() {
    local over
    for over in udp tcp; do
        check "dnspython, $2, a query over $over" "NOERROR signed aa" "$(dnspython "$port" "$@" $over query)"
        check "dnspython, $2, an update over $over" "NOERROR signed" "$(dnspython "$port" "$@" $over update "new.$over")"
        check "dnspython, $2, its deletion over $over" "NOERROR signed" "$(dnspython "$port" "$@" $over delete "new.$over")"
    done
    check "dnspython, $2, AXFR" "13 records" "$(dnspython "$port" "$@" tcp axfr)"
    check "drill, $2, AXFR" "14 records" "$(drills "$port" "$@")"
}

# What should be refused, as BIND does: WHAT REPORT-OF-DNSPYTHON REPORT-OF-DRILL NAME ALGORITHM SECRET
refused() {
    local action over tool told tools="dig kdig nsupdate knsupdate"
    [ ${#fast[@]} = 0 ] || tools="kdig knsupdate"
    for tool in $tools; do
        told=$(reports "$tool" "$port" "${@:4}")
        check "$tool, $5, $1" "$(sed 's/^PEER//; s/NATURE$//' <<<"${2^^}")" "$(grep -oE 'BAD[A-Z]+' <<<"$told" | head -1)"
        check "$tool, $5, $1, as BIND" "$(reports "$tool" "$other" "${@:4}")" "$told"
    done
    for over in udp tcp; do
        for action in query update; do
            check "dnspython, $5, $1, $action over $over" "$2" "$(dnspython "$port" "${@:4}" $over $action new)"
            check "dnspython, $5, $1, $action over $over, as BIND" "$(dnspython "$other" "${@:4}" $over $action new)" "$(dnspython "$port" "${@:4}" $over $action new)"
        done
    done
    check "drill, $5, $1" "$3" "$(drills "$port" "${@:4}")"
    check "drill, $5, $1, as BIND" "$(drills "$other" "${@:4}")" "$(drills "$port" "${@:4}")"
}

printf '%s\n' "hmac-sha256:k1.key:$s1" "hmac-sha512:k2.key:$s2" "hmac-sha512:none.key:$s2" >"$work/keys"
chmod 600 "$work/keys"
fast=()
serve zones/example.test.zone --allow '' --keys "$work/keys" --may 'key k1.key: update, transfer' --may 'key k2.key: update, transfer'
serve_bind
taken k1.key hmac-sha256 $s1
taken k2.key hmac-sha512 $s2
check "dnspython, an update by a key without a rule" "REFUSED signed" "$(dnspython "$port" none.key hmac-sha512 $s2 tcp update new)"
check "the same, as BIND" "$(dnspython "$other" none.key hmac-sha512 $s2 tcp update new)" "$(dnspython "$port" none.key hmac-sha512 $s2 tcp update new)"
for key in "k1.key hmac-sha256 $s1" "k2.key hmac-sha512 $s2"; do
    read -r name algorithm secret <<<"$key"
    fast=()
    refused "an unknown key" PeerBadKey "NOTAUTH, error 17" other.key "$algorithm" "$secret"
    refused "another secret" PeerBadSignature "NOTAUTH, error 16" "$name" "$algorithm" $s3
    fast=(faketime -f +600s)
    refused "ten minutes fast" PeerBadTime "NOTAUTH, error 18" "$name" "$algorithm" "$secret"
done
fast=()
refused "another algorithm than the key's" PeerBadKey "NOTAUTH, error 17" k1.key hmac-sha512 $s1
echo "$passed checks passed, $failed failed"
[ "$failed" = 0 ]
