#!/usr/bin/env bash
# Tries a running `dnsd serve` by Kea's DHCP-DDNS server, which makes updates of what a DHCP server leases (RFC 4703): contrib's configuration
# of it, over two servers, one of names and one of addresses. The requests are those that Kea's DHCP servers send it. What is expected
# stands here, from RFC 4701 and 4703. The same without a key and with keys of hmac-sha256 and hmac-sha512 (RFC 8945), by which alone the servers
# then let it update; and with a key that isn't known, another secret, and a clock that is ten minutes fast, where nothing may change. It prints
# a line a check and a count, and its status is 1 where one failed. It listens on 127.0.0.1 alone, and ends what it starts.
# Usage: [DNSD=PROGRAM] tests/kea.sh [--port N]
#   --port N               the servers listen on N (by default 15373) and the next one, Kea on the one after them
# It needs Debian's packages bind9-dnsutils, kea-dhcp-ddns-server and faketime, and the program that `make dnsd` builds.
set -euo pipefail
cd "$(dirname "$0")/.."
program=${DNSD:-$PWD/crates/dnsd/out/dnsd}
port=15373
while [ $# -gt 0 ]; do
    case $1 in
        --port) port=$2; shift 2 ;;
        *) echo "kea: no option $1" >&2; exit 2 ;;
    esac
done
PATH=$PATH:/usr/sbin:/sbin
. tests/asking.sh
. tests/contrib.sh
need "bind9-dnsutils, kea-dhcp-ddns-server and faketime" dig kea-dhcp-ddns faketime

names=$port
addresses=$((port + 1))
kea=$((port + 2))
s1=AAECAwQFBgcICQoLDA0ODxAREhMUFRYXGBkaGxwdHh8=
s2=AAECAwQFBgcICQoLDA0ODxAREhMUFRYXGBkaGxwdHh8gISIjJCUmJygpKissLS4vMDEyMzQ1Njc4OTo7PD0+Pw==
s3=ZGlmZmVyZW50IHNlY3JldCBvZiBvY3RldHM=

# A server of each zone, which has an SOA and an NS, with these options.
start_servers() {
    local log=$work/names.log
    port=$names
    printf '%s\n' "$d 3600 IN SOA ns1.$d admin.$d 1 7200 900 1209600 300" "$d 3600 IN NS ns1.$d" "ns1.$d 3600 IN A 127.0.0.1" >"$work/names"
    serve "$work/names" "$@"
    mv "$work/dnsd.log" "$log"
    printf '%s\n' "$r 3600 IN SOA ns1.$d admin.$d 1 7200 900 1209600 300" "$r 3600 IN NS ns1.$d" >"$work/addresses"
    port=$addresses
    serve "$work/addresses" "$@"
}

# Ends all that was started.
stop_all() {
    for pid in "${started[@]}"; do kill "$pid" 2>/dev/null || true; done
    wait 2>/dev/null || true
    started=()
}

# Kea with contrib's configuration, but for the ports and the place of its socket, and for a key, where one is given: [NAME ALGORITHM SECRET [COMMAND ..]],
# where a command such as faketime stands before it.
start_kea() {
    sed "s/\"port\": 5353/\"port\": $names/; s/\"port\": 5354/\"port\": $addresses/; s/\"port\": 53001/\"port\": $kea/; s|/run/kea/|$work/|" \
        contrib/kea-dhcp-ddns.conf >"$work/kea.conf"
    [ $# = 0 ] || sed -i "s|\"tsig-keys\": \[\]|\"tsig-keys\": [ { \"name\": \"$1\", \"algorithm\": \"$2\", \"secret\": \"$3\" } ]|
        s|^\( *\)\"name\": \"[a-z0-9.-]*\.\",|&\n\1\"key-name\": \"$1\",|" "$work/kea.conf"
    KEA_LOCKFILE_DIR=$work KEA_PIDFILE_DIR=$work "${@:4}" kea-dhcp-ddns -c "$work/kea.conf" >"$work/kea.log" 2>&1 &
    started+=($!)
    for _ in $(seq 100); do
        ! grep -q DHCP_DDNS_STARTED "$work/kea.log" || return 0
        sleep 0.1
    done
    cat "$work/kea.log" >&2
    echo "kea: kea-dhcp-ddns doesn't start" >&2
    exit 2
}

# What Kea has told of its requests so far: those that it did, and those that failed.
told() {
    grep -cE "DHCP_DDNS_(ADD|REMOVE)_$1" "$work/kea.log" || true
}

# A request as Kea's DHCP servers send it, its length in front, and what comes of it: SUCCEEDED or FAILED, 0 for an address that is given to a
# name or 1 for one that is taken from it, the name, the address, the client's DHCID, and true where the address is to lead to the name.
asks() {
    local wanted=$1 before text
    before=$(told "$wanted")
    text="{\"change-type\":$2,\"forward-change\":true,\"reverse-change\":$6,\"fqdn\":\"$3\",\"ip-address\":\"$4\",\"dhcid\":\"$5\","
    text+='"lease-expires-on":"20991231235959","lease-length":3600,"use-conflict-resolution":true}'
    # shellcheck disable=SC2059
    printf "\\x$(printf %02x $((${#text} / 256)))\\x$(printf %02x $((${#text} % 256)))%s" "$text" >"/dev/udp/127.0.0.1/$kea"
    for _ in $(seq 100); do
        [ "$(told "$wanted")" = "$before" ] || break
        sleep 0.1
    done
    check "$3 $4, ${5: -2}, $2: $wanted" "$((before + 1))" "$(told "$wanted")"
}

# The records at a name but for their TTLs, by the server on a port.
stands() {
    local type
    for type in A AAAA PTR DHCID; do
        dig @127.0.0.1 -p "$1" +noall +answer +unknownformat "$2" "$type" | awk 'NF { print $4, $6, $7 $8 $9 }'
    done
}

# Compares them: PORT NAME RECORDS, of which each has its number, its length and its digits.
has() {
    check "$2 has ${3//$'\n'/, }" "$3" "$(stands "$1" "$2")"
}

r=2.0.192.in-addr.arpa.
# of two clients: the identifier's kind, the digest's, and the digest (RFC 4701, 3.3)
mine=000201636FC0B8271C82825BB1AC5C41CF5351AA69B4FEBD94E8F17CDB95000DA48C40
other=000201636FC0B8271C82825BB1AC5C41CF5351AA69B4FEBD94E8F17CDB95000DA48C41
# What two clients lease and give up.
leases() {
    local name=laptop.$d
    asks SUCCEEDED 0 "$name" 192.0.2.77 $mine true
    has "$names" "$name" "TYPE1 4 C000024D
TYPE49 35 $mine"
    # the name in labels: 6 laptop, 7 example, 4 test
    has "$addresses" "77.$r" "TYPE12 21 066C6170746F70076578616D706C65047465737400
TYPE49 35 $mine"

    # another client has not the name (RFC 4703, 5.3.2)
    asks FAILED 0 "$name" 192.0.2.78 $other true
    has "$names" "$name" "TYPE1 4 C000024D
TYPE49 35 $mine"
    has "$addresses" "78.$r" ''

    # another address of the same client (RFC 4703, 5.3.2), and one of version 6
    asks SUCCEEDED 0 "$name" 192.0.2.79 $mine true
    has "$names" "$name" "TYPE1 4 C000024F
TYPE49 35 $mine"
    has "$addresses" "79.$r" "TYPE12 21 066C6170746F70076578616D706C65047465737400
TYPE49 35 $mine"
    asks SUCCEEDED 0 "phone.$d" 2001:db8::4f $other false
    has "$names" "phone.$d" "TYPE28 16 20010DB800000000000000000000004F
TYPE49 35 $other"

    # what another client gives up stays; the client's own goes with its DHCID (RFC 4703, 5.5)
    asks FAILED 1 "$name" 192.0.2.79 $other false
    has "$names" "$name" "TYPE1 4 C000024F
TYPE49 35 $mine"
    asks SUCCEEDED 1 "$name" 192.0.2.79 $mine true
    has "$names" "$name" ''
    has "$addresses" "79.$r" ''
    asks SUCCEEDED 1 "phone.$d" 2001:db8::4f $other false
    has "$names" "phone.$d" ''
    check "no name is left but the zone's" "ns1.$d" "$(dig @127.0.0.1 -p "$names" +noall +answer +onesoa "$d" axfr | awk '$1 != "'"$d"'" { print $1 }')"
}

start_servers
start_kea
leases
stop_all

printf '%s\n' "hmac-sha256:ddns1.key:$s1" "hmac-sha512:ddns2.key:$s2" >"$work/keys"
chmod 600 "$work/keys"
signed=(--allow '' --may '127.0.0.1: transfer' --keys "$work/keys" --may 'key ddns1.key: update' --may 'key ddns2.key: update')
for key in "ddns1.key HMAC-SHA256 $s1" "ddns2.key HMAC-SHA512 $s2"; do
    echo "signed by ${key% *}:"
    start_servers "${signed[@]}"
    # shellcheck disable=SC2086
    start_kea $key
    leases
    stop_all
done

# Kea that signs as it shouldn't, or not at all: the error that the log of dnsd has, and its key.
refused() {
    start_servers "${signed[@]}"
    start_kea "${@:2}"
    asks FAILED 0 "laptop.$d" 192.0.2.77 $mine false
    has "$names" "laptop.$d" ''
    check "$1 is logged" "$1" "$(grep -oE "$1|not permitted" "$work/names.log" | head -1)"
    stop_all
}
refused BADKEY other.key HMAC-SHA256 $s1
refused BADKEY ddns1.key HMAC-SHA512 $s1
refused BADSIG ddns1.key HMAC-SHA256 $s3
# faketime itself isn't the server's parent, so that the server ends with what was started
refused BADTIME ddns1.key HMAC-SHA256 $s1 env FAKETIME=+600s "LD_PRELOAD=$(faketime -f +600s printenv LD_PRELOAD)"
refused 'not permitted'
echo "$passed checks passed, $failed failed"
[ $failed -eq 0 ]
