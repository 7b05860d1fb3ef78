#!/usr/bin/env bash
# Asks a running `dnsd serve` at four addresses, two of IPv4 and two of IPv6, by UDP and TCP: each reply has to come from the address that was asked, and
# updates and transfers by each have to be permitted alike; and then at 0.0.0.0 and [::], which stand together. It runs in a network of its own
# (unshare(1), as root), and prints a line a check and a count; its status is 1 where one failed.
# Usage: [DNSD=PROGRAM] tests/addresses.sh, by default crates/dnsd/out/dnsd. It needs Debian's bind9-dnsutils and iproute2.
set -euo pipefail
cd "$(dirname "$0")/.."
if [ "${1:-}" != inside ]; then exec unshare -n "$0" inside; fi
program=${DNSD:-$PWD/crates/dnsd/out/dnsd}
port=15553
ip link set lo up
ip addr add 192.0.2.1/32 dev lo
ip addr add 192.0.2.2/32 dev lo
ip -6 addr add 2001:db8::1/128 dev lo nodad
ip -6 addr add 2001:db8::2/128 dev lo nodad
addresses="192.0.2.1 192.0.2.2 2001:db8::1 2001:db8::2"
. tests/asking.sh

# an address with the port
at() { case $1 in *:*) echo "[$1]:$port" ;; *) echo "$1:$port" ;; esac; }
listen=()
for address in $addresses; do listen+=(--listen "$(at "$address")"); done

# Starts the server over the zone with these options, and waits until it says that it listens.
begin() {
    "$program" serve "$@" zones/example.test.zone 2>"$work/dnsd.log" &
    server=$!
    started+=("$server")
    for _ in $(seq 100); do
        ! grep -q '^listening on' "$work/dnsd.log" || return 0
        sleep 0.05
    done
    cat "$work/dnsd.log" >&2
    exit 2
}

# Which address a reply comes from, by a client that takes it from any: ADDRESS
from() {
    python3 - "$1" "$port" <<'PY'
import socket, sys
family = socket.AF_INET6 if ":" in sys.argv[1] else socket.AF_INET
client = socket.socket(family, socket.SOCK_DGRAM)
client.settimeout(3)
client.sendto(bytes.fromhex("12340100000100000000000003777777076578616d706c6504746573740000010001"), (sys.argv[1], int(sys.argv[2])))
print(client.recvfrom(600)[1][0])
PY
}

begin "${listen[@]}" --workers 2 --allow "192.0.2.1,192.0.2.2,2001:db8::1,2001:db8::2"
check "a line an address" "4" "$(grep -c '^listening on' "$work/dnsd.log")"
count=1
for address in $addresses; do
    check "$address: a datagram is answered from there" "$address" "$(from "$address")"
    for over in +notcp +tcp; do
        check "$address $over" "192.0.2.10" "$(dig $over +short -p $port "@$address" web.$d A)"
    done
    count=$((count + 1))
    printf 'server %s %s\nlocal %s\nzone %s\nupdate add a%s.%s 60 A 192.0.2.77\nsend\n' "$address" $port "$address" "$d" "$count" "$d" | nsupdate
    check "$address: an update is taken" "$count" "$(dig +short -p $port "@$address" $d SOA | cut -d' ' -f3)"
    check "$address: a transfer is sent" "1" "$(dig +tcp +noall +answer -b "$address" -p $port "@$address" $d AXFR | grep -c "^a$count.$d")"
done
unserve

begin --listen "0.0.0.0:$port" --listen "[::]:$port" --workers 1 --allow ''
for address in 192.0.2.1 2001:db8::1; do
    for over in +notcp +tcp; do
        check "wildcard $address $over" "192.0.2.10" "$(dig $over +short -p $port "@$address" web.$d A)"
    done
    check "wildcard $address: nobody has a transfer" "" "$(dig +tcp +short -p $port "@$address" $d AXFR | grep -v '^;' || true)"
done
check "both wildcards are warned of" "2" "$(grep -c 'from the address that routing picks' "$work/dnsd.log")"
unserve
echo "$passed passed, $failed failed"
[ "$failed" = 0 ]
