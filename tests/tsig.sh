#!/usr/bin/env bash
# Tries a running `dnsd serve --keys` by the programs that people have, each with a key (RFC 8945): questions and transfers by dig and kdig,
# updates by nsupdate, knsupdate and dnspython, and BIND, Knot and NSD as secondaries that transfer and are notified by their key alone. Keys that
# aren't known, secrets that are others, a clock that is ten minutes off and MACs that are cut short get what RFC 8945, 5.2 says, and with
# BIND as the server the same. It prints a line a check and a count, and its status is 1 where one failed. It listens on 127.0.0.1 alone, and
# ends what it starts.
# Usage: [DNSD=PROGRAM] tests/tsig.sh [--port N] [--without-secondaries]
#   --port N                 dnsd listens on N (by default 15393), the secondaries on the three after it, BIND as a server on the next
#   --without-secondaries    leaves out the secondaries
# It needs Debian's packages bind9-dnsutils, knot-dnsutils, bind9, bind9-utils, knot, nsd and python3-dnspython, and the program that `make dnsd`
# builds.
set -euo pipefail
cd "$(dirname "$0")/.."
program=${DNSD:-$PWD/crates/dnsd/out/dnsd}
port=15393
secondaries=yes
while [ $# -gt 0 ]; do
    case $1 in
        --port) port=$2; shift 2 ;;
        --without-secondaries) secondaries=no; shift ;;
        *) echo "tsig: no option $1" >&2; exit 2 ;;
    esac
done
[ -x "$program" ] || { echo "tsig: no program at $program: run make dnsd first" >&2; exit 2; }
PATH=$PATH:/usr/sbin:/sbin
for command in dig kdig nsupdate knsupdate tsig-keygen named knotd nsd; do
    command -v "$command" >/dev/null || {
        echo "tsig: no $command: it needs Debian's bind9-dnsutils, knot-dnsutils, bind9, bind9-utils, knot and nsd" >&2
        exit 2
    }
done
# Debian packages dnspython for its own Python
python=/usr/bin/python3
"$python" -c 'import dns.tsig' 2>/dev/null || { echo "tsig: no dnspython: it needs Debian's python3-dnspython" >&2; exit 2; }

. tests/asking.sh

s1=AAECAwQFBgcICQoLDA0ODxAREhMUFRYXGBkaGxwdHh8=
s2=AAECAwQFBgcICQoLDA0ODxAREhMUFRYXGBkaGxwdHh8gISIjJCUmJygpKissLS4vMDEyMzQ1Njc4OTo7PD0+Pw==
s3=ZGlmZmVyZW50IHNlY3JldCBvZiBvY3RldHM=
up=hmac-sha256:up.key:$s1
xfr=hmac-sha512:xfr.key:$s2
both=hmac-sha384:both.key:$s2
far=hmac-sha256:far.key:$s1
up2=hmac-sha512:up2.key:$s2
xfr2=hmac-sha256:xfr2.key:$s1

# The server's keys, in the forms of BIND and of dig.
write_keys() {
    {
        echo "// keys"
        echo "key \"up.key\" { algorithm hmac-sha256; secret \"$s1\"; };"
        echo "key xfr.key. {"
        echo "	secret \"$s2\"; # the secret first"
        echo "	algorithm \"hmac-sha512\";"
        echo "};"
        echo "/* of dig */"
        echo "hmac-sha384:BOTH.key:$s2"
        printf '%s\n' "$far" "$up2" "$xfr2"
    } >"$work/keys"
    chmod 600 "$work/keys"
}
rules=(--allow '' --may 'key up.key: update' --may 'key xfr.key: transfer' --may 'key both.key 127.0.0.0/8: update, transfer'
    --may 'key far.key 192.0.2.0/24: update, transfer' --may 'key up2.key: update' --may 'key xfr2.key: transfer')

# What dig or kdig prints of a signed question: the status, whether the TSIG was verified, and the error of the reply's TSIG.
verified() {
    local tool=$1 key=$2
    shift 2
    "$tool" @127.0.0.1 -p "$port" -y "$key" +retry=0 +timeout=5 "$@" >"$work/printed" 2>&1 || true
    awk '
        /->>HEADER<<-/ && !status { match($0, /status: [A-Z]+/); status = substr($0, RSTART + 8, RLENGTH - 8) }
        /[Cc]ouldn.t verify|[Ff]ailed to verify|TSIG error|expected a TSIG|WARNING.*(TSIG|verif)|could not be validated/ { bad = 1 }
        /PSEUDOSECTION|^;; TSIG/ { tsig = 1 }
        END { print status, (tsig ? "signed" : "unsigned"), (bad ? "not verified" : "verified") }
    ' "$work/printed"
}

# How many records dig or kdig prints of a signed transfer, and whether its messages were verified.
transferred() {
    verified "$@" >/dev/null
    awk '
        /[Cc]ouldn.t verify|[Ff]ailed to verify|TSIG error|could not be validated|WARNING/ { bad = 1 }
        /^[^;].*[ \t]TSIG[ \t]/ { tsig = 1; next }
        /^[^;]/ { n++ }
        END { print n + 0 " records, " (bad || !tsig ? "not verified" : "verified") }
    ' "$work/printed"
}

# Questions and transfers, signed.
questions() {
    local tool over key
    for tool in dig kdig; do
        for over in +notcp +tcp; do
            for key in "$up" "$xfr" "$both" "$far"; do
                check "$tool $over ${key%:*} SOA" "NOERROR signed verified" "$(verified $tool "$key" "$over" "$d" SOA)"
                check "$tool $over ${key%:*} nope" "NXDOMAIN signed verified" "$(verified $tool "$key" "$over" "nope.$d" A)"
            done
        done
        check "$tool, a reply that isn't in the zone" "REFUSED signed verified" "$(verified $tool "$up" host.example.net. A)"
        for key in "$xfr" "$xfr2"; do
            check "$tool axfr by who may, ${key%:*}" "14 records, verified" "$(transferred $tool "$key" "$d" axfr)"
            check "$tool ixfr by who may, ${key%:*}" "14 records, verified" "$(transferred $tool "$key" "$d" ixfr=0)"
        done
        check "$tool axfr by who may by key and address" "14 records, verified" "$(transferred $tool "$both" "$d" axfr)"
    done
    check "kdig axfr by a key that may only update" REFUSED "$(kdig @127.0.0.1 -p "$port" -y "$up" "$d" axfr 2>&1 | grep -o REFUSED | head -1)"
    check "kdig axfr by a key from another address" REFUSED "$(kdig @127.0.0.1 -p "$port" -y "$far" "$d" axfr 2>&1 | grep -o REFUSED | head -1)"
    check "kdig axfr unsigned" REFUSED "$(kdig @127.0.0.1 -p "$port" "$d" axfr 2>&1 | grep -o REFUSED | head -1)"
}

# What a request that isn't signed as it should be gets: the code, and the error in the reply's TSIG: PORT udp|tcp key|secret|clock|short sha256|sha512
refusal() {
    local key=up.key secret=$s1
    [ "$4" = sha256 ] || key=up2.key secret=$s2
    "$python" - "$1" "$2" "$3" "hmac-$4" "$key" "$d" "$secret" "$s3" <<'end'
import socket, struct, sys, time
import dns.message, dns.name, dns.query, dns.rcode, dns.tsig
port, over, kind, algorithm, name, zone, secret, other = int(sys.argv[1]), *sys.argv[2:]
spelt = bytes([len(algorithm)]) + algorithm.encode() + b"\0"
key = dns.tsig.Key("unknown.key." if kind == "key" else name, other if kind == "secret" else secret, algorithm)
message = dns.message.make_query(zone, "SOA")
message.flags = 0
message.use_tsig(key)
real = time.time
if kind == "clock":
    time.time = lambda: real() - 600
wire = message.to_wire()
time.time = real
if kind == "short":
    # before the algorithm's name stands the data's length; after it the time, the fudge, and the MAC's size; the MAC is cut to its half
    name = wire.index(spelt)
    at = name + len(spelt)
    whole = struct.unpack("!H", wire[at + 8:at + 10])[0]
    half = whole // 2
    wire = (wire[:name - 2] + struct.pack("!H", struct.unpack("!H", wire[name - 2:name])[0] - half) + wire[name:at + 8]
            + struct.pack("!H", half) + wire[at + 10:at + 10 + half] + wire[at + 10 + whole:])
if over == "udp":
    s = socket.socket(socket.AF_INET, socket.SOCK_DGRAM)
    s.settimeout(5)
    s.sendto(wire, ("127.0.0.1", port))
    reply = s.recv(65535)
else:
    s = socket.create_connection(("127.0.0.1", port), 5)
    s.sendall(struct.pack("!H", len(wire)) + wire)
    size = struct.unpack("!H", s.recv(2, socket.MSG_WAITALL))[0]
    reply = s.recv(size, socket.MSG_WAITALL)
# read without verifying: the error, and the size of the MAC
rcode = dns.rcode.to_text(reply[3] & 15)
at = reply.find(spelt)
if at < 0:
    print(rcode, "without a TSIG")
    sys.exit()
at += len(spelt)
mac = struct.unpack("!H", reply[at + 8:at + 10])[0]
error = struct.unpack("!H", reply[at + 12 + mac:at + 14 + mac])[0]
print(rcode, {16: "BADSIG", 17: "BADKEY", 18: "BADTIME", 22: "BADTRUNC"}.get(error, error), "signed" if mac else "unsigned")
end
}

# Requests that aren't signed as they should be, and those of BIND beside them.
refusals() {
    local over kind by
    serve_bind
    for by in sha256 sha512; do
        for over in udp tcp; do
            check "$over, an unknown key, $by" "NOTAUTH BADKEY unsigned" "$(refusal "$port" $over key $by)"
            check "$over, another secret, $by" "NOTAUTH BADSIG unsigned" "$(refusal "$port" $over secret $by)"
            check "$over, ten minutes ago, $by" "NOTAUTH BADTIME signed" "$(refusal "$port" $over clock $by)"
            check "$over, half a MAC, $by" "NOTAUTH BADTRUNC signed" "$(refusal "$port" $over short $by)"
            for kind in key secret clock short; do
                check "$over, $kind, $by, as BIND" "$(refusal $((port + 4)) $over $kind $by)" "$(refusal "$port" $over $kind $by)"
            done
        done
    done
}

# BIND as a server of the zone, with two of the keys.
serve_bind() {
    mkdir -p "$work/bind"
    cp zones/example.test.zone "$work/bind/zone"
    cat >"$work/bind/named.conf" <<end
options { directory "$work/bind"; listen-on port $((port + 4)) { 127.0.0.1; }; listen-on-v6 { none; }; pid-file none; recursion no;
    session-keyfile none; allow-query { any; }; dnssec-validation no; };
controls { };
key "up.key" { algorithm hmac-sha256; secret "$s1"; };
key "up2.key" { algorithm hmac-sha512; secret "$s2"; };
zone "example.test" { type primary; file "zone"; allow-update { key up.key; key up2.key; }; };
end
    named -g -c "$work/bind/named.conf" >"$work/bind/log" 2>&1 &
    started+=($!)
    for _ in $(seq 100); do
        ! grep -q ' running$' "$work/bind/log" || return 0
        sleep 0.1
    done
    cat "$work/bind/log" >&2
    echo "tsig: named doesn't start" >&2
    exit 2
}

# Sends an update by a program with these options, its lines from standard input, and prints the code that it got, and what it says of the signature.
sent() {
    local told status=0
    told=$({ echo "server 127.0.0.1 $port"; echo "zone $d"; cat; echo send; } | "$@" 2>&1) || status=$?
    if grep -qiE "expected a TSIG|TSIG error|verif|BADSIG|BADKEY" <<<"$told"; then
        echo "not verified"
    elif [ $status = 0 ]; then
        echo NOERROR
    else
        sed -nE "s/.*(failed: |with error ')([A-Z]+).*/\2/p" <<<"$told"
    fi
}

held() {
    dig @127.0.0.1 -p "$1" +short "$2" A 2>/dev/null | LC_ALL=C sort | tr '\n' ' '
}

# Updates by keys, over both transports.
updates() {
    local count=0 tool over key flag
    for tool in nsupdate knsupdate; do
        for over in udp tcp; do
            flag=()
            [ $over = udp ] || flag=(-v)
            for key in "$up" "$up2" "$both"; do
                count=$((count + 1))
                check "$tool $over ${key%:*} $1" NOERROR "$(sent $tool "${flag[@]}" -y "$key" <<<"update add u$count.$d 60 A 192.0.2.$count")"
                check "$tool $over ${key%:*} $1, then" "192.0.2.$count " "$(held "$port" "u$count.$d")"
            done
            check "$tool $over by who may only transfer $1" REFUSED "$(sent $tool "${flag[@]}" -y "$xfr" <<<"update add no.$d 60 A 192.0.2.1")"
            check "$tool $over from another address $1" REFUSED "$(sent $tool "${flag[@]}" -y "$far" <<<"update add no.$d 60 A 192.0.2.1")"
            check "$tool $over unsigned $1" REFUSED "$(sent $tool "${flag[@]}" <<<"update add no.$d 60 A 192.0.2.1")"
            check "$tool $over, another secret $1" "not verified" "$(sent $tool "${flag[@]}" -y "hmac-sha256:up.key:$s3" <<<"update add no.$d 60 A 192.0.2.1")"
            check "$tool $over, then $1" "" "$(held "$port" "no.$d")"
        done
    done
    printf 'key "up2.key" { algorithm hmac-sha512; secret "%s"; };\n' "$s2" >"$work/up2"
    check "nsupdate -k, hmac-sha512 $1" NOERROR "$(sent nsupdate -k "$work/up2" <<<"update add file2.$d 60 A 192.0.2.98")"
    check "nsupdate -k, hmac-sha512 $1, then" "192.0.2.98 " "$(held "$port" "file2.$d")"
    printf 'key "up.key" { algorithm hmac-sha256; secret "%s"; };\n' "$s1" >"$work/up"
    check "nsupdate -k $1" NOERROR "$(sent nsupdate -k "$work/up" <<<"update add file.$d 60 A 192.0.2.99")"
    check "nsupdate -k $1, then" "192.0.2.99 " "$(held "$port" "file.$d")"
}

# The last of these changes by an IXFR: the zone's SOA, the one before, the zone's, what is added, and the zone's.
last_change() {
    local tool key serial
    serial=$(serial_at "$port")
    for tool in dig kdig; do
        for key in "$xfr" "$xfr2"; do
            check "$tool ixfr of the last change, ${key%:*} $1" "5 records, verified" "$(transferred $tool "$key" "$d" ixfr=$((serial - 1)))"
        done
    done
}

# The zone that a server holds, in order.
zone_at() {
    dig @127.0.0.1 -p "$1" "${@:2}" +noall +answer +onesoa "$d" axfr 2>&1 | awk 'NF && !/^;/ { $1 = $1; print }' | LC_ALL=C sort
}

serial_at() {
    dig @127.0.0.1 -p "$1" +short "$d" SOA 2>/dev/null | awk '{ print $3 }'
}

# Waits until a server has this serial.
waits() {
    for _ in $(seq 100); do
        [ "$(serial_at "$1")" != "$2" ] || return 0
        sleep 0.1
    done
}

# BIND, Knot and NSD, with a key: NAME ALGORITHM SECRET
start_secondaries() {
    rm -rf "$work/b" "$work/k" "$work/n"
    mkdir -p "$work/b" "$work/k" "$work/n"
    cat >"$work/b/named.conf" <<end
options { directory "$work/b"; listen-on port $((port + 1)) { 127.0.0.1; }; listen-on-v6 { none; }; pid-file none; recursion no;
    session-keyfile none; allow-query { any; }; allow-transfer { 127.0.0.1; }; dnssec-validation no; notify no; };
controls { };
key "$1" { algorithm $2; secret "$3"; };
server 127.0.0.1 { keys { $1; }; };
zone "example.test" { type secondary; file "zone"; primaries port $port { 127.0.0.1 key $1; }; allow-notify { key $1; }; };
end
    named -g -c "$work/b/named.conf" >"$work/b/log" 2>&1 &
    started+=($!)
    cat >"$work/k/knotd.conf" <<end
server:
    rundir: "$work/k"
    listen: 127.0.0.1@$((port + 2))
    udp-workers: 1
    tcp-workers: 1
database:
    storage: "$work/k"
key:
  - id: $1.
    algorithm: $2
    secret: "$3"
remote:
  - id: primary
    address: 127.0.0.1@$port
    key: $1.
acl:
  - id: readers
    address: 127.0.0.1
    action: transfer
  - id: notes
    key: $1.
    action: notify
zone:
  - domain: example.test.
    storage: "$work/k"
    file: zone
    zonefile-sync: -1
    master: primary
    acl: [ readers, notes ]
log:
  - target: stderr
    any: info
end
    knotd -c "$work/k/knotd.conf" >"$work/k/log" 2>&1 &
    started+=($!)
    cat >"$work/n/nsd.conf" <<end
server:
    ip-address: 127.0.0.1@$((port + 3))
    username: ""
    server-count: 1
    zonesdir: "$work/n"
    xfrdir: "$work/n"
    database: ""
    zonelistfile: "$work/n/zone.list"
    xfrdfile: "$work/n/xfrd.state"
    pidfile: ""
    verbosity: 2
remote-control:
    control-enable: no
key:
    name: $1
    algorithm: $2
    secret: "$3"
zone:
    name: example.test
    zonefile: zone
    request-xfr: 127.0.0.1@$port $1
    allow-notify: 127.0.0.1 $1
    provide-xfr: 127.0.0.1 NOKEY
end
    nsd -d -c "$work/n/nsd.conf" >"$work/n/log" 2>&1 &
    started+=($!)
}

# Whether a line of a secondary's log is of this form: FOLDER FORM
has_line() {
    grep -qE "$2" "$work/$1/log" && echo yes || echo no
}

# Secondaries by their key alone: a transfer in whole, and each change once they are notified: NAME ALGORITHM SECRET
follow() {
    local place names=(BIND Knot NSD) serial secondaries=()
    for place in 1 2 3; do secondaries+=(--notify "127.0.0.1:$((port + place)) key $1"); done
    serve zones/example.test.zone --keys "$work/keys" "${rules[@]}" "${secondaries[@]}"
    start_secondaries "$@"
    for place in 1 2 3; do waits $((port + place)) "$(serial_at "$port")"; done
    for place in 1 2 3; do
        check "${names[place - 1]}, $2, the zone" "$(zone_at "$port" -y "$xfr")" "$(zone_at $((port + place)))"
    done
    check "an update while they follow by $2" NOERROR "$(sent nsupdate -y "$up" <<<"update add followed.$d 60 A 192.0.2.200")"
    serial=$(serial_at "$port")
    for place in 1 2 3; do waits $((port + place)) "$serial"; done
    for place in 1 2 3; do
        check "${names[place - 1]}, $2, after a NOTIFY that is signed" "$(zone_at "$port" -y "$xfr")" "$(zone_at $((port + place)))"
    done
    check "BIND, $2, has the NOTIFY by its key" yes "$(has_line b "received notify for zone 'example.test': TSIG '$1'")"
    # that each takes no other
    check "Knot, $2, has the NOTIFY" yes "$(has_line k "notify, incoming, .*serial $serial")"
    check "NSD, $2, has the NOTIFY" yes "$(has_line n "notify for $d .*serial $serial")"
    check "BIND, $2, has the change by IXFR" yes "$(has_line b 'Transfer completed: 1 messages, 5 records')"
    check "Knot, $2, has the change by IXFR" yes "$(has_line k 'IXFR, incoming, .*finished')"
    check "NSD, $2, has the change by IXFR" yes "$(grep -oE "serial $serial .* TSIG verified with key $1 of [0-9]+ bytes|of [0-9]+ bytes" "$work/n/log" |
        awk '/verified/ { last = $(NF - 1) } { first = first ? first : $(NF - 1) } END { print (last && last + 0 < first + 0 ? "yes" : "no") }')"
    sleep 3
    check "the secondaries answer NOTIFY, $2" "" "$(grep 'does not answer NOTIFY' "$work/dnsd.log" || true)"
    for pid in "${started[@]}"; do kill "$pid" 2>/dev/null || true; done
    wait
    started=()
}

write_keys

# A file that others may read, and one that isn't of keys, are refused, and nothing of a secret is told.
chmod 640 "$work/keys"
told=$("$program" serve --listen "127.0.0.1:$port" --keys "$work/keys" zones/example.test.zone 2>&1) && status=0 || status=$?
check "a key file that the group may read" "3 0640" "$status $(grep -o 0640 <<<"$told")"
chmod 600 "$work/keys"
echo "hmac-sha256:$s1" >"$work/bad"
chmod 600 "$work/bad"
told=$("$program" serve --listen "127.0.0.1:$port" --keys "$work/bad" zones/example.test.zone 2>&1) && status=0 || status=$?
check "a key without a name" "3 line 1 no secret" "$status $(grep -o 'line 1' <<<"$told") $(grep -q "$s1" <<<"$told" && echo secret || echo no secret)"

serve zones/example.test.zone --keys "$work/keys" "${rules[@]}"
questions
refusals
updates "without a store"
last_change "without a store"
check "no secret in the log" "" "$(grep -F -e "$s1" -e "$s2" -e "$s3" "$work/dnsd.log" || true)"
check "the log has an unknown key" yes "$(grep -q 'signed with key unknown.key.*BADKEY' "$work/dnsd.log" && echo yes || echo no)"
unserve

mkdir "$work/store"
serve zones/example.test.zone --keys "$work/keys" "${rules[@]}" --store "$work/store"
updates "with a store"
last_change "with a store"
unserve

if [ $secondaries = yes ]; then
    follow xfr.key hmac-sha512 "$s2"
    follow xfr2.key hmac-sha256 "$s1"
fi

echo "$passed checks passed, $failed failed"
[ "$failed" = 0 ]
