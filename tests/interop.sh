#!/usr/bin/env bash
# Tries a running `dnsd serve` by the programs that people have: questions by dig and kdig over UDP and TCP, updates by nsupdate and
# knsupdate (RFC 2136, 2.4 and 2.5), transfers by dig (RFC 5936, RFC 1995), and BIND, Knot and NSD as secondaries of it, which must hold
# the same records after a transfer in whole and after each change. What is expected stands here, from tests/interop.zone and the RFCs.
# It prints a line a check and a count, and its status is 1 where one failed. It listens on 127.0.0.1 alone, and ends what it starts.
# Usage: [DNSD=PROGRAM] tests/interop.sh [--port N] [--without-transfers]
#   --port N               dnsd listens on N (by default 15353), the secondaries on the three behind it, and BIND as a primary on the next
#   --without-transfers    leaves out transfers and secondaries
# It needs Debian's packages bind9-dnsutils, knot-dnsutils, bind9-utils, bind9, knot, nsd and ldnsutils, and the program that `make dnsd` builds.
set -euo pipefail
cd "$(dirname "$0")/.."
. tests/secondary.sh
program=${DNSD:-$PWD/crates/dnsd/out/dnsd}
port=15353
transfers=yes
while [ $# -gt 0 ]; do
    case $1 in
        --port) port=$2; shift 2 ;;
        --without-transfers) transfers=no; shift ;;
        *) echo "interop: no option $1" >&2; exit 2 ;;
    esac
done
[ -x "$program" ] || { echo "interop: no program at $program: run make dnsd first" >&2; exit 2; }
PATH=$PATH:/usr/sbin:/sbin
needed="dig nsupdate kdig knsupdate"
[ $transfers = no ] || needed="$needed named-compilezone named knotd nsd dnssec-signzone dnssec-keygen ldns-read-zone"
for command in $needed; do
    command -v "$command" >/dev/null || {
        echo "interop: no $command: it needs Debian's bind9-dnsutils, knot-dnsutils, bind9-utils, bind9, knot, nsd and ldnsutils" >&2
        exit 2
    }
done

. tests/asking.sh

# Asks by a program and a transport (udp or tcp): the words behind them are dig's. dig asks with an OPT record by default, kdig without one.
asked() {
    local tool=$1 over=+notcp
    [ "$2" = udp ] || over=+tcp
    shift 2
    "$tool" @127.0.0.1 -p "$port" +ignore $over +retry=0 +timeout=5 "$@" 2>&1 | reply
}

# Asks by both programs, or by those of `tools`, over these transports, and compares: TRANSPORTS WORDS STATUS-AND-FLAGS ANSWER AUTHORITY ADDITIONAL
ask() {
    local over=$1 words=$2 want tool transport
    shift 2
    want=$(expected "$@")
    for tool in ${tools:-dig kdig}; do
        for transport in $over; do
            # shellcheck disable=SC2086
            check "$tool $transport $words" "$want" "$(asked "$tool" "$transport" $words)"
        done
    done
}

both="udp tcp"
soa_data="ns1.$d admin.$d 1 2 2 1209600 300"
soa=$(rr @ SOA "$soa_data")
# the SOA of a reply without data has the TTL 300, its MINIMUM (RFC 2308, 3)
none="$d 300 IN SOA $soa_data"
ns=$(rr @ NS "ns1.$d" "ns2.$d")
mx=$(rr @ MX "10 mail.$d")
txt=$(rr @ TXT '"v=spf1 mx -all"')
ns1_a=$(rr ns1 A 192.0.2.1; rr ns1 AAAA 2001:db8::1)
ns2_a=$(rr ns2 A 192.0.2.2)
mail_a=$(rr mail A 192.0.2.25; rr mail AAAA 2001:db8::25)
web_a=$(rr web A 192.0.2.10 192.0.2.11)
web_aaaa=$(rr web AAAA 2001:db8::10)
www=$(rr www CNAME "web.$d")
referral=$(rr sub NS "ns.sub.$d" "ns2.$d")
glue=$(rr ns.sub A 192.0.2.53; rr ns2 A 192.0.2.2)
big=$(rr big TXT "\"$(printf 'a%.0s' {1..250})\" \"$(printf 'b%.0s' {1..250})\" \"$(printf 'c%.0s' {1..50})\"")
exchanges=$(for i in {1..29}; do rr m MX "$i web.$d"; done)

# Forty questions and more (RFC 1034, 4.3.2; RFC 2308; RFC 4592; RFC 6604).
questions() {
    local ok='NOERROR qr aa rd'
    ask "$both" "$d SOA" "$ok" "$soa"
    ask "$both" "$d NS" "$ok" "$ns" '' "$ns1_a
$ns2_a"
    ask "$both" "$d MX" "$ok" "$mx" '' "$mail_a"
    ask "$both" "$d TXT" "$ok" "$txt"
    ask "$both" "$d A" "$ok" '' "$none"
    ask "$both" "$d ANY" "$ok" "$soa
$ns
$mx
$txt" '' "$ns1_a
$ns2_a
$mail_a"
    ask "$both" "web.$d A" "$ok" "$web_a"
    ask "$both" "web.$d A +norecurse" 'NOERROR qr aa' "$web_a"
    ask "$both" "web.$d AAAA" "$ok" "$web_aaaa"
    ask "$both" "web.$d MX" "$ok" '' "$none"
    ask "$both" "web.$d TYPE257" "$ok" '' "$none"
    ask "$both" "web.$d ANY" "$ok" "$web_a
$web_aaaa"
    ask "$both" "www.$d A" "$ok" "$www
$web_a"
    ask "$both" "www.$d CNAME" "$ok" "$www"
    ask "$both" "www.$d ANY" "$ok" "$www"
    ask "$both" "www.$d MX" "$ok" "$www" "$none"
    ask "$both" "ftp.$d AAAA" "$ok" "$(rr ftp CNAME "www.$d")
$www
$web_aaaa"
    ask "$both" "out.$d A" "$ok" "$(rr out CNAME host.example.net.)"
    ask "$both" "loop1.$d A" "$ok" "$(rr loop1 CNAME "loop2.$d"; rr loop2 CNAME "loop1.$d")"
    # the code is that of the last name (RFC 6604, 3)
    ask "$both" "lost.$d A" 'NXDOMAIN qr aa rd' "$(rr lost CNAME "nowhere.$d")" "$none"
    ask "$both" "nope.$d A" 'NXDOMAIN qr aa rd' '' "$none"
    # a name that owns nothing exists where one below it does (RFC 4592, 2.2.2)
    ask "$both" "b.$d A" "$ok" '' "$none"
    ask "$both" "a.b.$d TXT" "$ok" "$(rr a.b TXT '"x" "y z"')"
    ask "$both" "zz.b.$d A" 'NXDOMAIN qr aa rd' '' "$none"
    # wildcards (RFC 4592, 2.2.1)
    ask "$both" "any.dyn.$d A" "$ok" "$(rr any.dyn A 192.0.2.99)"
    ask "$both" "p.q.dyn.$d A" "$ok" "$(rr p.q.dyn A 192.0.2.99)"
    ask "$both" "any.dyn.$d MX" "$ok" "$(rr any.dyn MX "10 mail.$d")" '' "$mail_a"
    ask "$both" "any.dyn.$d AAAA" "$ok" '' "$none"
    ask "$both" "*.dyn.$d A" "$ok" "$(rr '*.dyn' A 192.0.2.99)"
    ask "$both" "dyn.$d A" "$ok" '' "$none"
    ask "$both" "e.dyn.$d A" "$ok" '' "$none"
    ask "$both" "f.e.dyn.$d A" 'NXDOMAIN qr aa rd' '' "$none"
    # zone cuts (RFC 1034, 4.3.2, step 3b)
    ask "$both" "sub.$d A" 'NOERROR qr rd' '' "$referral" "$glue"
    ask "$both" "sub.$d NS" 'NOERROR qr rd' '' "$referral" "$glue"
    ask "$both" "deep.x.sub.$d A" 'NOERROR qr rd' '' "$referral" "$glue"
    ask "$both" "ns.sub.$d A" 'NOERROR qr rd' '' "$referral" "$glue"
    ask "$both" "_sip._tcp.$d SRV" "$ok" "$(rr _sip._tcp SRV "10 60 5060 sip.$d")" '' "$(rr sip A 192.0.2.60)"
    ask "$both" "1.reverse.$d PTR" "$ok" "$(rr 1.reverse PTR "web.$d")"
    # the spelling asked is kept (RFC 4343, 4.1); kdig asks in lower case
    tools=dig ask "$both" "WwW.ExAmPlE.tEsT. A" "$ok" "WwW.ExAmPlE.tEsT. 3600 IN CNAME web.$d
$web_a"
    # over 512 octets (RFC 1035, 4.2.1; RFC 2181, 9), with EDNS over 1,232 (RFC 6891, 6.2.3)
    tools=kdig ask udp "big.$d TXT" 'NOERROR qr aa tc rd'
    tools=dig ask udp "big.$d TXT" "$ok" "$big"
    ask tcp "big.$d TXT" "$ok" "$big"
    tools=kdig ask udp "m.$d MX" "$ok" "$exchanges"
    tools=dig ask udp "m.$d MX" "$ok" "$exchanges" '' "$web_a
$web_aaaa"
    ask tcp "m.$d MX" "$ok" "$exchanges" '' "$web_a
$web_aaaa"
    ask "$both" "host.example.net. A" 'REFUSED qr rd'
    ask "$both" "web.$d A -c CH" 'REFUSED qr rd'
    ask "$both" "web.$d TYPE253" 'NOTIMP qr rd'
    # with an OPT record, and without one
    ask "$both" "web.$d A +edns=0" "$ok" "$web_a"
    ask "$both" "web.$d A +noedns" "$ok" "$web_a"
}

# Sends an update by a program over a transport, its lines from standard input, and prints the code that it got.
sent() {
    local told flag=()
    [ "$2" = udp ] || flag=(-v)
    if told=$({ echo "server 127.0.0.1 $port"; echo "zone $d"; cat; echo send; } | "$1" "${flag[@]}" 2>&1); then
        echo NOERROR
    else
        sed -nE "s/.*(failed: |with error ')([A-Z]+).*/\2/p" <<<"$told"
    fi
}

# Sends an update and compares its code: WANTED LINES, by the program and transport of this round.
change() {
    check "$tool $over, ${2//$'\n'/, }: $1" "$1" "$(sent "$tool" "$over" <<<"$2")"
}

# Compares what a name owns of a type, as dig prints it; of none the code.
holds() {
    local got
    got=$(dig @127.0.0.1 -p "$port" +tcp "$1" "$2" | reply | awk '
        NR == 1 { code = $1 }
        $1 == "ANSWER" { n++; sub(/^ANSWER /, ""); print }
        END { if (!n) print code }')
    check "$tool $over, then $1 $2" "$3" "$got"
}

serial() {
    dig @127.0.0.1 -p "$1" +short "$d" SOA 2>/dev/null | awk '{ print $3 }'
}

# A prerequisite that holds, in front of an add of a name of its own, which is there afterwards.
kept=0
holding() {
    kept=$((kept + 1))
    change NOERROR "$1"$'\n'"update add p$kept.$d 3600 A 192.0.2.$kept"
    holds "p$kept.$d" A "$(rr p$kept A 192.0.2.$kept)"
}

# A prerequisite that doesn't hold, with its code; nothing is added.
failing() {
    kept=$((kept + 1))
    change "$1" "$2"$'\n'"update add p$kept.$d 3600 A 192.0.2.$kept"
    holds "p$kept.$d" A NXDOMAIN
}

# Each form of a prerequisite (RFC 2136, 2.4), as it holds and as it doesn't.
prerequisites() {
    kept=0
    # an RRset exists, whatever its data (2.4.1)
    holding "prereq yxrrset web.$d A"
    failing NXRRSET "prereq yxrrset web.$d MX"
    # an RRset exists with just these data (2.4.2)
    holding "prereq yxrrset web.$d A 192.0.2.11"$'\n'"prereq yxrrset web.$d A 192.0.2.10"
    failing NXRRSET "prereq yxrrset web.$d A 192.0.2.10"
    failing NXRRSET "prereq yxrrset web.$d A 192.0.2.10"$'\n'"prereq yxrrset web.$d A 192.0.2.12"
    # an RRset doesn't exist (2.4.3)
    holding "prereq nxrrset web.$d MX"
    failing YXRRSET "prereq nxrrset web.$d A"
    # a name is in use (2.4.4); one that owns nothing isn't
    holding "prereq yxdomain web.$d"
    failing NXDOMAIN "prereq yxdomain nope.$d"
    failing NXDOMAIN "prereq yxdomain b.$d"
    # a name isn't in use (2.4.5)
    holding "prereq nxdomain nope.$d"
    holding "prereq nxdomain b.$d"
    failing YXDOMAIN "prereq nxdomain web.$d"
    # the first that fails decides
    failing YXRRSET "prereq yxdomain web.$d"$'\n'"prereq nxrrset web.$d A"$'\n'"prereq yxdomain nope.$d"
    check "$tool $over, the serial after them" 7 "$(serial "$port")"
}

# Each effect (RFC 2136, 2.5 and 3.4.2).
effects() {
    # an RRset is added to (2.5.1)
    change NOERROR "update add new.$d 3600 A 192.0.2.77"
    change NOERROR "update add new.$d 3600 A 192.0.2.78"
    holds "new.$d" A "$(rr new A 192.0.2.77 192.0.2.78)"
    change NOERROR "update add new.$d 60 A 192.0.2.78"
    holds "new.$d" A "$(rr new A 192.0.2.77 192.0.2.78 | sed 's/ 3600 / 60 /')"
    change NOERROR "update add new.$d 3600 TXT \"a b\" \"c\""
    holds "new.$d" TXT "$(rr new TXT '"a b" "c"')"
    # an alias beside other data, and other data beside an alias, change nothing; an alias replaces the one that stands
    change NOERROR "update add web.$d 3600 CNAME mail.$d"
    holds "web.$d" CNAME NOERROR
    change NOERROR "update add www.$d 3600 A 192.0.2.12"
    holds "www.$d" CNAME "$www"
    change NOERROR "update add www.$d 3600 CNAME mail.$d"
    holds "www.$d" CNAME "$(rr www CNAME "mail.$d")"
    # an RRset is deleted (2.5.2)
    change NOERROR "update delete new.$d A"
    holds "new.$d" A NOERROR
    holds "new.$d" TXT "$(rr new TXT '"a b" "c"')"
    # all RRsets of a name are deleted (2.5.3); of the apex all but the SOA and the NS
    change NOERROR "update delete web.$d"
    holds "web.$d" A NXDOMAIN
    change NOERROR "update delete $d"
    holds "$d" MX NOERROR
    holds "$d" NS "$ns"
    # an RR is deleted (2.5.4); the last NS of the apex isn't
    change NOERROR "update delete big.$d TXT \"another\""
    change NOERROR "update delete mail.$d A 192.0.2.25"
    holds "mail.$d" A NOERROR
    holds "mail.$d" AAAA "$(rr mail AAAA 2001:db8::25)"
    change NOERROR "update delete $d NS ns1.$d"$'\n'"update delete $d NS ns2.$d"
    holds "$d" NS "$(rr @ NS "ns2.$d")"
    # records in their order, and all or none of them
    change NOERROR "update add two.$d 3600 A 192.0.2.2"$'\n'"update delete two.$d A"$'\n'"update add two.$d 3600 A 192.0.2.3"
    holds "two.$d" A "$(rr two A 192.0.2.3)"
    change NOTZONE "update add three.$d 3600 A 192.0.2.3"$'\n'"update add host.example.net. 3600 A 192.0.2.3"
    holds "three.$d" A NXDOMAIN
    # each update above made one version, or none where it changed nothing; a greater serial is taken, a lesser isn't
    check "$tool $over, the serial after them" 18 "$(serial "$port")"
    change NOERROR "update add $d 3600 SOA ns1.$d admin.$d 100 2 2 1209600 300"
    check "$tool $over, then the serial" 100 "$(serial "$port")"
    change NOERROR "update add $d 3600 SOA ns1.$d admin.$d 50 2 2 1209600 300"
    check "$tool $over, then the serial" 100 "$(serial "$port")"
}

# Updates by each program over each transport, and by one who may not.
updates() {
    local tool over
    for tool in nsupdate knsupdate; do
        for over in $both; do
            serve tests/interop.zone
            prerequisites
            effects
            unserve
        done
    done
    serve tests/interop.zone --allow 127.0.0.2
    for tool in nsupdate knsupdate; do
        over=udp
        change REFUSED "update add new.$d 3600 A 192.0.2.77"
        holds "new.$d" A NXDOMAIN
        # prerequisites are told before permission (RFC 2136, 3.1 to 3.3)
        change YXDOMAIN "prereq nxdomain web.$d"$'\n'"update add new.$d 3600 A 192.0.2.77"
    done
    tool=nsupdate
    change NOERROR "local 127.0.0.2"$'\n'"update add new.$d 3600 A 192.0.2.77"
    unserve
}

# Records, one a line, with one space between words.
plain() {
    awk 'NF && !/^;/ { $1 = $1; print }'
}

# The list of a transfer that dig reads, as it comes: words of dig's.
transferred() {
    dig @127.0.0.1 -p "$port" +noall +answer +onesoa "$@" 2>&1 | plain
}

# The zone that a server holds, in order, or what dig tells where it sends none.
held() {
    dig @127.0.0.1 -p "$1" +noall +answer +onesoa "$d" axfr 2>&1 | awk 'NF { $1 = $1; print }' | LC_ALL=C sort
}

# The SOA with another serial.
soa_at() {
    rr @ SOA "ns1.$d admin.$d $1 2 2 1209600 300"
}

# The zone's file as BIND writes it, in order, with these records in its SOA's place and beside the others.
zone_with() {
    {
        named-compilezone -q -i none -k ignore -s full -o - example.test tests/interop.zone | plain | grep -v ' SOA ' || true
        cat
    } | LC_ALL=C sort
}

# Transfers as dig reads them (RFC 5936; RFC 1995, 4).
reads_transfers() {
    local tool=nsupdate over=udp list
    list=$(dig @127.0.0.1 -p "$port" +noall +answer "$d" axfr | plain)
    check "dig axfr, its first record" "$soa" "$(head -1 <<<"$list")"
    check "dig axfr, its last record" "$soa" "$(tail -1 <<<"$list")"
    check "dig axfr, its records" "$(zone_with <<<"$soa")" "$(sed '$d' <<<"$list" | LC_ALL=C sort)"
    check "kdig axfr, its records" "$(zone_with <<<"$soa")" \
        "$(kdig @127.0.0.1 -p "$port" "$d" axfr | plain | sed '$d' | LC_ALL=C sort)"
    change NOERROR "update add new.$d 3600 A 192.0.2.77"
    change NOERROR "update delete new.$d A 192.0.2.77"$'\n'"update add more.$d 3600 TXT \"more\""
    local first second
    first="$(soa_at 1)
$(soa_at 2)
$(rr new A 192.0.2.77)"
    second="$(soa_at 2)
$(rr new A 192.0.2.77)
$(soa_at 3)
$(rr more TXT '"more"')"
    check "dig ixfr=1, both changes" "$(soa_at 3)
$first
$second
$(soa_at 3)" "$(transferred "$d" ixfr=1)"
    check "kdig ixfr=1, both changes" "$(soa_at 3)
$first
$second
$(soa_at 3)" "$(kdig @127.0.0.1 -p "$port" "$d" ixfr=1 | plain)"
    check "dig ixfr=2, one change" "$(soa_at 3)
$second
$(soa_at 3)" "$(transferred "$d" ixfr=2)"
    check "dig ixfr=3, the SOA alone" "$(soa_at 3)" "$(transferred "$d" ixfr=3)"
    check "dig ixfr=9, a serial in front of the zone's" "$(soa_at 3)" "$(transferred "$d" ixfr=9)"
    check "dig ixfr=4294967295, of which nothing is known" "$(zone_with <<<"$(soa_at 3; rr more TXT '"more"')")" \
        "$(transferred "$d" ixfr=4294967295 | sed '$d' | LC_ALL=C sort)"
    check "dig ixfr=1 over UDP, both changes" "$(soa_at 3)
$first
$second
$(soa_at 3)" "$(transferred "$d" ixfr=1 +notcp)"
    check "dig axfr of a name below the apex" "; Transfer failed." "$(dig @127.0.0.1 -p "$port" "web.$d" axfr | grep '^; T' || true)"
    check "kdig axfr of a name below the apex" NOTAUTH "$(refusal "web.$d" axfr)"
    check "kdig axfr from an address that may not" REFUSED "$(refusal "$d" axfr -b 127.0.0.2)"
    check "kdig ixfr=1 from an address that may not" REFUSED "$(refusal "$d" ixfr=1 -b 127.0.0.2)"
}

# The code that a transfer gets, as kdig tells it.
refusal() {
    kdig @127.0.0.1 -p "$port" "$@" 2>&1 | sed -nE "s/.*replied with error '([A-Z]+)'.*/\1/p" | sed 's/NOTIMPL/NOTIMP/' | head -1
}

# BIND as a secondary, on a port.
start_named() {
    mkdir "$work/named"
    cat >"$work/named.conf" <<end
options {
    directory "$work/named"; pid-file none; session-keyfile none;
    listen-on port $1 { 127.0.0.1; }; listen-on-v6 { none; };
    recursion no; notify no; dnssec-validation no; allow-transfer { 127.0.0.1; };
    min-refresh-time 2; max-refresh-time 2; min-retry-time 2; max-retry-time 2;
};
controls { };
zone "example.test" { type secondary; primaries port $port { 127.0.0.1; }; file "zone"; masterfile-format text; };
end
    named -g -n 1 -c "$work/named.conf" >"$work/named.log" 2>&1 &
    started+=($!)
}

# Knot as a secondary, on a port.
start_knotd() {
    knotd_secondary "$work/knotd" "$1" "$port"
    knotd -c "$work/knotd/knotd.conf" >"$work/knotd.log" 2>&1 &
    started+=($!)
}

# NSD as a secondary, on a port.
start_nsd() {
    nsd_secondary "$work/nsd" "$1" "$port" "${nsd_often[@]}"
    nsd -d -c "$work/nsd.conf" >"$work/nsd.log" 2>&1 &
    started+=($!)
}

# Waits, at most half a minute, until a server's zone has a serial.
reaches() {
    for _ in $(seq 150); do
        [ "$(serial "$1")" != "$2" ] || return 0
        sleep 0.2
    done
}

# How a secondary took the last transfer, by its log: incremental where it is told so, or where fewer octets or records came than
# the zone in whole has.
taken() {
    case $1 in
        named) sed -nE 's/.*Transfer completed: .* ([0-9]+) records.*/\1/p' "$work/named.log" | tail -1 | awk '{ print ($1 < 20 ? "incremental" : "whole") }' ;;
        knotd) sed -nE 's/.*(AXFR|IXFR), incoming.*finished.*/\1/p' "$work/knotd.log" | tail -1 | sed 's/IXFR/incremental/; s/AXFR/whole/' ;;
        nsd) sed -nE 's/.*received update to serial .* of ([0-9]+) bytes.*/\1/p' "$work/nsd.log" | tail -1 | awk '{ print ($1 < 1000 ? "incremental" : "whole") }' ;;
    esac
}

names="named knotd nsd"
declare -A ports pids
# Starts the three secondaries with nothing, and ends those that ran before.
start_secondaries() {
    local at=$port name
    for name in $names; do
        if [ -n "${pids[$name]:-}" ]; then
            kill "${pids[$name]}"
            wait "${pids[$name]}" 2>/dev/null || true
            rm -rf "${work:?}/$name"
        fi
        at=$((at + 1))
        ports[$name]=$at
        "start_$name" "$at"
        pids[$name]=${started[-1]}
    done
}

# Each secondary holds the zone after a transfer in whole, and after each change, which it takes as what changed.
secondaries() {
    local tool=nsupdate over=udp name want
    want=$(zone_with <<<"$(soa_at 1)")
    start_secondaries
    for name in $names; do
        reaches "${ports[$name]}" 1
        check "$name, the zone in whole" "$want" "$(held "${ports[$name]}")"
        check "$name, how it came" whole "$(taken "$name")"
    done
    change NOERROR "update add new.$d 3600 A 192.0.2.77"$'\n'"update delete big.$d TXT"
    want=$({ zone_with <<<"$(soa_at 2)" | grep -v '^big\.'; rr new A 192.0.2.77; } | LC_ALL=C sort)
    for name in $names; do
        reaches "${ports[$name]}" 2
        check "$name, after a change" "$want" "$(held "${ports[$name]}")"
        check "$name, how it came" incremental "$(taken "$name")"
    done
    for i in 1 2 3; do change NOERROR "update add n$i.$d 3600 TXT \"number $i\""; done
    change NOERROR "update delete www.$d CNAME"$'\n'"update add www.$d 3600 A 192.0.2.12"
    want=$({ zone_with <<<"$(soa_at 6)" | grep -vE '^(big|www)\.'; rr new A 192.0.2.77; rr www A 192.0.2.12
        for i in 1 2 3; do rr n$i TXT "\"number $i\""; done; } | LC_ALL=C sort)
    for name in $names; do
        reaches "${ports[$name]}" 6
        check "$name, after four more" "$want" "$(held "${ports[$name]}")"
        check "$name, how they came" incremental "$(taken "$name")"
    done
    check "the server itself" "$want" "$(held "$port")"
}

# BIND as the server that has tests/types.zone, on a port; and the same zone at capitals.test., where a name in data has capital letters, and
# at signed.test., signed.
start_primary() {
    mkdir "$work/primary"
    { cat tests/types.zone; echo "mx MX 10 Web.Capitals.TEST."; } >"$work/primary/capitals"
    grep -v DNSKEY tests/types.zone >"$work/primary/plain"
    (
        cd "$work/primary"
        dnssec-keygen -q -a ECDSAP256SHA256 signed.test >/dev/null
        cat K*.key >>plain
        dnssec-signzone -q -z -o signed.test -f signed plain K*.key >/dev/null 2>&1
    )
    cat >"$work/primary.conf" <<end
options {
    directory "$work/primary"; pid-file none; session-keyfile none;
    listen-on port $1 { 127.0.0.1; }; listen-on-v6 { none; };
    recursion no; notify no; dnssec-validation no; allow-transfer { 127.0.0.1; };
};
controls { };
zone "example.test" { type primary; file "$PWD/tests/types.zone"; };
zone "capitals.test" { type primary; file "capitals"; };
zone "signed.test" { type primary; file "signed"; };
end
    named -g -n 1 -c "$work/primary.conf" >"$work/primary.log" 2>&1 &
    started+=($!)
}

# The records of a zone's transfer as octets, in order (RFC 3597, 5): the port of who sends it, and the zone.
octets_at() {
    dig @127.0.0.1 -p "$1" +noall +answer +onesoa +unknownformat "${2:-$d}" axfr | plain | LC_ALL=C sort
}

# The messages of that transfer in hexadecimal, a line each (RFC 1035, 4.2.2): what comes until nothing does for a second.
messages_at() {
    local stream label
    label=$(printf '\\x%02x' "$((${#2} - 6))")${2%.test.}
    exec 3<>"/dev/tcp/127.0.0.1/$1"
    # shellcheck disable=SC2059
    printf "\0\\x$(printf %02x $((${#2} + 17)))\x43\x21\0\0\0\1\0\0\0\0\0\0$label\4test\0\0\xfc\0\1" >&3
    stream=$(timeout 1 cat <&3 | od -An -v -tx1 | tr -d ' \n' || true)
    exec 3>&-
    while [ -n "$stream" ]; do
        local len=$((16#${stream:0:4} * 2))
        echo "${stream:4:len}"
        stream=${stream:4+len}
    done
}

# What the messages of a zone's transfer make of a zone that has nothing, as dnsd prints it: the port, and the zone.
applied_at() {
    { "$program" check - <<<"$2 3600 IN SOA . . 0 1 1 1 1"$'\n'"$2 3600 IN NS ."; echo %; messages_at "$1" "$2"; } | "$program" apply - || true
}

# What dig prints of a zone that another server has, made fit by contrib/convert.
made_fit() {
    dig +onesoa @127.0.0.1 -p "$1" "$2" axfr | DNSD=$program contrib/convert "$2" - 2>"$work/converted" || cat "$work/converted"
}

# That dnsd refuses what dig prints of a zone as it is, at which line and why: PORT ZONE CODE RECORD, the owner and type of the line.
refuses_printed() {
    local line
    dig +unknownformat +noall +answer @127.0.0.1 -p "$1" "$2" axfr >"$work/printed"
    line=$("$program" check - <"$work/printed" 2>&1 | head -1 || true)
    check "$2 as dig prints it: $3" "$3" "$(sed -E 's/^line [0-9]+: //' <<<"$line")"
    check "$2, the record that is told" "$4" "$(sed -n "$(tr -cd '0-9:' <<<"$line" | cut -d: -f1)p" "$work/printed" | awk '{ print $1, $4 }')"
}

# A zone that BIND has, with types that dnsd doesn't know, is brought in by what dig prints of it (RFC 3597, 5).
brings_in() {
    local at=$1
    check "$d as dig prints it" "$(applied_at "$at" "$d")" \
        "$(dig +unknownformat +noall +answer @127.0.0.1 -p "$at" "$d" axfr | "$program" check - 2>&1 || true)"
    check "$d, made fit" "$(applied_at "$at" "$d")" "$(made_fit "$at" "$d" | "$program" check - 2>&1 || true)"
    refuses_printed "$at" capitals.test. 'M6 BadData' 'mx.capitals.test. TYPE15'
    check "capitals.test., made fit" "$(applied_at "$at" capitals.test.)" "$(made_fit "$at" capitals.test. | "$program" check - 2>&1 || true)"
    refuses_printed "$at" signed.test. 'M12 Conflict' 'www.signed.test. TYPE46'
    made_fit "$at" signed.test. >"$work/fit"
    serve "$work/fit"
    check "signed.test., made fit" "$(octets_at "$at" signed.test. | awk '$4 !~ /^TYPE(46|47)$/')" "$(octets_at "$port" signed.test.)"
    unserve
}

# Each secondary holds the octets that dnsd has, with this serial; but NSD keeps the name in an SVCB record in lower case.
hold_octets() {
    local name want
    for name in $names; do
        want=$2
        [ "$name" != nsd ] || want=${2//0357656207/0377656207} want=${want//4578616D706C650454455354/6578616D706C650474657374}
        reaches "${ports[$name]}" "$1"
        check "$name, octet by octet, serial $1" "$want" "$(octets_at "${ports[$name]}")"
    done
}

# Types that dnsd doesn't know: what BIND has of them is taken in; it is told as it was taken, to dig by name and by number, and to secondaries,
# and nsupdate changes it by the names that it knows (RFC 3597).
any_types() {
    local at=$((port + 4)) tool=nsupdate over=udp want
    start_primary $at
    reaches $at 1
    brings_in $at
    want=$(octets_at $at)
    applied_at $at "$d" >"$work/sent"
    serve "$work/sent"
    start_secondaries
    check "BIND's zone, octet by octet" "$want" "$(octets_at "$port")"
    check "BIND's zone, as dig tells it" "$(held $at)" "$(held "$port")"
    hold_octets 1 "$want"
    tools=dig ask "$both" "$d CAA" 'NOERROR qr aa rd' "$(rr @ CAA '0 issue "ca.example.net"' '128 ISSUEWILD ";"')"
    tools=dig ask "$both" "web.$d TYPE65280" 'NOERROR qr aa rd' "$(rr web TYPE65280 '\# 3 0A0B0C')"
    tools=dig ask "$both" "_dns.$d SVCB" 'NOERROR qr aa rd' "$(rr _dns SVCB '1 Web.Example.TEST. alpn="dot" port=853')"
    # a DS at a cut is told to nobody who asks for it: the zone below is (RFC 1034, 4.3.2)
    tools=dig ask "$both" "sub.$d DS" 'NOERROR qr rd' '' "$(rr sub NS "ns.sub.$d")" "$(rr ns.sub A 192.0.2.53)"
    change NOERROR "update add new.$d 3600 CAA 0 issue \"Ca.Example.NET\""$'\n'"update add new.$d 3600 TYPE65280 \\# 3 0a0b0c"
    holds "new.$d" CAA "$(rr new CAA '0 issue "Ca.Example.NET"')"
    hold_octets 2 "$(octets_at "$port")"
    change NOERROR "update delete new.$d CAA 0 issue \"ca.example.net\""
    holds "new.$d" CAA "$(rr new CAA '0 issue "Ca.Example.NET"')"
    change NOERROR "update delete new.$d CAA 0 issue \"Ca.Example.NET\""
    holds "new.$d" CAA NOERROR
    holds "new.$d" TYPE65280 "$(rr new TYPE65280 '\# 3 0A0B0C')"
    tool=knsupdate
    change NOERROR "update delete _443._tcp.web.$d TLSA"$'\n'"update add sub.$d 3600 DS 1 13 2 $(printf 'AB%.0s' {1..32})"
    holds "_443._tcp.web.$d" TLSA NXDOMAIN
    hold_octets 4 "$(octets_at "$port")"
    check "knotd, how they came" incremental "$(taken knotd)"
    check "the server itself" "$({ grep -vE ' TYPE6 |^_443' <<<"$want"; octets_at "$port" | grep -E ' TYPE6 |^new'
        echo "sub.$d 3600 CLASS1 TYPE43 \\# 36 00010D02$(printf 'AB%.0s' {1..24}) $(printf 'AB%.0s' {1..8})"; } | LC_ALL=C sort)" "$(octets_at "$port")"
    unserve
}

# Secondaries that are told of each version (RFC 1996), by a script of their own, whose lines stand here too.
told() {
    DNSD=$program tests/notify.sh --port $((port + 1000)) 2>&1 | tee "$work/told" || true
    check "all of tests/notify.sh" 0 "$(sed -nE '$s/.* passed, ([0-9]+) failed$/\1/p' "$work/told")"
}

serve tests/interop.zone
questions
unserve
updates
if [ $transfers = yes ]; then
    serve tests/interop.zone
    if [ "$(refusal "$d" axfr)" = NOTIMP ]; then
        failed=$((failed + 1))
        echo "FAILED transfers: this program answers AXFR by NOTIMP; --without-transfers leaves them out"
    else
        reads_transfers
        unserve
        serve tests/interop.zone
        secondaries
    fi
    unserve
    any_types
    told
fi
echo "$passed checks passed, $failed failed"
[ $failed -eq 0 ]
