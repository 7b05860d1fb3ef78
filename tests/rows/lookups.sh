# Answers: what each section of the reply shows, by the zone and the question (RFC 1034, 4.3.2; RFC 2308; RFC 4592). In a row stand the name
# and the type that are asked for, and behind them what the reply has: its flags, its answer, its authority and its additional section,
# with `|` between them. 8500 is QR, AA and RD, 8100 has no AA, 8503 is a name error, 8105 a refusal; 87 and 83 in front are TC (RFC 1035,
# 4.1.1). A record is its owner, type, TTL and data: octets in hexadecimal, and names.
# shellcheck source=tests/wire.sh
source tests/wire.sh
origin=example.

# lookups ZONE WORD..: rows, on standard input, of one run over the zone
lookups() {
    local asked type flags answer authority additional request
    while IFS='|' read -r asked answer authority additional; do
        read -r asked type flags <<<"$asked"
        query "$asked" "$type"
        request=$message
        reply "$flags" "$asked" "$type" "$answer" "$authority" "$additional"
        expect "$asked $type" "$request" "$message"
    done
    run_expected "$1" answer --origin example. "${@:2}" -
}

# An empty non-terminal b, a wildcard below dyn with an empty non-terminal e beside it, aliases in a loop, out of the zone, into a delegated
# zone and to web, and zone cuts, one below the other. The SOA's own TTL is 3600, MINIMUM 300.
zone=$(cat <<'text'
$TTL 3600
@ NS ns1
@ SOA . . 1 7200 900 1209600 300
a.b TXT x
deep CNAME x.sub
*.dyn A 192.0.2.99
x.e.dyn A 192.0.2.3
loop1 CNAME loop2
loop2 CNAME loop1
mail MX 10 web
mail MX 20 q.dyn
ns1 A 192.0.2.1
out CNAME host.example.net.
s SRV 1 2 53 web
sub NS ns.sub
ns.sub A 192.0.2.53
z.sub NS ns1
web A 192.0.2.10
web AAAA 2001:db8::a
www CNAME web
text
)
# the SOA of a negative answer: its TTL is the lesser of MINIMUM and its own (RFC 2308, 3)
soa='@ SOA 300 . . 00000001 00001c20 00000384 00127500 0000012c'
web='web A 3600 c000020a'
web6='web AAAA 3600 20010db800000000000000000000000a'

# names that exist, names that don't, and what a wildcard covers; an owner keeps the spelling asked, a target that of the alias's data
# (RFC 1034, 4.3.2; RFC 2308, 2; RFC 4592, 2.2.2)
lookups "$zone" <<text
www A 8500 | www CNAME 3600 web; $web | |
WwW A 8500 | WwW CNAME 3600 web; $web | |
www CNAME 8500 | www CNAME 3600 web | |
web ANY 8500 | $web; $web6 | |
nope A 8503 | | $soa |
b A 8500 | | $soa |
zz.b A 8503 | | $soa |
P.q.DYN A 8500 | P.q.DYN A 3600 c0000263 | |
p.q.dyn MX 8500 | | $soa |
e.dyn A 8500 | | $soa |
f.e.dyn A 8503 | | $soa |
f.x.e.dyn A 8503 | | $soa |
www MX 8500 | www CNAME 3600 web | $soa |
text

# referrals, at the first zone cut on the way down, with glue: authoritative for the aliases in front of them alone (RFC 1034, 4.3.2, step
# 3b; RFC 2181, 6.1); the owner of the NS is spelt as the zone has it
lookups "$zone" <<text
x.sub A 8100 | | sub NS 3600 ns.sub | ns.sub A 3600 c0000235
sub NS 8100 | | sub NS 3600 ns.sub | ns.sub A 3600 c0000235
ns.sub A 8100 | | sub NS 3600 ns.sub | ns.sub A 3600 c0000235
y.z.sub A 8100 | | sub NS 3600 ns.sub | ns.sub A 3600 c0000235
y.z.SUB A 8100 | | sub NS 3600 ns.sub | ns.sub A 3600 c0000235
deep A 8500 | deep CNAME 3600 x.sub | sub NS 3600 ns.sub | ns.sub A 3600 c0000235
example. NS 8500 | @ NS 3600 ns1 | | ns1 A 3600 c0000201
text

# chains that stop: at a name already searched, and at one outside the zone (RFC 1034, 3.6.2)
lookups "$zone" <<text
loop1 A 8500 | loop1 CNAME 3600 loop2; loop2 CNAME 3600 loop1 | |
out A 8500 | out CNAME 3600 host.example.net. | |
text

# names outside the zone, and the apex in another case, whose SOA is spelt as the zone has it
lookups "$zone" <<text
example.net. A 8105 | | |
. A 8105 | | |
EXAMPLE. A 8500 | | example. ${soa#@ } |
text

# addresses of names in data: A before AAAA, none that a wildcard would give; the target of an SRV is in full, and nothing points to it (RFC
# 1034, 4.3.2, step 6; RFC 1035, 3.3.9; RFC 2782)
lookups "$zone" <<text
mail MX 8500 | mail MX 3600 000a web; mail MX 3600 0014 q.dyn | | $web; $web6
s SRV 8500 | s SRV 3600 000100020035 web | | $web; $web6
text

# a name whose exchange is itself: its addresses stand in the answer to ANY, and so not in the additional section
own='own A 3600 c0000201'
own6='own AAAA 3600 00000000000000000000000000000000'
lookups '$TTL 3600
@ NS ns1
@ SOA . . 1 7200 900 1209600 300
own A 192.0.2.1
own MX 10 own
own AAAA ::' <<text
own ANY 8500 | $own; own MX 3600 000a own; $own6 | |
own MX 8500 | own MX 3600 000a own | | $own; $own6
text

# An answer that ends at or below a zone cut has its glue or is cut (RFC 2181, 9): where the glue doesn't fit 512 octets, TC is told and no
# record is left. 31 addresses don't fit.
zone='$TTL 3600
@ NS ns1
@ SOA . . 1 7200 900 1209600 300
* MX 10 ns1
deep CNAME x.sub
sub NS ns.sub
subdel NS ns.sub
z.sub NS ns1'
for number in {1..31}; do zone+=$'\n'"ns.sub A 192.0.2.$number"; done
lookups "$zone" <<'text'
x.sub A 8300 | | |
sub NS 8300 | | |
ns.sub A 8300 | | |
y.z.sub A 8300 | | |
deep A 8700 | | |
host.subdel A 8300 | | |
text

# 33 name servers with addresses: an additional section has 32 sets at most (own)
hosts=({a..z}a z{b..h})
zone='$TTL 3600
@ SOA . . 1 7200 900 1209600 300'
answer=
additional=
for host in "${hosts[@]}"; do
    zone+=$'\n'"@ NS $host"$'\n'"$host A 192.0.2.1"
    answer+="@ NS 3600 $host; "
    [ "$host" = zh ] || additional+="$host A 3600 c0000201; "
done
lookups "$zone" --tcp <<<"@ NS 8500 | $answer | | $additional"

# the zone of RFC 4592, 2.2.1, and each query of its text: three are synthesized, the others aren't
lookups '$TTL 3600
example. NS ns.example.com.
example. NS ns.example.net.
example. SOA . . 1 7200 900 1209600 300
*.example. TXT "this is a wildcard"
*.example. MX 10 host1.example.
sub.*.example. TXT "this is not a wildcard"
host1.example. A 192.0.2.1
_ssh._tcp.host1.example. SRV 0 0 22 host1.example.
_ssh._tcp.host2.example. SRV 0 0 22 host1.example.
subdel.example. NS ns.example.com.
subdel.example. NS ns.example.net.' <<text
host3 MX 8500 | host3 MX 3600 000a host1 | | host1 A 3600 c0000201
host3 A 8500 | | $soa |
foo.bar TXT 8500 | foo.bar TXT 3600 127468697320697320612077696c6463617264 | |
host1 MX 8500 | | $soa |
sub.* MX 8500 | | $soa |
_telnet._tcp.host1 SRV 8503 | | $soa |
host.subdel A 8100 | | subdel NS 3600 ns.example.com.; subdel NS 3600 ns.example.net. |
ghost.* MX 8503 | | $soa |
text

# which names exist, and which sets they own: a name that doesn't exist is synthesized from the wildcard, unless an empty non-terminal is
# above it (RFC 4592, 2.2.1 to 2.2.3)
zone='$TTL 3600
@ NS ns
@ SOA . . 1 2 3 4 5
* MX 10 host1
* TXT hi
sub.* TXT hi
a.host2 A 192.0.2.1
SUBDEL NS ns'
soa='. . 00000001 00000002 00000003 00000004 00000005'
lookups "$zone" <<text
example. ANY 8500 | @ NS 3600 ns; @ SOA 3600 $soa | |
EXAMPLE. ANY 8500 | EXAMPLE. NS 3600 ns; EXAMPLE. SOA 3600 $soa | |
. ANY 8105 | | |
* ANY 8500 | * MX 3600 000a host1; * TXT 3600 026869 | |
* A 8500 | | @ SOA 5 $soa |
sub.* ANY 8500 | sub.* TXT 3600 026869 | |
host1 ANY 8500 | host1 MX 3600 000a host1; host1 TXT 3600 026869 | |
host2 ANY 8500 | | @ SOA 5 $soa |
a.host2 ANY 8500 | a.host2 A 3600 c0000201 | |
b.host2 ANY 8503 | | @ SOA 5 $soa |
subdel ANY 8100 | | subdel NS 3600 ns |
exampla. ANY 8105 | | |
text
input=$zone$'\n'
prints 'example. 3600 IN SOA . . 1 2 3 4 5
example. 3600 IN NS ns.example.
*.example. 3600 IN MX 10 host1.example.
*.example. 3600 IN TXT "hi"
sub.*.example. 3600 IN TXT "hi"
a.host2.example. 3600 IN A 192.0.2.1
subdel.example. 3600 IN NS ns.example.' check --origin example. -
origin=example.test.
