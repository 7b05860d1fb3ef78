# Zone files as other servers read them, with `--wide` of check, serve, change and deploy: times with units, words of more types, directives in any case, an
# SOA's MINIMUM as the TTL, and records of signers left out. What isn't asked for stays: without the option each text is read as ever.

# wide WORD..: on standard input stand a zone file, a line =>, and what `dnsd check --wide` prints of it under the words; what it writes on errors is $1, a
# line or nothing
wide() {
    local both said_of=${1:+$1$'\n'}
    shift
    IFS= read -r -d '' both || true
    spell "${both%%$'\n=>\n'*}"$'\n'
    input=$spelt
    tries check --wide "$@" -
    [[ $got == 0 && $said == "${both#*$'\n=>\n'}" && $told == "$said_of" ]] || differs "${both#*$'\n=>\n'}and on errors '$said_of'" check --wide "$@" -
}

# both_ways WORDS: what `dnsd check --words` prints of the text that was printed last, and what is read of it under --wide: that text
both_ways() {
    local plain=${said%$'\n'}
    input=$plain$'\n'
    prints "$1" check --words -
    input=$1$'\n'
    prints "$plain" check --wide -
}

# a file as in use
wide '' --origin example.com. <<'end'
$TTL 1h30m
@␉IN␉SOA␉NS1 Hostmaster ( 2026112801 2h 15m 2W 5m )
␉NS␉ns1
NS1␉5m IN A 192.0.2.1
_443._tcp.www 1d TLSA 3 1 1 ( 0123456789abcdef0123456789ABCDEF 0123456789abcdef0123456789abcdef )
after␉TXT␉"still example.com"
=>
example.com. 5400 IN SOA ns1.example.com. hostmaster.example.com. 2026112801 7200 900 1209600 300
example.com. 5400 IN NS ns1.example.com.
after.example.com. 5400 IN TXT "still example.com"
ns1.example.com. 300 IN A 192.0.2.1
_443._tcp.www.example.com. 86400 IN TYPE52 \# 35 0301010123456789abcdef0123456789abcdef0123456789abcdef0123456789abcdef
end
# without the option it is refused as ever
refuses 1 'line 1: M3 Number' check --origin example.com. -

# what the plain grammar takes has the same zone
takes <zones/example.test.zone
prints "${input%$'\n'}" check --wide -
prints "${input%$'\n'}" check --wide --origin example.test. -

# a byte order mark at the start of the text is passed over, of a directive, a comment and a record; one after it isn't
two=$'x. 60 IN SOA a.x. b.x. 1 2 3 4 5\nx. 60 IN NS a.x.'
for line in '$TTL 60' '; a zone'; do
    input=$'\xef\xbb\xbf'$line$'\n@ 60 SOA a b 1 2 3 4 5\n@ 60 NS a\n'
    prints "$two" check --wide --origin x. -
done
input=$'\xef\xbb\xbf@ 60 TXT "a"\n@ 60 SOA a b 1 2 3 4 5\n@ 60 NS a\n'
prints "$two"$'\nx. 60 IN TXT "a"' check --wide --origin x. -
input=$'\xef\xbb\xbf\xef\xbb\xbf@ 60 SOA a b 1 2 3 4 5\n@ 60 NS a\n'
refuses 1 'line 0: M11 Apex' check --wide --origin x. -

# times: numbers with units, one or more, in any case and order, added up; m is a minute. Directives in any case
wide '' <<'end'
$Origin x.
$ttl 1w2d3h4m5s
@ SOA a b 1 2H 15M 1209600 0
@ NS ns
a 2W A 192.0.2.1
b 90M A 192.0.2.1
c 1d12h A 192.0.2.1
d 0 A 192.0.2.1
e 5m1h A 192.0.2.1
ns A 192.0.2.1
=>
x. 788645 IN SOA a.x. b.x. 1 7200 900 1209600 0
x. 788645 IN NS ns.x.
a.x. 1209600 IN A 192.0.2.1
b.x. 5400 IN A 192.0.2.1
c.x. 129600 IN A 192.0.2.1
d.x. 0 IN A 192.0.2.1
e.x. 3900 IN A 192.0.2.1
ns.x. 788645 IN A 192.0.2.1
end

# no time: a unit without a number, a number after which there is none, and fractions; a TTL of 2^31 and more; units in other numbers
zone_text=$'$TTL 5\nx. SOA a. b. 1 2 3 4 5\nx. NS a.\n'
while IFS= read -r line; do
    input=$zone_text${line% => *}$'\n'
    refuses 1 "line 4: ${line##* => }" check --wide -
done <<'end'
x. 1h30 A 192.0.2.1 => M5 UnknownType
x. h A 192.0.2.1 => M5 UnknownType
x. 1.5h A 192.0.2.1 => M5 UnknownType
x. "1h" A 192.0.2.1 => M5 UnknownType
x. 3551W A 192.0.2.1 => M3 Number
x. 2147483648 A 192.0.2.1 => M3 Number
x. MX 1h a. => M3 Number
x. CAA 256 issue "a" => M3 Number
x. CAA 0 is-sue "a" => M6 BadData
x. CAA 0 issue "a" "b" => M6 BadData
x. TLSA 3 1 1 012 => M6 BadData
x. OPENPGPKEY AQIDBA => M6 BadData
x. MX \# 4 000a0141 => M6 BadData
x. MX \# 4 000ac00c => M6 BadData
x. MX \# 6 000a014100 => M6 BadData
x. MX \# x 000a014100 => M3 Number
x. DS 1 RSA 1 00 => M3 Number
x. HTTPS 1 . port=53 alpn=h2 port=53 => M6 BadData
x. HTTPS 1 . mandatory=port,alpn,port alpn=h2 port=53 => M6 BadData
x. LOC 91 N 0 E 0m => M3 Number
x. LOC 90 0 0.001 N 0 E 0m => M3 Number
x. LOC 1 60 N 0 E 0m => M3 Number
x. LOC 1 0 60 N 0 E 0m => M3 Number
x. LOC 1 0 0.0005 N 0 E 0m => M3 Number
x. LOC 1 N 0 E 42849672.96m => M3 Number
x. LOC 1 N 0 E -100000.01m => M3 Number
x. LOC 1 N 0 E 0m 90000000.01m => M3 Number
x. LOC 1 N 0 E 0km => M3 Number
x. LOC 1 N 0 E => M6 BadData
x. LOC 1 N 0 E 0m 1m 1m 1m 1m => M6 BadData
x. LOC 1 N 0 E "0m" => M6 BadData
x. APL 1:192.0.2.0/24 => M5 UnknownType
x. AAA 192.0.2.1 => M5 UnknownType
$INCLUDE other => M16 Include
$INCLUDE => M1 Directive
$INCLUDE a b c => M6 BadData
$GENERATE 1-3 a$ A 192.0.2.$ => M1 Directive
end

# a fault has the line of the file, and no advice for plain text
input=$zone_text$'x. 1h CAAA 0 issue "a"\n'
says 1 'line 4: M5 UnknownType
a type is due, by a name that is known here or by its number: `x. 1h CAAA 0 issue "a"`' check --wide -

# words of types (RFC 1035, 3.3.2; RFC 1183; RFC 3403, 4; RFC 4398, 2; RFC 4034, 5.4; RFC 4255, 3; RFC 4701, 3.6; RFC 6698, 2.2; RFC 7344, 3; RFC 7553, 4;
# RFC 7929, 2.3; RFC 8659, 4.1; RFC 9460, 2.1), as BIND's named-rrchecker has their data. Of a DNAME, of which no answer is made, a line warns
dname='warning: DNAME records, which have no effect on answers: '
wide "${dname}1" --origin x. <<'end'
$TTL 5
@ SOA a b 1 2 3 4 5
@ NS a
a HINFO "INTEL-386" UNIX
b CAA 0 issue "letsencrypt.org"
b CAA 128 tbs "Unknown"
c NAPTR 10 20 "u" "E2U+sip" "!^.*$!sip:info@example.com!" .
d URI 10 1 "ftp://ftp1.example.com/public"
e DS 60485 RSASHA1 1 2BB183AF5F22588179A53B0A 98631FAD1A292118
f DHCID AAIBY2/AuCccgoJbsaxcQc9TUapptP69lOjxfNuVAA2kjEA=
g CERT PKIX 0 RSASHA256 AQID
h OPENPGPKEY AQIDBA==
i RP A B.
j DNAME Example.NET.
k EUI48 00-00-5e-00-53-2a
l HTTPS 1 . alpn="h2,h3" ipv4hint=192.0.2.3
=>
x. 5 IN SOA a.x. b.x. 1 2 3 4 5
x. 5 IN NS a.x.
a.x. 5 IN TYPE13 \# 15 09494e54454c2d33383604554e4958
b.x. 5 IN TYPE257 \# 22 000569737375656c657473656e63727970742e6f7267
b.x. 5 IN TYPE257 \# 12 8003746273556e6b6e6f776e
c.x. 5 IN TYPE35 \# 43 000a00140175074532552b7369701b215e2e2a24217369703a696e666f406578616d706c652e636f6d2100
d.x. 5 IN TYPE256 \# 33 000a00016674703a2f2f667470312e6578616d706c652e636f6d2f7075626c6963
e.x. 5 IN TYPE43 \# 24 ec4505012bb183af5f22588179a53b0a98631fad1a292118
f.x. 5 IN TYPE49 \# 35 000201636fc0b8271c82825bb1ac5c41cf5351aa69b4febd94e8f17cdb95000da48c40
g.x. 5 IN TYPE37 \# 8 0001000008010203
h.x. 5 IN TYPE61 \# 4 01020304
i.x. 5 IN TYPE17 \# 8 0141017800014200
j.x. 5 IN TYPE39 \# 13 074578616d706c65034e455400
k.x. 5 IN TYPE108 \# 6 00005e00532a
l.x. 5 IN TYPE65 \# 21 0001000001000602683202683300040004c0000203
end

# a service's parameters (RFC 9460, D.1 and D.2), and more words of types, as named-compilezone and ldns-read-zone have them
wide '' --origin x. <<'end'
$TTL 5
@ SOA a b 1 2 3 4 5
@ NS a
a HTTPS 0 foo.example.com.
b SVCB 1 .
c SVCB 16 foo.example.com. port=53
d SVCB 1 foo.example.com. key667=hello
e SVCB 1 foo.example.com. key667="hello\210qoo"
f SVCB 1 foo.example.com. ipv6hint="2001:db8::1,2001:db8::53:1"
g SVCB 1 example.com. ipv6hint="2001:db8:122:344::192.0.2.33"
h SVCB 16 foo.example.org. alpn="f\\\\oo\\,bar,h2"
i HTTPS 1 . alpn=h2 no-default-alpn port=8443 ipv4hint=192.0.2.1,192.0.2.2 ech="AQID" ipv6hint=2001:db8::1
j NAPTR 100 50 "s" "z3950+I2L+I2C" "" _z3950._tcp.gatech.edu.
k CERT PGP 0 0 AQID
l DNSKEY 256 3 RSASHA256 AwEAAcw=
l CDNSKEY 257 3 13 AwEA Acw=
m SSHFP 1 1 dd465c09cfa51fb45020cc83316fff21b9ec74ac
n EUI64 00-00-5e-ef-10-00-00-2a
o KX 10 a
o AFSDB 1 a
o SPF "v=spf1 -all" "more"
p SVCB 16 foo.example.org. alpn=h2,h3-19 mandatory=ipv4hint,alpn ipv4hint=192.0.2.1
q SVCB 16 foo.example.org. ipv4hint=192.0.2.1 mandatory=alpn,ipv4hint alpn=h2,h3-19
=>
x. 5 IN SOA a.x. b.x. 1 2 3 4 5
x. 5 IN NS a.x.
a.x. 5 IN TYPE65 \# 19 000003666f6f076578616d706c6503636f6d00
b.x. 5 IN TYPE64 \# 3 000100
c.x. 5 IN TYPE64 \# 25 001003666f6f076578616d706c6503636f6d00000300020035
d.x. 5 IN TYPE64 \# 28 000103666f6f076578616d706c6503636f6d00029b000568656c6c6f
e.x. 5 IN TYPE64 \# 32 000103666f6f076578616d706c6503636f6d00029b000968656c6c6fd2716f6f
f.x. 5 IN TYPE64 \# 55 000103666f6f076578616d706c6503636f6d000006002020010db800000000000000000000000120010db8000000000000000000530001
g.x. 5 IN TYPE64 \# 35 0001076578616d706c6503636f6d000006001020010db80122034400000000c0000221
h.x. 5 IN TYPE64 \# 35 001003666f6f076578616d706c65036f7267000001000c08665c6f6f2c626172026832
i.x. 5 IN TYPE65 \# 59 00010000010003026832000200000003000220fb00040008c0000201c0000202000500030102030006001020010db8000000000000000000000001
j.x. 5 IN TYPE35 \# 45 0064003201730d7a333935302b49324c2b49324300065f7a33393530045f746370066761746563680365647500
k.x. 5 IN TYPE37 \# 8 0003000000010203
l.x. 5 IN TYPE48 \# 9 0100030803010001cc
l.x. 5 IN TYPE60 \# 9 0101030d03010001cc
m.x. 5 IN TYPE44 \# 22 0101dd465c09cfa51fb45020cc83316fff21b9ec74ac
n.x. 5 IN TYPE109 \# 8 00005eef1000002a
o.x. 5 IN TYPE18 \# 7 00010161017800
o.x. 5 IN TYPE36 \# 7 000a0161017800
o.x. 5 IN TYPE99 \# 17 0b763d73706631202d616c6c046d6f7265
p.x. 5 IN TYPE64 \# 48 001003666f6f076578616d706c65036f7267000000000400010004000100090268320568332d313900040004c0000201
q.x. 5 IN TYPE64 \# 48 001003666f6f076578616d706c65036f7267000000000400010004000100090268320568332d313900040004c0000201
end
# and in words, which are read back
both_ways 'x. 5 IN SOA a.x. b.x. 1 2 3 4 5
x. 5 IN NS a.x.
a.x. 5 IN HTTPS 0 foo.example.com.
b.x. 5 IN SVCB 1 .
c.x. 5 IN SVCB 16 foo.example.com. port=53
d.x. 5 IN SVCB 1 foo.example.com. key667=hello
e.x. 5 IN SVCB 1 foo.example.com. key667=hello\210qoo
f.x. 5 IN SVCB 1 foo.example.com. ipv6hint=2001:db8:0:0:0:0:0:1,2001:db8:0:0:0:0:53:1
g.x. 5 IN SVCB 1 example.com. ipv6hint=2001:db8:122:344:0:0:c000:221
h.x. 5 IN SVCB 16 foo.example.org. alpn=f\\\\oo\\,bar,h2
i.x. 5 IN HTTPS 1 . alpn=h2 no-default-alpn port=8443 ipv4hint=192.0.2.1,192.0.2.2 ech=AQID ipv6hint=2001:db8:0:0:0:0:0:1
j.x. 5 IN NAPTR 100 50 "s" "z3950+I2L+I2C" "" _z3950._tcp.gatech.edu.
k.x. 5 IN CERT 3 0 0 AQID
l.x. 5 IN DNSKEY 256 3 8 AwEAAcw=
l.x. 5 IN CDNSKEY 257 3 13 AwEAAcw=
m.x. 5 IN SSHFP 1 1 dd465c09cfa51fb45020cc83316fff21b9ec74ac
n.x. 5 IN EUI64 00-00-5e-ef-10-00-00-2a
o.x. 5 IN AFSDB 1 a.x.
o.x. 5 IN KX 10 a.x.
o.x. 5 IN SPF "v=spf1 -all" "more"
p.x. 5 IN SVCB 16 foo.example.org. mandatory=alpn,ipv4hint alpn=h2,h3-19 ipv4hint=192.0.2.1
q.x. 5 IN SVCB 16 foo.example.org. mandatory=alpn,ipv4hint alpn=h2,h3-19 ipv4hint=192.0.2.1'

# places (RFC 1876, 3: its examples first), by hand, and as named-rrchecker has them but for letters in lower case: a size keeps its first digit
wide '' --origin x. <<'end'
$TTL 5
@ SOA a b 1 2 3 4 5
@ NS a
a LOC 42 21 54 N 71 06 18 W -24m 30m
b LOC 42 21 43.952 N 71 5 6.344 W -24m 1m 200m
c LOC 52 14 05 N 00 08 50 E 10m
d LOC 32 7 19 S 116 2 25 E 10m
e LOC 42 21 28.764 N 71 00 51.617 W -44m 2000m
f LOC 52 22 23.000 N 4 53 32.000 E -2.00m 0.00m 10000m 10m
g LOC 90 S 180 E 42849672.95 90000000.00m 0.01m 0.5
h LOC 1 N 2 E 15m 15m 99.99m
i loc 0 0 0.5 s 0 w -100000m
=>
x. 5 IN SOA a.x. b.x. 1 2 3 4 5
x. 5 IN NS a.x.
a.x. 5 IN TYPE29 \# 16 0033161389172dd070be15f000988d20
b.x. 5 IN TYPE29 \# 16 001224138917069070bf2dd800988d20
c.x. 5 IN TYPE29 \# 16 001216138b3556c88008165000989a68
d.x. 5 IN TYPE29 \# 16 00121613791b7d2898e6486800989a68
e.x. 5 IN TYPE29 \# 16 002516138916cb3c70c310df00988550
f.x. 5 IN TYPE29 \# 16 000016138b3cf018810cbce0009895b8
g.x. 5 IN TYPE29 \# 16 009910516cb02700a69fb200ffffffff
h.x. 5 IN TYPE29 \# 16 001393138036ee80806ddd0000989c5c
i.x. 5 IN TYPE29 \# 16 001216137ffffe0c8000000000000000
end
both_ways 'x. 5 IN SOA a.x. b.x. 1 2 3 4 5
x. 5 IN NS a.x.
a.x. 5 IN LOC 42 21 54.000 N 71 6 18.000 W -24.00m 30.00m 10000.00m 10.00m
b.x. 5 IN LOC 42 21 43.952 N 71 5 6.344 W -24.00m 1.00m 200.00m 10.00m
c.x. 5 IN LOC 52 14 5.000 N 0 8 50.000 E 10.00m 1.00m 10000.00m 10.00m
d.x. 5 IN LOC 32 7 19.000 S 116 2 25.000 E 10.00m 1.00m 10000.00m 10.00m
e.x. 5 IN LOC 42 21 28.764 N 71 0 51.617 W -44.00m 2000.00m 10000.00m 10.00m
f.x. 5 IN LOC 52 22 23.000 N 4 53 32.000 E -2.00m 0.00m 10000.00m 10.00m
g.x. 5 IN LOC 90 0 0.000 S 180 0 0.000 E 42849672.95m 90000000.00m 0.01m 0.50m
h.x. 5 IN LOC 1 0 0.000 N 2 0 0.000 E 15.00m 10.00m 90.00m 10.00m
i.x. 5 IN LOC 0 0 0.500 S 0 0 0.000 E -100000.00m 1.00m 10000.00m 10.00m'

# what isn't of the form is written after \# (RFC 3597, 5): parameters out of order, one twice, a list without an item, a port of three octets, a mandatory key
# that is `mandatory`, a value that is cut off; a place of another version, of 91 degrees, with a size of no digit, and of 15 octets
top='x. 5 IN SOA a. b. 1 2 3 4 5
x. 5 IN NS a.'
while IFS= read -r line; do
    input=$top$'\n'$line$'\n'
    prints "$top"$'\n'"${line/TYPE64/SVCB}" check --words -
done <<'end'
x. 5 IN TYPE64 \# 16 00010000030002003500010003026832
x. 5 IN TYPE64 \# 15 000100000300020035000300020035
x. 5 IN TYPE64 \# 7 00010000010000
x. 5 IN TYPE64 \# 10 00010000030003003500
x. 5 IN TYPE64 \# 9 000100000000020000
x. 5 IN TYPE64 \# 9 000100000300030035
end
while IFS= read -r line; do
    input=$top$'\n'$line$'\n'
    prints "$top"$'\n'"${line/TYPE29/LOC}" check --words -
done <<'end'
x. 5 IN TYPE29 \# 16 0133161389172dd070be15f000988d20
x. 5 IN TYPE29 \# 16 003316139386c78070be15f000988d20
x. 5 IN TYPE29 \# 16 0003161389172dd070be15f000988d20
x. 5 IN TYPE29 \# 15 0033161389172dd070be15f000988d
end

# no TTL is in force: an SOA's MINIMUM is its TTL, and that of the records after it; of another type there is none
wide '' --origin x. <<'end'
@ SOA a b 1 2 3 4 5m
@ NS a
a 7 A 192.0.2.1
b A 192.0.2.1
=>
x. 300 IN SOA a.x. b.x. 1 2 3 4 300
x. 300 IN NS a.x.
a.x. 7 IN A 192.0.2.1
b.x. 7 IN A 192.0.2.1
end
input=$'x. NS a.\nx. SOA a. b. 1 2 3 4 5\n'
refuses 1 'line 1: M8 NoTtl' check --wide -

# a line has how many DNAME records there are, by their word or their number, after the file's name: also of a file that is a zone without the option, where
# nothing is told without it. What looks like one in a TXT, and an owner with a blank, are none
wide "${dname}3" --origin x. <<'end'
$TTL 1h
@ SOA a b 1 2 3 4 5
@ NS a
a DNAME b
a TXT "x 1 IN TYPE39"
a\032 1 TXT TYPE39
b TYPE39 \# 1 00
c 1m dname c.d.
=>
x. 3600 IN SOA a.x. b.x. 1 2 3 4 5
x. 3600 IN NS a.x.
a.x. 3600 IN TXT "x 1 IN TYPE39"
a.x. 3600 IN TYPE39 \# 5 0162017800
a\032.x. 1 IN TXT "TYPE39"
b.x. 3600 IN TYPE39 \# 1 00
c.x. 60 IN TYPE39 \# 5 0163016400
end
printf '%s' $'$TTL 5\n@ SOA a b 1 2 3 4 5\n@ NS a\nb TYPE39 \\# 1 00\nb TYPE40 \\# 1 00\n' >"$room/plain"
input=
row 0 "listening on 127.0.0.1:" serve --wide --listen 127.0.0.1:0 --workers 1 --count 0 --origin x. "$room/plain"
[[ $told == "$room/plain: ${dname}1"$'\n'* ]] || differs "$room/plain: ${dname}1" serve --wide
tries check --wide --origin x. "$room/plain"
[[ $got == 0 && $told == "$room/plain: ${dname}1"$'\n' ]] || differs "$room/plain: ${dname}1" check --wide
prints "${said%$'\n'}" check --origin x. "$room/plain"

# names after \# may have capital letters, in data of each type that has names; texts and octets of other types stay
wide '' --origin x. <<'end'
$TTL 5
@ SOA \# 26 014100 014200 00000001 00000002 00000003 00000004 00000005
@ NS \# 3 014100
c CNAME \# 5 0141015800
m MX \# 7 000A 0141015800
p PTR \# 5 0141015A00
s SRV \# 9 000100020003 014100
t TXT \# 2 0141
t TYPE99 \# 3 014100
=>
x. 5 IN SOA a. b. 1 2 3 4 5
x. 5 IN NS a.
c.x. 5 IN CNAME a.x.
m.x. 5 IN MX 10 a.x.
p.x. 5 IN PTR a.z.
s.x. 5 IN SRV 1 2 3 a.
t.x. 5 IN TXT "A"
t.x. 5 IN TYPE99 \# 3 014100
end
# without the option they are refused as ever
input=$zone_text$'x. MX \\# 5 000a014100\n'
refuses 1 'line 4: M6 BadData' check -

# records of signers are left out, and their number is told; owner and TTL stay in force after them, and octets after \# are kept
left='records left out (RRSIG, NSEC, NSEC3, NSEC3PARAM): '
wide "${left}5, the first on line 2" --origin x. <<'end'
@ 300 SOA a b 1 2 3 4 5
  300 RRSIG SOA 13 1 300 (
    20260102000000 20260101000000 1 x. AAAA )
  NS a
a 7 IN NSEC b A RRSIG NSEC
  A 192.0.2.1
0P9MHAVEQVM6T7VBL5LOP2U3T2RP3TOM nsec3 1 0 0 - 2T7B4G4VSA5SMI47K61MV5BV1A22BOJR A
b TXT "b"
@ NSEC3PARAM 1 0 0 -
@ 9 RRSIG "NSEC" 13 1 300
c RRSIG \# 1 00
d TYPE47 \# 2 0001
=>
x. 300 IN SOA a.x. b.x. 1 2 3 4 5
x. 300 IN NS a.x.
a.x. 7 IN A 192.0.2.1
b.x. 7 IN TXT "b"
c.x. 9 IN TYPE46 \# 1 00
d.x. 9 IN TYPE47 \# 2 0001
end
input=$zone_text$'x. RRSIG A "13\n'
refuses 1 'line 4: M7 Unclosed' check --wide -

# faults of the zone, and warnings, have the lines of the file too
zone_file=$'$TTL 1h\n@ SOA ns1 admin ( 1\n  2h 15m\n  2W 5m )\n NS ns1\nns1 A 192.0.2.1\n\n; a remark\nwww RRSIG A 8 3 3600\nwww CNAME ns1\n'
printf '%s' "$zone_file"$'\nwww CAA 0 issue ";"\n' >"$room/zone"
input=
says 1 "$room/zone: ${left}1, the first on line 9
line 12: M12 Conflict
$room/zone:12: a CNAME stands beside other data or another CNAME, or an NS at a wildcard: \`www\`, in \`www CAA 0 issue \";\"\`" check --wide --origin x. "$room/zone"
input=$zone_file$'@ 5m MX ( 10\n  www )\n'
row 0 "${left}1, the first on line 9"$'\n''line 11: warning: MX www.x. is an alias'$'\n' check --wide --warn --origin x. -

# change, and serve with a store and without
printf '%s' "$zone_file" >"$room/zone"
printf '%s' "$zone_file"'b 5m CAA 0 issue ";"'$'\n' >"$room/next"
input=
row 0 '- x. 3600 IN SOA ns1.x. admin.x. 1 7200 900 1209600 300
+ x. 3600 IN SOA ns1.x. admin.x. 2 7200 900 1209600 300
+ b.x. 300 IN TYPE257 \# 8 000569737375653b' change --wide --origin x. "$room/zone" "$room/next"
row 1 'M3 Number' change --origin x. "$room/zone" "$room/next"
row 0 'x. with serial 1, 4 records' serve --wide --listen 127.0.0.1:0 --workers 1 --count 0 --origin x. "$room/zone"
row 0 "${left}1, the first on line 9" serve --wide --listen 127.0.0.1:0 --workers 1 --count 0 --origin x. "$room/zone"
row 1 'M3 Number' serve --listen 127.0.0.1:0 --workers 1 --count 0 --origin x. "$room/zone"
rm -rf "$room/wide"
mkdir "$room/wide"
row 0 "created the store '$room/wide' from ZONE" serve --wide --listen 127.0.0.1:0 --workers 1 --count 0 --origin x. --store "$room/wide" "$room/zone"
tries serve --wide --listen 127.0.0.1:0 --workers 1 --count 0 --origin x. --store "$room/wide" "$room/zone"
[[ $got == 0 && $told != *ignoring* && $told == *'x. with serial 1, 4 records'* ]] || differs 'the store of the same file' serve --wide --store
# the store is changed to another file, and found by the next start of that file; without the option the file is refused, and the store stays
row 0 "serving ZONE; changed the store '$room/wide' to it: serial 1 to 2, 0 records deleted, 1 added" serve --wide --listen 127.0.0.1:0 --workers 1 --count 0 --origin x. --store "$room/wide" --take zone "$room/next"
tries serve --wide --listen 127.0.0.1:0 --workers 1 --count 0 --origin x. --store "$room/wide" "$room/next"
[[ $got == 0 && $told != *ignoring* && $told == *'x. with serial 2, 5 records'* ]] || differs 'the store of the same file' serve --wide --store
row 1 'line 1: M3 Number' serve --listen 127.0.0.1:0 --workers 1 --count 0 --origin x. --store "$room/wide" "$room/next"
row 0 'b.x. 300 IN TYPE257 \# 8 000569737375653b' zone "$room/wide"
# a file that is refused needs the store to be chosen; where there is none, its own fault is told
echo 'x. 1h30 A 192.0.2.1' >>"$room/zone"
row 1 'line 11: M5 UnknownType' serve --wide --listen 127.0.0.1:0 --workers 1 --count 0 --origin x. --store "$room/wide" "$room/zone"
row 0 'ignoring ZONE' serve --wide --listen 127.0.0.1:0 --workers 1 --count 0 --origin x. --store "$room/wide" --take store "$room/zone"
rm -rf "$room/wide"
mkdir "$room/wide"
row 1 'line 11: M5 UnknownType' serve --wide --listen 127.0.0.1:0 --workers 1 --count 0 --origin x. --store "$room/wide" --take store "$room/zone"

# a file that is a zone without the option is the same text with it: a store that was begun without it is found by a start with it, and the other way
# round. It isn't written as the option writes plain text
printf '%s' $'; a remark\n$TTL 5\n@ SOA a b ( 1 2 3\n  4 5 )\n  NS a\n' >"$room/plain"
for first in '' --wide; do
    next=--wide
    [ -z "$first" ] || next=
    rm -rf "$room/wide"
    mkdir "$room/wide"
    # shellcheck disable=SC2086
    row 0 "created the store '$room/wide' from ZONE" serve $first --listen 127.0.0.1:0 --workers 1 --count 0 --origin x. --store "$room/wide" "$room/plain"
    # shellcheck disable=SC2086
    tries serve $next --listen 127.0.0.1:0 --workers 1 --count 0 --origin x. --store "$room/wide" "$room/plain"
    [[ $got == 0 && $told != *ZONE* && $told == *'x. with serial 1, 2 records'* ]] || differs 'the store of the same file' serve "$next" --store
done
# with a byte order mark it isn't, and the store has what is made of it
printf '\xef\xbb\xbf' | cat - "$room/plain" >"$room/marked"
rm -rf "$room/wide"
mkdir "$room/wide"
row 0 "created the store '$room/wide' from ZONE" serve --wide --listen 127.0.0.1:0 --workers 1 --count 0 --origin x. --store "$room/wide" "$room/marked"
row 0 $'x. 5 IN SOA a.x. b.x. 1 2 3 4 5\nx. 5 IN NS a.x.\n' zone "$room/wide"

# files that are included (RFC 1035, 5.1): names are relative to the origin after the path, or to that in force; after a file origin, owner and TTLs are as
# before it. A path is relative to the directory of the file that names it. By hand; named-compilezone has the same zone where each file sets no $TTL
rm -rf "$room/parts"
mkdir -p "$room/parts/sub/deep"
printf '%s\n' '$TTL 1h' '@ SOA ns1 admin 1 2h 15m 2W 5m' ' NS ns1' '$INCLUDE hosts.inc' ' TXT "the apex"' '$include "sub/one.inc" sub ; with its own origin' 'www CNAME ns1' >"$room/parts/zone"
printf '%s\n' 'ns1 A 192.0.2.1' '$ORIGIN host' '$TTL 5m' 'a A 192.0.2.2' >"$room/parts/hosts.inc"
printf '%s\n' '' '@ TXT "one"' '$INCLUDE deep/two.inc' 'c RRSIG A 8 3 3600' 'c TXT "c"' >"$room/parts/sub/one.inc"
printf '\xef\xbb\xbf%s\n%s\n' ' TXT "the same owner"' 'b 7 TXT "two"' >"$room/parts/sub/deep/two.inc"
input=
right='x. 3600 IN SOA ns1.x. admin.x. 1 7200 900 1209600 300
x. 3600 IN NS ns1.x.
x. 3600 IN TXT "the apex"
a.host.x. 300 IN A 192.0.2.2
ns1.x. 3600 IN A 192.0.2.1
sub.x. 3600 IN TXT "one"
sub.x. 3600 IN TXT "the same owner"
b.sub.x. 7 IN TXT "two"
c.sub.x. 3600 IN TXT "c"
www.x. 3600 IN CNAME ns1.x.'
tries check --wide --origin x. "$room/parts/zone"
[[ $got == 0 && $said == "$right"$'\n' && $told == "$room/parts/zone: ${left}1, the first on line 4 of sub/one.inc"$'\n' ]] || differs "$right" check --wide --origin x. "$room/parts/zone"
# without the option it is refused as ever, and so is it on standard input
row 1 'line 1: M3 Number' check --origin x. "$room/parts/zone"
input=$'$TTL 1\n@ SOA a b 1 2 3 4 5\n@ NS a\n$INCLUDE hosts.inc\n'
refuses 1 'line 4: M16 Include' check --wide --origin x. -

# faults, and warnings, have the file and its line
input=
printf '%s\n' 'ns1 A 192.0.2.1' '' 'a MX 1h b' >"$room/parts/hosts.inc"
refuses 1 'hosts.inc: line 3: M3 Number' check --wide --origin x. "$room/parts/zone"
printf '%s\n' 'ns1 A 192.0.2.1' '' '@ SOA a b 2 3 4 5 6' >"$room/parts/hosts.inc"
tries check --wide --origin x. "$room/parts/zone"
[[ $got == 1 && $told == *$'hosts.inc: line 3: M11 Apex\nhosts.inc:3: '* ]] || differs 'the file and its line' check --wide --origin x. "$room/parts/zone"
printf '%s\n' 'ns1 A 192.0.2.1' 'www TXT "a"' >"$room/parts/hosts.inc"
row 1 $'line 7: M12 Conflict\n' check --wide --origin x. "$room/parts/zone"
printf '%s\n' 'ns1 A 192.0.2.1' '' 'mail MX 10 www' >"$room/parts/hosts.inc"
row 0 $'\nhosts.inc: line 3: warning: MX www.x. is an alias\n' check --wide --warn --origin x. "$room/parts/zone"

# a file that isn't there; paths that lead out of the directory, or are none; one that includes itself
for line in '$INCLUDE nowhere' "\$INCLUDE $room/parts/hosts.inc" '$INCLUDE ../parts/hosts.inc' '$INCLUDE sub/../hosts.inc' '$INCLUDE ""' '$INCLUDE sub'; do
    printf '%s\n' '$TTL 5' "$line" >"$room/parts/other"
    refuses 1 'line 2: M16 Include' check --wide --origin x. "$room/parts/other"
done
printf '%s\n' '' '$INCLUDE other' >"$room/parts/other"
refuses 1 'other: line 2: M16 Include' check --wide --origin x. "$room/parts/other"
printf '%s\n' '$INCLUDE sub/..a/...' 'x. 5 TXT "a"' >"$room/parts/other"
mkdir -p "$room/parts/sub/..a"
printf '%s\n' 'x. 5 SOA a. b. 1 2 3 4 5' 'x. NS a.' >"$room/parts/sub/..a/..."
prints $'x. 5 IN SOA a. b. 1 2 3 4 5\nx. 5 IN NS a.\nx. 5 IN TXT "a"' check --wide "$room/parts/other"

# 20 files deep is read, and 21 isn't
for n in $(seq 0 20); do printf '%s\n' "\$INCLUDE $((n + 1))" >"$room/parts/$n"; done
printf '%s\n' 'x. 5 SOA a. b. 1 2 3 4 5' 'x. NS a.' >"$room/parts/21"
refuses 1 '20: line 1: M16 Include' check --wide "$room/parts/0"
prints $'x. 5 IN SOA a. b. 1 2 3 4 5\nx. 5 IN NS a.' check --wide "$room/parts/1"

# change, and a store: it keeps the text with what is included, so that a change of a file that is included is one of the zone
printf '%s\n' '$TTL 1h' '@ SOA ns1 admin 1 2 3 4 5' ' NS ns1' '$INCLUDE hosts.inc' >"$room/parts/zone"
printf '%s\n' '$TTL 1h' '@ SOA ns1 admin 1 2 3 4 5' ' NS ns1' 'ns1 A 192.0.2.1' >"$room/parts/next"
printf '%s\n' 'ns1 A 192.0.2.1' >"$room/parts/hosts.inc"
prints '' change --wide --origin x. "$room/parts/zone" "$room/parts/next"
rm -rf "$room/wide"
mkdir "$room/wide"
row 0 "created the store '$room/wide' from ZONE" serve --wide --listen 127.0.0.1:0 --workers 1 --count 0 --origin x. --store "$room/wide" "$room/parts/zone"
tries serve --wide --listen 127.0.0.1:0 --workers 1 --count 0 --origin x. --store "$room/wide" "$room/parts/zone"
[[ $got == 0 && $told != *ignoring* && $told == *'x. with serial 1, 3 records'* ]] || differs 'the store of the same files' serve --wide --store
printf '%s\n' 'ns1 A 192.0.2.1' 'a 5 A 192.0.2.2' >"$room/parts/hosts.inc"
row 0 "serving ZONE; changed the store '$room/wide' to it: serial 1 to 2, 0 records deleted, 1 added" serve --wide --listen 127.0.0.1:0 --workers 1 --count 0 --origin x. --store "$room/wide" --take zone "$room/parts/zone"
row 0 'a.x. 5 IN A 192.0.2.2' zone "$room/wide"

# the zone in words, which is read back as the zone: the words are those of the RFCs above, and of named-compilezone but for capitals and quotes
words='x. 5 IN SOA a.x. b.x. 1 2 3 4 5
x. 5 IN NS a.x.
a.x. 5 IN HINFO "INTEL-386" "UNIX"
b.x. 5 IN CAA 0 issue "letsencrypt.org"
c.x. 5 IN NAPTR 10 20 "u" "E2U+sip" "!^.*$!sip:info@example.com!" .
d.x. 5 IN URI 10 1 "ftp://ftp1.example.com/public"
e.x. 5 IN DS 60485 5 1 2bb183af5f22588179a53b0a98631fad1a292118
f.x. 5 IN DHCID AAIBY2/AuCccgoJbsaxcQc9TUapptP69lOjxfNuVAA2kjEA=
g.x. 5 IN CERT 1 0 8 AQID
h.x. 5 IN OPENPGPKEY AQIDBA==
i.x. 5 IN RP A.x. B.
j.x. 5 IN DNAME Example.NET.
k.x. 5 IN EUI48 00-00-5e-00-53-2a
l.x. 5 IN HTTPS 1 . alpn=h2,h3 ipv4hint=192.0.2.3
m.x. 5 IN TLSA 3 1 1 0123456789abcdef
n.x. 5 IN LOC 42 21 54.000 N 71 6 18.000 W -24.00m 30.00m 10000.00m 10.00m
o.x. 5 IN CAA \# 3 000000
p.x. 5 IN TYPE65280 \# 2 0102
q.x. 5 IN SPF "v=spf1 -all" "more \"quoted\" \\ \007"
r.x. 5 IN MX 10 a.x.'
input=$words$'\n'
tries check --wide --words -
[[ $got == 0 && $said == "$words"$'\n' && $told == "${dname}1"$'\n' ]] || differs "$words" check --wide --words -
tries check --wide -
input=$said
printf '%s' "$said" >"$room/plain"
prints "$words" check --words -
prints "${input%$'\n'}" check -
rm -rf "$room/wide"
mkdir "$room/wide"
row 0 "created the store '$room/wide' from ZONE" serve --listen 127.0.0.1:0 --workers 1 --count 0 --store "$room/wide" "$room/plain"
input=
prints "$words" zone --words "$room/wide"
input=$'x. 5 IN SOA a.x. b.x. 1 2 3 4 5\n'
refuses 1 'line 0: M11 Apex' check --words -
