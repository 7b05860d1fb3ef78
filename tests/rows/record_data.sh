# Data of each type: what words are read as, by its octets in a reply, the first fault of words that are none, and what is printed of octets.

# a number of at most 16 bits, an address of RFC 4291, 2.2, a name and a service (RFC 1035, 3.3.9 and 3.3.12; RFC 3596, 2.2; RFC 2782) in
# a record of new.example.test., and the type, the length and the octets of its data
takes_zone <zones/example.test.zone
example=$zone_text
while IFS= read -r line; do
    octets=${line##* => }
    type=${octets% *}
    zone_text=${example}"new.example.test. 3600 IN ${line% => *}"$'\n'
    answers --origin example.test. <<end
# ${line% => *}
query 123401000001000000000000036e6577076578616d706c65047465737400${type}0001
reply 123485000001000100000000036e6577076578616d706c65047465737400${type}0001c00c${type}000100000e10${octets#* }
end
done <<'end'
AAAA 2001:db8::1 => 001c 001020010db8000000000000000000000001
aaaa :: => 001c 001000000000000000000000000000000000
AAAA ::ffff:192.0.2.1 => 001c 001000000000000000000000ffffc0000201
AAAA 1:02:003:0004:A:b:Cd:eF0 => 001c 00100001000200030004000a000b00cd0ef0
PTR Host.Other. => 000c 000c04686f7374056f7468657200
SRV 1 2 65535 host => 0021 001900010002ffff04686f7374076578616d706c65047465737400
SRV 0 0 0 . => 0021 000700000000000000
AAAA ABCD:EF01:2345:6789:ABCD:EF01:2345:6789 => 001c 0010abcdef0123456789abcdef0123456789
AAAA 2001:DB8:0:0:8:800:200C:417A => 001c 001020010db80000000000080800200c417a
AAAA 2001:DB8::8:800:200C:417A => 001c 001020010db80000000000080800200c417a
AAAA 2001:0db8:0000:0000:0008:0800:200c:417a => 001c 001020010db80000000000080800200c417a
AAAA FF01:0:0:0:0:0:0:101 => 001c 0010ff010000000000000000000000000101
AAAA FF01::101 => 001c 0010ff010000000000000000000000000101
AAAA 0:0:0:0:0:0:0:1 => 001c 001000000000000000000000000000000001
AAAA ::1 => 001c 001000000000000000000000000000000001
AAAA 0:0:0:0:0:0:0:0 => 001c 001000000000000000000000000000000000
AAAA :: => 001c 001000000000000000000000000000000000
AAAA 0:0:0:0:0:0:13.1.68.3 => 001c 00100000000000000000000000000d014403
AAAA ::13.1.68.3 => 001c 00100000000000000000000000000d014403
AAAA 0:0:0:0:0:FFFF:129.144.52.38 => 001c 001000000000000000000000ffff81903426
AAAA ::FFFF:129.144.52.38 => 001c 001000000000000000000000ffff81903426
A 26.3.0.103 => 0001 00041a030067
A 0.0.0.0 => 0001 000400000000
A 255.255.255.255 => 0001 0004ffffffff
MX 65535 . => 000f 0003ffff00
MX 0000000000000000000020 . => 000f 0003001400
TXT "a b\"\;" \065\.b "" => 0010 000b05612062223b03412e6200
end

# what is no address of sixteen octets or of four, and no number
zone_text=${example}'new.example.test. 3600 IN AAAA '
faults <<'end'
1:2:3:4:5:6:7␊ => line 14: M6 BadData
1:2:3:4:5:6:7:8:9␊ => line 14: M6 BadData
1::2::3␊ => line 14: M6 BadData
1:2:3:4::5:6:7:8␊ => line 14: M6 BadData
12345::␊ => line 14: M6 BadData
2001:DB8::G␊ => line 14: M6 BadData
1:2:3:4:5:6:7:␊ => line 14: M6 BadData
:1:2:3:4:5:6:7␊ => line 14: M6 BadData
::13.1.68.3:0␊ => line 14: M6 BadData
::13.1.68.256␊ => line 14: M6 BadData
"::1"␊ => line 14: M6 BadData
end
zone_text=${example}'new.example.test. 3600 IN A '
faults <<'end'
256.0.0.1␊ => line 14: M6 BadData
10.01.0.52␊ => line 14: M6 BadData
10.1.52␊ => line 14: M6 BadData
10.1.0.52.1␊ => line 14: M6 BadData
10.1.0.52.␊ => line 14: M6 BadData
10.1.0.\053␊ => line 14: M6 BadData
"10.1.0.52"␊ => line 14: M6 BadData
end
zone_text=${example}'new.example.test. 3600 IN MX '
faults <<'end'
65536 .␊ => line 14: M3 Number
+1 .␊ => line 14: M3 Number
1h .␊ => line 14: M3 Number
\049 .␊ => line 14: M3 Number
99999999999999999999 .␊ => line 14: M3 Number
"1" .␊ => line 14: M3 Number
end

# the types in any case; in quotes they are none, and neither are other words
reads --origin . <<'end'
. 5 soa . . 1 2 3 4 5
. 5 Ns .
a. 5 a 192.0.2.1
cname. 5 CNAME .
ptr. 5 PTR .
mx. 5 mX 0 .
txt. 5 txt x
aaaa. 5 AaAa ::
srv. 5 srv 0 0 0 .
=>
. 5 IN SOA . . 1 2 3 4 5
. 5 IN NS .
a. 5 IN A 192.0.2.1
aaaa. 5 IN AAAA 0:0:0:0:0:0:0:0
cname. 5 IN CNAME .
mx. 5 IN MX 0 .
ptr. 5 IN PTR .
srv. 5 IN SRV 0 0 0 .
txt. 5 IN TXT "x"
end
zone_text='a. 5 '
faults <<'end'
"a" 192.0.2.1␊ => line 1: M5 UnknownType
"Ns" .␊ => line 1: M5 UnknownType
"CNAME" .␊ => line 1: M5 UnknownType
"soa" . . 1 2 3 4 5␊ => line 1: M5 UnknownType
"PTR" .␊ => line 1: M5 UnknownType
"mX" 0 .␊ => line 1: M5 UnknownType
"txt" x␊ => line 1: M5 UnknownType
"AaAa" ::␊ => line 1: M5 UnknownType
"srv" 0 0 0 .␊ => line 1: M5 UnknownType
HINFO x␊ => line 1: M5 UnknownType
\065 x␊ => line 1: M5 UnknownType
IN x␊ => line 1: M5 UnknownType
CAA 0 issue ca␊ => line 1: M5 UnknownType
end

# the class in any case, and in front of a type; in quotes it is none, and other classes aren't served (RFC 1035, 3.2.4)
reads --origin . <<'end'
. 5 iN SOA . . 1 2 3 4 5
. 5 NS .
a. iN 5 A 192.0.2.1
b. 5 A 192.0.2.1
=>
. 5 IN SOA . . 1 2 3 4 5
. 5 IN NS .
a. 5 IN A 192.0.2.1
b. 5 IN A 192.0.2.1
end
faults <<'end'
"CH" A 192.0.2.1␊ => line 1: M5 UnknownType
cs A 192.0.2.1␊ => line 1: M4 BadClass
CH A 192.0.2.1␊ => line 1: M4 BadClass
Hs A 192.0.2.1␊ => line 1: M4 BadClass
end

# the greatest TTL is 2^31 - 1 (RFC 2181, 8); digits alone are a TTL, whatever number they are
reads --origin . <<'end'
. 2147483647 SOA . . 1 2 3 4 5
. 2147483647 NS .
=>
. 2147483647 IN SOA . . 1 2 3 4 5
. 2147483647 IN NS .
end
zone_text=
faults <<'end'
. 2147483648 NS .␊ => line 1: M3 Number
. 99999999999 NS .␊ => line 1: M3 Number
. "1" NS .␊ => line 1: M5 UnknownType
end

# names relative to the origin of RFC 1035, 5.3, as owners and in data
reads --origin ISI.EDU. <<'end'
$TTL 60
. SOA . . 1 2 3 4 5
. NS .
VENERA PTR VENERA
@ PTR @
\@ PTR \@
MIL. PTR MIL.
=>
. 60 IN SOA . . 1 2 3 4 5
. 60 IN NS .
isi.edu. 60 IN PTR isi.edu.
\@.isi.edu. 60 IN PTR \@.isi.edu.
venera.isi.edu. 60 IN PTR venera.isi.edu.
mil. 60 IN PTR mil.
end
faults --origin ISI.EDU. <<'end'
a 5 NS a..b␊ => line 1: M2 BadName
a 5 NS "@"␊ => line 1: M6 BadData
"@" 5 NS a␊ => line 1: M2 BadName
end

# words of the zone of RFC 1035, 5.3, the address of RFC 3596, 2.5, and the service of RFC 2782, relative to that origin: queries of each type at
# the apex, which is the root here so that no name can point to it, and of the alias at x.
takes_zone <<'end'
$TTL 60
. SOA VENERA Action\.domains 20 7200 600 3600000 60
. A 10.1.0.52
. NS VAXA
x. CNAME A.ISI.EDU.
. PTR @
. MX 10 VENERA
. AAAA 4321:0:1:2:3:4:567:89ab
. SRV 0 1 9 old-slow-box.example.com.
end
answers --origin ISI.EDU. <<'end'
# A 10.1.0.52
query 1234010000010000000000000000010001
reply 123485000001000100000000000001000100000100010000003c00040a010034
# NS VAXA
query 1234010000010000000000000000020001
reply 123485000001000100000000000002000100000200010000003c000e0476617861036973690365647500
# CNAME A.ISI.EDU.
query 12340100000100000000000001780000050001
reply 12348500000100010000000001780000050001c00c000500010000003c000b0161036973690365647500
# PTR @
query 12340100000100000000000000000c0001
reply 12348500000100010000000000000c000100000c00010000003c0009036973690365647500
# MX 10 VENERA
query 12340100000100000000000000000f0001
reply 12348500000100010000000000000f000100000f00010000003c0012000a0676656e657261036973690365647500
# SOA VENERA Action\.domains 20 7200 600 3600000 60
query 1234010000010000000000000000060001
reply 123485000001000100000000000006000100000600010000003c00350676656e6572610369736903656475000e616374696f6e2e646f6d61696e73c0230000001400001c20000002580036ee800000003c
# AAAA 4321:0:1:2:3:4:567:89ab
query 12340100000100000000000000001c0001
reply 12348500000100010000000000001c000100001c00010000003c0010432100000001000200030004056789ab
# SRV 0 1 9 old-slow-box.example.com.
query 1234010000010000000000000000210001
reply 123485000001000100000000000021000100002100010000003c00200000000100090c6f6c642d736c6f772d626f78076578616d706c6503636f6d00
end

# the first fault from the left of a record's words
zone_text='a. 5 '
faults <<'end'
A␊ => line 1: M6 BadData
A 10.1.0.52 x␊ => line 1: M6 BadData
NS .. x␊ => line 1: M2 BadName
NS "x" ..␊ => line 1: M6 BadData
MX x ..␊ => line 1: M3 Number
MX 65536␊ => line 1: M3 Number
MX "1" x␊ => line 1: M3 Number
SRV 1 x.␊ => line 1: M3 Number
TXT \256␊ => line 1: M6 BadData
TXT x\1␊ => line 1: M6 BadData
TXT␊ => line 1: M6 BadData
end

# a string has at most 255 octets (RFC 1035, 3.3), and data 4,096, which seventeen strings pass
input=$'. 5 SOA . . 1 2 3 4 5\n. 5 NS .\na. 5 TXT '$(repeat 255 x)$'\n'
prints $'. 5 IN SOA . . 1 2 3 4 5\n. 5 IN NS .\na. 5 IN TXT "'"$(repeat 255 x)\"" check --origin . -
input='a. 5 TXT '$(repeat 256 x)$'\n'
refuses 1 'line 1: M6 BadData' check -
input='a. 5 TXT'$(repeat 17 " $(repeat 255 x)")$'\n'
refuses 1 'line 1: M13 Limit' check -

# what is printed of octets that a transfer brings: RFC 1035, 5.3, RFC 4291, 2.2, and RFC 2782. A dot inside a label, a quote and a backslash are
# behind a backslash, and octets that aren't printed are three digits (RFC 1035, 5.1). The message is one for the whole zone (RFC 5936, 2.2): the
# header, the question, and 10 records from SOA to SOA.
message=123484000001000a0000000003697369036564750000fc0001
while IFS=' #' read -r octets _; do message+=$octets; done <<'end'
  036973690365647500000600010000003c003c0676656e6572610369736903656475000e616374696f6e2e646f6d61696e730369736903656475000000001400001c20000002580036ee800000003c # SOA
  0161036973690365647500000100010000003c00041a030067 # A
  036973690365647500000200010000003c000e0476617861036973690365647500 # NS
  0162036973690365647500000500010000003c000100 # CNAME
  036973690365647500000f00010000003c0012000a0676656e657261036973690365647500 # MX
  0163036973690365647500001c00010000003c001020010db80000000000080800200c417a # AAAA
  0164036973690365647500002100010000003c00200000000100090c6f6c642d736c6f772d626f78076578616d706c6503636f6d00 # SRV
  0165036973690365647500001000010000003c000705612062223b00 # TXT
  0166036973690365647500001000010000003c0005045c077f7e # TXT
  036973690365647500000600010000003c003c0676656e6572610369736903656475000e616374696f6e2e646f6d61696e730369736903656475000000001400001c20000002580036ee800000003c # SOA
end
input=$'$TTL 60\nisi.edu. SOA . . 1 2 3 4 5\nisi.edu. NS .\n%\n'$message$'\n'
prints 'isi.edu. 60 IN SOA venera.isi.edu. action\.domains.isi.edu. 20 7200 600 3600000 60
isi.edu. 60 IN NS vaxa.isi.edu.
isi.edu. 60 IN MX 10 venera.isi.edu.
a.isi.edu. 60 IN A 26.3.0.103
b.isi.edu. 60 IN CNAME .
c.isi.edu. 60 IN AAAA 2001:db8:0:0:8:800:200c:417a
d.isi.edu. 60 IN SRV 0 1 9 old-slow-box.example.com.
e.isi.edu. 60 IN TXT "a b\";" ""
f.isi.edu. 60 IN TXT "\\\007\127~"' apply -

# Data that an update brings (RFC 2136, 2.5.1): sixteen strings of 255 octets are 4,096 octets, which is the most (own); an empty string more ends
# the update with SERVFAIL, and with an octet that is no string behind it the form is judged first. The text is the update of a record at new, up to its data's length.
strings=$(repeat 16 "ff$(repeat 255 78)")
text=432128000001000000010000076578616d706c6504746573740000060001036e6577c00c0010000100000e10
asked=123401000001000000000000036e6577076578616d706c65047465737400
zone_text=$example
converses --tcp <<end
# 4,098 octets that are no strings
update ${text}1002${strings}0001
reply 4321a8010000000000000000
# 4,097 octets
update ${text}1001${strings}00
reply 4321a8020000000000000000
# 4,096 octets
update ${text}1000$strings
reply 4321a8000000000000000000
query ${asked}00100001
reply 123485000001000100000000036e6577076578616d706c6504746573740000100001c00c0010000100000e101000$strings

# names in data enter a zone in lower case (RFC 4034, 6.2)
update 432128000001000000010000076578616d706c6504746573740000060001036e6577c00c000f000100000e100012000a0656454e455241034953490345445500
reply 4321a8000000000000000000
query ${asked}000f0001
reply 123485000001000100000000036e6577076578616d706c65047465737400000f0001c00c000f000100000e100012000a0676656e657261036973690365647500

# octets that aren't of their type's form: an address of three octets, a name that is cut, and one behind which an octet stands
update ${text/0010000100000e10/0001000100000e10}0003c00002
reply 4321a8010000000000000000
update ${text/0010000100000e10/0002000100000e10}00020161
reply 4321a8010000000000000000
update ${text/0010000100000e10/0002000100000e10}000401610000
reply 4321a8010000000000000000
end
