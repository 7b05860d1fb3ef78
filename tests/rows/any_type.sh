# Types that nobody here knows, whose data is octets (RFC 3597): how they are read and written, found, changed and told.
# shellcheck source=tests/wire.sh
source tests/wire.sh
takes_zone <zones/example.test.zone
example=$zone_text

# TYPE, a number, \#, a length and digits, in either case and in words of an even number of them; a type that has a word is the same by its
# number, and its data the same behind \# (RFC 3597, 5)
reads --origin example. <<'end'
$TTL 60
@ SOA . . 1 2 3 4 5
@ type2 \# 1 00
a TYPE1 \# 4 c0000201
a CLASS1 A \# 04 C00002 02
a class1 5 TYPE16 "x"
a TYPE28 ::1
b 60 IN TYPE65280 \# 3 0A 0b0c
b TYPE65280 \# 3 0A0B0C
b TYPE256 \# 0
b TYPE65535 \# 2 ( 41 ; A
 61 )
b Type127 \# 00001 ff
b TYPE257 \# 12 00 05 6973737565 63612e74 65
b TYPE3 \# 5 01 61 c00c 00
=>
example. 60 IN SOA . . 1 2 3 4 5
example. 60 IN NS .
a.example. 60 IN A 192.0.2.1
a.example. 60 IN A 192.0.2.2
a.example. 5 IN TXT "x"
a.example. 60 IN AAAA 0:0:0:0:0:0:0:1
b.example. 60 IN TYPE3 \# 5 0161c00c00
b.example. 60 IN TYPE127 \# 1 ff
b.example. 60 IN TYPE256 \# 0
b.example. 60 IN TYPE257 \# 12 0005697373756563612e7465
b.example. 60 IN TYPE65280 \# 3 0a0b0c
b.example. 60 IN TYPE65535 \# 2 4161
end

# what is no type by its number: a metatype (RFC 6895, 3.1), a number of more than 16 bits, a zero in front, and what isn't digits
zone_text='a. 5 '
faults <<'end'
TYPE \# 0␊ => line 1: M5 UnknownType
TYPE0 \# 0␊ => line 1: M5 UnknownType
TYPE01 \# 4 c0000201␊ => line 1: M5 UnknownType
TYPE065280 \# 0␊ => line 1: M5 UnknownType
TYPE41 \# 0␊ => line 1: M5 UnknownType
TYPE128 \# 0␊ => line 1: M5 UnknownType
TYPE251 \# 0␊ => line 1: M5 UnknownType
TYPE255 \# 0␊ => line 1: M5 UnknownType
TYPE65536 \# 0␊ => line 1: M5 UnknownType
TYPE4294967297 \# 4 c0000201␊ => line 1: M5 UnknownType
TYPE99999999999999999999 \# 0␊ => line 1: M5 UnknownType
TYPE6528x \# 0␊ => line 1: M5 UnknownType
TYPE-1 \# 0␊ => line 1: M5 UnknownType
TYP65280 \# 0␊ => line 1: M5 UnknownType
"TYPE65280" \# 0␊ => line 1: M5 UnknownType
CAA \# 0␊ => line 1: M5 UnknownType
end

# what is no data behind \#, and what is none of a type without a word; the words are judged from left to right
faults <<'end'
TYPE65280␊ => line 1: M6 BadData
TYPE65280 x␊ => line 1: M6 BadData
TYPE65280 "\#" 0␊ => line 1: M6 BadData
TYPE65280 \035 0␊ => line 1: M6 BadData
TYPE65280 \# )␊ => line 1: M7 Unclosed
TYPE65280 \#␊ => line 1: M6 BadData
TYPE65280 \# x 0a␊ => line 1: M3 Number
TYPE65280 \# -1 0a␊ => line 1: M3 Number
TYPE65280 \# "1" 0a␊ => line 1: M3 Number
TYPE65280 \# 4097 x␊ => line 1: M13 Limit
TYPE65280 \# 65536␊ => line 1: M13 Limit
TYPE65280 \# 18446744073709551617 0a␊ => line 1: M13 Limit
TYPE65280 \# 2 0a0b0c␊ => line 1: M6 BadData
TYPE65280 \# 3 0a0b␊ => line 1: M6 BadData
TYPE65280 \# 0 ""␊ => line 1: M6 BadData
TYPE65280 \# 1 0␊ => line 1: M6 BadData
TYPE65280 \# 1 0 a␊ => line 1: M6 BadData
TYPE65280 \# 1 0g␊ => line 1: M6 BadData
TYPE65280 \# 1 0x0a␊ => line 1: M6 BadData
TYPE65280 \# 1 "0a"␊ => line 1: M6 BadData
TYPE65280 \# 1 0a )␊ => line 1: M7 Unclosed
A \# 3 c00002␊ => line 1: M6 BadData
TYPE1 \# 3 c00002␊ => line 1: M6 BadData
TYPE1 \# 5 c000020100␊ => line 1: M6 BadData
NS \# 2 c000␊ => line 1: M6 BadData
NS \# 3 014100␊ => line 1: M6 BadData
NS \# 2 0161␊ => line 1: M6 BadData
MX \# 2 0001␊ => line 1: M6 BadData
TXT \# 0␊ => line 1: M6 BadData
TXT \# 2 0200␊ => line 1: M6 BadData
AAAA \# 4 00000001␊ => line 1: M6 BadData
CNAME \# 3 000000␊ => line 1: M6 BadData
end
input='a. 5 TYPE65280 \# 4096 '$(repeat 4097 '0a')
refuses 1 'line 1: M6 BadData' check -

# the greatest data
input='. 5 SOA . . 1 2 3 4 5'$'\n''. 5 NS .'$'\n''a. 5 TYPE65280 \# 4096 '$(repeat 2048 '0A ')$(repeat 2048 '0b')
prints ". 5 IN SOA . . 1 2 3 4 5"$'\n'". 5 IN NS ."$'\n'"a. 5 IN TYPE65280 \\# 4096 $(repeat 2048 0a)$(repeat 2048 0b)" check --origin . -

# such a record beside an alias
zone_text=${example}'www.example.test. 3600 IN '
faults <<'end'
TYPE65280 \# 0␊ => line 14: M12 Conflict
end

# answers: as they stand, with no pointer in them or to them; ANY gives the sets by their number
zone_text=${example}'u.example.test. 3600 IN TYPE65280 \# 3 0A 0b0c'$'\n'
answers --origin example.test. <<'end'
# a type that nobody knows
query 1234010000010000000000000175076578616d706c65047465737400ff000001
reply 1234850000010001000000000175076578616d706c65047465737400ff000001c00cff00000100000e1000030a0b0c
# the same name, another type
query 1234010000010000000000000175076578616d706c65047465737400ff010001
reply 1234850000010000000100000175076578616d706c65047465737400ff010001c00e000600010000012c0022036e7331c00e0561646d696ec00e0000000100001c2000000384001275000000012c
end
# octets that would be two names and a pointer in data of another type
data=027573076578616d706c6503c00c
zone="\$TTL 3600
@ NS ns
@ SOA . . 1 7200 900 1209600 300
* TYPE99 \\# 1 61
ns A 192.0.2.1
u A 192.0.2.1
u TYPE99 \\# $((${#data} / 2)) $data
u TXT u
u TYPE43 \\# 0
sub NS ns
sub TYPE43 \\# 2 4141
sub TYPE48 \\# 1 00"
type_numbers[DS]=002b
type_numbers[OTHER]=0064
origin=example.
soa='@ SOA 300 . . 00000001 00001c20 00000384 00127500 0000012c'
while IFS='|' read -r asked answer authority additional; do
    read -r asked type flags <<<"$asked"
    query "$asked" "$type"
    request=$message
    reply "$flags" "$asked" "$type" "$answer" "$authority" "$additional"
    expect "$asked $type" "$request" "$message"
done <<text
u UNKNOWN 8500 | u UNKNOWN 3600 $data | |
u OTHER 8500 | | $soa |
u ANY 8500 | u A 3600 c0000201; u TXT 3600 0175; u DS 3600; u UNKNOWN 3600 $data | |
sub DS 8100 | | sub NS 3600 ns | ns A 3600 c0000201
a.sub UNKNOWN 8100 | | sub NS 3600 ns | ns A 3600 c0000201
WiLd UNKNOWN 8500 | WiLd UNKNOWN 3600 61 | |
WiLd DS 8500 | | $soa |
text
run_expected "$zone" answer --origin example. -

# updates: added, deleted by the octets, and left where one octet is another; what changed is told, and taken from the zone before
origin=example.test.
type_numbers[UNKNOWN]=ff00
zone=${example}'u.example.test. 3600 IN TYPE65280 \# 3 0A 0b0c'
with='1234850000010001000000000175076578616d706c65047465737400ff000001c00cff00000100000e1000030a0b0c'
without='1234850300010000000100000175076578616d706c65047465737400ff000001c00e000600010000012c0022036e7331c00e0561646d696ec00e0000000200001c2000000384001275000000012c'
asked=1234010000010000000000000175076578616d706c65047465737400ff000001
told 0
taken=$message
update '@ SOA IN' '' 'u UNKNOWN NONE 0 0a0b0d'
expect 'another octet' "$message" "$taken"
expect 'the record is left' $asked "$with"
update '@ SOA IN' '' 'u UNKNOWN NONE 0 0A0b'
expect 'fewer octets' "$message" "$taken"
expect 'the record is left' $asked "$with"
update '@ SOA IN' 'u UNKNOWN IN 0 0a0b0c' 'U UNKNOWN NONE 0 0a0b0c'
expect 'the octets' "$message" "$taken"
expect 'the record is gone' $asked "$without"
run_expected "$zone" answer --origin example.test. -
expect 'added' "$(update '@ SOA IN' '' 'new UNKNOWN IN 60 c00c41'; echo "$message")" "$taken"
query new UNKNOWN
asked=$message
reply 8500 new UNKNOWN 'new UNKNOWN 60 c00c41' '' ''
expect 'as it was sent' "$asked" "$message"
update '@ SOA IN' '' 'new UNKNOWN IN 60 c00c61'
expect 'another case is another record' "$message" "$taken"
reply 8500 new UNKNOWN 'new UNKNOWN 60 c00c41; new UNKNOWN 60 c00c61' '' ''
expect 'both stand' "$asked" "$message"
update '@ SOA IN' '' 'new CNAME IN 60 00'
expect 'an alias beside them' "$message" "$taken"
expect 'none joins' "$asked" "$(reply 8500 new UNKNOWN 'new UNKNOWN 60 c00c41; new UNKNOWN 60 c00c61' '' ''; echo "$message")"
run_expected "$zone" answer --origin example.test. -

# a zone's text has such a record in its place, in front of web and behind what is below sub; what changed when it goes is told, and makes of the
# zone that had it the one that is served (RFC 1995, 4)
input=${example}'u 3600 IN TYPE65280 \# 3 0A 0b0c'$'\n'
lines=${example%$'\n'}
prints "${lines/$'\n'web./$'\n'u.example.test. 3600 IN TYPE65280 \\# 3 0a0b0c$'\n'web.}" check --origin example.test. -
with_it=$said
update '@ SOA IN' '' 'u UNKNOWN NONE 0 0a0b0c'
deletes=$message
since_1=123400000001000000010000076578616d706c6504746573740000fb0001c00c0006000100000000001600000000000100000000000000000000000000000000
soa_2=c00c0006000100000e100018c02ac0300000000200001c2000000384001275000000012c
sent=123484000001000500000000076578616d706c6504746573740000fb0001
sent+=c00c0006000100000e100022036e7331c00c0561646d696ec00c0000000200001c2000000384001275000000012c
sent+=c00c0006000100000e100018c02ac0300000000100001c2000000384001275000000012c
sent+=0175c00cff00000100000e1000030a0b0c$soa_2$soa_2
zone_text=$with_it
answers --tcp <<end
# the record goes
update $deletes
reply $taken
# what changed
transfer $since_1
reply $sent
end
input=$with_it%$'\n'$sent$'\n'
prints "${lines/admin.example.test. 1 /admin.example.test. 2 }" apply -
