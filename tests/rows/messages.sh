# Requests, by what their octets are read as, and the octets of replies (RFC 1035, 4.1).
# shellcheck source=tests/wire.sh
source tests/wire.sh

# A row of a request is what it shows, the request and the reply, each in words: a header is its flags, `#` and its counts, a digit each,
# with the ID 1234 and, where no flags are told, RD (RFC 1035, 4.1.1). A reply of 8105 is REFUSED, 8109 NOTAUTH, each with the question;
# 8101 is FORMERR, 8104 NOTIMP.
declare -A octets_of=(
    [name]=03777777076578616d706c65047465737400 # www.example.test.
    [root]=0000010001                           # the question `. IN A`
    [opt]=0000291000000000000000                # an OPT record, of 4096 octets (RFC 6891, 6.1.2)
    [do]=0000291000000080000000                 # the same with DO (RFC 6891, 6.1.4)
    [v1]=0000291000000100000000                 # the same of version 1 (RFC 6891, 6.1.3)
    [ours]=00002904d0000000000000               # the server's OPT, of 1232 octets
    [ours_do]=00002904d0000080000000            # the same with DO
    [ours_v1]=00002904d0010000000000            # the same with the upper bits of BADVERS, 16 (RFC 6891, 9)
    [address]=0000010001000000000004c000020a    # the record `. 0 IN A 192.0.2.10`
    [changes]=017a0000fb0001                    # the question `z. IN IXFR`
    [soa]=015a0000060001000000000016000000000102'00000000000000000000000000000000' # the record `Z. 0 IN SOA . . 258 0 0 0 0`
    [numbers]=00000102'00000000000000000000000000000000'                          # its five numbers
    [answer]=c00c0001000100000e100004c000020a                                     # the address of www.example.test.
    [negative]=c010000600010000012c0016'00000000000100001c2000000384001275000000012c' # the SOA of its zone, at the question's `example.test.`
)

# octets WORDS: makes $message the octets of words
octets() {
    local word counts
    begin ''
    for word in $1; do
        case $word in
            *\#*)
                counts=${word#*#}
                word=${word%#*}
                put 1234 "${word:-0100}" 000${counts:0:1} 000${counts:1:1} 000${counts:2:1} 000${counts:3:1}
                ;;
            *) put "${octets_of[$word]-$word}" ;;
        esac
    done
}

# requests ZONE WORD..: rows, on standard input, of one run over the zone
requests() {
    local what request reply
    while IFS='|' read -r what request reply; do
        octets "$request"
        request=$message
        octets "$reply"
        expect "$what" "$request" "$message"
    done
    run_expected "$1" answer "${@:2}" -
}

zone='$TTL 3600
$ORIGIN example.test.
@ NS ns1
@ SOA . . 1 7200 900 1209600 300
www A 192.0.2.10'

# the flags and the question (RFC 1035, 4.1.1 and 4.1.2; RFC 1995, 4; RFC 5936, 2)
requests "$zone" --tcp <<'text'
an address|#1000 name 00010001|8500#1100 name 00010001 answer
no RD|0000#1000 name 00010001|8400#1100 name 00010001 answer
a server's status: NOTIMP|1100#1000 name 00010001|9104#0000
an update of another type than SOA: FORMERR without RD (RFC 2136, 2.2)|2900#1000 name 00010001|a801#0000
AA, TC and RD|0700#1000 name 00010001|8500#1100 name 00010001 answer
the flags of the fourth octet|01ff#1000 name 00010001|8500#1100 name 00010001 answer
no question is counted|#0000 name 00010001|8101#0000
a label's length of 01 in front|#1000 40777777076578616d706c65047465737400 00010001|8101#0000
a pointer to the label behind|#1000 c0777777076578616d706c65047465737400 00010001|8101#0000
the type OPT|#1000 name 00290001|8500#1010 name 00290001 negative
the type TSIG|#1000 name 00fa0001|8500#1010 name 00fa0001 negative
the type IXFR|#1010 name 00fb0001 c00c00060001000000000016 0000 numbers|8109#1000 name 00fb0001
the type IXFR, no serial told|#1000 name 00fb0001|8101#0000
the type AXFR|#1000 name 00fc0001|8109#1000 name 00fc0001
the type ANY|#1000 name 00ff0001|8500#1100 name 00ff0001 answer
the class CH|#1000 name 00010003|8105#1000 name 00010003
the root|#1000 0000020001|8105#1000 0000020001
half a class|#1000 00000100|8101#0000
no type|#1000 00|8101#0000
octets behind the question|#1000 0000020001ffff|8105#1000 0000020001
text

# the question's name (RFC 1035, 4.1.4): what it spells through pointers, into the header too, whose octets are 1234 0100 0001 ..
requests "$zone" <<'text'
to itself|#1000 c00c00010001|8101#0000
forwards, to a zero octet|#1000 c0120001000100|8101#0000
to the last octet|#1000 c01100010000|8101#0000
beyond the end|#1000 ffff00010001|8101#0000
to a zero octet of the header|#1000 c00300010001|8105#1000 00 00010001
to the header's last octet|#1000 c00b00010001|8105#1000 00 00010001
to 01 00 00 of the header|#1000 c00200010001|8105#1000 010000 00010001
to a label of 52 octets|#1000 c00100010001|8101#0000
a label in front of a pointer|#1000 0161c00300010001|8105#1000 016100 00010001
a label in front of a pointer, of another type and class|#1000 0161c002001c0003|8105#1000 0161010000 001c0003
to the label in front of it|#1000 0161c00c00010001|8101#0000
two pointers in a loop, one of them the ID|c00c0100 0001000000000000 c00000010001|c00c8101 0000000000000000
half a pointer|#1000 c0|8101#0000
labels that end with the message|#1000 0161|8101#0000
a label that is cut|#1000 0261|8101#0000
text

# the records behind the question (RFC 1035, 4.1.3; RFC 6891, 6.1.1)
requests "$zone" --tcp <<'text'
OPT in the additional section|#1001 root opt|8105#1001 root ours
OPT in the answer section|#1100 root opt|8105#1000 root
OPT in the authority section|#1010 root opt|8105#1000 root
OPT before another|#1002 root opt address|8105#1001 root ours
OPT behind another|#1002 root address opt|8105#1001 root ours
OPT behind an answer|#1101 root address opt|8105#1001 root ours
OPT before an additional|#1101 root opt address|8105#1000 root
OPT behind the last record|#1001 root address opt|8105#1000 root
OPT that is cut|#1001 root 00002910000000000000|8101#0000
an answer in a transfer|#1100 0000fc0001 address|8109#1000 0000fc0001
a record in each section|#1101 root address address|8105#1000 root
one record too few|#1111 root address address|8101#0000
data that is cut|#1010 root 0000010001000000000004c00002|8101#0000
no data|#1010 root 0000010001000000000004|8101#0000
half a length of data|#1010 root 00000100010000000000|8101#0000
octets behind the last record|#1001 root address ff|8105#1000 root
an owner that points to itself|#1100 root c01100010001000000000004c000020a|8101#0000
an owner that points back|#1100 root c00c00010001000000000004c000020a|8105#1000 root
a chain|#1111 root c00c00010001000000000000 c01100010001000000000000 c01d00010001000000000000|8105#1000 root
two questions|#2000 root root|8101#0000
no question|#0000 root|8101#0000
65,535 questions|12340100ffff000000000000 root 000000|8101#0000
65,535 answers|123401000001ffff00000000 root 000000|8101#0000
65,535 authorities|1234010000010000ffff0000 root 000000|8101#0000
65,535 additional records|12340100000100000000ffff root 000000|8101#0000
text

# What an OPT says (RFC 6891, 6.1): a reply to a request that has one has one too, and the question, with each code; which of its faults is
# told first, and that its data aren't looked at, is our own choice.
requests "$zone" --tcp <<'text'
an address|#1001 name 00010001 opt|8500#1101 name 00010001 answer ours
no data|#1001 name 00100001 opt|8500#1011 name 00100001 negative ours
DO is copied|#1001 name 00010001 do|8500#1101 name 00010001 answer ours_do
the upper bits of a code, and Z|#1001 root 00002910 00ff007fff 0000|8105#1001 root ours
the upper bits of a code, DO and Z|#1001 root 00002910 00ff00ffff 0000|8105#1001 root ours_do
options|#1001 root 000029100000000000 000c fde90000000a000400000000|8105#1001 root ours
data that are no options|#1001 root 000029100000000000 0003 ffffff|8105#1001 root ours
an owner that points to the root|#1001 root c00c00291000000000000000|8105#1001 root ours
a size of 0|#1001 root 0000290000000000000000|8105#1001 root ours
type MAILB: NOTIMP|#1001 0000fd0001 opt|8104#1001 0000fd0001 ours
class CH|#1001 0000010003 do|8105#1001 0000010003 ours_do
IXFR, no serial told: FORMERR|#1001 name 00fb0001 opt|8101#1001 name 00fb0001 ours
AXFR of another name|#1001 0000fc0001 opt|8109#1001 0000fc0001 ours
another owner: FORMERR|#1001 root 016100002910000000 00000000|8101#1001 root ours
two: FORMERR|#1002 root opt opt|8101#1001 root ours
two, the first with DO|#1002 root do opt|8101#1001 root ours_do
two, the second with DO|#1002 root opt do|8101#1001 root ours
two, the first of version 1|#1002 root v1 opt|8101#1001 root ours
two, the second of version 1|#1002 root opt v1|8101#1001 root ours
version 1: BADVERS|#1001 root v1|8100#1001 root ours_v1
version 255, and DO|#1001 root 000029100000ff80000000|8100#1001 root 00002904d0010080000000
version 1 and another owner|#1001 root 016100002910000001 00000000|8101#1001 root ours
version 1, and class CH|#1001 0000010003 v1|8100#1001 0000010003 ours_v1
version 1, and type MAILB|#1001 0000fd0001 v1|8100#1001 0000fd0001 ours_v1
version 1, and a record that is cut|#1002 root v1 00000100|8101#0000
no question|#0001 opt|8101#0000
two questions|#2001 root root opt|8101#0000
a server's status: NOTIMP|1100#1001 root opt|9104#0000
text

# The same of updates, which have the entry of the zone section for a question (RFC 2136, 2.3; own). An OPT among the updates themselves is a
# record of a type that none has (RFC 2136, 3.4.1).
octets_of[zone]=076578616d706c6504746573740000060001 # the entry `example.test. IN SOA`
requests "$zone" --tcp <<'text'
an update of nothing|2800#1001 zone opt|a800#1001 zone ours
and with DO, and RD|2900#1001 zone do|a800#1001 zone ours_do
another zone: NOTAUTH|2800#1001 0000060001 opt|a809#1001 0000060001 ours
two: FORMERR|2800#1002 zone opt do|a801#1001 zone ours
another owner: FORMERR|2800#1001 zone 016100002910000000 00000000|a801#1001 zone ours
version 1: BADVERS|2800#1001 zone v1|a800#1001 zone ours_v1
version 1 and another zone|2800#1001 0000060001 v1|a800#1001 0000060001 ours_v1
a zone section of another type: FORMERR|2800#1001 root opt|a801#1001 root ours
a zone section of another type, and version 1|2800#1001 root v1|a800#1001 root ours_v1
no zone section|2800#0001 opt|a801#0000
OPT among the updates: NOTZONE, as of any owner above the zone|2800#1010 zone opt|a80a#0000
OPT among the updates, at the apex: FORMERR|2800#1010 zone c00c00291000000000000000|a801#0000
no OPT|2800#1000 zone|a800#0000
text

# The serial that a query for changes tells: that of one SOA of class IN at the name asked, in any case; of no other type, no more records
# than one (RFC 1995, 3). One that tells none is FORMERR. Serial 258 gets the SOA alone of a zone of serial 258, and of one of serial 259
# the whole zone, which is no less than it.
zone='$TTL 3600
z. NS .
z. SOA . . 258 7200 900 1209600 300'
behind=00001c2000000384001275000000012c
octets_of[258]=c00c0006000100000e10001600000000'0102'$behind
octets_of[259]=c00c0006000100000e10001600000000'0103'$behind
octets_of[ns]=c00c0002000100000e10000100
octets_of[none]=123481010000000000000000
requests "$zone" --tcp <<'text'
an SOA|#1010 changes soa|8500#1100 changes 258
names in the data with pointers|#1010 changes c00c00060001000000000018c00cc00c numbers|8500#1100 changes 258
no record|#1000 changes|none
two SOAs|#1020 changes soa soa|none
another type|#1010 changes address|none
an octet behind the numbers|#1010 changes c00c00060001000000000019c00cc00c00 numbers|none
another name|#1010 changes 01790000060001000000000016 0000 numbers|none
type NS|#1010 changes 015a0000020001000000000016 0000 numbers|none
class CH|#1010 changes 015a0000060003000000000016 0000 numbers|none
a name that is cut|#1010 changes 015a0000060001000000000016 0100 numbers|none
a second name that is cut|#1010 changes 015a0000060001000000000016 0001 numbers|none
text
# each that tells none is read as a query all the same: behind an OPT it gets the question and an OPT, which octets that can't be read don't
requests "$zone" --tcp <<'text'
no record|#1001 changes opt|8101#1001 changes ours
two SOAs|#1021 changes soa soa opt|8101#1001 changes ours
another type|#1011 changes address opt|8101#1001 changes ours
an octet behind the numbers|#1011 changes c00c00060001000000000019c00cc00c00 numbers opt|8101#1001 changes ours
another name|#1011 changes 01790000060001000000000016 0000 numbers opt|8101#1001 changes ours
type NS|#1011 changes 015a0000020001000000000016 0000 numbers opt|8101#1001 changes ours
class CH|#1011 changes 015a0000060003000000000016 0000 numbers opt|8101#1001 changes ours
a name that is cut|#1011 changes 015a0000060001000000000016 0100 numbers opt|8101#1001 changes ours
a second name that is cut|#1011 changes 015a0000060001000000000016 0001 numbers opt|8101#1001 changes ours
an SOA|#1011 changes soa opt|8500#1101 changes 258 ours
text
requests "${zone/258/259}" --tcp <<'text'
an SOA|#1010 changes soa|8500#1300 changes 259 ns 259
names in the data with pointers|#1010 changes c00c00060001000000000018c00cc00c numbers|8500#1300 changes 259 ns 259
an AXFR|#1010 017a0000fc0001 soa|8500#1300 017a0000fc0001 259 ns 259
text

# kind_of REPLY: sets $kind to what the request was read as: silent, where there is no reply, formerr, notimp, or a query, whose reply has
# another code
kind_of() {
    case ${1:7:1} in
        '') kind=silent ;;
        1) kind=formerr ;;
        4) kind=notimp ;;
        *) kind=query ;;
    esac
}

# kinds: in one run over the zone, each request of $asked is read as $wanted says
kinds() {
    local replies at kind
    input=$zone$'\n%'
    for at in "${!asked[@]}"; do input+=$'\n'${asked[at]}; done
    mapfile -t replies < <(timeout 10 "$program" answer - <<<"$input" 2>&1)
    for at in "${!asked[@]}"; do
        rows=$((rows + 1))
        kind_of "${replies[at]-}"
        [ "$kind" = "${wanted[at]}" ] || fails "the request ${asked[at]:0:80} is read as $kind where ${wanted[at]} is right"
    done
    [ ${#replies[@]} = ${#asked[@]} ] || fails "${#replies[@]} replies to ${#asked[@]} requests"
    asked=() wanted=()
}
asked=() wanted=()

# the question www.example.test. IN A, cut to each length
zone='$TTL 3600
$ORIGIN example.test.
@ NS ns1
@ SOA . . 1 7200 900 1209600 300
www A 192.0.2.10'
octets '#1000 name 00010001'
request=$message
for len in {0..33}; do
    asked+=("${request:0:2*len}")
    if [ "$len" -lt 12 ]; then wanted+=(silent); else wanted+=(formerr); fi
done
kinds

# One bit of it turned: from this octet to that, these bits, and what it is read as. Length octets decide which octets are still a name:
# 0x0b in place of the first is one label of eleven octets and `test`, 0x00 in place of the third ends the name.
while read -r from to bits kind; do
    for ((at = from; at < to; at++)); do
        for bit in 1 2 4 8 16 32 64 128; do
            [ $((bits & bit)) != 0 ] || continue
            printf -v octet '%02x' $((16#${request:2*at:2} ^ bit))
            asked+=("${request:0:2*at}$octet${request:2*at+2}")
            wanted+=("$kind")
        done
    done
done <<'text'
0 2 0xff query
2 3 0x80 silent
2 3 0x78 notimp
2 3 0x07 query
3 4 0xff query
4 12 0xff formerr
12 13 0x08 query
12 13 0xf7 formerr
13 16 0xff query
16 17 0xff formerr
17 24 0xff query
24 25 0x04 query
24 25 0xfb formerr
25 29 0xff query
29 30 0xff formerr
30 32 0xff query
32 34 0xff query
text

# owners of 255 octets in all, and of 256: a label of 61 octets, or of 62, in front of a pointer to the question's name of three times 63
# (RFC 1035, 2.3.4)
printf -v zeros '%0200d' 0
long=3f${zeros:0:126}
long=000000000001000100000000$long$long${long}0000000000
asked+=("${long}3d${zeros:0:122}c00c00000000000000000000")
wanted+=(query)
asked+=("${long}3e${zeros:0:124}c00c00000000000000000000")
wanted+=(formerr)

# Data of a chain of 4,000 pointers, the first to the question's root name, and 4,792 owners that point to the last, at 8,026; and with the
# first of them pointing forwards.
chain=000000000001'12b9'00000000'0000000000''000000000000000000'1f40c00c
for ((at = 28; at < 8026; at += 2)); do
    digits $((0xc000 + at))
    chain+=$hex
done
printf -v owners '%.0sdf5a00000000000000000000' {1..4792}
asked+=("$chain$owners" "$chain"ff"${owners#df}")
wanted+=(query formerr)
kinds

# The octets of replies, by the diagrams of RFC 1035, 4.1 and 4.1.4.
zone='$TTL 3600
$ORIGIN example.test.
@ NS ns1
@ SOA ns1 admin 1 7200 900 1209600 300
www CNAME web
web A 192.0.2.10
s SRV 1 2 53 web
mx MX 10 mx
mx A 192.0.2.1'
octets_of[apex]=076578616d706c65047465737400 # example.test.
# the alias's owner is at 12, what is behind www in it at 16, and the address's owner in the alias's data at 46; both names of the SOA's
# data have pointers; the target of an SRV is in full, and nothing points to it (RFC 2782); a label is shared as it is spelt: the exchange
# has its own first label before the name at 15
requests "$zone" <<'text'
an alias and an address|#1000 name 00010001|8500#1200 name 00010001 c00c00050001 00000e10 0006 03776562c010 c02e00010001 00000e10 0004 c000020a
a name error: the SOA's TTL is the lesser one (RFC 2308, 3)|#1000 046e6f7065 apex 00010001|8503#1010 046e6f7065 apex 00010001 c01100060001 0000012c 0022 036e7331c011 0561646d696ec011 00000001 00001c20 00000384 00127500 0000012c
a service|#1000 0173 apex 00210001|8500#1101 0173 apex 00210001 c00c00210001 00000e10 0018 000100020035 03776562 apex 03776562c00e00010001 00000e10 0004 c000020a
upper case|#1000 024d58 apex 000f0001|8500#1101 024d58 apex 000f0001 c00c000f0001 00000e10 0007 000a 026d78c00f c02f00010001 00000e10 0004 c0000201
text

# a reply of 512 octets is whole, and of 513 or more is cut: header and question, with TC (RFC 1035, 4.2.1)
zone='$TTL 3600
@ NS ns1
@ SOA . . 1 7200 900 1209600 300'
answers=
for number in {1..30}; do
    for name in w ww www; do zone+=$'\n'"$name A 192.0.2.$number"; done
    digits "$number"
    answers+="@@ A 3600 c00002${hex:2}; "
done
# expect_reply NAME TYPE REPLY..: a row whose request is a question, and whose reply is as `reply` makes it; $message is the reply then
expect_reply() {
    local request
    query "$1" "$2"
    request=$message
    reply "$3" "$1" "$2" "${@:4}"
    expect "$1 $2" "$request" "$message"
}
expect_reply w A 8500 "${answers//@@/w}" '' ''
expect_reply ww A 8700 '' '' ''
expect_reply www A 8700 '' '' ''
run_expected "$zone" answer --origin example.test. -

# Where it doesn't fit, the additional section is left out (RFC 2181, 9): 28 exchanges and an address are 500 octets, as are 29 exchanges,
# which would be 516 with the address.
zone='$TTL 3600
@ NS ns1
@ SOA . . 1 7200 900 1209600 300
web A 192.0.2.1'
answer=
for number in {1..29}; do
    digits "$number"
    [ "$number" = 29 ] || zone+=$'\n'"m MX $number web"
    zone+=$'\n'"n MX $number web"
    answer+="n MX 3600 $hex web; "
done
exchanges=${answer%n MX*}
expect_reply m MX 8500 "${exchanges//n MX/m MX}" '' 'web A 3600 c0000201'
expect_reply n MX 8500 "$answer" '' ''
run_expected "$zone" answer --origin example.test. -

# Four texts of 4096 octets reach over position 16,383, where no pointer can lead: the owner of the addresses behind them is in full but for
# `example.test` at each (RFC 1035, 4.1.4). ANY asks for the texts and a service, whose target the addresses are of.
zone='$TTL 3600
@ NS ns1
@ SOA . . 1 7200 900 1209600 300
ns A 192.0.2.1
ns A 192.0.2.2
www SRV 0 0 53 ns'
answer=
for letter in a b c d; do
    printf -v code '%02x' "'$letter"
    printf -v line '%0255d' 0
    line=${line//0/$letter}
    printf -v text '%.0s'" $line" {1..16}
    zone+=$'\n'"www TXT$text"
    line=ff${line//$letter/$code}
    printf -v text '%.0s'"$line" {1..16}
    answer+="www TXT 3600 $text; "
done
expect_reply www ANY 8500 "${answer}www SRV 3600 000000000035 ns" '' 'ns A 3600 c0000201; ns A 3600 c0000202'
case $message in
    *026e73c01000010001'00000e100004c0000201'026e73c01000010001'00000e100004c0000202') ;;
    *) fails 'the owner far behind has a pointer' ;;
esac
run_expected "$zone" answer --tcp --origin example.test. -

# Exchanges of the root, whose own owner has no label, so that the names of the reply are theirs alone: each is a pointer as far as it is spelt
# in front (RFC 1035, 4.1.4). A record is its owner, type, class and TTL, the length of its data, its preference and its name.
origin=.
# exchanges NAME..: sets $zone to one with these exchanges, in this order, and $answer to its records
exchanges() {
    local name hex number=0
    zone=$'$TTL 3600\n. NS .\n. SOA . . 1 7200 900 1209600 300'
    answer=
    for name; do
        digits $((++number))
        zone+=$'\n'". MX $number $name"
        answer+=". MX 3600 $hex $name; "
    done
}
# put_exchanges HEX..: makes $message the reply with these octets of their names
put_exchanges() {
    local octets hex count=$# number=0
    begin 1234 8500 0001 0000 0000 0000 00000f0001
    count_at 6 "$count"
    for octets; do
        digits $((${#octets} / 2 + 2))
        put 00000f0001 00000e10 "$hex"
        digits $((++number))
        put "$hex" "$octets"
    done
}
asked=123401000001000000000000'00000f0001'
exchanges f.isi.arpa. foo.f.isi.arpa. arpa. .
put_exchanges 01660369736904617270'6100' 03666f6fc01e c024 00
expect 'the names of RFC 1035, 4.1.4' "$asked" "$message"
run_expected "$zone" answer --tcp --origin . -
exchanges a.b. a.b. c.a.b. c.a.b. a.b.
put_exchanges 0161016200 c01e 0163c01e c03f c01e
expect 'names, and a label in front of them, once more' "$asked" "$message"
run_expected "$zone" answer --tcp --origin . -

# names of up to 120 labels, each with one more than the one before, so that the last is read through 119 pointers; two names below that; and one
# whose 61st label is another, of which what is behind that label is a pointer
names=()
for count in {1..120}; do names+=("$(repeat "$count" a.)"); done
deep=${names[119]}
exchanges "${names[@]}" "x.$deep" "y.$deep" "x.${deep:0:118}b.${deep:0:120}"
reply 8500 . MX "$answer" '' ''
expect 'names through many pointers' "$asked" "$message"
run_expected "$zone" answer --tcp --origin . -

# The positions of 256 labels are remembered (own): here of twice 127 labels, and of x and y. The last name is in full.
first=$(repeat 127 a.)
second=$(repeat 127 b.)
exchanges "$first" "$second" x.y.z. y.z. z.
put_exchanges "$(repeat 127 0161)00" "$(repeat 127 0162)00" 01780179017a00 c238 017a00
expect 'labels beyond 256' "$asked" "$message"
run_expected "$zone" answer --tcp --origin . -
# Of names that differ in their last label but one the last label alone is a pointer; a name that stands in front whole is one to it. Of the
# fifth name 15 labels are remembered, which makes 256, so that the sixth is a pointer and the seventh isn't.
first=$(repeat 119 a.)
exchanges "${first}b.z." "${first}c.z." "${first}b.z." "${first:2}c.z." "${first}d.z." "${first:28}d.z." "${first:30}d.z."
first=$(repeat 119 0161)
put_exchanges "${first}0162017a00" "${first}0163c10e" c01e c120 "${first}0164c10e" c257 "${first:60}0164c10e"
expect 'names that differ late' "$asked" "$message"
run_expected "$zone" answer --tcp --origin . -

# The last position that a pointer can tell is 16,383 (RFC 1035, 4.1.4): the owner a.b of the first address stands there, or one octet behind,
# and what is behind its first label is no pointer for the last address. In front are a header, a question, texts of 4096 octets and of so many,
# and two services.
while read -r len again; do
    zone=$'$TTL 3600\n. NS .\n. SOA . . 1 7200 900 1209600 300\nwww SRV 0 0 0 a.b\nwww SRV 1 0 0 b\na.b A 192.0.2.1\na.b A 192.0.2.2\nb A 192.0.2.3'
    begin 1234 8500 0001 0006 0000 0003 0377777700 00ff0001
    for text in 61=a 62=b 63=c 64=d; do
        lengths=$(repeat 15 '255 ')255
        [ $text != 64=d ] || lengths=${lengths% *}' '$((len - 15 * 256 - 1))
        zone+=$'\n''www TXT'
        octets=
        for count in $lengths; do
            zone+=" $(repeat "$count" "${text#*=}")"
            printf -v hex '%02x' "$count"
            octets+=$hex$(repeat "$count" "${text%=*}")
        done
        digits $((${#octets} / 2))
        put c00c00100001 00000e10 "$hex" "$octets"
    done
    put c00c00210001 00000e10 000b 000000000000 0161016200 c00c00210001 00000e10 0009 000100000000 016200
    at=$((${#message} / 2))
    put 0161016200 00010001 00000e10 0004 c0000201 "$again" 00010001 00000e10 0004 c0000202 016200 00010001 00000e10 0004 c0000203
    expect "an owner at $at" 1234010000010000000000000377777700'00ff0001' "$message"
    run_expected "$zone" answer --tcp --origin . -
done <<'text'
3982 ffff
3983 0161016200
text
origin=example.test.
