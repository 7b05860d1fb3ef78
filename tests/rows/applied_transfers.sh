# The ends of transfers that are taken in (RFC 1995, 4; RFC 5936, 2.2): each fault in each way, and the zones behind those that are taken. A
# message is a reply of AA without a question, unless a row says another.
# shellcheck source=tests/wire.sh
source tests/wire.sh
origin=example.
# the zone that is held: s1, ns and a1
zone='$TTL 3600
@ NS h
@ SOA . . 1 2 3 4 5
h A 192.0.2.1'

# put_known WORD: puts the record of a word (RFC 1035, 3.3 and 4.1.3); one that is garbled has no octets
put_known() {
    local numbers=00000002000000030000000400000005
    case $1 in
        s1) put_raw @ SOA IN 3600 000000000001$numbers ;;
        s2) put_raw @ SOA IN 3600 000000000002$numbers ;;
        s3) put_raw @ SOA IN 3600 000000000003$numbers ;;
        outer) put_raw net. SOA IN 3600 000000000001$numbers ;;
        ns) put_raw @ NS IN 3600 0168076578616d706c6500 ;;
        a1) put_raw h A IN 3600 c0000201 ;;
        a2) put_raw h A IN 3600 c0000202 ;;
        a60) put_raw h A IN 60 c0000201 ;;
        alias) put_raw h CNAME IN 3600 00 ;;
        out) put_raw net. A IN 3600 c0000201 ;;
        short) put_raw h A IN 3600 c00002 ;;
        chaos) put_raw @ SOA CH 3600 000000000001$numbers ;;
        opt) put_raw h OPT IN 3600 c0000201 ;;
        unknown) put_raw h UNKNOWN IN 3600 034142c00c ;;
        folded) put_raw h UNKNOWN IN 3600 034162c00c ;;
        garbled) ;;
    esac
}

# transfer MESSAGES: makes $input the zone that is held and the messages of records by their words, with `/` between messages; `query` and
# `refused` make a message a query, or one of RCODE 5
transfer() {
    local messages=$1 words word flags count
    input=$zone$'\n%\n'
    while [ -n "$messages" ]; do
        read -ra words <<<"${messages%%/*}"
        flags=8400 count=0
        begin 1234 0000 0000 0000 0000 0000
        for word in "${words[@]}"; do
            case $word in
                empty) ;;
                query) flags=0400 ;;
                refused) flags=8405 ;;
                *) put_known "$word" && count=$((count + 1)) ;;
            esac
        done
        count_at 2 $((16#$flags))
        count_at 6 $count
        input+=$message$'\n'
        case $messages in */*) messages=${messages#*/} ;; *) messages= ;; esac
    done
}

# which transfers are refused, and how (RFC 5936, 2.2; RFC 1995, 4)
while IFS='|' read -r fault messages; do
    transfer "$messages"
    refuses 1 "$fault" apply --origin example. -
done <<'text'
X1 Broken|
X1 Broken|empty
X1 Broken|garbled
X1 Broken|query s1
X1 Broken|refused s1
X1 Broken|ns s2
X1 Broken|chaos
X1 Broken|s2 chaos
X1 Broken|s2 opt
X1 Broken|s2 ns opt s2
X1 Broken|s2 short
X1 Broken|s2 ns a2
X1 Broken|s2 ns s3
X1 Broken|s2 ns s2 a1
X1 Broken|s2 ns s2/garbled
X1 Broken|garbled/s2 ns s2
X1 Broken|s2/garbled/ns s2
X1 Broken|s2 ns/garbled/s2
X1 Broken|outer ns garbled
X1 Broken|s2 s2
X1 Broken|s2 s1 a1 s2 a2
X1 Broken|s2 s1 a1 s2 a2 s2 a1
X1 Broken|s3 s1 s2 s3
X2 WrongBase|s2
X2 WrongBase|s3 s2 s3 s3
X2 WrongBase|s3 s1 s2 s1 s3 s3
X2 WrongBase|s2 s1 a2 s2 s2
X2 WrongBase|s2 s1 s2 a1 s2
X2 WrongBase|s2 s1 a60 s2 s2
X2 WrongBase|s2 s1 unknown s2 s2
X3 NotInZone|outer
X3 NotInZone|outer ns
X3 NotInZone|outer ns/garbled
X3 NotInZone|s2 ns out s2
X3 NotInZone|s2 a1 s2
X3 NotInZone|s2 ns a1 alias s2
X3 NotInZone|s2 ns a1 a60 s2
X3 NotInZone|s2 s1 ns s2 s2
text

# which are taken: the serial and the addresses at h of the zone behind them
while IFS='|' read -r serial addresses messages; do
    transfer "$messages"
    text="example. 3600 IN SOA . . $serial 2 3 4 5"$'\n''example. 3600 IN NS h.example.'
    for address in $addresses; do text+=$'\n'"h.example. 3600 IN A $address"; done
    prints "$text" apply --origin example. -
done <<'text'
1|192.0.2.1|s1
2|192.0.2.1|s2 ns a1 s2
2|192.0.2.1 192.0.2.2|s2 ns a1 a2 s2
2||s2 ns ns s2
2||s2/empty/ns/s2
2|192.0.2.2|s2 s1 a1 s2 a2 s2
2||s2 s1 a1/s2/s2
3||s3 s1 a1 s2 a2 s2 a2 s3 s3
text

# data of a type that nobody here knows is taken as it stands: octets that would be a pointer or letters in other data are none here, and two
# that differ in a letter's case are two records (RFC 3597, 3, 4 and 6)
while IFS='|' read -r octets messages; do
    transfer "$messages"
    text='example. 3600 IN SOA . . 2 2 3 4 5'$'\n''example. 3600 IN NS h.example.'$'\n''h.example. 3600 IN A 192.0.2.1'
    for data in $octets; do text+=$'\n'"h.example. 3600 IN TYPE99 \\# 5 $data"; done
    prints "$text" apply --origin example. -
done <<'text'
034142c00c|s2 ns a1 unknown s2
034142c00c 034162c00c|s2 ns a1 folded unknown s2
034162c00c|s2 s1 s2 folded s2
text

# put_addresses FROM COUNT: puts so many addresses at h, from 192.0.2.0 and so many on, and counts them
put_addresses() {
    local at hex
    for ((at = $1; at < $1 + $2; at++)); do
        digits $((0x200 + at))
        put_raw h A IN 3600 "c000$hex"
    done
    count=$((count + $2))
}

# put_text COUNT [HEX]: puts a text at h of so many strings of 255 letters, and these octets, and counts it
printf -v string '%0510d' 0
string=ff${string//0/6}
put_text() {
    local text
    printf -v text "%.0s$string" $(seq "$1")
    put_raw h TXT IN 3600 "$text${2-}"
    count=$((count + 1))
}

# one_message WORD.. -- COMMAND..: makes $input the zone that is held, and one message of the records of the words, of those that the command
# puts behind them, and of s2
one_message() {
    local count=0
    begin 1234 8400 0000 0000 0000 0000
    while [ "$1" != -- ]; do
        put_known "$1"
        count=$((count + 1))
        shift
    done
    "${@:2}"
    put_known s2
    count_at 6 $((count + 1))
    input=$zone$'\n%\n'$message$'\n'
}

# 256 records of a set, in a message of 259 records or of 260, are a zone, and 257 none, whether the zone is sent in whole or 255 or 256 of them
# come to the one that is held (own)
text=$'example. 3600 IN SOA . . 2 2 3 4 5\nexample. 3600 IN NS h.example.'
addresses=
for number in {0..255}; do addresses+=$'\n'"h.example. 3600 IN A 192.0.2.$number"; done
one_message s2 ns -- put_addresses 0 256
prints "$text$addresses" apply --origin example. -
one_message s2 ns -- put_addresses 0 257
refuses 1 'X3 NotInZone' apply --origin example. -
addresses=${addresses/$'\n'h.example. 3600 IN A 192.0.2.0$'\n'/$'\n'}$'\n'"h.example. 3600 IN A 192.0.3.0"
one_message s2 s1 s2 -- put_addresses 2 255
prints "$text$addresses" apply --origin example. -
one_message s2 s1 s2 -- put_addresses 2 256
refuses 1 'X3 NotInZone' apply --origin example. -

# data of 4,096 octets, sixteen strings of 255 with their lengths, is a zone's, and one octet more, of an empty string, none's (own)
one_message s2 ns -- put_text 16
prints "$text"$'\n''h.example. 3600 IN TXT'"$(repeat 16 " \"$(repeat 255 f)\"")" apply --origin example. -
one_message s2 ns -- put_text 16 00
refuses 1 'X3 NotInZone' apply --origin example. -
one_message s2 s1 s2 -- put_text 16
prints "$text"$'\n''h.example. 3600 IN A 192.0.2.1'$'\n''h.example. 3600 IN TXT'"$(repeat 16 " \"$(repeat 255 f)\"")" apply --origin example. -
one_message s2 s1 s2 -- put_text 16 00
refuses 1 'X3 NotInZone' apply --origin example. -

# a message whose question is `Example.test. IN AXFR`, and whose records point to its name (RFC 1035, 4.1.4), which the zone has in lower
# case
origin=Example.test.
zone='$TTL 3600
@ NS ns1
@ SOA . . 1 2 3 4 5'
soa='@ SOA 3600 . . 00000002 00000002 00000003 00000004 00000005'
reply 8400 @ AXFR "$soa; @ NS 3600 ns1; @ MX 3600 000a mx; $soa" '' ''
input=$zone$'\n%\n'$message$'\n'
prints 'example.test. 3600 IN SOA . . 2 2 3 4 5
example.test. 3600 IN NS ns1.example.test.
example.test. 3600 IN MX 10 mx.example.test.' apply --origin example.test. -
# a request, a refusal, and octets that end inside the last record, inside the header, and in front of it
for part in "${message/12348400/12340400}" "${message/12348400/12348405}" "${message%??}" "${message:0:22}" ''; do
    input=$zone$'\n%\n'$part$'\n'
    refuses 1 'X1 Broken' apply --origin example.test. -
done
origin=example.test.
