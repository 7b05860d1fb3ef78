# Replies to whole requests over UDP and TCP (RFC 1035, 4.1; RFC 1034, 4.3.2), and how many octets a datagram's has (RFC 1035, 4.2.1).

# letters COUNT: so many times the letter w; in hexadecimal that is 77
letters() {
    printf 'w%.0s' $(seq "$1")
}

# a zone with an alias, whose SOA has serial 1
zone=$(cat <<'end'
$ORIGIN example.test.
@ 3600 IN SOA . . 1 7200 900 1209600 300
@ 3600 IN NS ns1
ns1 3600 IN A 192.0.2.1
web 3600 IN A 192.0.2.10
www 3600 IN CNAME web
end
)
requests=() replies=()
# asks WHAT REQUEST REPLY: the next line of the input, a request in hexadecimal, gets this line
asks() {
    requests+=("$2")
    replies+=("$3")
}
asks 'an alias, and the address of its target' \
    12340100000100000000000003777777076578616d706c6504746573740000010001 \
    12348500000100020000000003777777076578616d706c6504746573740000010001c00c0005000100000e10000603776562c010c02e0001000100000e100004c000020a
asks 'eleven octets, which are no header: no reply' 1234010000010000000000 -
asks 'QR 1, which is no request: no reply' 123481000000000000000000 -
asks 'no question: FORMERR' 123401000000000000000000 123481010000000000000000
asks 'OPCODE 2: NOTIMP' 123410000000000000000000 123490040000000000000000
asks 'type MAILB: NOTIMP' \
    123400000001000000000000076578616d706c6504746573740000fd0001 123480040000000000000000
asks 'class CH: REFUSED' \
    123400000001000000000000076578616d706c6504746573740000010003 123480050001000000000000076578616d706c6504746573740000010003
asks 'OPCODE 5 with a question of type A, where an update has one of type SOA: FORMERR (RFC 2136, 3.1.1)' \
    123429000001000000000000076578616d706c6504746573740000010001 1234a8010000000000000000
asks 'a name outside the zone: REFUSED' \
    123400000001000000000000036e65740000010001 123480050001000000000000036e65740000010001
asks 'the SOA, which still has serial 1: none of these has changed the zone' \
    123401000001000000000000076578616d706c6504746573740000060001 \
    123485000001000100000000076578616d706c6504746573740000060001c00c0006000100000e10001600000000000100001c2000000384001275000000012c
input=$zone$'\n%\n'$(printf '%s\n' "${requests[@]}")$'\n'
prints "$(printf '%s\n' "${replies[@]}")" answer -
prints "$(printf '%s\n' "${replies[@]}")" answer --tcp -

# A text at big.example.test. of two strings of 127 letters and one of 209: header and question have 34 octets, what stands in front of
# the data 12, and the data 128, 128 and 210, so that the reply has 512, and is sent in whole. With 210 letters it has 513: over UDP it is
# cut to header and question, with TC 1.
question=03626967076578616d706c6504746573740000100001
text() {
    printf '%s\n' '$ORIGIN example.test.' '@ 3600 IN SOA . . 1 7200 900 1209600 300' '@ 3600 IN NS ns1' \
        "big 3600 IN TXT $(letters 127) $(letters 127) $(letters "$1")" % "123401000001000000000000$question"
}
# data LENGTH COUNT: the reply's octets behind the question, in hexadecimal: the length of the data, and the last string's letters
data() {
    local sevens
    sevens=$(printf '77%.0s' $(seq 127))
    printf '%s' "c00c0010000100000e10$1" "7f$sevens" "7f$sevens" "$(printf '%02x' "$2")" "$(printf '77%.0s' $(seq "$2"))"
}
input=$(text 209)$'\n'
prints "123485000001000100000000$question$(data 01d2 209)" answer --tcp -
prints "123485000001000100000000$question$(data 01d2 209)" answer -
input=$(text 210)$'\n'
prints "123485000001000100000000$question$(data 01d3 210)" answer --tcp -
prints "123487000001000000000000$question" answer -
