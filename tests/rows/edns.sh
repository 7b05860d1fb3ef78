# How long replies are to requests with an OPT, and where the OPT stands in them (RFC 6891, 6.1.1 and 6.2.3 to 6.2.5; the size of 1232 octets
# is our own).
# shellcheck source=tests/wire.sh
source tests/wire.sh

ours=00002904d0000000000000 # the server's OPT: the root, type 41, 1232 octets, no code, version 0, no DO, no data

# with OPT: puts a record behind $message, in its additional section
with() {
    put "$1"
    count_at 10 $((16#${message:20:4} + 1))
}

# asks_with SIZE: puts an OPT of that size behind $message, and makes the message $request
asks_with() {
    digits "$1"
    with "000029${hex}000000000000"
    request=$message
}

# is_of LENGTH: whether $message has so many octets
is_of() {
    rows=$((rows + 1))
    [ ${#message} = $((2 * $1)) ] || fails "a message of $((${#message} / 2)) octets, and not $1"
}

# text COUNT..: sets $text to strings of so many letters, as zone text, and $octets to their octets
text() {
    local count line
    text=
    octets=
    for count; do
        printf -v line '%0*d' "$count" 0
        text+=" ${line//0/w}"
        digits "$count"
        octets+=${hex:2}${line//0/77}
    done
}

# goes_whole SIZE LENGTH: a text at big.example.test. is sent in whole, in so many octets, to one who takes messages of that size
goes_whole() {
    query big TXT
    asks_with "$1"
    reply 8500 big TXT "big TXT 3600 $octets" '' ''
    with $ours
    is_of "$2"
    expect "$2 octets to one who takes $1" "$request" "$message"
}

# is_cut SIZE: it isn't, and gets header, question and OPT, with TC 1
is_cut() {
    query big TXT
    asks_with "$1"
    reply 8700 big TXT '' '' ''
    with $ours
    expect "TC to one who takes $1" "$request" "$message"
}

apex='$TTL 3600
@ NS ns1
@ SOA . . 1 7200 900 1209600 300'

# 512 octets with the OPT go to all, 513 to those who take as many, and 524 too
text 255 198
goes_whole 100 512
goes_whole 0 512
goes_whole 512 512
run_expected "$apex"$'\n'"big TXT$text" answer --origin example.test. -
text 255 199
is_cut 100
is_cut 0
is_cut 512
goes_whole 513 513
run_expected "$apex"$'\n'"big TXT$text" answer --origin example.test. -
text 255 210
is_cut 523
goes_whole 524 524
goes_whole 4096 524
run_expected "$apex"$'\n'"big TXT$text" answer --origin example.test. -

# 1232 octets go to those who take as many, and 1233 to none; over TCP all go to all
text 255 255 255 255 150
is_cut 1231
goes_whole 1232 1232
goes_whole 1233 1232
goes_whole 65535 1232
run_expected "$apex"$'\n'"big TXT$text" answer --origin example.test. -
text 255 255 255 255 151
is_cut 1233
is_cut 65535
run_expected "$apex"$'\n'"big TXT$text" answer --origin example.test. -
goes_whole 512 1233
goes_whole 65535 1233
run_expected "$apex"$'\n'"big TXT$text" answer --tcp --origin example.test. -

# Where it doesn't fit, the additional section is left out but for the OPT (RFC 2181, 9): 28 exchanges, an address and the OPT are 511 octets,
# as are 29 exchanges and the OPT, which are 527 with the address.
zone=$apex$'\n''web A 192.0.2.1'
answer=
for number in {1..29}; do
    digits "$number"
    [ "$number" = 29 ] || zone+=$'\n'"m MX $number web"
    zone+=$'\n'"n MX $number web"
    answer+="n MX 3600 $hex web; "
done
exchanges=${answer%n MX*}
# exchanges NAME SIZE LENGTH ANSWER ADDITIONAL
exchanges() {
    query "$1" MX
    asks_with "$2"
    reply 8500 "$1" MX "$4" '' "$5"
    with $ours
    is_of "$3"
    expect "the exchanges at $1 to one who takes $2" "$request" "$message"
}
exchanges m 512 511 "${exchanges//n MX/m MX}" 'web A 3600 c0000201'
exchanges n 512 511 "$answer" ''
exchanges n 526 511 "$answer" ''
exchanges n 527 527 "$answer" 'web A 3600 c0000201'
run_expected "$zone" answer --origin example.test. -

# An update that is taken, with an OPT, gets the entry of its zone section and an OPT; so does one that is refused by a prerequisite
# (RFC 2136, 2.3 and 3.8; own). Then the address is there, and its reply has no OPT where the query has none.
takes_zone <zones/example.test.zone
converses <<'end'
# new.example.test. gets an address, if it isn't in use
update 432128000001000100010001076578616d706c6504746573740000060001036e6577c00c00ff00fe000000000000c01e0001000100000e100004c000024d0000290200000080000000
reply 4321a8000001000000000001076578616d706c650474657374000006000100002904d0000080000000
# the same again: YXDOMAIN
update 432128000001000100010001076578616d706c6504746573740000060001036e6577c00c00ff00fe000000000000c01e0001000100000e100004c000024d0000290200000000000000
reply 4321a8060001000000000001076578616d706c650474657374000006000100002904d0000000000000
query 123401000001000000000000036e6577076578616d706c6504746573740000010001
reply 123485000001000100000000036e6577076578616d706c6504746573740000010001c00c0001000100000e100004c000024d

# an address that isn't in the form of one: no update can be read, so that there is no OPT
update 432128000001000000010001076578616d706c6504746573740000060001036e6577c00c0001000100000e100003c000020000290200000000000000
reply 4321a8010000000000000000
end

# In a script, requests and updates are the same over UDP: the reply to an update that makes a version is given at its end.
plays <<'end'
load a => a 0
ask a 12340100000100000000000103777777076578616d706c65047465737400000100010000291000000100000000 => 12348100000100000000000103777777076578616d706c650474657374000001000100002904d0010000000000
ask a 432128000001000000000001076578616d706c65047465737400000600010000290200000000000000 => not enabled
update 432128000001000000000001076578616d706c65047465737400000600010000290200000100000000 => 4321a8000001000000000001076578616d706c650474657374000006000100002904d0010000000000
update 432128000001000000000001076578616d706c65047465737400000600010000290200000000000000 => 4321a8000001000000000001076578616d706c650474657374000006000100002904d0000000000000
update 432128000001000000010001076578616d706c6504746573740000060001036e6577c00c0001000100000e100004c00002070000290200000000000000 => 4321a8000001000000000001076578616d706c650474657374000006000100002904d0000000000000
end
