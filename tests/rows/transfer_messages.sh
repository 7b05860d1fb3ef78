# The messages of a transfer, by the octets that RFC 1035, 4.1 and RFC 5936, 2.2 give for them. Replies are as in lookups.sh.
# shellcheck source=tests/wire.sh
source tests/wire.sh
zone='$TTL 3600
@ NS ns1
@ SOA ns1 admin 1 7200 900 1209600 300'
numbers='00000001 00001c20 00000384 00127500 0000012c'
soa="@ SOA 3600 ns1 admin $numbers"

# asks_whole: makes $request the query for the zone in whole (RFC 5936, 2.1)
asks_whole() {
    begin 1234 0000 0001 0000 0000 0000
    put_question @ AXFR
    request=$message
}

# is_of LENGTH: whether $message has so many octets
is_of() {
    rows=$((rows + 1))
    [ ${#message} = $((2 * $1)) ] || fails "a message of $((${#message} / 2)) octets, and not $1"
}

# the SOA, the NS and the SOA again: 126 octets, and no second message
asks_whole
reply 8400 @ AXFR "$soa; @ NS 3600 ns1; $soa" '' ''
is_of 126
expect 'a zone of an SOA and an NS' "$request" "$message"
run_expected "$zone" answer --tcp --origin example.test. -

# a host with two addresses: records of a set one behind the other
asks_whole
soa_of_host='@ SOA 3600 . . 00000001 00000002 00000003 00000004 00000005'
reply 8400 @ AXFR "$soa_of_host; @ NS 3600 h; h A 3600 c0000201; h A 3600 c0000202; $soa_of_host" '' ''
expect 'a zone with two addresses' "$request" "$message"
run_expected '$TTL 3600
@ NS h
@ SOA . . 1 2 3 4 5
h A 192.0.2.1
h A 192.0.2.2' answer --tcp --origin example.test. -

# owners whose first labels are as long as the one before: below the same name, and below another
asks_whole
reply 8400 @ AXFR "$soa_of_host; @ NS 3600 h; h A 3600 c0000201; a.k A 3600 c0000201; b.k A 3600 c0000201; c.m A 3600 c0000201; $soa_of_host" '' ''
expect 'owners of labels as long' "$request" "$message"
run_expected '$TTL 3600
@ NS h
@ SOA . . 1 2 3 4 5
h A 192.0.2.1
a.k A 192.0.2.1
b.k A 192.0.2.1
c.m A 192.0.2.1' answer --tcp --origin example.test. -

# strings LETTER LENGTH: sets $text to fifteen strings of 255 letters and one of so many, as zone text, and $octets to their octets
strings() {
    local letter code line rest count
    printf -v code '%02x' "'$1"
    printf -v line '%0255d' 0
    line=${line//0/$1}
    rest=${line:0:$2}
    text=
    octets=
    for count in {1..15}; do
        text+=" $line"
        octets+=ff${line//$1/$code}
    done
    text+=" $rest"
    printf -v count '%02x' "$2"
    octets+=$count${rest//$1/$code}
}

# four texts, each of fifteen strings of 255 octets and one of 211, fill a message to its last octet (RFC 5936, 2.2)
texts=
records=
for letter in a b c; do
    strings $letter 211
    texts+=$'\n'"t TXT$text"
    records+="t TXT 3600 $octets; "
done
strings d 211
asks_whole
reply 8400 @ AXFR "$soa; @ NS 3600 ns1; ${records}t TXT 3600 $octets; $soa" '' ''
is_of 16384
expect 'a message that is full' "$request" "$message"
run_expected "$zone$texts"$'\n'"t TXT$text" answer --tcp --origin example.test. -

# with one octet more the closing SOA goes into a second message, which has the same ID, no question, and its names in full where they stand
# first
strings d 212
asks_whole
reply 8400 @ AXFR "$soa; @ NS 3600 ns1; ${records}t TXT 3600 $octets" '' ''
is_of 16349
first=$message
begin 1234 8400 0000 0001 0000 0000
put_record @ SOA 3600 ns1 admin "$numbers"
is_of 70
expect 'two messages' "$request" "$first $message"
run_expected "$zone$texts"$'\n'"t TXT$text" answer --tcp --origin example.test. -

# With an OPT the first message alone has one (own), in its additional section, within the 16384 octets (RFC 6891, 6.1.1).
ours=00002904d0000000000000
# with OPT: puts a record behind $message, in its additional section
with() {
    put "$1"
    count_at 10 $((16#${message:20:4} + 1))
}
strings d 200
asks_whole
with 0000290200000000000000
request=$message
reply 8400 @ AXFR "$soa; @ NS 3600 ns1; ${records}t TXT 3600 $octets; $soa" '' ''
with $ours
is_of 16384
expect 'a message that is full, with an OPT' "$request" "$message"
run_expected "$zone$texts"$'\n'"t TXT$text" answer --tcp --origin example.test. -
strings d 201
asks_whole
with 0000290200000080000000
request=$message
reply 8400 @ AXFR "$soa; @ NS 3600 ns1; ${records}t TXT 3600 $octets" '' ''
with 00002904d0000080000000
is_of 16349
first=$message
begin 1234 8400 0000 0001 0000 0000
put_record @ SOA 3600 ns1 admin "$numbers"
is_of 70
expect 'two messages, an OPT in the first' "$request" "$first $message"
run_expected "$zone$texts"$'\n'"t TXT$text" answer --tcp --origin example.test. -

# Over UDP a list that doesn't fit a datagram is the SOA alone, as is that of the serial which is asked from (RFC 1995, 2; own). The owner
# that was asked for keeps its spelling, so that the names in the data, in lower case, have pointers to `test` alone (RFC 1035, 4.1.4; own).
printf -v line '%0255d' 0
for serial in 00000000 00000001; do
    begin 1234 0000 0001 0000 0001 0000
    put_question Example.test. IXFR
    put_record Example.test. SOA 0 . . $serial 00000000 00000000 00000000 00000000
    request=$message
    reply 8400 Example.test. IXFR "Example.test. ${soa#@ }" '' ''
    is_of 84
    expect "the SOA alone for serial $serial" "$request" "$message"
done
run_expected "$zone"$'\n'"t TXT $line $line \"\"" answer --origin example.test. -

# To one who takes as many octets, the list itself fits, of 1232 octets at most (RFC 6891, 6.2.3 to 6.2.5; own); to others it is the SOA alone,
# and both have an OPT.
# over_udp SIZE ANSWER LENGTH: the query for what changed since serial 0, from one who takes messages of that size
over_udp() {
    local hex
    changes_query 00000000
    digits "$1"
    with "000029${hex}000000000000"
    request=$message
    reply 8500 @ IXFR "$2" '' ''
    with $ours
    is_of "$3"
    expect "$3 octets for one who takes $1" "$request" "$message"
}
printf -v line '%0255d' 0
printf -v texts '%.0s'" $line" {1..4}
printf -v octets '%.0s'"ff${line//0/30}" {1..4}
last=${line:0:56}
list="$soa; @ NS 3600 ns1; t TXT 3600 ${octets}38${last//0/30}; $soa"
over_udp 1231 "$soa" 87
over_udp 1232 "$list" 1232
over_udp 65535 "$list" 1232
run_expected "$zone"$'\n'"t TXT$texts $last" answer --origin example.test. -
over_udp 65535 "$soa" 87
run_expected "$zone"$'\n'"t TXT$texts 0$last" answer --origin example.test. -
