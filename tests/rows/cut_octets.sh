# Requests and transfers that are cut at each octet, with counts, flags and pointers that are wrong (RFC 1035, 4.1; RFC 2136, 2; RFC 1995, 4; RFC
# 5936, 2.2).
# shellcheck source=tests/wire.sh
source tests/wire.sh

# cut_each FAULT MESSAGE REPLY: a row for each length of a message: nothing is told below a header, the fault from there on, and the reply in whole
cut_each() {
    local at
    for ((at = 0; at < ${#2} / 2; at++)); do
        if [ $at -lt 12 ]; then expect "$at octets of ${2:0:24}" "${2:0:2*at}" -; else expect "$at octets of ${2:0:24}" "${2:0:2*at}" "$1"; fi
    done
    expect "the whole of ${2:0:24}" "$2" "$3"
}
zone=$(cat zones/example.test.zone)
ask=12340100000100000000000003777777076578616d706c6504746573740000010001
answered=12348500000100020000000003777777076578616d706c6504746573740000010001c00c0005000100000e10000603776562c010c02e0001000100000e100004c000020a
faulty=123481010000000000000000
add=432128000001000000010000076578616d706c6504746573740000060001036e6577c00c0001000100000e100004c000024d
cut_each $faulty $ask $answered
cut_each 4321a8010000000000000000 $add 4321a8000000000000000000
cut_each 4321a8010000000000000000 "${add/43212800000100000001/43212800000100010000}" 4321a8010000000000000000
# the numbers of questions and of answers, QR, and a server's status
expect 'no question is counted' "${ask/0100000100/0100000000}" $faulty
expect 'two questions are counted' "${ask/0100000100/0100000200}" $faulty
expect '65,535 answers are counted' "123401000001ffff00000000${ask:24}" $faulty
expect '65,535 records of each section' "123401000001ffffffffffff${ask:24}" $faulty
expect 'a reply gets none' "${ask/12340100/12348100}" -
expect 'a reply to an update gets none' "${add/43212800/4321a800}" -
expect 'a server'"'"'s status' "${ask/12340100/12341100}" 123491040000000000000000
expect 'a pointer to itself' 123401000001000000000000c00c00010001 $faulty
# a query goes on to be answered behind all that
expect 'a query behind these' $ask $answered
run_expected "$zone" answer -

# The transfer of a zone in two messages: an SOA, an NS and four texts in 16,349 octets, and the SOA that closes it in 70, without a question. The
# first alone has no close. Cut at any octet, a message can't be read, whether it is the first or the second. It is tried here at each octet
# of the second and at some of the first; `cuts` of test_changes tries each of the first.
# text LETTER LAST: a text's strings in zone text, fifteen of 255 letters and one of so many; data OCTET LAST: the same in hexadecimal
text() { for count in {1..15}; do printf '"%s" ' "$(repeat 255 "$1")"; done; repeat "$2" "$1"; }
data() { for count in {1..15}; do printf 'ff%s' "$(repeat 255 "$1")"; done; printf '%02x%s' "$2" "$(repeat "$2" "$1")"; }
held='$ORIGIN example.test.'$'\n''@ 3600 IN SOA ns1 admin 1 7200 900 1209600 300'$'\n''@ 3600 IN NS ns1'$'\n'
apex=076578616d706c65047465737400
soa=036e7331c00c0561646d696ec00c0000000100001c2000000384001275000000012c
first=123484000001000600000000${apex}00fc0001c00c0006000100000e100022${soa}c00c0002000100000e100002c02a
first+=0174c00c0010000100000e100fd4$(data 61 211)c05a0010000100000e100fd4$(data 62 211)
first+=c05a0010000100000e100fd4$(data 63 211)c05a0010000100000e100fd5$(data 64 212)
second=123484000000000100000000${apex}0006000100000e100022$soa
taken='example.test. 3600 IN SOA ns1.example.test. admin.example.test. 1 7200 900 1209600 300'$'\n''example.test. 3600 IN NS ns1.example.test.'
for line in 'a 211' 'b 211' 'c 211' 'd 212'; do
    # shellcheck disable=SC2086
    texts=$(text $line)
    taken+=$'\n't.example.test.' 3600 IN TXT '${texts% *}' "'${texts##* }'"'
done
input=$held$'%\n'$first$'\n'$second$'\n'
prints "$taken" apply -
for alone in "$first" ''; do
    input=$held$'%\n'$alone$'\n'
    refuses 1 'X1 Broken' apply -
done
# the second alone is an SOA of the serial that is held
input=$held$'%\n'$second$'\n'
prints "${taken%%$'\n't.*}" apply -
for ((at = 0; at < ${#second} / 2; at++)); do
    input=$held$'%\n'$first$'\n'${second:0:2*at}$'\n'
    refuses 1 'X1 Broken' apply -
done
for at in {0..100} 101 4095 4096 8191 12000 16347 16348; do
    input=$held$'%\n'${first:0:2*at}$'\n'$second$'\n'
    refuses 1 'X1 Broken' apply -
done
