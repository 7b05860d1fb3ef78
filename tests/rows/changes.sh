# What who asks for a transfer gets, as messages over UDP and TCP: the zone in whole (RFC 5936, 2.2), or what changed since the version that
# is held (RFC 1995, 2 to 4 and 7).

# the heads of an AXFR and of an IXFR, and their questions for example.test.; and the head of a message, by its count of records
head_of_axfr=123400000001000000000000
head_of_ixfr=123400000001000000010000
message() { printf '%s' "123484000001${1}00000000"; }
apex=076578616d706c65047465737400
axfr=${apex}00fc0001
ixfr=${apex}00fb0001
# since SERIAL: the tail of an IXFR by who holds this serial: an SOA of all zeroes but for that
since() { printf '%s' "c00c000600010000000000160000000000${1}00000000000000000000000000000000"; }

# A zone of an SOA and an NS, whose name server is the root and whose serial is 5, and its records behind a question.
zone=$(cat <<'end'
example.test. 3600 IN SOA . . 5 0 0 0 0
example.test. 3600 IN NS .
end
)
soa=c00c0006000100000e10001600000000000500000000000000000000000000000000
ns=c00c0002000100000e10000100
# the zone in whole, of three records in 111 octets, over TCP; over UDP an AXFR is FORMERR (RFC 5936, 4.2)
input=$zone$'\n%\n'$head_of_axfr$axfr$'\n'
prints "$(message 0003)$axfr$soa$ns$soa" answer --tcp -
row 0 12348001 answer -
# an IXFR without an SOA is FORMERR (RFC 1995, 3), and an AXFR of a name that isn't the apex NOTAUTH, which is 9
input=$zone$'\n%\n'$head_of_axfr$ixfr$'\n'
row 0 12348001 answer --tcp -
input=$zone$'\n%\n'${head_of_axfr}0161$axfr$'\n'
row 0 12348009 answer --tcp -
# who holds serial 1 gets the zone in whole by either transport, since no changes are kept; who holds 5, or 6, the SOA alone, in 64 octets
input=$zone$'\n%\n'
for serial in 01 05 06; do input+=$head_of_ixfr$ixfr$(since $serial)$'\n'; done
for transport in answer 'answer --tcp'; do
    # shellcheck disable=SC2086
    prints "$(message 0003)$ixfr$soa$ns$soa"$'\n'"$(message 0001)$ixfr$soa"$'\n'"$(message 0001)$ixfr$soa" $transport -
done

# An update adds an address at new.example.test. to a small zone of serial 1, and who holds serial 1 asks what changed: the SOA of serial 2,
# the SOA of serial 1, the SOA of serial 2, the address, the SOA of serial 2, in 204 octets, by either transport.
zone=$(cat <<'end'
$ORIGIN example.test.
@ 3600 IN SOA ns1 admin 1 7200 900 1209600 300
@ 3600 IN NS ns1
ns1 3600 IN A 192.0.2.1
end
)
# the first SOA of a message, and those behind it, whose names point there
first_soa=c00c0006000100000e100022036e7331c00c0561646d696ec00c0000000200001c2000000384001275000000012c
soa() { printf '%s' "c00c0006000100000e100018c02ac030000000${1}00001c2000000384001275000000012c"; }
taken=0001a8000000000000000000
new=000128000001000000010000076578616d706c6504746573740000060001036e6577c00c0001000100000e100004c000024d
input=$zone$'\n%\n'$new$'\n'$head_of_ixfr$ixfr$(since 01)$'\n'
changes=$(message 0005)$ixfr$first_soa$(soa 01)$(soa 02)036e6577c00c0001000100000e100004c000024d$(soa 02)
prints "$taken"$'\n'"$changes" answer --tcp -
prints "$taken"$'\n'"$changes" answer -
# a text of two strings of 255 letters, which no datagram has room for: the SOA alone (RFC 1995, 2)
letters=ff$(printf '61%.0s' $(seq 255))
text=000128000001000000010000076578616d706c65047465737400000600010174c00c0010000100000e100200$letters$letters
input=$zone$'\n%\n'$text$'\n'$head_of_ixfr$ixfr$(since 01)$'\n'
prints "$taken"$'\n'"$(message 0001)$ixfr$first_soa" answer -

# Four texts at t.example.test., each of fifteen strings of 255 letters and one of 211, the last of 212, so that the zone in whole has one octet
# more than a message of 16384: it comes as a message of 16349 octets, with the first SOA, the NS and the texts, and one of 70 behind it,
# without a question, with the SOA that closes it (RFC 5936, 2.2; own).
counts=$(printf '255 %.0s' $(seq 15))
# text LETTER LAST: a text's strings in zone text, the last of so many letters
text() {
    local count
    for count in $counts $2; do printf "$1%.0s" $(seq "$count"); printf ' '; done
}
# data OCTET LAST: the same in hexadecimal, where the letter is this octet
data() {
    local count
    for count in $counts $2; do printf %02x "$count"; printf "$1%.0s" $(seq "$count"); done
}
zone='$ORIGIN example.test.'$'\n''@ 3600 IN SOA ns1 admin 1 7200 900 1209600 300'$'\n''@ 3600 IN NS ns1'
for line in 'a 211' 'b 211' 'c 211' 'd 212'; do
    # shellcheck disable=SC2086
    zone+=$'\n'"t 3600 IN TXT $(text $line)"
done
input=$zone$'\n%\n'$head_of_axfr$axfr$'\n'
soa_of_1=036e7331c00c0561646d696ec00c0000000100001c2000000384001275000000012c
transfer=$(message 0006)${axfr}c00c0006000100000e100022${soa_of_1}c00c0002000100000e100002c02a
transfer+=0174c00c0010000100000e100fd4$(data 61 211)c05a0010000100000e100fd4$(data 62 211)
transfer+=c05a0010000100000e100fd4$(data 63 211)c05a0010000100000e100fd5$(data 64 212)
prints "$transfer 123484000000000100000000${apex}0006000100000e100022$soa_of_1" answer --tcp -

# The example of RFC 1995, 7: two updates make the versions of serial 2 and 3, in front of which the first version isn't kept, and who holds
# serial 1 asks what changed. NEZU's address goes and JAIN-BB gets two; then another one stands for the first of these.
zone=$(cat <<'end'
jain.ad.jp. 3600 IN SOA ns.jain.ad.jp. mohta.jain.ad.jp. 1 600 600 3600000 604800
jain.ad.jp. 3600 IN NS ns.jain.ad.jp.
nezu.jain.ad.jp. 3600 IN A 133.69.136.5
ns.jain.ad.jp. 3600 IN A 133.69.136.1
end
)
apex=046a61696e026164026a7000
question_of_ixfr=${apex}00fb0001
nezu=046e657a75c00c
bb=076a61696e2d6262c00c
# an address of class IN, or, of class NONE, one that an update deletes (RFC 2136, 2.5.4)
address() { printf '%s' "${1}0001000100000e100004$2"; }
deleted() { printf '%s' "${1}000100fe000000000004$2"; }
second=000128000001000000030000${apex}00060001$(deleted $nezu 85458805)$(address $bb 85458804)$(address $bb c029c502)
third=000128000001000000020000${apex}00060001$(deleted $bb 85458804)$(address $bb 85458803)
# the first SOA of the message has its names in whole, the others point there; JAIN-BB stands at octet 166 first
numbers=00000258000002580036ee8000093a80
first_soa=c00c0006000100000e100021026e73c00c056d6f687461c00c00000003$numbers
soa() { printf '%s' "c00c0006000100000e100018c028c02d000000$1$numbers"; }
input=$zone$'\n%\n'"update $second"$'\n'"update $third"$'\nload a\n'"ixfr a $head_of_ixfr$question_of_ixfr$(since 01)"$'\n'
# and the same with an OPT, of 512 octets with DO, for which there is one behind the same records (RFC 6891, 6.1.1 and 6.1.4)
input+="ixfr a ${head_of_ixfr%0000}0001$question_of_ixfr$(since 01)0000290200000080000000"$'\n'
changes=$(message 000b)$question_of_ixfr$first_soa
changes+=$(soa 01)$(address $nezu 85458805)$(soa 02)$(address $bb 85458804)$(address c0a6 c029c502)
changes+=$(soa 02)$(address c0a6 85458804)$(soa 03)$(address c0a6 85458803)$(soa 03)
with_opt=${changes:0:20}0001${changes:24}00002904d0000080000000
prints "$taken"$'\n'"$taken"$'\na 2\n'"$changes"$'\n'"$with_opt" steps --keep 1 -
