# What updates make of a small zone: the forms of RFC 2136, 2.5, each row of the table of effects, and the serial; and what they tell of
# their changes (RFC 1995, 4). Updates are as in update_rules.sh, replies as in lookups.sh.
# shellcheck source=tests/wire.sh
source tests/wire.sh
zone=$updated_zone
# the SOA's data behind its serial, and the octets of three names' data
numbers='00001c20 00000384 00127500 0000012c'
ns1=036e7331076578616d706c65047465737400
web=03776562076578616d706c65047465737400
# the update that makes the first version: a text at the apex, and an alias at www; its serial is 2
start="@ TXT IN 3600 0178; www CNAME IN 3600 $web"

# sends WHAT CODE UPDATES [WORD]: a row whose request is an update, behind a word of a script, and gets the code
sends() {
    local request
    update '@ SOA IN' '' "$3"
    request=${4-}$message
    told "$2"
    expect "$1" "$request" "$message"
}

# asks WHAT NAME TYPE FLAGS ANSWER SERIAL [WORD]: a row whose request is a question, behind a word of a script; where there is no answer the
# SOA of this serial is told (RFC 2308, 3)
asks() {
    local request authority=
    query "$2" "$3"
    request=${7-}$message
    [ -n "${5// /}" ] || [ "$4" = 8700 ] || authority="@ SOA 300 . . $6 $numbers"
    reply "$4" "$2" "$3" "$5" "$authority" ''
    expect "$1" "$request" "$message"
}

# makes WHAT UPDATES VERSION SERIAL NAME TYPE FLAGS ANSWER: the update is taken, and then the last version has this number, and its zone
# this serial and this answer; a run of `dnsd steps`
makes() {
    sends "$1" 0 "$2" 'update '
    expect "$1: the version" 'load a' "a $3"
    asks "$1: the serial" @ SOA 8500 "@ SOA ${soa_ttl-3600} . . $4 $numbers" '' 'ask a '
    asks "$1" "$5" "$6" "$7" "$8" "$4" 'ask a '
    run_expected "$zone" steps --origin example.test. -
}

# effects: rows, on standard input, each a run from the first version: what it shows, the updates, the number of the version then and its
# serial, and what is asked, the flags of the reply and its answer
effects() {
    local what updates version asked answer serial name type flags
    while IFS='|' read -r what updates version asked answer; do
        read -r version serial <<<"$version"
        read -r name type flags <<<"$asked"
        sends "$what: the first version" 0 "$start" 'update '
        makes "$what" "$updates" "$version" "$serial" "$name" "$type" "$flags" "$answer"
    done
}

# what changes, and which set then stands (RFC 2136, 2.5.1 to 2.5.4 and 3.4.2.2 to 3.4.2.4)
effects <<text
2.5.1: a new name|New A IN 60 c0000201|2 00000003|new A 8500|new A 60 c0000201
2.5.1: joins a set|web A IN 60 c0000203|2 00000003|web A 8500|web A 60 c0000201; web A 60 c0000202; web A 60 c0000203
an equal record's TTL|web A IN 60 c0000202|2 00000003|web A 8500|web A 60 c0000201; web A 60 c0000202
a TTL's top bit|new A IN 2147483649 c0000201|2 00000003|new A 8500|new A 0 c0000201
another type|web TXT IN 60 0179|2 00000003|web A 8500|web A 3600 c0000201; web A 3600 c0000202
an alias is replaced|www CNAME IN 60 $ns1|2 00000003|www CNAME 8500|www CNAME 60 ns1
2.5.2: a set goes|WEB A ANY 0|2 00000003|web A 8503|
2.5.2: a set at the apex|@ TXT ANY 0|2 00000003|@ TXT 8500|
2.5.3: a name goes|web ANY ANY 0|2 00000003|web A 8503|
2.5.3: the apex loses its text|@ ANY ANY 0|2 00000003|@ TXT 8500|
2.5.3: the apex keeps its NS|@ ANY ANY 0|2 00000003|@ NS 8500|@ NS 3600 ns1
2.5.4: a record goes|web A NONE 0 c0000201|2 00000003|web A 8500|web A 3600 c0000202
2.5.4: the only record|a.b A NONE 0 c0000201|2 00000003|a.b A 8503|
2.5.4: an alias|www CNAME NONE 0 $web|2 00000003|www CNAME 8503|
a set in place of another|a.b A ANY 0; a.b A IN 60 c0000209|2 00000003|a.b A 8500|a.b A 60 c0000209
text

# an owner without sets is gone, and with it the empty name above it; the version before, which b owns, has both (RFC 4592, 2.2.2)
expect 'the version before' 'load b' 'b 0'
sends 'the only record of a.b' 0 'a.b A ANY 0' 'update '
expect 'the version behind' 'load a' 'a 1'
asks 'a.b before' a.b A 8500 'a.b A 3600 c0000201' '' 'ask b '
asks 'b before' b A 8500 '' 00000001 'ask b '
asks 'web before' web TXT 8500 '' 00000001 'ask b '
asks 'a.b behind' a.b A 8503 '' 00000002 'ask a '
asks 'b behind' b A 8503 '' 00000002 'ask a '
asks 'web behind' web TXT 8500 '' 00000002 'ask a '
run_expected "$zone" steps --origin example.test. -

# what has no effect, and what is taken back, makes no version (RFC 2136, 3.4.2.2 to 3.4.2.4 and 3.6)
soa=$(printf '0000%s%s' 00000002 "${numbers// /}")
while IFS='|' read -r what updates; do
    effects <<<"$what|$updates|1 00000002|web A 8500|web A 3600 c0000201; web A 3600 c0000202"
done <<text
an alias beside data|web CNAME IN 60 $ns1
data beside an alias|www A IN 60 c0000201
an SOA elsewhere|web SOA IN 60 $soa
an equal serial|@ SOA IN 60 $soa
a lesser serial|@ SOA IN 60 ${soa/00000002/00000000}
a record that is there|web A IN 3600 c0000201
the NS of the apex|@ NS ANY 0
the SOA|@ SOA ANY 0
the SOA by its data|@ SOA NONE 0 $soa
the last NS|@ NS NONE 0 $ns1
a set that isn't there|web TXT ANY 0
a record that isn't there|web A NONE 0 c0000203
taken back|new A IN 60 c0000201; new ANY ANY 0
no record|
put back|web A NONE 0 c0000201; web A IN 3600 c0000201
text

# which SOA replaces, and the serial of the next version (RFC 1982, 3.2; RFC 2136, 3.6): what a row shows, the serial before, that of the
# SOA that is sent, and the serial then
small=$zone
while IFS='|' read -r what before sent serial; do
    zone=${small/. . 1 /. . $before }
    updates="new TXT IN 60 0178; @ SOA IN 3600 ${soa/00000002/$sent}"
    makes "$what" "$updates" 1 "$serial" new TXT 8500 'new TXT 60 0178'
done <<'text'
a greater one|1|00000002|00000002
half the ring away|1|80000001|00000002
a lesser one|2|00000001|00000003
round the ring by itself|4294967295|ffffffff|00000000
round the ring|4294967295|00000001|00000001
text
zone=$small

# 256 records of a set and 4,096 octets of data are taken; more of either is SERVFAIL, and what came before in the update has no effect (RFC
# 2136, 3.4.2.7; own)
some=
answer=
for number in {0..255}; do
    digits "$number"
    some+="many A IN 60 0a00$hex; "
    answer+="many A 60 0a00$hex; "
done
printf -v string '%0510d' 0
string=ff${string//0/6}
printf -v text '%.0s'"$string" {1..16}
sends '257 records' 2 "${some}many A IN 60 0a000100"
sends '4,352 octets' 2 "many A IN 60 0a000000; new TXT IN 60 $text$string"
asks 'neither has an effect' many A 8503 '' 00000001
sends '256 records, and 4,096 octets' 0 "${some}new TXT IN 60 $text"
asks '256 records' many A 8500 "$answer" ''
asks '4,096 octets' new TXT 8500 "new TXT 60 $text" ''
asks 'the serial' @ SOA 8500 "@ SOA 3600 . . 00000002 $numbers" ''
run_expected "$zone" answer --tcp --origin example.test. -

# tells WHAT BEFORE SERIAL DELETED ADDED: a row whose request is for what changed since a serial: the new SOA, the old one and what was
# deleted, the new one and what was added, and the new one again (RFC 1995, 4)
tells() {
    local request old="@ SOA 3600 . . $2 $numbers" new="@ SOA 3600 . . $3 $numbers"
    changes_query "$2"
    request=$message
    reply 8500 @ IXFR "$new; $old; ${4:+$4; }$new; ${5:+$5; }$new" '' ''
    expect "$1" "$request" "$message"
}

# what changes in the zone of serial 2, TTLs included; no SOA is among it. A row is what it shows, the updates, the serial then, what was
# deleted and what was added.
while IFS='|' read -r what updates serial deleted added; do
    sends "$what: the first version" 0 "$start"
    sends "$what: the update" 0 "$updates"
    tells "$what" 00000002 "$serial" "$deleted" "$added"
    run_expected "$zone" answer --tcp --origin example.test. -
done <<text
a record at a new name|new A IN 3600 c000024d|00000003||new A 3600 c000024d
a record joins a set|web A IN 3600 c0000203|00000003||web A 3600 c0000203
a record joins and brings its TTL|web A IN 60 c0000203|00000003|web A 3600 c0000201; web A 3600 c0000202|web A 60 c0000201; web A 60 c0000202; web A 60 c0000203
a TTL|web A IN 60 c0000202|00000003|web A 3600 c0000201; web A 3600 c0000202|web A 60 c0000201; web A 60 c0000202
a set goes|WEB A ANY 0|00000003|web A 3600 c0000201; web A 3600 c0000202|
a record goes|web A NONE 0 c0000201|00000003|web A 3600 c0000201|
a record in place of another|web A NONE 0 c0000201; web A IN 3600 c0000204|00000003|web A 3600 c0000201|web A 3600 c0000204
a name goes, and comes with another type|web ANY ANY 0; web TXT IN 3600 0178|00000003|web A 3600 c0000201; web A 3600 c0000202|web TXT 3600 0178
owners in canonical order|web TXT IN 3600 0178; a.b TXT IN 3600 0178; new TXT IN 3600 0178|00000003||a.b TXT 3600 0178; new TXT 3600 0178; web TXT 3600 0178
what was put and deleted again is left out|new A IN 3600 c0000201; @ TXT ANY 0; new ANY ANY 0|00000003|@ TXT 3600 0178|
an SOA is neither|@ SOA IN 3600 ${soa/00000002/00000009}|00000009||
text

# the updates of RFC 1995, 7, at names of ours: one version behind another, each with its own changes
sends 'serial 1' 0 'nezu A NONE 0 85458805; jain-bb A IN 3600 85458804; jain-bb A IN 3600 c029c502'
tells 'from 1 to 2' 00000001 00000002 'nezu A 3600 85458805' 'jain-bb A 3600 85458804; jain-bb A 3600 c029c502'
sends 'serial 2' 0 'jain-bb A NONE 0 85458804; jain-bb A IN 3600 85458803'
tells 'from 2 to 3' 00000002 00000003 'jain-bb A 3600 85458804' 'jain-bb A 3600 85458803'
zone='$TTL 3600
@ NS ns1
@ SOA . . 1 7200 900 1209600 300
nezu A 133.69.136.5'
run_expected "$zone" answer --tcp --origin example.test. -
sends 'serial 1' 0 'nezu A NONE 0 85458805; jain-bb A IN 3600 85458804; jain-bb A IN 3600 c029c502' 'update '
makes 'serial 2' 'jain-bb A NONE 0 85458804; jain-bb A IN 3600 85458803' 2 00000003 jain-bb A 8500 'jain-bb A 3600 85458803; jain-bb A 3600 c029c502'

# records that come to web and to mail by turns: sets that join others, grow, go and come again, and a record that isn't there; of types that
# nobody knows, too. What then stands at both is taken record by record by hand (RFC 2136, 3.4.2; RFC 2181, 5.2; RFC 3597).
type_numbers[ONE]=ff00
type_numbers[OTHER]=ff01
turns='web TXT IN 60 0161; mail TXT IN 60 0162; web ONE IN 60 01; MAIL OTHER IN 60 02; web TXT IN 30 0163; mail A NONE 0 c0000202; '
turns+='WEB ONE ANY 0; mail TXT NONE 0 0162; web A IN 60 c0000203; mail TXT IN 60 0164; web ONE IN 90 03; mail OTHER NONE 0 09'
at_mail='mail TXT 60 0164; mail OTHER 60 02'
at_web='web A 60 c0000201; web A 60 c0000203; web TXT 30 0161; web TXT 30 0163; web ONE 90 03'
sends 'two owners by turns' 0 "$turns"
asks 'what mail then has' mail ANY 8500 "$at_mail" ''
asks 'what web then has' web ANY 8500 "$at_web" ''
tells 'two owners by turns: what changed' 00000001 00000002 'mail A 3600 c0000202; web A 3600 c0000201' "$at_mail; $at_web"
run_expected '$TTL 3600
@ NS ns1
@ SOA . . 1 7200 900 1209600 300
mail A 192.0.2.2
web A 192.0.2.1' answer --tcp --origin example.test. -

# the SOA before keeps its serial where the next goes round the ring (RFC 1982, 3.2)
sends 'serial 4294967295' 0 'new A IN 3600 c000024d'
tells 'from 4294967295 to 0' ffffffff 00000000 '' 'new A 3600 c000024d'
run_expected '$TTL 3600
@ NS ns1
@ SOA . . 4294967295 7200 900 1209600 300' answer --tcp --origin example.test. -
