# What a server begins with whose updates last: what `dnsd serve --store` tells at its start, what it leaves in the store's folder, and the zone that `dnsd zone` prints of
# that. Each run ends before its first request: its worker may answer none. The sums of heads and frames are made by `sha256sum`.
store=$room/begun
once=(serve --listen 127.0.0.1:0 --workers 1 --count 0 --store "$store")

# zones of serials 6, 7 and 9; the second with an address at a.example, which an update adds that Python put together (RFC 2136, 2); a text that is no zone
six=$'example. 3600 IN SOA ns.example. host.example. 6 1 1 1 1\nexample. 3600 IN NS ns.example.\n'
seven=${six/ 6 / 7 }
nine=${six/ 6 / 9 }
ten=${six/ 6 / 10 }
with_a=${six/ 6 / 8 }$'a.example. 300 IN A 192.0.2.1\n'
none=$'example. 3600 IN NS ns.example.\n'
add_a=000128000001000000010000076578616d706c6500000600010161076578616d706c6500000100010000012c0004c0000201

# sum_of TEXT: how many octets it has, in eight octets, and their SHA-256
sum_of() {
    printf '%016x%s' ${#1} "$(printf %s "$1" | sha256sum | cut -c1-64)"
}

# octets HEX: prints these octets
octets() {
    # shellcheck disable=SC2059
    printf "$(sed 's/../\\x&/g' <<<"$1")"
}

# head_of NUMBER RANDOM TEXT SERIAL ORIGIN: the head of the journal of the zone text of a number, with these random octets; ORIGIN is the text that all began from
head_of() {
    local head
    head=646e7364206a6f75726e616c2c20320a$(printf %016x "$1")$2$(sum_of "$3")$(printf %08x "$4")$(sum_of "$5")
    printf %s%s "$head" "$(octets "$head" | sha256sum | cut -c1-64)"
}

# frame_of HEAD NUMBER UPDATE: the frame of this number, with a batch of one update, behind a head, whose last 32 octets are its salt
frame_of() {
    local framed
    framed=$(printf '%08x%016x%04x%s' $((${#3} / 2 + 2)) "$2" $((${#3} / 2)) "$3")
    printf %s%s%s "${1: -64:16}" "$framed" "$(octets "${1: -64}$framed" | sha256sum | cut -c1-64)"
}

# lays_store NUMBER TEXT JOURNAL: the folder has the zone text of this number, and a journal of these octets, and nothing else
lays_store() {
    rm -rf "$store"
    mkdir "$store"
    printf %s "$2" >"$store/zone-$1"
    octets "$3" >"$store/journal"
}

# starts TEXT TOLD [WORD..]: a server whose operator names this zone text begins, and tells this of it; nothing where that is empty
starts() {
    input=$1
    local right=$2
    shift 2
    tries "${once[@]}" "$@" -
    [[ $told == *'listening on 127.0.0.1:'* ]] || fails "dnsd serve $*: it doesn't listen: $told"
    told=$(grep -v -e '^listening on 127\.0\.0\.1:' -e '^worker 1 (.*) exited: 0 datagrams' -e '^UDP: receive buffer' <<<"$told" || true)
    [[ $got == 0 && -z $said && $told == "$right" ]] || differs "status 0, and on errors '$right'" "${once[@]}" "$@"
}

# stops STATUS TEXT LINE [WORD..]: it doesn't, and ends with the status and this line, which is the first of the errors; the journal stays as it was
stops() {
    local status=$1 line=$3 before
    before=$(journal_now)
    input=$2
    shift 3
    refuses "$status" "$line" "${once[@]}" "$@" -
    [ "$(journal_now)" = "$before" ] || fails "the journal was changed though nothing is served: $line"
}

# journal_now [DIR]: the octets of the store's journal
journal_now() {
    [ ! -f "${1:-$store}/journal" ] || od -An -v -tx1 "${1:-$store}/journal" | tr -d ' \n'
}

# holds FILE TEXT: the folder has a file of exactly this text
holds() {
    local found
    IFS= read -r -d '' found <"$store/$1" || true
    [ "$found" = "$2" ] || fails "$1 has '$found' where this is right: '$2'"
}

# has_journal OCTETS [DIR]: the store's journal has exactly these octets
has_journal() {
    [ "$(journal_now "${2:-}")" = "$1" ] || fails "the journal has $(journal_now "${2:-}") where this is right: $1"
}

# has_files NAME..: the folder has exactly these files, in this order, and the one that is locked
has_files() {
    [ "$(cd "$store" && printf '%s ' *)" = "$* " ] || fails "the folder has $(cd "$store" && echo *) where this is right: $*"
}

# prints_zone TEXT [DIR]: the zone of the store is this
prints_zone() {
    input=
    prints "${1%$'\n'}" zone "${2:-$store}"
}

# a zone with an alias that goes in circles, a wildcard and a delegation, as an operator writes it, and as it is written: the SOA, then in canonical order (RFC 4034, 6.1)
given='$ORIGIN example.test.
$TTL 3600 ; an hour
@ SOA ns1 admin (1 7200 900
    1209600 300)
 NS NS1
www CNAME web
WEB A 192.0.2.10
mail MX 10 web
*.dyn A 192.0.2.99
loop1 CNAME loop2
loop2 CNAME loop1
out CNAME host.example.net.
sub NS ns.sub
ns.sub A 192.0.2.53
a.b TXT x
ns1 A 192.0.2.1
'
written='example.test. 3600 IN SOA ns1.example.test. admin.example.test. 1 7200 900 1209600 300
example.test. 3600 IN NS ns1.example.test.
a.b.example.test. 3600 IN TXT "x"
*.dyn.example.test. 3600 IN A 192.0.2.99
loop1.example.test. 3600 IN CNAME loop2.example.test.
loop2.example.test. 3600 IN CNAME loop1.example.test.
mail.example.test. 3600 IN MX 10 web.example.test.
ns1.example.test. 3600 IN A 192.0.2.1
out.example.test. 3600 IN CNAME host.example.net.
sub.example.test. 3600 IN NS ns.sub.example.test.
ns.sub.example.test. 3600 IN A 192.0.2.53
web.example.test. 3600 IN A 192.0.2.10
www.example.test. 3600 IN CNAME web.example.test.
'

# a folder without zone texts and a journal is begun from the zone text, and so is one in which a crash has left a part of a first pair: a part of the journal that isn't
# renamed, or the whole, which names zone-0, and a part of that; each time with other random octets; the journal says which text is written, and which one was given. Once
# begun it is served, and stays as it is
salts=()
for left in '' head text; do
    rm -rf "$store"
    mkdir "$store"
    case $left in
        head) repeat 500 x >"$store/journal.new" ;;
        text)
            octets "$(head_of 0 7369787465656e206f63746574732e2e "$seven" 7 "$seven")" >"$store/journal.new"
            printf 'half of a text' >"$store/zone-0"
            ;;
    esac
    starts "$given" "created the store '$store' from ZONE"
    has_files journal lock zone-0
    holds zone-0 "$written"
    begun=$(journal_now)
    salts+=("${begun:48:32}")
    has_journal "$(head_of 0 "${begun:48:32}" "$written" 1 "$given")"
    prints_zone "$written"
    starts "$given" ''
    has_journal "$begun"
done
if [ "${salts[0]}" = "${salts[1]}" ] || [ "${salts[1]}" = "${salts[2]}" ]; then fails 'two stores have the same random octets'; fi

# while another process holds the store, by flock(2), nothing is begun nor served; who only reads it isn't refused
exec 8>"$store/lock"
flock -n 8 || fails 'the store is still held'
stops 1 "$given" "error: the store '$store' is held by another server"
prints_zone "$written"
rm "$store/journal"
stops 1 "$given" "error: the store '$store' is held by another server"
[ ! -e "$store/journal" ] || fails 'a journal was made in a folder that is held'
exec 8>&-

# sum_of_files: the sums of the folder's files
sum_of_files() {
    (cd "$store" && find . -type f -exec sha256sum {} + | sort)
}

# stays STATUS TEXT LINE [WORD..]: as `stops`, and the folder's files stay as they were
stays() {
    local before
    before=$(sum_of_files)
    stops "$@"
    [ "$(sum_of_files)" = "$before" ] || fails "the folder was changed though nothing is served: $3"
}

# zone texts without a journal are no store that can be begun, whatever is taken, since a journal was there: all numbers but 0; 0 beside others, and alone; beside a journal
# that isn't renamed and names another one, as a later pair leaves it, or none. Nothing goes
while read -r laid last texts; do
    rm -rf "$store"
    mkdir "$store"
    touch "$store/lock"
    for number in $texts; do printf %s "$seven" >"$store/zone-$number"; done
    case $laid in
        none) ;;
        other) repeat 500 x >"$store/journal.new" ;;
        *) octets "$(head_of "$laid" 7369787465656e206f63746574732e2e "$seven" 7 "$seven")" >"$store/journal.new" ;;
    esac
    for taken in '' '--take store' '--take zone'; do
        # shellcheck disable=SC2086
        stays 1 "$nine" "error: the store '$store' has the zone text '$store/zone-$last', but no journal, which has the updates since: put the journal back, or move the zone texts out of the directory to create a new store from ZONE" $taken
    done
done <<'end'
none 10 9 10
none 10 10 9
none 18446744073709551615 3 18446744073709551615
none 1 1
none 1 0 1
none 0 0
other 0 0
1 0 0
1 1 0 1
0 1 0 1
0 1 1
end
# moved away, they leave a folder that is begun
rm "$store"/zone-*
starts "$nine" "created the store '$store' from ZONE"
has_files journal lock zone-0

# an origin is misspelt where a store is begun: put right, or where another zone is given, both apexes are told, whatever is taken and whichever serial the text has; case
# is none (RFC 4343, 3)
relative=$'@ 60 SOA ns host 11 1 1 1 1\n@ 60 NS ns\n'
rm -rf "$store"
mkdir "$store"
starts "$relative" "created the store '$store' from ZONE" --origin exmaple.test.
for taken in '' '--take store' '--take zone'; do
    while read -r origin apex serial; do
        # shellcheck disable=SC2086
        stays 1 "${relative/ 11 / $serial }" "error: the zone's text has the apex $apex, and the store '$store' the apex exmaple.test.: give --origin exmaple.test., if that zone is meant, or else --store a new directory" $taken --origin "$origin"
    done <<'end'
example.test. example.test. 11
Example.Test example.test. 11
example.test. example.test. 10
example.test. example.test. 12
sub.exmaple.test. sub.exmaple.test. 12
test. test. 12
. . 12
end
    for origin in exmaple.test. EXMAPLE.test.; do
        # shellcheck disable=SC2086
        starts "$relative" '' $taken --origin "$origin"
    done
done
starts "${relative/ 11 / 12 }" "serving ZONE; changed the store '$store' to it: serial 11 to 12, 0 records deleted, 0 added" --take zone --origin Exmaple.Test.
stays 1 "$relative" "error: the zone's text has the apex example.test., and the store '$store' the apex exmaple.test.: give --origin exmaple.test., if that zone is meant, or else --store a new directory" --origin example.test.

# a store of serial 7 with the update, in which the text of serial 6 isn't the one that it was begun from
head=$(head_of 3 7369787465656e206f63746574732e2e "$seven" 7 "$seven")
whole=$head$(frame_of "$head" 0 "$add_a")
lays_store 3 "$seven" "$whole"
starts "$seven" ''
has_journal "$whole"
prints_zone "$with_a"
# room behind the last batch is cut off
for zeros in 1 9 65536; do
    { octets "$whole" && head -c $zeros /dev/zero; } >"$store/journal"
    starts "$seven" ''
    has_journal "$whole"
done
# what stands torn behind it is kept beside what was kept before, and cut off
ended="the journal of '$store' ended in an incomplete batch: it was cut off, and is kept as '$store"
octets "${whole}746f726e" >"$store/journal"
starts "$seven" "$ended/torn-1'"
octets "${whole}000000000061" >"$store/journal"
starts "$six" "serving the store '$store'; ignoring ZONE: it has changed, but its serial 6 is not newer"$'\n'"$ended/torn-2'"
holds torn-1 torn
[ "$(od -An -tx1 "$store/torn-2")" = ' 00 00 00 00 00 61' ] || fails 'torn-2 has other octets'
has_journal "$whole"
prints_zone "$with_a"
has_files journal lock torn-1 torn-2 zone-3
# an end that is kept already isn't kept once more, whichever of the files has it; a file without octets keeps nothing, and one that a crash has left without its name goes
octets "${whole}746f726e" >"$store/journal"
starts "$seven" "$ended/torn-1'"
has_files journal lock torn-1 torn-2 zone-3
: >"$store/torn-1"
printf to >"$store/torn.new"
octets "${whole}746f726e" >"$store/journal"
starts "$seven" "$ended/torn-1'"
has_files journal lock torn-1 torn-2 zone-3
holds torn-1 torn
printf torm >"$store/torn-1"
octets "${whole}746f726e" >"$store/journal"
starts "$seven" "$ended/torn-3'"
holds torn-3 torn
octets "${whole}000000000061" >"$store/journal"
starts "$seven" "$ended/torn-2'"
has_files journal lock torn-1 torn-2 torn-3 zone-3
# one that can't be written leaves no file, however often that is tried, and the journal has it still: a file may have 1024 octets (setrlimit(2))
lays_store 3 "$seven" "$whole"
touch "$store/lock"
repeat 5000 x >>"$store/journal"
unlimited=$program
printf '#!/usr/bin/env bash\ntrap "" XFSZ\nulimit -f 1\nexec "%s" "$@"\n' "$program" >"$room/limited"
chmod +x "$room/limited"
program=$room/limited
for _ in {1..20}; do
    stays 3 "$seven" "error: the store '$store' can't be read or written: File too large (os error 27)"
done
program=$unlimited
has_files journal lock zone-3
starts "$seven" "$ended/torn-1'"
holds torn-1 "$(repeat 5000 x)"
# each length of the last batch: what is there of it is kept
for ((at = 156; at < ${#whole} / 2; at++)); do
    lays_store 3 "$seven" "${whole:0:2*at}"
    if ((at == 156)); then
        starts "$seven" ''
        has_files journal lock zone-3
    else
        starts "$seven" "$ended/torn-1'"
        [ "$(od -An -v -tx1 "$store/torn-1" | tr -d ' \n')" = "${whole:312:2*(at-156)}" ] || fails "torn-1 has other octets than the $at octets had behind the head"
    fi
    has_journal "$head"
done

# what can't be served changes nothing: a text that is no zone, a journal whose head or batch in front of another is damaged or that is none, and a text that is gone
rm -rf "$store"
mkdir "$store"
stops 1 "$none" 'line 0: M11 Apex'
has_files lock
lays_store 3 "$seven" "${whole/7369787465656e/7369787465656d}"
stops 1 "$seven" "error: '$store/journal' has a damaged head"
stops 1 "$seven" "error: '$store/journal' has a damaged head" --take store
stops 1 "$nine" "error: '$store/journal' has a damaged head" --take zone
lays_store 3 "$seven" 'ff'
stops 1 "$seven" "error: '$store/journal' is too short to be a journal"
lays_store 3 "$seven" "$head${whole:312:18}f${whole:331}$(frame_of "$head" 1 "${add_a/%01/02}")"
stops 1 "$seven" "error: '$store/journal': updates that were answered are damaged before octet $((${#whole} / 2)); dnsd zone --before-fault '$store' prints the zone before them"
lays_store 4 "$seven" "$whole"
stops 1 "$seven" "error: the journal of '$store' belongs to '$store/zone-3', which isn't there"
has_files journal lock zone-4
rm -rf "$store"
stops 3 "$seven" "error: the store '$store' can't be read or written: No such file or directory (os error 2)"
[ ! -e "$store" ] || fails 'a folder was made'

# of the text that the store was begun from no more is looked at than its zone's apex, whatever is taken, and whatever it says
for origin in "${six/ 6 / 11 }" "$none" ''; do
    head=$(head_of 3 7369787465656e206f63746574732e2e "$seven" 7 "$origin")
    lays_store 3 "$seven" "$head"
    starts "$origin" ''
    starts "$origin" '' --take store
    starts "$origin" '' --take zone
    has_journal "$head"
done

# begins_with SERIAL: a store of a zone of this serial, which was begun from another text than all others here
begins_with() {
    lays_store 3 "${six/ 6 / $1 }" "$(head_of 3 7369787465656e206f63746574732e2e "${six/ 6 / $1 }" "$1" 'as it was given')"
}

# another text is compared by its zone's serial (RFC 1982, 3.2): below, the same, the next, just under half the ring ahead, half of it, across the end, and back
while read -r last serial newer; do
    begins_with "$last"
    if [ "$newer" = newer ]; then
        stops 1 "${six/ 6 / $serial }" "error: ZONE has changed since the store '$store' was created, and its serial $serial is newer than the store's $last: --take store serves the store, --take zone changes it to ZONE"
    else
        starts "${six/ 6 / $serial }" "serving the store '$store'; ignoring ZONE: it has changed, but its serial $serial is not newer"
    fi
    prints_zone "${six/ 6 / $last }"
done <<'end'
10 9
10 10
10 11 newer
10 2147483657 newer
10 2147483658
4294967295 0 newer
0 4294967295
end
# and by that of the last version: seven and an update are eight
head=$(head_of 3 7369787465656e206f63746574732e2e "$seven" 7 "$seven")
whole=$head$(frame_of "$head" 0 "$add_a")
lays_store 3 "$seven" "$whole"
starts "${six/ 6 / 8 }" "serving the store '$store'; ignoring ZONE: it has changed, but its serial 8 is not newer"
stops 1 "$nine" "error: ZONE has changed since the store '$store' was created, and its serial 9 is newer than the store's 8: --take store serves the store, --take zone changes it to ZONE"
has_journal "$whole"

# a store that is taken is served, whatever the serials are and whatever the text says; a text that is taken changes the store, to the serial after the store's where the text's
# isn't greater (RFC 1982, 3.2), and to nothing else where that serial is all that differs
while read -r serial newer; do
    begins_with 10
    starts "${six/ 6 / $serial }" "serving the store '$store'; ignoring ZONE" --take store
    prints_zone "${six/ 6 / 10 }"
    if [ "$newer" = newer ]; then
        starts "${six/ 6 / $serial }" "serving ZONE; changed the store '$store' to it: serial 10 to $serial, 0 records deleted, 0 added" --take zone
        prints_zone "${six/ 6 / $serial }"
    else
        starts "${six/ 6 / $serial }" "serving the store '$store', which has the zone of ZONE, with serial 10" --take zone
        prints_zone "${six/ 6 / 10 }"
    fi
    has_files journal lock zone-3
    # from then on it is the text that the store was begun from
    starts "${six/ 6 / $serial }" ''
done <<'end'
7
10
11 newer
2147483657 newer
2147483658
4294967295
end
begins_with 10
starts "${six/ 6 / 7 }"$'a.example. 300 IN A 192.0.2.1\n' "serial 7 of ZONE isn't greater than 10: 11 is served
serving ZONE; changed the store '$store' to it: serial 10 to 11, 0 records deleted, 1 added" --take zone
prints_zone "${six/ 6 / 11 }"$'a.example. 300 IN A 192.0.2.1\n'
begins_with 10
line=$'example. 3600 IN A 192.0.2.256\n'
stops 1 "$line" 'line 1: M6 BadData'
stops 1 "$line" 'line 1: M6 BadData' --take zone
starts "$line" "serving the store '$store'; ignoring ZONE" --take store
has_files journal lock zone-3
# names of the text are relative to the origin that is given
starts $'@ 60 SOA ns host 11 1 1 1 1\n@ 60 NS ns\n' "serving ZONE; changed the store '$store' to it: serial 10 to 11, 0 records deleted, 1 added" --take zone --origin example.
prints_zone $'example. 60 IN SOA ns.example. host.example. 11 1 1 1 1\nexample. 60 IN NS ns.example.\n'

# a store that is changed keeps its zone text and its updates, and the change is one more; what a crash has left of a journal is written over; the next start takes nothing, and
# another text is another change
lays_store 3 "$seven" "$whole"
printf 'half of a text' >"$store/zone-4"
repeat 500 x >"$store/journal.new"
printf %s "$with_a" >"$room/with_a"
printf %s "$nine" >"$room/nine"
printf %s "$ten" >"$room/ten"
input=
tries change --hex "$room/with_a" "$room/nine"
to_nine=${said%$'\n'}
tries change --hex "$room/nine" "$room/ten"
to_ten=${said%$'\n'}
starts "$nine" "serving ZONE; changed the store '$store' to it: serial 8 to 9, 1 records deleted, 0 added" --take zone
has_files journal lock zone-3
begun=$(journal_now)
head=$(head_of 3 "${begun:48:32}" "$seven" 7 "$nine")
has_journal "$head$(frame_of "$head" 0 "$add_a")$(frame_of "$head" 1 "$to_nine")"
holds zone-3 "$seven"
prints_zone "$nine"
for taken in '' '--take store' '--take zone'; do
    # shellcheck disable=SC2086
    starts "$nine" '' $taken
done
has_journal "$begun"
starts "$ten" "serving ZONE; changed the store '$store' to it: serial 9 to 10, 0 records deleted, 0 added" --take zone
has_files journal lock zone-3
begun=$(journal_now)
head=$(head_of 3 "${begun:48:32}" "$seven" 7 "$ten")
has_journal "$head$(frame_of "$head" 0 "$add_a")$(frame_of "$head" 1 "$to_nine")$(frame_of "$head" 2 "$to_ten")"
prints_zone "$ten"

# a journal that can't be written leaves the store
lays_store 3 "$seven" "$whole"
mkdir "$store/journal.new"
stops 3 "$nine" "error: the store '$store' can't be read or written: Is a directory (os error 21)" --take zone
prints_zone "$with_a"

# only a journal that wasn't renamed, and the texts of numbers that are neither the store's nor the one before it, go; the first number has none before it
head=$(head_of 11 7369787465656e206f63746574732e2e "$seven" 7 "$seven")
lays_store 11 "$seven" "$head"
touch "$store"/{journal.new,zone-0,zone-9,zone-12,zone-18446744073709551615,zone-10,torn-1,zone-,zone-9.bak,zone}
starts "$seven" ''
has_files journal lock torn-1 zone zone- zone-10 zone-11 zone-9.bak
head=$(head_of 0 7369787465656e206f63746574732e2e "$seven" 7 "$seven")
lays_store 0 "$seven" "$head"
touch "$store"/zone-{10,11,18446744073709551615}
starts "$seven" ''
has_files journal lock zone-0

# a start that can't listen at an address, which is none of a machine's (RFC 5737, 3), or notify a secondary from one, leaves the directory as it was: an empty one, and a
# store that is torn
for begun in '' yes; do
    rm -rf "$store"
    mkdir "$store"
    if [ -n "$begun" ]; then
        lays_store 3 "$seven" "${whole}746f726e"
        touch "$store"/{journal.new,zone-9}
    fi
    before=$(sum_of_files)
    input=$seven
    refuses 3 "error: cannot listen on 192.0.2.1:5353 (TCP): not an address of this machine" serve --listen 192.0.2.1:5353 --store "$store" -
    refuses 3 "error: cannot listen on 192.0.2.1:5353 (TCP): not an address of this machine" serve --listen 127.0.0.1:0 --listen 192.0.2.1:5353 --store "$store" -
    refuses 3 "error: cannot notify secondary 127.0.0.1:5399: Cannot assign requested address (os error 99)" serve --listen 127.0.0.1:0 --notify 127.0.0.1:5399@192.0.2.1 --store "$store" -
    [ "$(sum_of_files)" = "$before" ] || fails "a start that can't listen changed the store's directory"
done
