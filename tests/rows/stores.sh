# The zone of a store: what `dnsd zone` prints of a zone text and its journal, and what it tells where they give no start. Python put the octets of the journals
# together.
store=$room/store

# a zone text of serial 7, and behind it what three batches leave of it: an address at a.example; one at b.example, and one more at a.example; b.example without data
text=$'example. 3600 IN SOA ns.example. host.example. 7 1 1 1 1\nexample. 3600 IN NS ns.example.'
first=${text/ 7 / 8 }$'\na.example. 300 IN A 192.0.2.1'
second=${text/ 7 / 10 }$'\na.example. 300 IN A 192.0.2.1\na.example. 300 IN A 192.0.2.3\nb.example. 300 IN A 192.0.2.2'
third=${text/ 7 / 11 }$'\na.example. 300 IN A 192.0.2.1\na.example. 300 IN A 192.0.2.3'

# the journal's head, of text 3, and the frames of these batches
head=646e7364206a6f75726e616c2c20320a00000000000000037369787465656e206f63746574732e2e00000000000000595ede934601639a0066d8605aa1fbc2b01f202b2434f34522e7a450c0ddc35cad
head+=00000007000000000000000f278032eeecbdc02092f0ecada9e54ea83a4035196c8e09db8bae8234e8ff7413d7a6ab14b984491daa3b2e0e5162dd20b8f0ae90fe88dbed282d9555c18641d8
frames=(
    d7a6ab14b984491d0000003400000000000000000032000128000001000000010000076578616d706c6500000600010161076578616d706c6500000100010000012c0004c0000201eec00def82afa5aea6acd1dfba328fe74d194483c96f9079cbbe3a84e363e792
    d7a6ab14b984491d0000006800000000000000010032000128000001000000010000076578616d706c6500000600010162076578616d706c6500000100010000012c0004c00002020032000128000001000000010000076578616d706c6500000600010161076578616d706c6500000100010000012c0004c0000203cf1cf249d2fdf96176ec47f8e0c5cc3775806aff3326e2d0e93c094688ec9830
    d7a6ab14b984491d000000300000000000000002002e000128000001000000010000076578616d706c6500000600010162076578616d706c650000ff00ff000000000000cd6b25d14dae72138e56a391f3faaff0bc24d3677a22660855795240e421d0de
)
whole=$head${frames[0]}${frames[1]}${frames[2]}

# lays TEXT OCTETS: the store has the text of number 3, with a line's end behind it, and a journal of these octets in hexadecimal
lays() {
    mkdir -p "$store"
    printf '%s\n' "$1" >"$store/zone-3"
    # shellcheck disable=SC2059
    printf "$(sed 's/../\\x&/g' <<<"$2")" >"$store/journal"
}

# prints_stored ZONE OCTETS [WORD]: the store of the text and a journal of these octets has this zone
prints_stored() {
    lays "$text" "$2"
    prints "$1" zone ${3+"$3"} "$store"
}

# tells_stored SENTENCE OCTETS [WORD]: it has none, which is told by a sentence that begins so
tells_stored() {
    lays "$text" "$2"
    refuses 1 "error: $1" zone ${3+"$3"} "$store"
}

# the zone behind as many batches as there are; what a crash has left behind them is no part of it, nor a last batch that is damaged
input=
prints_stored "$text" "$head"
prints_stored "$first" "$head${frames[0]}"
prints_stored "$second" "$head${frames[0]}${frames[1]}"
prints_stored "$third" "$whole"
prints_stored "$third" "${whole}00000000"
prints_stored "$third" "${whole}0000003400000000"
prints_stored "$third" "$whole$(repeat 40 00)"
prints_stored "$third" "$whole$(repeat 40 00)78"
prints_stored "$second" "${whole/%de/df}"
prints_stored "$third" "$whole" --before-fault
prints_stored "$second" "${whole/%de/df}" --before-fault

# what each update of the batches changed, one after the other; where the store gives no start, nothing but its fault is printed
soa='example. 3600 IN SOA ns.example. host.example.'
one="serial 7 to 8, 0 deleted, 1 added
- $soa 7 1 1 1 1
+ $soa 8 1 1 1 1
+ a.example. 300 IN A 192.0.2.1"
two="$one
serial 8 to 9, 0 deleted, 1 added
- $soa 8 1 1 1 1
+ $soa 9 1 1 1 1
+ b.example. 300 IN A 192.0.2.2
serial 9 to 10, 0 deleted, 1 added
- $soa 9 1 1 1 1
+ $soa 10 1 1 1 1
+ a.example. 300 IN A 192.0.2.3"
three="$two
serial 10 to 11, 1 deleted, 0 added
- $soa 10 1 1 1 1
- b.example. 300 IN A 192.0.2.2
+ $soa 11 1 1 1 1"
lays "$text" "$head"
prints '' journal "$store"
lays "$text" "$head${frames[0]}"
prints "$one" journal "$store"
lays "$text" "$head${frames[0]}${frames[1]}"
prints "$two" journal "$store"
lays "$text" "$whole"
prints "$three" journal "$store"
lays "$text" "${whole}0000003400000000"
prints "$three" journal "$store"
lays "$text" "${whole/c0000202/c0000204}"
says 1 "error: '$store/journal': updates that were answered are damaged before octet 416; dnsd zone --before-fault '$store' prints the zone before them" journal "$store"
lays "$first" "$whole"
says 1 "error: the zone text of '$store' isn't the one that '$store/journal' belongs to" journal "$store"
lays "$text" "$head${frames[0]}d7a6ab14b984491d0000003400000000000000010032000128000001000000010000076578616d706c6500000600010161076578616d706c6500000100010000012c0004c0000201b5581b164dd086a2790644c88785751399057b6ca2d05110b364ff07f14a3093"
says 1 "error: '$store/journal': update 1, counted from 0, changes nothing" journal "$store"
row 3 "error: the store '$store/none' can't be read: " journal "$store/none"
row 2 DIR journal

# a batch that is damaged in front of another is told by the octet at which that begins, and the zone in front of it is printed where that is asked for
damaged=${whole/c0000202/c0000204}
tells_stored "'$store/journal': updates that were answered are damaged before octet 416; dnsd zone --before-fault '$store' prints the zone before them" "$damaged"
prints_stored "$first" "$damaged" --before-fault
damaged=${whole/c0000201/c0000204}
tells_stored "'$store/journal': updates that were answered are damaged before octet 260; dnsd zone --before-fault '$store' prints the zone before them" "$damaged"
prints_stored "$text" "$damaged" --before-fault
lays "$text" "$damaged"
prints "$text" zone "$store" --before-fault

# each octet of a journal turned, and each length: in the head it is told by name; a batch in front of another is damaged, which is told by where the next one begins; the
# last one is torn
ends=(156 260 416)
for ((at = 0; at < ${#whole} / 2; at++)); do
    printf -v octet %02x $((0x${whole:2*at:2} ^ 255))
    turned=${whole:0:2*at}$octet${whole:2*at+2}
    cut=${whole:0:2*at}
    if ((at < 16)); then
        tells_stored "'$store/journal' is no journal of format 2" "$turned"
    elif ((at < ends[0])); then
        tells_stored "'$store/journal' has a damaged head" "$turned"
    elif ((at < ends[2])); then
        next=$((at < ends[1] ? ends[1] : ends[2]))
        tells_stored "'$store/journal': updates that were answered are damaged before octet $next; dnsd zone --before-fault '$store' prints the zone before them" "$turned"
    else
        prints_stored "$second" "$turned"
    fi
    if ((at < ends[0])); then
        tells_stored "'$store/journal' is too short to be a journal" "$cut"
    elif ((at < ends[1])); then
        prints_stored "$text" "$cut"
    elif ((at < ends[2])); then
        prints_stored "$first" "$cut"
    else
        prints_stored "$second" "$cut"
    fi
done

# each octet of the zone text turned, and each shorter one: it is another text, whatever it says
for ((at = 0; at < ${#text}; at++)); do
    printf -v octet %d "'${text:at:1}"
    printf -v octet %02x $((octet ^ 1))
    for other in "${text:0:at}$(printf "\\x$octet")${text:at+1}" "${text:0:at}"; do
        lays "$other" "$whole"
        refuses 1 "error: the zone text of '$store' isn't the one that '$store/journal' belongs to" zone "$store"
    done
done

# heads that are none, and a text that is another's
for word in '' --before-fault; do
    tells_stored "'$store/journal' is too short to be a journal" "${head%??}" ${word:+"$word"}
    tells_stored "'$store/journal' is no journal of format 2" "65${whole#64}" ${word:+"$word"}
    lays "$first" "$whole"
    refuses 1 "error: the zone text of '$store' isn't the one that '$store/journal' belongs to" zone ${word:+"$word"} "$store"
done
# the random octets turned, and no octets
tells_stored "'$store/journal' has a damaged head" "${whole/7369787465656e/7369787465656d}"
tells_stored "'$store/journal' is too short to be a journal" ''

# texts that are no zone, also beside the journal of another text, which is told first; and a head that says another serial
other=646e7364206a6f75726e616c2c20320a00000000000000037369787465656e206f63746574732e2e0000000000000039ba1bbb4578845c9e8fb94aedf8fae2d7dd4a2540a058fa68f33beef02aadde56
other+=00000007000000000000000f278032eeecbdc02092f0ecada9e54ea83a4035196c8e09db8bae8234e8ff7413ce878244bc21dd78da89f89d5abef1e4747d9b23586d6a29c0698d0d2ed5bcc5
lays "${text%%$'\n'*}" "$other"
row 1 "error: the zone text of '$store' is no zone: " zone "$store"
tells_stored "the zone text of '$store' isn't the one that '$store/journal' belongs to" "$other"
other=646e7364206a6f75726e616c2c20320a00000000000000037369787465656e206f63746574732e2e000000000000001f5d805657d6fee44664175eb859cb2217dae83f98e38c5ef609d86a5ca271a58000
other+=000007000000000000000f278032eeecbdc02092f0ecada9e54ea83a4035196c8e09db8bae8234e8ff741375dfe23b491cc1bc508fb67efa3ad4f157688bad41b657980cb50e87b98e01d5
lays 'example. 3600 IN A 192.0.2.256' "$other"
refuses 1 "error: the zone text of '$store' is no zone: line 1: M6 BadData" zone "$store"
for other in "${text##*$'\n'}" 'example. 3600 IN A 192.0.2.256'; do
    lays "$other" "$whole"
    refuses 1 "error: the zone text of '$store' isn't the one that '$store/journal' belongs to" zone "$store"
done
other=${head:0:160}00000008000000000000000f278032eeecbdc02092f0ecada9e54ea83a4035196c8e09db8bae8234e8ff7413a9a26c0bf1224c6d69c06b59de47175152355f82dac7f6546374cd062b5d80be
tells_stored "the zone text of '$store' has another serial than '$store/journal' says" "$other"

# a batch that is none, and updates that aren't taken again: outside the zone (RFC 2136, 3.4.1.3), there already, and no message
taken=$head${frames[0]}
tells_stored "'$store/journal': batch 1, counted from 0, has no updates" "${taken}d7a6ab14b984491d0000000500000000000000010005616263246ab7621bb118e5519ba46b99130d011a827dbb3a5de3e896728d13c135a11c"
tells_stored "'$store/journal': update 1, counted from 0, is refused on replay, with RCODE 10" "${taken}d7a6ab14b984491d000000310000000000000001002f000128000001000000010000076578616d706c6500000600010161047465737400000100010000012c0004c0000201ce5f8cac028510aa0a5c8619c0be6e7c8815e1aec6489fc9157a3beadae322bf"
tells_stored "'$store/journal': update 1, counted from 0, changes nothing" "${taken}d7a6ab14b984491d0000003400000000000000010032000128000001000000010000076578616d706c6500000600010161076578616d706c6500000100010000012c0004c0000201b5581b164dd086a2790644c88785751399057b6ca2d05110b364ff07f14a3093"
tells_stored "'$store/journal': update 1, counted from 0, is none" "${taken}d7a6ab14b984491d0000000300000000000000010001008df7916986e00f0b929c8f4418c247bd46dd9b15b47685a9d21e98e94f3dca93"

# an update between two others of a batch, which isn't taken, is told by its place among all: a query, a reply, and a message that is cut in its update
# section; a record outside the zone; and one that is there already
tells_stored "'$store/journal': update 2, counted from 0, is none" \
    "${taken}d7a6ab14b984491d0000007f00000000000000010032000128000001000000010000076578616d706c6500000600010162076578616d706c6500000100010000012c0004c00002020019000100000001000000000000076578616d706c650000060001002e000128000001000000010000076578616d706c6500000600010162076578616d706c650000ff00ff00000000000083bad9a67a648d9ada30da995df7bfa2b67cdb2d5a89d22498d298700b9bcc5b"
tells_stored "'$store/journal': update 2, counted from 0, is none" \
    "${taken}d7a6ab14b984491d0000007f00000000000000010032000128000001000000010000076578616d706c6500000600010162076578616d706c6500000100010000012c0004c000020200190001a8000001000000000000076578616d706c650000060001002e000128000001000000010000076578616d706c6500000600010162076578616d706c650000ff00ff000000000000152f241b23a5c7f1a0c1a5ede3c3efe0c1786126824b3acf41bfb932b263001e"
tells_stored "'$store/journal': update 2, counted from 0, is none" \
    "${taken}d7a6ab14b984491d0000008000000000000000010032000128000001000000010000076578616d706c6500000600010162076578616d706c6500000100010000012c0004c0000202001a000128000001000000010000076578616d706c65000006000101002e000128000001000000010000076578616d706c6500000600010162076578616d706c650000ff00ff000000000000810d6ea0a527eb68e5ee91381000fbaa031bc70e937c6aa5203177ce9da02e29"
tells_stored "'$store/journal': update 2, counted from 0, is refused on replay, with RCODE 10" \
    "${taken}d7a6ab14b984491d0000009500000000000000010032000128000001000000010000076578616d706c6500000600010162076578616d706c6500000100010000012c0004c0000202002f000128000001000000010000076578616d706c6500000600010161047465737400000100010000012c0004c0000201002e000128000001000000010000076578616d706c6500000600010162076578616d706c650000ff00ff000000000000a0b30df56bc3ed346f30cf8ebd5d5579f23baa350d28aa15d7185c97e6989ca9"
tells_stored "'$store/journal': update 2, counted from 0, changes nothing" \
    "${taken}d7a6ab14b984491d0000009800000000000000010032000128000001000000010000076578616d706c6500000600010162076578616d706c6500000100010000012c0004c00002020032000128000001000000010000076578616d706c6500000600010161076578616d706c6500000100010000012c0004c0000201002e000128000001000000010000076578616d706c6500000600010162076578616d706c650000ff00ff000000000000394e7a057b4642ef94bd8d7cfef875060f6ab10ab732c4ebab23a135b0a76e9c"

# an update in several messages, between two of which are no octets after their number: it is the first with the records of all, and makes one version. It isn't taken where
# one of them is no update, nor where it changes nothing: one message adds a record, and the next one deletes it
prints_stored "${first/ 8 / 9 }"$'\na.example. 300 IN A 192.0.2.3\nb.example. 300 IN A 192.0.2.2' \
    "${taken}d7a6ab14b984491d0000006a00000000000000010032000128000001000000010000076578616d706c6500000600010162076578616d706c6500000100010000012c0004c000020200000032000128000001000000010000076578616d706c6500000600010161076578616d706c6500000100010000012c0004c00002034284a58206dd0e8ff675238558dae628589f618c57842480b315e6fcc15afea2"
tells_stored "'$store/journal': update 1, counted from 0, is none" \
    "${taken}d7a6ab14b984491d0000005100000000000000010032000128000001000000010000076578616d706c6500000600010162076578616d706c6500000100010000012c0004c000020200000019000100000001000000000000076578616d706c65000006000139747f85366469127572c32f6667bbf5697618442d6c041b50976a05c7660df7"
tells_stored "'$store/journal': update 1, counted from 0, changes nothing" \
    "${taken}d7a6ab14b984491d0000006600000000000000010032000128000001000000010000076578616d706c6500000600010162076578616d706c6500000100010000012c0004c00002020000002e000128000001000000010000076578616d706c6500000600010162076578616d706c650000ff00ff00000000000099d6e6f4e1803b439b4f99e5c44b7c129382d810ad8e157e4fe483e4c1a59f55"

# a batch that begins or ends with no octets, or has them twice between two messages
for octets in \
    d7a6ab14b984491d00000036000000000000000100000032000128000001000000010000076578616d706c6500000600010162076578616d706c6500000100010000012c0004c0000202765fe1f73f1a6993abe692150632cc7e9c5e64ab20c82be6d480c4fc4b667578 \
    d7a6ab14b984491d0000003600000000000000010032000128000001000000010000076578616d706c6500000600010162076578616d706c6500000100010000012c0004c00002020000df0a9be50aee81f55b47d7c268aaa3530a1f197b21b13cc9a4a8904d96ecd4db \
    d7a6ab14b984491d0000006c00000000000000010032000128000001000000010000076578616d706c6500000600010162076578616d706c6500000100010000012c0004c0000202000000000032000128000001000000010000076578616d706c6500000600010161076578616d706c6500000100010000012c0004c00002039daf800195477cbb6e215418547df48e40689fbc9e0c7ebc8eebef8bf35f69aa; do
    tells_stored "'$store/journal': batch 1, counted from 0, has no updates" "$taken$octets"
done

# a text that is gone, and a journal and a folder that aren't there; nothing is made of them
rm "$store/zone-3"
row 3 "error: the store '$store' can't be read: " zone "$store"
rm "$store/journal"
row 3 "error: the store '$store' can't be read: " zone "$store"
rmdir "$store"
row 3 "error: the store '$store' can't be read: " zone --before-fault "$store"
[ ! -e "$store" ] || fails 'a folder was made'

# which words it takes
row 2 DIR zone
row 2 "'--origin'" zone --origin x "$store"
row 2 "'other'" zone "$store" other
