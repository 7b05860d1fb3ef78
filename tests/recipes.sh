#!/usr/bin/env bash
# Runs each block of commands in docs/OPERATING.md, with addresses, ports and paths of its own in place of those there, and tries what it left: a zone
# saved by a transfer, a store's backup, a backup restored to a new store, which a BIND with a greater serial takes, a zone brought in from another
# server, keys, rules for who may update and transfer, a deployment, and a reload. A block that it doesn't know is a failure, and so is a recipe that no block is of. It prints a line a check and a count, and its
# status is 1 where one failed. It listens on 127.0.0.1 alone, and ends what it starts.
# Usage: [DNSD=PROGRAM] tests/recipes.sh [--port N]
#   --port N    dnsd listens on N (by default 17413), a secondary and another server on the two after it
# It needs Debian's packages bind9-dnsutils, bind9-utils, bind9 and ldnsutils, and the program that `make dnsd` builds.
set -euo pipefail
cd "$(dirname "$0")/.."
program=${DNSD:-$PWD/crates/dnsd/out/dnsd}
port=17413
while [ $# -gt 0 ]; do
    case $1 in
        --port) port=$2; shift 2 ;;
        *) echo "recipes: no option $1" >&2; exit 2 ;;
    esac
done
PATH=$PATH:/usr/sbin:/sbin
. tests/asking.sh
. tests/contrib.sh
need "bind9-dnsutils, bind9-utils, bind9 and ldnsutils" dig nsupdate named named-compilezone ldns-read-zone

secondary=$((port + 1))
other=$((port + 2))
# $room is where a block runs, with $work/zones and $work/store in place of /etc/dnsd and /var/lib/dnsd
room=$work/room
mkdir "$room" "$work/zones" "$work/bin" "$work/blocks"
ln -s "$(realpath "$program")" "$work/bin/dnsd"

# Which recipe a block is, by its first line.
recipe_of() {
    case $(head -1 "$1") in
        'dig '*' @127.0.0.1 -p 5353 example.test. axfr > saved') echo saves_by_transfer ;;
        'dnsd zone /var/lib/dnsd > saved'*) echo saves_a_store ;;
        'serial=$(dig '*) echo restores ;;
        'dig '*' @192.0.2.1 example.com. axfr > theirs') echo brings_in ;;
        "--may '"*) echo permits ;;
        'dnsd check --warn example.test.zone '*) echo deploys ;;
        'dnsd control '*' reload') echo reloads ;;
        'key "'*) echo keys ;;
    esac
}

# Writes a block as $work/block, with what stands here in place of what it names.
ours() {
    sed "s|@127.0.0.1 -p 5353|@127.0.0.1 -p $port|; s|@192.0.2.7|@127.0.0.1 -p $secondary|; s|@192.0.2.1|@127.0.0.1 -p $other|; s|192.0.2.1:53|127.0.0.1:$port|
        s|/etc/dnsd|$work/zones|g; s|/var/lib/dnsd|$work/store|g; s|/run/dnsd|$work|g; s|contrib/convert|$PWD/contrib/convert|" "$1" >"$work/block"
}

# Runs $work/block: its status is printed, and what it says goes to $work/said.
block() {
    (cd "$room" && PATH=$work/bin:$PATH bash -e "$work/block" >"$work/said" 2>&1) && echo 0 || echo $?
}

# Runs a block, in which no address or folder of the page may be left.
runs() {
    local status
    ours "$1"
    check "$recipe: no address or folder of the page is left" '' "$(sed "s|$work||g" "$work/block" | grep -oE '192\.0\.2\.[0-9]+|/(etc|var|run)/[a-z]+|5353' || true)"
    status=$(block)
    check "$recipe: the block runs" 0 "$status"
    [ "$status" = 0 ] || sed 's/^/           /' "$work/said"
}

# Updates with types that dnsd has no words for, and a name with capital letters.
update_all() {
    update "update add client.$d 3600 DHCID AAIBY2/AuCccgoJbsaxcQc9TUapptP69lOjxfNuVAA2kjEA=" "update add $d 3600 CAA 0 issue \"Ca.Example.NET\"" \
        "update add none.$d 3600 TYPE65280 \\# 0" "update add mx.$d 3600 MX 10 Mail.Example.TEST."
}

saves_by_transfer() {
    local want
    serve tests/interop.zone
    update_all
    want=$(octets "$port")
    runs "$1"
    unserve
    serve "$work/zones/zone"
    same "$recipe: a start serves the same, $(wc -l <<<"$want") records with serial $(serial "$port")" "$want" "$(octets "$port")"
    unserve
}

saves_a_store() {
    local want
    mkdir "$work/store"
    serve tests/interop.zone --store "$work/store"
    update_all
    want=$(octets "$port")
    runs "$1"
    unserve
    serve "$room/backup.zone"
    same "$recipe: a start from the backup serves the same, $(wc -l <<<"$want") records" "$want" "$(octets "$port")"
    unserve
    rm -r "$work/store"
}

# The backup has serial 2, and the secondary 3 when the block runs; the restored zone has 4.
restores() {
    local want
    mkdir "$work/store"
    serve tests/interop.zone --store "$work/store" --notify "127.0.0.1:$secondary"
    start_named named.conf secondary "$secondary"
    update_all
    "$program" zone "$work/store" >"$room/backup.zone"
    want=$(octets "$port" | awk '$4 != "TYPE6"')
    update "update add late.$d 3600 A 192.0.2.99"
    reaches "$secondary" 3
    unserve
    secondary=$other ours "$1"
    check "$recipe: the block fails where the secondary doesn't answer, and the store stays" yes \
        "$([ "$(block)" != 0 ] && [ -e "$work/store/journal" ] && [ ! -e "$work/store.before" ] && echo yes)"
    runs "$1"
    serve "$work/zones/zone" --store "$work/store" --notify "127.0.0.1:$secondary"
    reaches "$secondary" 4
    check "$recipe: the serial here and at the secondary" '4 4' "$(serial "$port") $(serial "$secondary")"
    same "$recipe: what the secondary has, but for the SOA" "$want" "$(octets "$secondary" | awk '$4 != "TYPE6"')"
    check "$recipe: the store before is kept" 1 "$("$program" zone "$work/store.before" | grep -c '^late')"
    unserve
    stop secondary
    rm -r "$work/store" "$work/store.before"
}

brings_in() {
    local want
    mkdir -p "$work/primary/tests"
    cp tests/types.zone "$work/primary/tests"
    { cat tests/convert.zone; echo 'mx MX 10 Mail.Example.COM.'; } >"$work/primary/zone"
    start_primary "$other" example.com zone
    reaches "$other" 1 example.com.
    want=$(words "$other" example.com.)
    runs "$1"
    serve "$room/zone"
    same "$recipe: a start serves what the other server has, $(wc -l <<<"$want") records" "$want" "$(words "$port" example.com.)"
    unserve
    stop primary
}

# A file of keys: a server starts with it, and its reply to a query that is signed by each is verified. It stays for the rules that name them.
keys() {
    local key
    install -m 600 "$1" "$work/keys"
    serve zones/example.test.zone --keys "$work/keys"
    for key in $(sed -nE 's/^key "([^"]+)" .*algorithm ([^;]+); secret "([^"]+)".*/\2:\1:\3/p; t; /^hmac-/p' "$1"); do
        check "$recipe: a query signed by ${key%:*}" 1 "$(dig @127.0.0.1 -p "$port" -y "$key" +short "$d" SOA 2>&1 | awk '/verif|TSIG error/ { print } { print $3 }')"
    done
    check "$recipe: a start takes the file" 1 "$(serial "$port")"
    unserve
}

# A block of options: a server starts with them, and by them who may transfer the zone is who the page says.
permits() {
    local rules transfer=123400000001000000000000076578616d706c6504746573740000fc0001
    eval "rules=($(tr '\n' ' ' <"$1"))"
    serve zones/example.test.zone --keys "$work/keys" "${rules[@]}"
    check "$recipe: a start takes the rules, $((${#rules[@]} / 2)) of them" 1 "$(serial "$port")"
    unserve
    check "$recipe: a transfer by the first" $'permitted\nexample.test. AXFR: 10.0.0.0/8: transfer' "$("$program" may "${rules[@]}" 10.1.2.3 $transfer)"
    check "$recipe: a transfer by the last" $'permitted\nexample.test. AXFR: 192.0.2.53: update tcp, transfer' "$("$program" may "${rules[@]}" 192.0.2.53 $transfer)"
    check "$recipe: a transfer by none" $'REFUSED\nexample.test. AXFR: no rule' "$("$program" may "${rules[@]}" 192.0.2.1 $transfer || true)"
}

# A zone file is deployed: a server whose key the block signs by has serial 1, and the file in the room serial 2 and another address.
deploys() {
    (umask 077 && echo 'hmac-sha256:deploy.key:AAECAwQFBgcICQoLDA0ODxAREhMUFRYXGBkaGxwdHh8=' >"$room/deploy.key")
    "$program" check zones/example.test.zone | sed 's/ 1 7200 / 2 7200 /; s/192\.0\.2\.10$/192.0.2.11/' >"$room/example.test.zone"
    serve zones/example.test.zone --allow '' --keys "$room/deploy.key" --may 'key deploy.key: transfer, update'
    runs "$1"
    check "$recipe: its last line" 'example.test.: serial 1 to 2, 1 records deleted, 1 added' "$(tail -1 "$work/said")"
    check "$recipe: the server's serial then" 2 "$(serial "$port")"
    unserve
}

# A zone file is read again: it has serial 2 and another address when the block runs.
reloads() {
    "$program" check zones/example.test.zone >"$work/served.zone"
    serve "$work/served.zone" --control "$work/control"
    sed -i 's/ 1 7200 / 2 7200 /; s/192\.0\.2\.10$/192.0.2.11/' "$work/served.zone"
    runs "$1"
    check "$recipe: the server's serial then" 2 "$(serial "$port")"
    check "$recipe: an address then" 192.0.2.11 "$(dig @127.0.0.1 -p "$port" +short web.example.test. A)"
    unserve
}

awk -v folder="$work/blocks" '/^```/ { inside = !inside; number += inside; next } inside { print > sprintf("%s/%03d", folder, number) }' docs/OPERATING.md
seen=
for block in "$work"/blocks/*; do
    recipe=$(recipe_of "$block")
    check "a block that this test knows: $(head -1 "$block")" yes "$([ -n "$recipe" ] && echo yes)"
    [ -z "$recipe" ] || "$recipe" "$block"
    seen="$seen $recipe"
done
for recipe in saves_by_transfer saves_a_store restores brings_in keys permits deploys reloads; do
    check "$recipe: a block is of it" yes "$([[ " $seen " != *" $recipe "* ]] || echo yes)"
done
echo "$passed checks passed, $failed failed"
[ $failed -eq 0 ]
