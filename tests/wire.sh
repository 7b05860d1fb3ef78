# Messages of DNS in hexadecimal, put together from words, for the tables of tests/rows that read this file at their head. A name ends in a
# dot, or stands below $origin, and `@` is $origin itself. Nothing here is the program's: names are pointed to as RFC 1035, 4.1.4 has it.
# shellcheck shell=bash disable=SC2034

origin=example.test.
# the numbers of types and classes (RFC 1035, 3.2; RFC 2136, 2.4); UNKNOWN is a type that nobody here knows
declare -A type_numbers=([A]=0001 [NS]=0002 [CNAME]=0005 [SOA]=0006 [PTR]=000c [MX]=000f [TXT]=0010 [AAAA]=001c [SRV]=0021 [OPT]=0029 [UNKNOWN]=0063
    [IXFR]=00fb [AXFR]=00fc [ANY]=00ff)
declare -A class_numbers=([IN]=0001 [CH]=0003 [NONE]=00fe [ANY]=00ff)

# the small zone that tables send updates to
updated_zone='$TTL 3600
@ NS ns1
@ SOA . . 1 7200 900 1209600 300
a.b A 192.0.2.1
web A 192.0.2.1
web A 192.0.2.2'

# the message under way, and where each name in it stands that can be pointed to
message=
declare -A places=()
declare -A labels=()

# begin HEX..: begins a message with these octets
begin() {
    message=
    places=()
    put "$@"
}

# put HEX..: puts octets behind the message
put() {
    local IFS=
    message+="$*"
    message=${message// /}
}

# put_label LABEL: puts a label behind the message, its length in front (RFC 1035, 3.1)
put_label() {
    local label=$1 hex at
    if [ -z "${labels[$label]-}" ]; then
        printf -v hex '%02x' ${#label}
        labels[$label]=$hex
        for ((at = 0; at < ${#label}; at++)); do
            printf -v hex '%02x' "'${label:at:1}"
            labels[$label]+=$hex
        done
    fi
    message+=${labels[$label]}
}

# whole NAME: sets $name to the name with all its labels
whole() {
    case $1 in
        @) name=$origin ;;
        *.) name=$1 ;;
        *) name=$1.$origin ;;
    esac
}

# put_in_full NAME: puts a name with all its labels, to which nothing then points
put_in_full() {
    local name rest
    whole "$1"
    rest=$name
    while [ -n "$rest" ] && [ "$rest" != . ]; do
        put_label "${rest%%.*}"
        rest=${rest#*.}
    done
    message+=00
}

# put_name NAME: puts a name, with the longest end of it that stands before, spelt the same, as a pointer (RFC 1035, 4.1.4)
put_name() {
    local name rest at
    whole "$1"
    rest=$name
    while [ -n "$rest" ] && [ "$rest" != . ]; do
        at=${places[$rest]-}
        if [ -n "$at" ]; then
            message+=$at
            return
        fi
        at=$((${#message} / 2))
        [ $at -gt 16383 ] || printf -v "places[$rest]" '%04x' $((0xc000 + at))
        put_label "${rest%%.*}"
        rest=${rest#*.}
    done
    message+=00
}

# put_question NAME TYPE: puts a question of class IN
put_question() {
    put_name "$1"
    message+=${type_numbers[$2]}0001
}

# put_data TYPE WORD..: puts a record's data: names, and octets in hexadecimal in front of them or behind; that of an SRV isn't pointed from
# (RFC 2782)
put_data() {
    case $1 in
        NS | CNAME | PTR) put_name "$2" ;;
        MX) put "$2" && put_name "$3" ;;
        SRV) put "$2" && put_in_full "$3" ;;
        SOA) put_name "$2" && put_name "$3" && put "${@:4}" ;;
        *) put "${@:2}" ;;
    esac
}

# put_behind_length COMMAND..: puts what the command puts, with its length in front, in two octets
put_behind_length() {
    local at=${#message} len
    message+=0000
    "$@"
    printf -v len '%04x' $(((${#message} - at) / 2 - 2))
    message=${message:0:at}$len${message:at+4}
}

# put_record OWNER TYPE TTL WORD..: puts a record of class IN (RFC 1035, 4.1.3)
put_record() {
    local ttl
    put_name "$1"
    printf -v ttl '%08x' "$3"
    message+=${type_numbers[$2]}0001$ttl
    put_behind_length put_data "$2" "${@:4}"
}

# put_raw OWNER TYPE CLASS TTL [HEX]: puts a record as it is sent in an update or a transfer: its owner in full, its data these octets
put_raw() {
    local ttl
    put_in_full "$1"
    printf -v ttl '%08x' "$4"
    message+=${type_numbers[$2]}${class_numbers[$3]}$ttl
    put_behind_length put "${5-}"
}

# each LIST COMMAND: calls the command with the words of each record of a list, which has `; ` between them, and sets $count to how many
# there are
each() {
    local list words record
    count=0
    IFS=\; read -ra list <<<"$1"
    for record in "${list[@]}"; do
        read -ra words <<<"$record"
        [ ${#words[@]} != 0 ] || continue
        "$2" "${words[@]}"
        count=$((count + 1))
    done
}

# digits NUMBER: sets $hex to a number of two octets
digits() {
    printf -v hex '%04x' "$1"
}

# count_at PLACE NUMBER: puts a number in place of two octets of the message
count_at() {
    local hex
    digits "$2"
    message=${message:0:$1*2}$hex${message:$1*2+4}
}

# query NAME TYPE: makes $message the query of ID 0x1234 with RD (RFC 1035, 4.1)
query() {
    begin 1234 0100 0001 0000 0000 0000
    put_question "$1" "$2"
}

# reply FLAGS NAME TYPE ANSWER AUTHORITY ADDITIONAL: makes $message the reply of ID 0x1234 with these flags, this question and these
# sections
reply() {
    local count
    begin 1234 "$1" 0001 0000 0000 0000
    put_question "$2" "$3"
    each "$4" put_record && count_at 6 "$count"
    each "$5" put_record && count_at 8 "$count"
    each "$6" put_record && count_at 10 "$count"
}

# changes_query SERIAL: makes $message the query for what changed of the zone at $origin since a serial (RFC 1995, 3)
changes_query() {
    begin 1234 0100 0001 0000 0001 0000
    put_question @ IXFR
    put_record @ SOA 0 . . "$1" 00000000 00000000 00000000 00000000
}

# update ENTRY PREREQUISITES UPDATES: makes $message the update of ID 0x4321 (RFC 2136, 2): its zone section is a name, a type and a class
update() {
    local count entry
    read -ra entry <<<"$1"
    begin 4321 2800 0001 0000 0000 0000
    put_in_full "${entry[0]}"
    put "${type_numbers[${entry[1]}]}" "${class_numbers[${entry[2]}]}"
    each "$2" put_raw && count_at 6 "$count"
    each "$3" put_raw && count_at 8 "$count"
}

# told CODE: makes $message the reply to that update, a header with the code alone (RFC 2136, 3.8)
told() {
    local code
    printf -v code '%x' "$1"
    message=4321a80${code}0000000000000000
}

# expect WHAT REQUEST REPLY: a row of the run that `run_expected` makes: what it shows, what the program reads, and what it prints
expected=()
expect() {
    expected+=("$1" "$2" "$3")
}

# run_expected ZONE WORD..: over the words, and the zone's text, a line `%` and the requests of the rows that are expected, a line each, the
# program prints the reply of each row on a line. Then no row is expected.
run_expected() {
    local said at
    [ ${#expected[@]} != 0 ] || return 0
    input=$1$'\n%'
    for ((at = 1; at < ${#expected[@]}; at += 3)); do input+=$'\n'${expected[at]}; done
    mapfile -t said < <(timeout 10 "$program" "${@:2}" <<<"$input" 2>&1)
    for ((at = 0; at < ${#expected[@]}; at += 3)); do
        rows=$((rows + 1))
        if [ "${said[at / 3]-}" != "${expected[at + 2]}" ]; then
            fails "${expected[at]}: it printed"$'\n'"${said[at / 3]-nothing}"$'\n'"where this is right:"$'\n'"${expected[at + 2]}"
        fi
    done
    [ ${#said[@]} = $((${#expected[@]} / 3)) ] || fails "dnsd ${*:2}: ${#said[@]} lines for $((${#expected[@]} / 3)) rows"
    expected=()
}
