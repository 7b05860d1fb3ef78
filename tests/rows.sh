#!/usr/bin/env bash
# Tries the program over tables: each file of tests/rows is a table of rows, which say what dnsd prints over which words and input, and
# with which status it ends. What is expected stands in the tables, from the RFCs' text or worked by hand. It prints a line for each row
# that fails, and last 'N passed, N failed'; its status is 1 where one failed. It listens on no socket. Usage: [DNSD=PROGRAM] tests/rows.sh
# [FILE..]. It needs the program that `make dnsd` or `make prove` builds, or the one that DNSD names, sha256sum and flock.
# A run has 10 seconds, or ROW_SECONDS, since a program compiled with checks is slower.
set -euo pipefail
cd "$(dirname "$0")/.."
export LC_ALL=C
program=${DNSD:-$PWD/crates/dnsd/out/dnsd}
[ -x "$program" ] || { echo "rows: no program at $program: run make dnsd first" >&2; exit 2; }
room=$(mktemp -d)
trap 'rm -rf "$room"' EXIT
input=     # what the program reads
zone_text= # the zone's text in front of what a table's function puts behind it
rows=0
failed=0

# fails WHAT: tells that a row failed
fails() {
    failed=$((failed + 1))
    printf '%s: %s\n' "$table" "$1"
}

# tries WORD..: runs the program over the words and $input: $got is its status, $said what it wrote on its output, $told on the other
tries() {
    rows=$((rows + 1))
    got=0
    printf '%s' "$input" >"$room/input"
    timeout "${ROW_SECONDS:-10}" "$program" "$@" <"$room/input" >"$room/said" 2>"$room/told" || got=$?
    IFS= read -r -d '' said <"$room/said" || true
    IFS= read -r -d '' told <"$room/told" || true
}

# differs RIGHT WORD..: tells that over the words something else was said than is right
differs() {
    local right=$1
    shift
    fails "dnsd $*: status $got, on errors '$told', and it printed:"$'\n'"${said:0:4000}"$'\n'"where this is right: ${right:0:4000}"
}

# row STATUS PART WORD..: over the words and $input, the program ends with the status, and PART stands in what it prints on the two outputs
row() {
    local status=$1 part=$2
    shift 2
    tries "$@"
    [[ $got == "$status" && $said$told == *"$part"* ]] || differs "status $status, and in it '$part'" "$@"
}

# prints TEXT WORD..: over the words and $input, the program prints exactly the text and a line's end on its output (nothing where there is
# no text), nothing on the other, and its status is 0
prints() {
    local text=${1:+$1$'\n'}
    shift
    tries "$@"
    [[ $got == 0 && $said == "$text" && -z $told ]] || differs "$text" "$@"
}

# spans LENGTH PATTERN WORD..: the same of a text that is like the pattern, and has so many octets with its line's end, any where LENGTH is *
spans() {
    local length=$1 pattern=$2
    shift 2
    tries "$@"
    # shellcheck disable=SC2053
    [[ $got == 0 && ${#said} == $length && $said == $pattern$'\n' && -z $told ]] || differs "$length octets like $pattern" "$@"
}

# refuses STATUS LINE WORD..: over the words and $input, the program ends with the status, prints nothing on its output, and LINE is the
# first line on the other
refuses() {
    local status=$1 line=$2
    shift 2
    tries "$@"
    [[ $got == "$status" && -z $said && ${told%%$'\n'*} == "$line" ]] || differs "status $status, on errors '$line'" "$@"
}

# says STATUS TEXT WORD..: the same, and the text and a line's end are all that is on the other
says() {
    local status=$1 text=$2
    shift 2
    tries "$@"
    [[ $got == "$status" && -z $said && $told == "$text"$'\n' ]] || differs "status $status, on errors '$text'" "$@"
}

# repeat COUNT TEXT: prints the text so many times
repeat() {
    # shellcheck disable=SC2046
    printf -- "${2//%/%%}%.0s" $(seq "$1")
}

# spell TEXT: $spelt is the text, in which ␉ stands for a tab, ␠ for a blank, ␊ for an LF, ␍ for a CR, ␛ for an ESC, � for the octet 128, and
# ␄ for the end: it is left out with all that follows
spell() {
    spelt=${1%%␄*}
    spelt=${spelt//␉/$'\t'}
    spelt=${spelt//␠/ }
    spelt=${spelt//␊/$'\n'}
    spelt=${spelt//␍/$'\r'}
    spelt=${spelt//␛/$'\e'}
    spelt=${spelt//�/$'\x80'}
}

# takes: $input is the text that stands on standard input, as `spell` has it
takes() {
    IFS= read -r -d '' input || true
    spell "$input"
    input=$spelt
}

# takes_zone: the same of $zone_text
takes_zone() {
    takes
    zone_text=$input
}

# reads WORD..: on standard input stand a zone's text, as `spell` has it, a line =>, and what `dnsd check` prints of it under the words, or
# the first line of the errors where that is a fault
reads() {
    local both
    IFS= read -r -d '' both || true
    spell "${both%%$'\n=>\n'*}"$'\n'
    both=${both#*$'\n=>\n'}
    input=$spelt
    case $both in
        'line '[0-9]*) refuses 1 "${both%$'\n'}" check "$@" - ;;
        *) prints "${both%$'\n'}" check "$@" - ;;
    esac
}

# faults WORD..: each line on standard input is a text, as `spell` has it, =>, and the first line of the errors where `dnsd check` reads
# $zone_text and the text behind it under the words
faults() {
    local line
    while IFS= read -r line; do
        spell "${line% => *}"
        input=$zone_text$spelt
        refuses 1 "${line##* => }" check "$@" -
    done
}

# answers WORD..: a table of requests and replies stands on standard input: `# ` and what a row shows; lines whose first word says what the
# octets behind it are, a query, an update or a transfer, or which octets they are; and behind each such line `reply` and its reply. All are
# given to `dnsd answer`, in a run over $zone_text and the words.
answers() {
    local right word octets about='' wanted=() abouts=() lines=()
    input=$zone_text%$'\n'
    while read -r word octets; do
        case $word in
            '') ;;
            '#') about=$octets ;;
            reply) wanted+=("$octets") abouts+=("$about") ;;
            *) spell "$octets" && input+=$spelt$'\n' ;;
        esac
    done
    tries answer "$@" -
    rows=$((rows + ${#wanted[@]} - 1))
    right=$(printf '%s\n' "${wanted[@]}")$'\n'
    [[ $got != 0 || $said != "$right" || -n $told ]] || return 0
    mapfile -t lines <"$room/said"
    for word in "${!wanted[@]}"; do
        [ "${lines[word]-}" = "${wanted[word]}" ] || fails "${abouts[word]}: ${lines[word]-nothing} where this is right: ${wanted[word]}"
    done
    [ ${#lines[@]} = ${#wanted[@]} ] || fails "dnsd answer $*: ${#lines[@]} lines where ${#wanted[@]} are right"
    [ "$got$told" = 0 ] || fails "dnsd answer $*: status $got, on errors '$told'"
}

# converses WORD..: the same of each paragraph on standard input, with an empty line behind each but the last: a run each, so that each begins
# at $zone_text
converses() {
    local line part=
    while IFS= read -r line || [ -n "$part" ]; do
        if [ -n "$line" ]; then
            part+=$line$'\n'
            continue
        fi
        answers "$@" <<<"$part"
        part=
    done
}

# plays WORD..: each line on standard input is a line of a script, as `spell` has it, =>, and what `dnsd steps` prints for it, in a run over
# $zone_text and the words
plays() {
    local line right=
    input=$zone_text%$'\n'
    while IFS= read -r line; do
        input+=${line%% => *}$'\n'
        right+=${line##* => }$'\n'
    done
    spell "$input"
    input=$spelt
    prints "${right%$'\n'}" steps "$@" -
}

[ $# != 0 ] || set -- tests/rows/*.sh
for table; do
    # shellcheck source=/dev/null
    source "$table"
done
echo "$((rows - failed)) passed, $failed failed"
[ $failed = 0 ]
