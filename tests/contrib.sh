# Sourced by the scripts that run the configurations of contrib/ as secondaries of example.test. on 127.0.0.1, port $port: each stands in $work, with
# the script's folders and ports in place of its own, and lets 127.0.0.1 transfer the zone. tests/asking.sh has to be sourced before it.

declare -A pids

# Says what is lacking of the commands that a script needs, and ends it: the packages that have them, and the commands.
need() {
    local packages=$1 command
    shift
    [ -x "$program" ] || { echo "$(basename "$0"): no program at $program: run make dnsd first" >&2; exit 2; }
    for command; do
        command -v "$command" >/dev/null || { echo "$(basename "$0"): no $command: it needs Debian's $packages" >&2; exit 2; }
    done
}

# Starts a command whose output goes to NAME.log: NAME COMMAND..
start() {
    "${@:2}" >>"$work/$1.log" 2>&1 &
    pids[$1]=$!
    started+=($!)
}

# Ends what was started by that name.
stop() {
    kill "${pids[$1]}" 2>/dev/null || true
    wait "${pids[$1]}" 2>/dev/null || true
}

# Starts BIND: a file of contrib/, its name here, the port that it listens on, and an edit for sed.
start_named() {
    mkdir -p "$work/$2"
    sed -E "s|/var/cache/bind|$work/$2|; s/listen-on port [0-9]+/listen-on port $3/; s/port 5353/port $port/
        s/recursion no;/& allow-transfer { 127.0.0.1; };/; ${4:-}" "contrib/$1" >"$work/$2.conf"
    start "$2" named -g -n 1 -c "$work/$2.conf"
}

# Starts Knot, likewise.
start_knotd() {
    mkdir -p "$work/$2"
    sed -E "s%/(run|var/lib)/knot%$work/$2%; s/(listen: 127.0.0.1)@[0-9]+/\1@$3/; s/@5353/@$port/; s/action: notify/action: [notify, transfer]/
        ${4:-}" "contrib/$1" >"$work/$2.conf"
    start "$2" knotd -c "$work/$2.conf"
}

# Starts NSD, likewise; as the user who runs the script, without a database, which 4.6 has, and with a log of transfers.
start_nsd() {
    mkdir -p "$work/$2"
    sed -E "s|/var/lib/nsd|$work/$2|; s/(ip-address: 127.0.0.1)@[0-9]+/\1@$3/; s/@5353/@$port/
        s/^server:/&\n    username: \"\"\n    database: \"\"\n    verbosity: 2/; s/^( *)request-xfr/\1provide-xfr: 127.0.0.1 NOKEY\n&/; ${4:-}" "contrib/$1" >"$work/$2.conf"
    start "$2" nsd -d -c "$work/$2.conf"
}

# Starts BIND as the primary of zones: the port that it listens on, and for each zone its name and its file in $work/primary.
start_primary() {
    local at=$1
    shift
    mkdir -p "$work/primary"
    {
        echo "options { directory \"$work/primary\"; pid-file none; session-keyfile none; listen-on port $at { 127.0.0.1; };"
        echo "listen-on-v6 { none; }; recursion no; notify no; dnssec-validation no; allow-transfer { 127.0.0.1; }; }; controls { };"
        while [ $# -gt 0 ]; do
            echo "zone \"$1\" { type primary; file \"$2\"; };"
            shift 2
        done
    } >"$work/primary.conf"
    start primary named -g -n 1 -c "$work/primary.conf"
}

# The serial that the server on a port has, of example.test. or another zone; none where it has none or doesn't answer.
serial() {
    dig @127.0.0.1 -p "$1" +short +tries=1 +timeout=1 "${2:-$d}" SOA 2>/dev/null | awk '{ print $3 }'
}

# Waits, at most half a minute, until the server on a port has a serial, of example.test. or another zone.
reaches() {
    for _ in $(seq 150); do
        [ "$(serial "$1" "${3:-}")" != "$2" ] || return 0
        sleep 0.2
    done
}

# All records of the server on a port as octets, in order (RFC 3597, 5), of example.test. or another zone.
octets() {
    { dig @127.0.0.1 -p "$1" +noall +answer +onesoa +unknownformat "${2:-$d}" axfr 2>&1 || true; } | awk 'NF { $1 = $1; print }' | LC_ALL=C sort
}

# The same in their own words, in lower case.
words() {
    { dig @127.0.0.1 -p "$1" +noall +answer +onesoa "${2:-$d}" axfr 2>&1 || true; } | awk 'NF { $1 = $1; print tolower($0) }' | LC_ALL=C sort
}

# A check that two lists of records are the same, of which it tells the first lines that differ.
same() {
    check "$1" '' "$(diff <(echo "$2") <(echo "$3") | head -6)"
}

# Makes an update of these lines.
update() {
    { printf '%s\n' "server 127.0.0.1 $port" "zone $d" "$@" send; } | nsupdate
}
