# Sourced by the scripts that ask a running `dnsd serve`: a folder $work that goes at the end with all that was started, checks that are
# counted, the server, and replies in one form. The script has set `program` and `port`.

work=$(mktemp -d)
started=()
finish() {
    for pid in ${started[@]+"${started[@]}"}; do kill "$pid" 2>/dev/null || true; done
    wait 2>/dev/null || true
    rm -rf "$work"
}
trap finish EXIT

passed=0
failed=0
# Tells a check: what it is, what was expected, what came.
check() {
    if [ "$2" = "$3" ]; then
        passed=$((passed + 1))
        echo "ok     $1"
    else
        failed=$((failed + 1))
        echo "FAILED $1"
        diff <(echo "$2") <(echo "$3") | sed 's/^/           /' | cut -c1-300 || true
    fi
}

# Starts the server over a zone's file, with these options, and waits until it says that it listens.
serve() {
    rm -f "$work/dnsd.log"
    "$program" serve --listen "127.0.0.1:$port" --workers "${workers:-8}" "${@:2}" "$1" 2>"$work/dnsd.log" &
    server=$!
    started+=("$server")
    for _ in $(seq 100); do
        ! grep -qs '^listening on' "$work/dnsd.log" || return 0
        kill -0 "$server" 2>/dev/null || break
        sleep 0.05
    done
    cat "$work/dnsd.log" >&2
    echo "$(basename "$0"): dnsd doesn't listen on 127.0.0.1:$port" >&2
    exit 2
}

# Ends the server.
unserve() {
    kill "$server" 2>/dev/null || true
    wait "$server" 2>/dev/null || true
}

d=example.test.
# Records of an owner under example.test. (@: itself), each with TTL 3600.
rr() {
    local owner=$1.$d type=$2
    [ "$1" != @ ] || owner=$d
    shift 2
    for data; do echo "$owner 3600 IN $type $data"; done
}

# What dig or kdig printed, as: the status and the flags; then the sections that aren't empty, each by its name and its records in order.
reply() {
    awk '
        /->>HEADER<<-/ { match($0, /status: [A-Z]+/); status = substr($0, RSTART + 8, RLENGTH - 8); sub(/NOTIMPL/, "NOTIMP", status) }
        /^;; [Ff]lags:/ { sub(/^;; [Ff]lags: */, ""); sub(/;.*/, ""); print status " " $0; next }
        /^;; [A-Z]+ SECTION:/ { section = $2; next }
        /^$/ { section = "" }
        section ~ /^(ANSWER|AUTHORITY|ADDITIONAL)$/ && !/^;/ { $1 = $1; print section " " $0 | "LC_ALL=C sort" }
    '
}

# The same form of what is expected: status and flags, and the sections' records.
expected() {
    echo "$1"
    {
        [ -z "${2:-}" ] || sed 's/^/ANSWER /' <<<"$2"
        [ -z "${3:-}" ] || sed 's/^/AUTHORITY /' <<<"$3"
        [ -z "${4:-}" ] || sed 's/^/ADDITIONAL /' <<<"$4"
    } | LC_ALL=C sort
}
