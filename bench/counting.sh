# Sourced by the scripts here that count the instructions of `dnsd serve` under callgrind: asks it queries, and counts a run. The script has sourced bench/program.sh
# and sets `port`; `records` is how many records the zone has, by default 1000, $work/zone is the zone, and `asked` how queries are asked, by default plain.
# shellcheck shell=bash
command -v valgrind >/dev/null || { echo "bench: no valgrind: it is Debian's package valgrind" >&2; exit 2; }
server=
asked=plain
records=1000
secret=AAECAwQFBgcICQoLDA0ODxAREhMUFRYXGBkaGxwdHh8=
trap '[ -z "$server" ] || kill "$server" 2>/dev/null || true; rm -rf "$work"' EXIT

# Sets `port` and `records` by the options of a script that has no others: [--port N] [RECORDS]
options() {
    while [ $# -gt 0 ]; do
        case $1 in
            --port) port=$2; shift 2 ;;
            *) records=$1; shift ;;
        esac
    done
}

# Asks so many queries of the port, each after the reply to the one before: by turns a name that exists, one that doesn't, and an alias; plain, with an OPT (`opt`), or signed by
# the key KIND.key, where `asked` is sha256 or sha512 (RFC 8945, 4.3): COUNT
ask() {
    python3 - "$port" "$1" "$records" "$asked" "$secret" <<'PY'
import base64, hashlib, hmac, socket, struct, sys, time
port, count, records = map(int, sys.argv[1:4])
kind, secret = sys.argv[4], base64.b64decode(sys.argv[5])
def asked(message):
    if kind == "plain":
        return message
    if kind == "opt":
        return message[:11] + b"\1" + message[12:] + b"\0\0\x29\4\xd0\0\0\0\0\0\0"
    name, algorithm, timers = b"\6%s\3key\0" % kind.encode(), b"\x0bhmac-%s\0" % kind.encode(), struct.pack(">HIH", 0, int(time.time()), 300)
    mac = hmac.new(secret, message + name + b"\0\xff\0\0\0\0" + algorithm + timers + bytes(4), getattr(hashlib, kind)).digest()
    data = algorithm + timers + struct.pack(">H", len(mac)) + mac + message[:2] + bytes(4)
    return message[:11] + b"\1" + message[12:] + name + b"\0\xfa\0\xff\0\0\0\0" + struct.pack(">H", len(data)) + data
client = socket.socket(socket.AF_INET, socket.SOCK_DGRAM)
client.connect(("127.0.0.1", port))
client.settimeout(30)
for i in range(count):
    at = i * 7919 % (records - 12) // 10 * 10
    label = (b"h%d" % at, b"x%d" % at, b"h%d" % (at + 9))[i % 3]
    client.send(asked(struct.pack(">6H", i, 0x100, 1, 0, 0, 0) + bytes([len(label)]) + label + b"\7example\4test\0\0\1\0\1"))
    reply = client.recv(2000)
    if reply[:2] != struct.pack(">H", i) or reply[3] & 15 != (0, 3, 0)[i % 3]:
        sys.exit("bench: a query is answered wrongly")
PY
}

# Sets `counted` to the instructions of a run that answers so many queries, whose parts go to a file: FILE COUNT [OPTION ..]
count() {
    local file=$1 n=$2
    shift 2
    : >"$work/log"
    valgrind --tool=callgrind --callgrind-out-file="$work/$file" "$program" serve --listen "127.0.0.1:$port" --workers 1 --count "$n" "$@" "$work/zone" 2>"$work/log" &
    server=$!
    until grep -q '^listening on' "$work/log"; do
        kill -0 "$server" 2>/dev/null || { cat "$work/log" >&2; exit 1; }
        sleep 0.1
    done
    ask "$n"
    wait "$server"
    server=
    counted=$(sed -n 's/.*Collected *: *\([0-9]*\).*/\1/p' "$work/log")
}

# Sets `each` to the instructions a query: the difference of runs of 300 and of 3,300, for each of the 3,000. [OPTION ..]
each() {
    local few
    count few 300 "$@"
    few=$counted
    count many 3300 "$@"
    each=$(((counted - few) / 3000))
}
