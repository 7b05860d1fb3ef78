#!/usr/bin/env bash
# Tries the metrics of a running `dnsd serve --metrics` (Prometheus' exposition format, version 0.0.4): requests of each kind by dig and
# nsupdate, after which each sample is what they should count as, and no other sample has changed; the octets as dig tells them; the replies of
# HTTP by curl; and what `dnsd control PATH stats` prints. It prints a line a check and a count, and its status is 1 where one failed. It
# listens on 127.0.0.1 alone, and ends what it starts.
# Usage: [DNSD=PROGRAM] tests/metrics.sh [--port N]
#   --port N    dnsd listens on N (by default 15463), and for HTTP on the one after it; three more are used
# It needs Debian's packages bind9-dnsutils, curl and python3, a C compiler, and the program that `make dnsd` builds.
set -euo pipefail
cd "$(dirname "$0")/.."
port=15463
while [ $# -gt 0 ]; do
    case $1 in
        --port) port=$2; shift 2 ;;
        *) echo "metrics: no option $1" >&2; exit 2 ;;
    esac
done
needed=(dig:bind9-dnsutils nsupdate:bind9-dnsutils curl:curl python3:python3)
. tests/scraped.sh

# The zone: a set of forty addresses needs more than 512 octets.
zone="$work/zone"
{
    cat zones/example.test.zone
    for i in $(seq 40); do echo "all.example.test. 3600 IN A 192.0.2.$i"; done
} >"$zone"

# The samples, those of the octets apart.
samples() {
    curl -fsS "http://$web/metrics" | grep -v '^#' | grep -v '_bytes\|_seconds\|^process_'
}

# The number of a sample.
sample() {
    curl -fsS "http://$web/metrics" | sed -n "s/^$1 //p"
}

# Asks by dig, and keeps how many octets it sent and got.
ask() {
    dig +qr +tries=1 +time=3 @127.0.0.1 -p "$port" "$@" >"$work/said"
    awk '/^;; QUERY SIZE/ { print $NF }' "$work/said" >>"$work/sent"
    awk '/^;; MSG SIZE/ { print $NF }' "$work/said" >>"$work/received"
}

# The sum of the numbers in a file.
total() {
    awk '{ n += $1 } END { print n + 0 }' "$1"
}

# Runs a command, and tells which samples it changed, each with by how much.
changes() {
    samples >"$work/before"
    "$@" >/dev/null 2>&1 || true
    # a thread shows its numbers a second after its last request
    sleep 1.2
    samples >"$work/after"
    awk 'NR == FNR { before[$1] = $2; next } $2 != before[$1] { print $1, $2 - before[$1] }' "$work/before" "$work/after" | LC_ALL=C sort
}

# Tells a check of what a command changes: what it is, the samples in any order, the command.
counts() {
    check "$1" "$(LC_ALL=C sort <<<"$2")" "$(changes "${@:3}")"
}

update() {
    printf 'server 127.0.0.1 %s\nzone example.test\n%s\nsend\n' "$port" "$1" | nsupdate "${@:2}"
}

query='dnsd_requests_total{opcode="QUERY"} 1'
udp='dnsd_queries_total{transport="udp",family="4"} 1'
tcp='dnsd_queries_total{transport="tcp",family="4"} 1'
noerror='dnsd_responses_total{rcode="NOERROR"} 1'

serve "$zone" --metrics "$web" --control "$work/control"

counts 'of UDP: an address' "$udp
$query
dnsd_query_types_total{type=\"A\"} 1
$noerror" ask web.example.test A

counts 'of TCP: a text' "$tcp
$query
dnsd_query_types_total{type=\"TXT\"} 1
$noerror
dnsd_connections_opened_total 1
dnsd_connections_ended_total{reason=\"done\"} 1" ask +tcp a.b.example.test TXT

counts 'a name that does not exist' "$udp
$query
dnsd_query_types_total{type=\"MX\"} 1
dnsd_responses_total{rcode=\"NXDOMAIN\"} 1" ask nope.example.test MX

counts 'another zone' "$udp
$query
dnsd_query_types_total{type=\"CAA\"} 1
dnsd_responses_total{rcode=\"REFUSED\"} 1" ask example.com CAA

counts 'a type without a name' "$udp
$query
dnsd_query_types_total{type=\"other\"} 1
$noerror" ask web.example.test TYPE999

counts 'a reply that is truncated' "$udp
$query
dnsd_query_types_total{type=\"A\"} 1
$noerror
dnsd_truncated_total 1" ask +noedns +ignore all.example.test A

counts 'EDNS of a later version' "$udp
$query
dnsd_query_types_total{type=\"A\"} 1
dnsd_responses_total{rcode=\"BADVERS\"} 1" ask +edns=1 +noednsneg web.example.test A

check 'the octets of requests' "$(total "$work/sent")" "$(sample dnsd_received_bytes_total)"
check 'the octets of replies' "$(total "$work/received")" "$(sample dnsd_sent_bytes_total)"
check 'the replies of all codes together' "$(wc -l <"$work/received")" "$(curl -fsS "http://$web/metrics" | awk '/^dnsd_responses_total/ { n += $2 } END { print n }')"

counts 'a transfer' "$tcp
$query
dnsd_query_types_total{type=\"AXFR\"} 1
$noerror
dnsd_transfers_total{type=\"AXFR\",result=\"full\"} 1
dnsd_connections_opened_total 1
dnsd_connections_ended_total{reason=\"done\"} 1" ask example.test AXFR

counts 'a transfer of what changed, where nothing did' "$udp
$query
dnsd_query_types_total{type=\"IXFR\"} 1
$noerror
dnsd_transfers_total{type=\"IXFR\",result=\"current\"} 1" ask +notcp example.test IXFR=1

counts 'an update that changes the zone' "$udp
dnsd_requests_total{opcode=\"UPDATE\"} 1
$noerror
dnsd_updates_total{rcode=\"NOERROR\"} 1
dnsd_updates_changed_total 1
dnsd_zone_serial{zone=\"example.test.\"} 1
dnsd_zone_records{zone=\"example.test.\"} 1
dnsd_zone_versions_total{zone=\"example.test.\"} 1" update 'update add new.example.test 300 A 192.0.2.77'

counts 'an update whose prerequisite fails' "$udp
dnsd_requests_total{opcode=\"UPDATE\"} 1
dnsd_responses_total{rcode=\"YXDOMAIN\"} 1
dnsd_updates_total{rcode=\"YXDOMAIN\"} 1
dnsd_updates_refused_total{reason=\"prerequisite\"} 1" update $'prereq nxdomain web.example.test\nupdate add web.example.test 300 A 192.0.2.78'

counts 'an update by TCP' "$tcp
dnsd_requests_total{opcode=\"UPDATE\"} 1
$noerror
dnsd_updates_total{rcode=\"NOERROR\"} 1
dnsd_updates_changed_total 1
dnsd_connections_opened_total 1
dnsd_connections_ended_total{reason=\"done\"} 1
dnsd_zone_serial{zone=\"example.test.\"} 1
dnsd_zone_records{zone=\"example.test.\"} 1
dnsd_zone_versions_total{zone=\"example.test.\"} 1" update 'update add tcp.example.test 300 A 192.0.2.79' -v

counts 'what changed' "$tcp
$query
dnsd_query_types_total{type=\"IXFR\"} 1
$noerror
dnsd_transfers_total{type=\"IXFR\",result=\"incremental\"} 1
dnsd_connections_opened_total 1
dnsd_connections_ended_total{reason=\"done\"} 1" ask example.test IXFR=1

counts 'the whole zone, where too much changed' "$tcp
$query
dnsd_query_types_total{type=\"IXFR\"} 1
$noerror
dnsd_transfers_total{type=\"IXFR\",result=\"full\"} 1
dnsd_connections_opened_total 1
dnsd_connections_ended_total{reason=\"done\"} 1" ask example.test IXFR=0

# Each of the three updates has a time, and all of them took some, and less than three seconds.
check 'times of updates' 3 "$(sample dnsd_update_seconds_count)"
check 'how long they took' yes "$(sample dnsd_update_seconds_sum | awk '{ print ($1 > 0 && $1 < 3 ? "yes" : $1) }')"

# Puts octets in hexadecimal into a datagram.
datagram() {
    printf "$(sed 's/../\\x&/g' <<<"$1")" >"/dev/udp/127.0.0.1/$port"
}

counts 'a reply, which gets none' "$udp
$query
dnsd_dropped_total 1" datagram 000180000000000000000000

counts 'what a zone is told of by who is no secondary' "$udp
dnsd_requests_total{opcode=\"NOTIFY\"} 1
dnsd_responses_total{rcode=\"NOTIMP\"} 1" ask +opcode=notify example.test SOA

# What is there by HTTP.
told() { curl -sS -o "$work/body" -w '%{http_code} %{content_type}' "$@"; }
check 'metrics' '200 text/plain; version=0.0.4' "$(told "http://$web/metrics")"
check 'health' '200 text/plain; charset=utf-8 ok' "$(told "http://$web/healthz") $(cat "$work/body")"
check 'the page' '200 text/html; charset=utf-8' "$(told "http://$web/")"
check 'the page names the zone' 1 "$(grep -c '<h1>example.test' "$work/body")"
check 'the page shows the log' yes "$(grep -q 'update from' "$work/body" && echo yes)"
check 'another path' '404 text/plain; charset=utf-8' "$(told "http://$web/other")"
check 'another method' '405 text/plain; charset=utf-8' "$(told -X POST "http://$web/metrics")"
check 'each family once' '' "$(curl -fsS "http://$web/metrics" | sed -n 's/^# TYPE \([^ ]*\).*/\1/p' | sort | uniq -d)"

# A client that says nothing delays nobody.
exec 9<>"/dev/tcp/127.0.0.1/$((port + 1))"
check 'metrics beside a client that says nothing' '200 text/plain; version=0.0.4' "$(told -m 2 "http://$web/metrics")"
exec 9>&-

# One that sends an octet at a time has ten seconds, by HTTP and at the control socket.
check 'clients that send an octet at a time' 'closed after ten seconds
closed after ten seconds' "$(python3 - "$((port + 1))" "$work/control" <<'P'
import socket, sys, time
begun = time.monotonic()
clients = [socket.create_connection(("127.0.0.1", int(sys.argv[1]))), socket.socket(socket.AF_UNIX)]
clients[1].connect(sys.argv[2])
for it in clients: it.settimeout(0.05)
def is_open(it):
    try:
        it.send(b"x")
        return it.recv(1) != b""
    except TimeoutError:
        return True
    except OSError:
        return False
while clients and time.monotonic() - begun < 15:
    for it in list(clients):
        if not is_open(it):
            took = time.monotonic() - begun
            print("closed after", "ten seconds" if 10 <= took < 12 else took)
            clients.remove(it)
P
)"

# The control socket prints the same lines.
curl -fsS "http://$web/metrics" | sed 's/ .*//' | sort >"$work/web"
"$program" control "$work/control" stats | sed 's/ .*//' | sort >"$work/stats"
check 'stats prints the same families' '' "$(diff "$work/web" "$work/stats")"

unserve
workers=1 serve "$zone" --metrics "$web" --allow '' --idle 1 --connections 1
counts 'a transfer that is not permitted' "$tcp
$query
dnsd_query_types_total{type=\"AXFR\"} 1
dnsd_responses_total{rcode=\"REFUSED\"} 1
dnsd_transfers_total{type=\"AXFR\",result=\"refused\"} 1
dnsd_connections_opened_total 1
dnsd_connections_ended_total{reason=\"done\"} 1" ask example.test AXFR

counts 'a transfer of what changed that is not permitted' "$tcp
$query
dnsd_query_types_total{type=\"IXFR\"} 1
dnsd_responses_total{rcode=\"REFUSED\"} 1
dnsd_transfers_total{type=\"IXFR\",result=\"refused\"} 1
dnsd_connections_opened_total 1
dnsd_connections_ended_total{reason=\"done\"} 1" ask example.test IXFR=1

# A connection that says nothing, and one whose place another one gets.
silent() { exec 7<>"/dev/tcp/127.0.0.1/$port"; sleep 4; exec 7>&-; }
crowd() { exec 6<>"/dev/tcp/127.0.0.1/$port"; sleep 0.3; exec 7<>"/dev/tcp/127.0.0.1/$port"; sleep 0.3; exec 6>&- 7>&-; }
counts 'a connection that is idle' 'dnsd_connections_opened_total 1
dnsd_connections_ended_total{reason="idle"} 1' silent
counts 'a connection that makes room' 'dnsd_connections_opened_total 2
dnsd_connections_ended_total{reason="done"} 1
dnsd_connections_ended_total{reason="limit"} 1' crowd

counts 'an update that is not permitted' "$udp
dnsd_requests_total{opcode=\"UPDATE\"} 1
dnsd_responses_total{rcode=\"REFUSED\"} 1
dnsd_updates_total{rcode=\"REFUSED\"} 1
dnsd_updates_refused_total{reason=\"permission\"} 1" update 'update add new.example.test 300 A 192.0.2.77'

# What the system drops while the server is stopped: each datagram is counted as a query or as dropped.
unserve
workers=1 serve "$zone" --metrics "$web" --udp-buffer 4K
python3 - "$port" "$server" <<'P'
import os, signal, socket, sys, time
port, server = map(int, sys.argv[1:])
query = bytes.fromhex("000701000001000000000000") + b"\3web\7example\4test\0\0\1\0\1"
with socket.socket(socket.AF_INET, socket.SOCK_DGRAM) as it:
    it.connect(("127.0.0.1", port))
    it.settimeout(1)
    os.kill(server, signal.SIGSTOP)
    time.sleep(0.2)
    for _ in range(1000): it.send(query)
    os.kill(server, signal.SIGCONT)
    try:
        while it.recv(4096): pass
    except TimeoutError: pass
P
sleep 1.2
dropped=$(sample "dnsd_udp_drops_total{address=\"127.0.0.1:$port\"}")
check 'datagrams that the system dropped' 'some, 1000 with the queries' "$([ "${dropped:-0}" -gt 0 ] && echo some), $((${dropped:-0} + $(sample 'dnsd_queries_total{transport="udp",family="4"}'))) with the queries"

# IPv6.
unserve
serve "$zone" --metrics "$web" --listen "[::1]:$port"
counts 'by IPv6' "dnsd_queries_total{transport=\"udp\",family=\"6\"} 1
$query
dnsd_query_types_total{type=\"A\"} 1
$noerror" dig +tries=1 +time=3 @::1 -p "$port" web.example.test A
counts 'by IPv6 and TCP' "dnsd_queries_total{transport=\"tcp\",family=\"6\"} 1
$query
dnsd_query_types_total{type=\"A\"} 1
$noerror
dnsd_connections_opened_total 1
dnsd_connections_ended_total{reason=\"done\"} 1" dig +tcp +tries=1 +time=3 @::1 -p "$port" web.example.test A

# Keys.
right=$(head -c 32 /dev/zero | base64)
wrong=$(head -c 32 /dev/zero | tr '\0' '\1' | base64)
printf 'key "told.example." { algorithm hmac-sha256; secret "%s"; };\n' "$right" >"$work/keys"
chmod 600 "$work/keys"
unserve
serve "$zone" --metrics "$web" --keys "$work/keys" --may 'key told.example: update, transfer'
counts 'an update by a key' "$udp
dnsd_requests_total{opcode=\"UPDATE\"} 1
$noerror
dnsd_updates_total{rcode=\"NOERROR\"} 1
dnsd_updates_changed_total 1
dnsd_zone_serial{zone=\"example.test.\"} 1
dnsd_zone_records{zone=\"example.test.\"} 1
dnsd_zone_versions_total{zone=\"example.test.\"} 1" update 'update add new.example.test 300 A 192.0.2.77' -y "hmac-sha256:told.example.:$right"
check 'its time' 1 "$(sample dnsd_update_seconds_count)"
counts 'an update whose signature is wrong' "$udp
dnsd_requests_total{opcode=\"UPDATE\"} 1
dnsd_responses_total{rcode=\"NOTAUTH\"} 1
dnsd_updates_total{rcode=\"NOTAUTH\"} 1
dnsd_updates_refused_total{reason=\"signature\"} 1" update 'update add new.example.test 300 A 192.0.2.78' -y "hmac-sha256:told.example.:$wrong"
counts 'an update by a key over TCP' "$tcp
dnsd_requests_total{opcode=\"UPDATE\"} 1
$noerror
dnsd_updates_total{rcode=\"NOERROR\"} 1
dnsd_updates_changed_total 1
dnsd_connections_opened_total 1
dnsd_connections_ended_total{reason=\"done\"} 1
dnsd_zone_serial{zone=\"example.test.\"} 1
dnsd_zone_records{zone=\"example.test.\"} 1
dnsd_zone_versions_total{zone=\"example.test.\"} 1" update 'update add tcp.example.test 300 A 192.0.2.79' -v -y "hmac-sha256:told.example.:$right"
check 'the times of the three' 3 "$(sample dnsd_update_seconds_count)"

# While one worker is busy with queries, scrapes answer, no counter falls, and at the end all are counted.
unserve
mkdir "$work/store"
workers=1 serve "$zone" --metrics "$web" --store "$work/store"
python3 - "$port" "$web" >"$work/busy" <<'P'
import re, socket, sys, threading, urllib.request
port, web = int(sys.argv[1]), sys.argv[2]
query = bytes.fromhex("000701000001000000000000") + b"\3web\7example\4test\0\0\1\0\1"
ROUNDS, EACH = 600, 32
last, faults, scrapes = {}, [], 0
done = threading.Event()
def scrape():
    global scrapes
    with urllib.request.urlopen(f"http://{web}/metrics", timeout=5) as page:
        text = page.read().decode()
    scrapes += 1
    for line in text.splitlines():
        name, number = line.rsplit(" ", 1)
        if re.match(r"[a-z_]*(_total|_count|_sum|_bucket)\b", name):
            if float(number) < last.get(name, 0): faults.append(name)
            last[name] = float(number)
def watch():
    while not done.is_set(): scrape()
watcher = threading.Thread(target=watch)
watcher.start()
with socket.socket(socket.AF_INET, socket.SOCK_DGRAM) as it:
    it.connect(("127.0.0.1", port))
    it.settimeout(5)
    rounds = 0
    while rounds < ROUNDS or scrapes <= 10:
        for _ in range(EACH): it.send(query)
        for _ in range(EACH): it.recv(4096)
        rounds += 1
done.set()
watcher.join()
threading.Event().wait(1.2)
scrape()
sent = rounds * EACH
print("scrapes", "many" if scrapes > 10 else scrapes)
print("fell", *sorted(set(faults)))
for name in ('dnsd_queries_total{transport="udp",family="4"}', 'dnsd_query_types_total{type="A"}', 'dnsd_responses_total{rcode="NOERROR"}'):
    print(name, "all" if last[name] == sent else last[name])
print("octets", "all" if last["dnsd_received_bytes_total"] == sent * len(query) else last["dnsd_received_bytes_total"])
P
check 'a busy worker' 'scrapes many
fell
dnsd_queries_total{transport="udp",family="4"} all
dnsd_query_types_total{type="A"} all
dnsd_responses_total{rcode="NOERROR"} all
octets all' "$(cat "$work/busy")"
check 'the store' 'store ok' "$(curl -fsS "http://$web/" | grep -o 'store [a-z]*' | head -1)"
journal=$(sample dnsd_store_journal_bytes)
check 'it takes writes' 0 "$(sample dnsd_store_failing)"
counts 'an update that is stored' "$udp
dnsd_requests_total{opcode=\"UPDATE\"} 1
$noerror
dnsd_updates_total{rcode=\"NOERROR\"} 1
dnsd_updates_changed_total 1
dnsd_store_batches_total 1
dnsd_store_batch_updates_total 1
dnsd_zone_serial{zone=\"example.test.\"} 1
dnsd_zone_records{zone=\"example.test.\"} 1
dnsd_zone_versions_total{zone=\"example.test.\"} 1" update 'update add new.example.test 300 A 192.0.2.77'

check 'its journal' longer "$([ "$(sample dnsd_store_journal_bytes)" -gt "$journal" ] && echo longer)"

# A secondary that answers, and whose own count is the server's.
unserve
python3 - "$((port + 4))" >"$work/notified" <<'P' &
import socket, sys
with socket.socket(socket.AF_INET, socket.SOCK_DGRAM) as it:
    it.bind(("127.0.0.1", int(sys.argv[1])))
    while True:
        notify, peer = it.recvfrom(4096)
        print(notify[:2].hex(), flush=True)
        it.sendto(notify[:2] + b"\xa4\0" + notify[4:], peer)
P
started+=("$!")
sleep 0.5
secondary="secondary=\"127.0.0.1:$((port + 4))\""
workers=1 serve "$zone" --metrics "$web" --store "$work/store" --notify "127.0.0.1:$((port + 4))"
update 'update add told.example.test 300 A 192.0.2.80'
serial=$(sample 'dnsd_zone_serial{zone="example.test."}')
for _ in $(seq 100); do
    [ "$(sample "dnsd_notify_serial{$secondary}")" != "$serial" ] || break
    sleep 0.1
done
check 'the serial that a secondary answered for' "$serial" "$(sample "dnsd_notify_serial{$secondary}")"
check 'NOTIFYs that were sent' "$(wc -l <"$work/notified")" "$(sample "dnsd_notify_total{$secondary,result=\"sent\"}")"
check 'those that were answered' "$(sort -u "$work/notified" | wc -l)" "$(sample "dnsd_notify_total{$secondary,result=\"answered\"}")"
check 'those that were given up' 0 "$(sample "dnsd_notify_total{$secondary,result=\"given_up\"}")"

# Each family that there is, is one of docs/OPERATING.md, and each of these is there.
check 'the families of docs/OPERATING.md' "$(grep '^| `[dp]' docs/OPERATING.md | grep -o '`\(dnsd\|process\)_[a-z_]*' | tr -d '`' | LC_ALL=C sort)" \
    "$(curl -fsS "http://$web/metrics" | sed -n 's/^# TYPE \([^ ]*\).*/\1/p' | LC_ALL=C sort)"

# A store that can't be written, and is there again.
mv "$work/store" "$work/away"
update 'update add lost.example.test 300 A 192.0.2.81' >"$work/said" 2>&1 || true
check 'an update that can not be stored' 'update failed: SERVFAIL' "$(cat "$work/said")"
check 'it is refused for a failure' yes "$(sample 'dnsd_updates_refused_total{reason="failure"}' | awk '{ print ($1 > 0 ? "yes" : $1) }')"
check 'the store is failing' 1 "$(sample dnsd_store_failing)"
check 'health with a store that fails' '503 text/plain; charset=utf-8 store failing' "$(told "http://$web/healthz") $(cat "$work/body")"
mv "$work/away" "$work/store"
check 'an update once the store is back' '' "$(update 'update add back.example.test 300 A 192.0.2.82' 2>&1)"
check 'the store is written' 0 "$(sample dnsd_store_failing)"
check 'health then' '200 text/plain; charset=utf-8 ok' "$(told "http://$web/healthz") $(cat "$work/body")"

# Without metrics the control socket tells what needs no counters.
unserve
serve "$zone" --control "$work/control"
"$program" control "$work/control" stats | sed -n 's/^# TYPE \([^ ]*\).*/\1/p' | sort >"$work/stats"
check 'stats without metrics' "dnsd_build_info
dnsd_udp_drops_total
dnsd_zone_records
dnsd_zone_serial
dnsd_zone_versions_total
process_cpu_seconds_total
process_resident_memory_bytes
process_start_time_seconds
process_virtual_memory_bytes" "$(cat "$work/stats")"

# A worker that has ended isn't stuck; a log that nobody reads is: thread 5, after the two of each worker and the update thread.
unserve
workers=2 serve "$zone" --metrics "$web" --count 1
ask web.example.test A
mkfifo "$work/pipe"
"$program" serve --listen "127.0.0.1:$((port + 2))" --workers 2 --metrics "127.0.0.1:$((port + 3))" "$zone" 2>"$work/pipe" &
started+=("$!")
exec 8<"$work/pipe"
sed '/^listening on/q' <&8 >/dev/null
for i in $(seq 40); do
    for j in $(seq 50); do echo "update add l$i-$j.example.test 300 A 192.0.2.1"; echo send; done
done | (printf 'server 127.0.0.1 %s\nzone example.test\n' "$((port + 2))"; cat) | nsupdate
sleep 14
check 'health after a worker has ended' '200 text/plain; charset=utf-8 ok' "$(told "http://$web/healthz") $(cat "$work/body")"
check 'health with a log that is stuck' '503 text/plain; charset=utf-8 thread 5 is stuck' "$(told "http://127.0.0.1:$((port + 3))/healthz") $(cat "$work/body")"
timeout 1 cat <&8 >/dev/null || true
check 'health once it is read' '200 text/plain; charset=utf-8 ok' "$(told "http://127.0.0.1:$((port + 3))/healthz") $(cat "$work/body")"
exec 8<&-

# A disk whose sync takes 13 seconds: after ten the update thread, thread 4 after the two of each worker, is stuck, and its batch, also one without an update that is kept, ends.
unserve
"${CC:-cc}" -O2 -shared -fPIC -o "$work/disk.so" tests/disk.c
mkdir "$work/slow"
workers=2 LD_PRELOAD=$work/disk.so DISK_DIR=$work/slow DISK_SLOW=13000 DISK_WHEN=$work/hangs serve "$zone" --metrics "$web" --store "$work/slow"
touch "$work/hangs"
{
    printf 'server 127.0.0.1 %s\nzone example.test\nprereq yxdomain no.example.test\nupdate add u.example.test 300 A 192.0.2.1\nsend\n' "$port" | nsupdate >"$work/said" 2>&1
} || true
check 'an update whose prerequisite fails' 'update failed: NXDOMAIN' "$(cat "$work/said")"
printf 'server 127.0.0.1 %s\nzone example.test\nupdate add u.example.test 300 A 192.0.2.1\nsend\n' "$port" | nsupdate -v -t 20 >"$work/said" 2>&1 &
update=$!
sleep 5
check 'health beside a sync of five seconds' '200 text/plain; charset=utf-8 ok' "$(told "http://$web/healthz") $(cat "$work/body")"
sleep 6.5
check 'health with an update thread that is stuck' '503 text/plain; charset=utf-8 thread 4 is stuck' "$(told "http://$web/healthz") $(cat "$work/body")"
wait "$update"
check 'the update' '' "$(cat "$work/said")"
check 'health after the sync' '200 text/plain; charset=utf-8 ok' "$(told "http://$web/healthz") $(cat "$work/body")"

# Threads that stand still while the others go on: that of NOTIFYs and that of the control socket, 4 and 5 after the two of a worker, the update thread and the log's. Each is stopped as by a
# debugger, which the system may forbid. They are the last but two and the last but one that were started; the last one answers here.
unserve
workers=1 serve "$zone" --metrics "$web" --control "$work/control" --notify "127.0.0.1:$((port + 4))"
check 'health with both threads' '200 text/plain; charset=utf-8 ok' "$(told "http://$web/healthz") $(cat "$work/body")"
python3 - "$server" "http://$web/healthz" >"$work/stopped" <<'P'
import ctypes, os, sys, time, urllib.error, urllib.request
SEIZE, INTERRUPT, DETACH = 0x4206, 0x4207, 17
libc = ctypes.CDLL(None, use_errno=True)
libc.ptrace.argtypes = [ctypes.c_long, ctypes.c_long, ctypes.c_void_p, ctypes.c_void_p]
threads = sorted(map(int, os.listdir(f"/proc/{sys.argv[1]}/task")))[-3:-1]
def trace(request, thread):
    if libc.ptrace(request, thread, None, None) != 0:
        print("not permitted:", os.strerror(ctypes.get_errno()))
        sys.exit()
def stop(thread):
    trace(SEIZE, thread)
    trace(INTERRUPT, thread)
    os.waitpid(thread, 0x40000000)
def told():
    try:
        with urllib.request.urlopen(sys.argv[2], timeout=5) as page: return page.read().decode().strip()
    except urllib.error.HTTPError as fault: return fault.read().decode().strip()
for thread in threads: stop(thread)
time.sleep(5)
print(told())
time.sleep(6.5)
print(told())
for thread in threads:
    trace(DETACH, thread)
    time.sleep(0.5)
    print(told())
P
if grep -q '^not permitted' "$work/stopped"; then
    echo "not tried: threads that stand still: $(cat "$work/stopped")"
else
    check 'health with threads that stand still' 'ok
thread 4 is stuck
thread 5 is stuck
ok' "$(cat "$work/stopped")"
fi

unserve
serve "$zone"
check 'nobody listens without the option' '000' "$(curl -sS -o /dev/null -w '%{http_code}' "http://$web/metrics" 2>/dev/null)"

echo "$passed checks passed, $failed failed"
[ "$failed" -eq 0 ]
