#!/usr/bin/env bash
# Makes zones of so many records, in canonical order and shuffled, and prints what reading and writing them costs: processor time,
# records a second, peak memory, and octets of memory a record, in whole and beside the text's own; of `dnsd check` (read and written), of
# `dnsd answer` without a query (read alone), of `dnsd check` over the same text whose last line is refused, for a conflict, a second SOA, the
# 257th record of a set, and the 1,000,001st of the zone, with how many times an accepted one's time each is, and of kzonecheck, nsd-checkzone
# and named-compilezone where these are installed.
# Usage: [DNSD=PROGRAM] bench/load.sh [RECORDS ..], by default 10000 100000 1000000. `make dnsd` builds the program.
set -euo pipefail
cd "$(dirname "$0")/.."
. bench/program.sh

# The zone: of each 20 owners that are added, eight are delegations (three with glue), six hosts (four with mail and a text), three
# aliases, one an SRV set, one a set of eight addresses, and one has a name of about 190 octets.
zone() {
    python3 - "$1" "$2" <<'PY'
import random, sys
n, order = int(sys.argv[1]), sys.argv[2]
apex, records, i = "example.test.", [], 0
def add(owner, rtype, data, ttl=3600):
    records.append((owner, rtype, ttl, data))
add(apex, "SOA", f"ns1.{apex} admin.{apex} 1 7200 900 1209600 300")
for k in range(1, 5): add(apex, "NS", f"ns{k}.{apex}")
for k in range(1, 3): add(apex, "MX", f"{k}0 mx{k}.{apex}")
add(apex, "TXT", '"v=spf1 mx -all"', 300)
while len(records) < n:
    i += 1
    kind = i % 20
    if kind < 8:
        owner = f"dom{i}.{apex}"
        add(owner, "NS", f"ns1.{owner}", 86400)
        add(owner, "NS", f"ns2.isp{i % 97}.example.", 86400)
        if kind < 3:
            add(f"ns1.{owner}", "A", f"192.0.2.{i % 256}", 86400)
            add(f"ns1.{owner}", "AAAA", f"2001:db8::{i % 65536:x}", 86400)
    elif kind < 14:
        owner = f"host{i}.{apex}"
        add(owner, "A", f"198.51.100.{i % 256}", 300)
        add(owner, "AAAA", f"2001:db8:{i % 65536:x}::1", 300)
        if kind < 12:
            add(owner, "MX", f"10 mail.{owner}")
            add(owner, "MX", f"20 mx2.{apex}")
            add(owner, "TXT", f'"v=spf1 a mx include:_spf{i % 13}.{apex} -all" "id={i}"')
    elif kind < 17:
        add(f"www.host{i - 3}.{apex}", "CNAME", f"host{i - 3}.{apex}")
    elif kind == 17:
        for k in range(2): add(f"_sip._tcp.site{i}.{apex}", "SRV", f"{k} 10 5060 sip{k}.site{i}.{apex}")
    elif kind == 18:
        for k in range(8): add(f"pool{i}.{apex}", "A", f"203.0.113.{(i + k) % 256}", 60)
    else:
        words = [f"customer-{i:09d}-with-a-long-label-of-its-own-in-front"] + [f"region{i % 7}-datacenter{i % 31}-and-more-words"] * 3
        owner = ".".join(words) + "." + apex
        add(owner, "A", f"192.0.2.{i % 256}")
        add(owner, "TXT", f'"{i}"')
del records[n:]
types = {"A": 1, "NS": 2, "CNAME": 5, "SOA": 6, "MX": 15, "TXT": 16, "AAAA": 28, "SRV": 33}
if order == "sorted":
    records.sort(key=lambda r: (r[0].split(".")[::-1], types[r[1]]))
else:
    random.Random(1).shuffle(records)
for owner, rtype, ttl, data in records:
    print(owner, ttl, "IN", rtype, data)
PY
}

# Runs a program over the zone's text, its last word, with no input, and prints what it cost: processor seconds, records a second, MiB, octets a
# record, and these less the text's. With a status it has to end with that one. NAME RECORDS STATUS WORD ..
measure() {
    local name=$1 records=$2 status=$3
    shift 3
    python3 - "$name" "$records" "$status" "$@" 3>"$work/cost.${name// /_}" <<'PY'
import os, resource, subprocess, sys
name, n, status, command = sys.argv[1], int(sys.argv[2]), int(sys.argv[3]), sys.argv[4:]
done = subprocess.run(command, stdin=subprocess.DEVNULL, stdout=subprocess.DEVNULL, stderr=subprocess.PIPE)
used = resource.getrusage(resource.RUSAGE_CHILDREN)
if done.returncode != status:
    print(f"  {name:18} status {done.returncode}: {done.stderr[:200].decode(errors='replace')}")
else:
    seconds, text = max(used.ru_utime + used.ru_stime, 0.001), os.path.getsize(command[-1])
    print(f"  {name:18} {seconds:8.2f} s {n / seconds:11,.0f} records/s {used.ru_maxrss / 1024:8.1f} MiB {used.ru_maxrss * 1024 / n:8.0f} octets a record, {(used.ru_maxrss * 1024 - text) / n:.0f} beside the text's")
    os.write(3, b"%.3f\n" % seconds)
PY
}

# Prints the zone with a fault on its last line: a conflict, a second SOA, the 257th record of a set, or a record more than a zone may have.
refused() {
    case $1 in
        conflict) head -n -1 "$work/zone"; echo "example.test. 3600 IN CNAME host.example.test." ;;
        soa) head -n -1 "$work/zone"; echo "example.test. 3600 IN SOA ns1.example.test. admin.example.test. 2 7200 900 1209600 300" ;;
        set) head -n -257 "$work/zone"; for n in {0..256}; do echo "crowd.example.test. 60 IN A 10.0.$((n / 256)).$((n % 256))"; done ;;
        limit) cat "$work/zone"; echo "one.more.example.test. 60 IN A 10.0.0.1" ;;
    esac
}

for records in ${@:-10000 100000 1000000}; do for order in sorted shuffled; do
    zone "$records" "$order" > "$work/zone"
    echo "$records records, $order, $(stat -c %s "$work/zone") octets of text"
    measure "dnsd check" "$records" 0 "$program" check "$work/zone"
    measure "dnsd answer" "$records" 0 "$program" answer "$work/zone"
    for fault in conflict soa set limit; do
        if [ "$fault" = limit ] && [ "$records" -ne 1000000 ]; then continue; fi
        refused "$fault" > "$work/refused"
        measure "refused for $fault" "$records" 1 "$program" check "$work/refused"
        paste "$work/cost.refused_for_$fault" "$work"/cost.dnsd_{check,answer} |
            awk 'NF == 3 { printf "  %-18s %8.2f times an accepted text'"'"'s time that is printed, %.2f that is read alone\n", "", $1 / $2, $1 / $3 }'
    done
    if command -v kzonecheck > /dev/null; then measure kzonecheck "$records" 0 kzonecheck -o example.test. "$work/zone"; fi
    if command -v nsd-checkzone > /dev/null; then measure nsd-checkzone "$records" 0 nsd-checkzone example.test. "$work/zone"; fi
    if command -v named-compilezone > /dev/null; then
        measure named-compilezone "$records" 0 named-compilezone -i none -k ignore -o /dev/null example.test. "$work/zone"
    fi
done; done
