#!/usr/bin/env bash
# Counts the instructions a query of each kind takes, from its octets to those of its reply, in zones of so many records: a name that
# exists, one that doesn't, an alias, a referral, a wildcard, no data, and ten mail exchanges with their addresses; and the mean of the
# first three. Each figure is the difference of two runs under callgrind over 3,000 queries, the second of which answers those of one kind
# once more, so that it is the same twice. The program is proved and built beside copies of the crates: what it runs is what an
# answer at once runs, without its sockets and its cell.
# Usage: bench/instructions.sh [RECORDS ..], by default 1000 and 1000000.
set -euo pipefail
cd "$(dirname "$0")/.."
command -v valgrind > /dev/null || { echo "bench: there is no valgrind" >&2; exit 1; }
work=$(mktemp -d)
trap 'rm -rf "$work"' EXIT
for crate in dns_name wire_names dns_rdata dns_message shared_tree zone_tree lookup_core update_core transfer_core serve_core zone_lexing record_text master_file; do
    mkdir -p "$work/crates/$crate/out"
    cp -r "crates/$crate"/{src,specs,proofs} "$work/crates/$crate/"
    [ ! -d "crates/$crate/out/rlib" ] || cp -r "crates/$crate/out/rlib" "$work/crates/$crate/out/"
    grep "^$crate:" crates.txt
done > "$work/crates.txt"
echo "query_bench: dns_name wire_names dns_message zone_tree serve_core master_file hex" >> "$work/crates.txt"
bench=$work/crates/query_bench
mkdir -p "$bench/src"
cat > "$bench/src/main.rt" <<'RT'
//! Answers the requests of files in a zone: those of each file once, and those of the one that a number tells once more.
#![tactic(auto)]
ghost use Rattle.std.specs.Prelude.{◌≤◌, length};

use dns_message::{Query, Said, is_update, parse_into};
use dns_name::Name;
use master_file::read_zone;
use serve_core::{Peer, Transport, is_permitted, respond_by};
use std::alloc::Global;
use std::env;
use std::fs;
use std::io;
use std::rt::{Env, Files};
use wire_names::NameWriter;
use zone_tree::Version;

/// The first version of the zone of a text.
fn version_of(alloc: Global, text: &[u8]) -> Option<Version> {
    match read_zone(alloc, text, &Name::root()) {
        Ok(zone) => Some(Version::first(zone)),
        Err(_) => None,
    }
}

/// The requests of lines in hexadecimal.
fn requests_of(alloc: Global, text: &[u8]) -> Option<Vec<Vec<u8>>> {
    let mut requests = Vec::new(alloc);
    for line in text.split(|octet| *octet == b'\n') {
        let request = hex::decode(alloc, line).ok()?;
        requests.push(request).ok()?;
    }
    Some(requests)
}

/// How many octets the reply to a request has.
fn answer_one(
    version: &Version,
    query: &mut Query,
    names: &mut NameWriter,
    request: &[u8],
    out: &mut [u8],
) -> usize
    requires { 1232 ≤ length out.old }
{
    if is_update(request) {
        return 0;
    }
    match parse_into(request, query) {
        Said::Query => {}
        _ => return 0,
    }
    let peer = Peer::over(Transport::Udp, false);
    if is_permitted(version, query, peer) {
        return 0;
    }
    respond_by(names, version.zone(), query, peer, out)
}

/// How many octets the replies to requests have.
fn answer_all(version: &Version, requests: &[Vec<u8>]) -> u64 {
    let mut query = Query::blank();
    let mut names = NameWriter::new();
    let mut out = [0; 1232];
    let mut sum = 0u64;
    for request in requests {
        let len = answer_one(version, &mut query, &mut names, request.as_slice(), &mut out);
        sum = sum.wrapping_add(len as u64);
    }
    sum
}

/// How many octets the replies have to the requests of a file in hexadecimal, which are answered once, or once more as well.
fn answer_file<R: Files + AllocGlobal>(
    rt: &R,
    version: &Version,
    path: &str,
    more: bool,
) -> io::Result<Option<u64>> {
    let text = fs::read(rt, path)?;
    let Some(requests) = requests_of(rt.alloc(), text.as_slice()) else {
        return Ok(None);
    };
    let mut sum = answer_all(version, requests.as_slice());
    if more {
        sum = sum.wrapping_add(answer_all(version, requests.as_slice()));
    }
    Ok(Some(sum))
}

/// What is answered, by the program's words: the zone's file, a number, and the files of requests.
fn run<R: Files + Env + AllocGlobal>(rt: &R) -> io::Result<Option<u64>> {
    let alloc = rt.alloc();
    let words: Vec<String> = env::args(rt)?.collect(alloc)?;
    let (Some(zone), Some(more)) = (words.get(1), words.get(2)) else {
        return Ok(None);
    };
    let text = fs::read(rt, zone.as_str())?;
    let Some(version) = version_of(alloc, text.as_slice()) else {
        return Ok(None);
    };
    let more = more.as_str().parse::<usize>().unwrap_or(0);
    let mut sum = 0u64;
    for (i, path) in words.iter().enumerate() {
        if i > 2 {
            match answer_file(rt, &version, path.as_str(), i == more)? {
                Some(octets) => sum = sum.wrapping_add(octets),
                None => return Ok(None),
            }
        }
    }
    Ok(Some(sum))
}

fn main(rt: HostRuntime) -> io::Result<()> {
    match run(&rt)? {
        Some(octets) => println!(rt; "{octets} octets"),
        None => println!(rt; "nothing is answered"),
    }
}
RT


# A zone of so many records: hosts of which each tenth is an alias of the one before it, and behind them a zone cut, a wildcard, and a name
# with ten mail exchanges.
zone() {
    awk -v n="$1" 'BEGIN {
        print "example.test. 3600 IN SOA ns1.example.test. admin.example.test. 1 7200 900 1209600 300"
        print "example.test. 3600 IN NS ns1.example.test."
        for (i = 0; i + 26 < n; i++) {
            if (i % 10 == 9) printf "h%d.example.test. 3600 IN CNAME h%d.example.test.\n", i, i - 1
            else printf "h%d.example.test. 3600 IN A 192.0.2.%d\n", i, i % 256
        }
        print "sub.example.test. 3600 IN NS ns.sub.example.test."
        print "ns.sub.example.test. 3600 IN A 192.0.2.1"
        print "*.wild.example.test. 3600 IN A 192.0.2.2"
        print "wild.example.test. 3600 IN A 192.0.2.3"
        for (i = 0; i < 10; i++) {
            printf "m.example.test. 3600 IN MX %d mx%d.example.test.\n", i, i
            printf "mx%d.example.test. 3600 IN A 192.0.2.%d\n", i, i
        }
    }'
}

# So many queries of a kind, in hexadecimal, a line each, without a line's end behind the last.
queries() {
    awk -v kind="$1" -v n="$2" -v q=3000 'BEGIN {
        for (i = 0; i < 128; i++) code[sprintf("%c", i)] = i
        type = kind == "no data" ? 28 : kind == "mail exchanges" ? 15 : 1
        for (i = 0; i < q; i++) {
            at = int((i * 7919) % (n - 40) / 10) * 10
            if (kind == "name that doesn'"'"'t exist") name = "x" at
            else if (kind == "alias") name = "h" (at + 9)
            else if (kind == "referral") name = "h" at ".sub"
            else if (kind == "wildcard") name = "h" at ".wild"
            else if (kind == "mail exchanges") name = "m"
            else name = "h" at
            line = sprintf("%s%04x01000001000000000000", i == 0 ? "" : "\n", i)
            labels = split(name, label, ".")
            for (k = 1; k <= labels; k++) {
                line = line sprintf("%02x", length(label[k]))
                for (j = 1; j <= length(label[k]); j++) line = line sprintf("%02x", code[substr(label[k], j, 1)])
            }
            printf "%s076578616d706c65047465737400%04x0001", line, type
        }
    }'
}

# The instructions of a run that answers the requests of each kind, and those of one kind once more.
count() {
    valgrind --tool=callgrind --callgrind-out-file=/dev/null "$bench/out/query_bench" "$work/zone" "$1" "$work"/kind-* 2> "$work/said" > "$work/told"
    grep -q octets "$work/told" || { cat "$work/told" >&2; exit 1; }
    sed -n 's/.*Collected *: *\([0-9]*\).*/\1/p' "$work/said"
}

: > "$work/none"
(cd "$bench" && rt run -- "$work/none" > "$work/said" 2>&1) || { cat "$work/said" >&2; exit 1; }
kinds=("name that exists" "name that doesn't exist" "alias" "referral" "wildcard" "no data" "mail exchanges")
for records in "${@:-1000 1000000}"; do for n in $records; do
    zone "$n" > "$work/zone"
    for i in "${!kinds[@]}"; do queries "${kinds[i]}" "$n" > "$work/kind-$i"; done
    base=$(count 0)
    mix=0
    for i in "${!kinds[@]}"; do
        each=$((($(count $((i + 3))) - base) / 3000))
        [ "$i" -gt 2 ] || mix=$((mix + each))
        printf '%9d records  %-24s %6d\n' "$n" "${kinds[i]}" "$each"
    done
    printf '%9d records  %-24s %6d\n' "$n" "mean of the first three" "$((mix / 3))"
done; done
