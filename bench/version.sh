#!/usr/bin/env bash
# Makes versions of zones of so many records, each by an update that adds an address at a name of its own, and prints what one costs: the
# octets of memory that it keeps (the peak memory of a run that keeps all versions less that of a run that keeps the last alone, by their
# number), and the processor time of one update, the making of the update in it. The program is proved and built beside a copy of the
# crates below update_core.
# Usage: [BENCH=PROGRAM] [VERSIONS=N] bench/version.sh [RECORDS ..], by default 20000 versions and 1000 100000 900000 records.
set -euo pipefail
cd "$(dirname "$0")/.."
versions=${VERSIONS:-20000}
work=$(mktemp -d)
trap 'rm -rf "$work"' EXIT
crates="dns_name wire_names dns_rdata dns_message shared_tree zone_tree update_core"

build() {
    mkdir -p "$work/crates/version_bench/src"
    for crate in $crates; do
        mkdir -p "$work/crates/$crate"
        cp -r "crates/$crate"/{src,specs,proofs} "$work/crates/$crate/"
        [ ! -d "crates/$crate/out" ] || cp -r "crates/$crate/out" "$work/crates/$crate/"
        grep "^$crate:" crates.txt
    done > "$work/crates.txt"
    echo "version_bench: dns_name dns_rdata dns_message zone_tree update_core" >> "$work/crates.txt"
    cat > "$work/crates/version_bench/src/main.rt" <<'RT'
//! Makes versions of a zone, each by an update that adds an address at a name of its own, and keeps each of them, or the last alone.
#![tactic(auto)]

use dns_message::{Head, RawRecords, Update, ZoneEntry};
use dns_name::Name;
use dns_rdata::{Class, RData, RRset, RType, RawRecord, Ttl};
use std::alloc::Global;
use std::env;
use std::io;
use std::rt::Env;
use std::time::Instant;
use update_core::{Outcome, apply};
use zone_tree::{Version, Zone};

/// The data of an SOA of serial 1, and of an NS.
const SOA: &[u8] = b"\0\0\0\0\0\x01\0\0\x1c\x20\0\0\x03\x84\0\x12\x75\0\0\0\x01\x2c";
const NS: &[u8] = b"\x03ns1\x07example\x04test\0";

/// A name; None where it is none.
fn name(text: &str) -> Option<Name> {
    Name::from_text(text.as_bytes(), &Name::root()).ok()
}

/// A set of one record.
fn set_of(alloc: Global, owner: &str, rtype: RType, octets: &[u8]) -> Option<RRset> {
    let data = RData::from_wire(alloc, rtype, octets).ok()?;
    RRset::new(alloc, &name(owner)?, Ttl(3600), data).ok()
}

/// A zone of an SOA, an NS, and hosts with an address each.
fn zone_of(alloc: Global, records: u32) -> Option<Zone> {
    let mut sets = Vec::new(alloc);
    sets.push(set_of(alloc, "example.test.", RType::NS, NS)?).ok()?;
    sets.push(set_of(alloc, "example.test.", RType::SOA, SOA)?).ok()?;
    for host in 2..records {
        let owner = format!(in alloc; "host{host:07}.example.test.").ok()?;
        sets.push(set_of(alloc, owner.as_str(), RType::A, &[198, 51, 100, 1])?).ok()?;
    }
    Zone::new(alloc, sets).ok()
}

/// An update that adds an address below a host somewhere in the zone.
fn update_of(alloc: Global, records: u32, number: u32) -> Option<Update> {
    let host = u64::from(number) * 104_729 % u64::from(records.max(1));
    let owner = format!(in alloc; "dhcp{number}.host{host:07}.example.test.").ok()?;
    let mut raws = Vec::new(alloc);
    raws.push(RawRecord {
        owner: name(owner.as_str())?,
        rtype: RType::A,
        class: Class::IN,
        ttl: 3600,
        octets: [192, 0, 2, 1].to_vec(alloc).ok()?,
    }).ok()?;
    Some(Update {
        head: Head { id: 1, opcode: 5, rd: false },
        zone: ZoneEntry { name: name("example.test.")?, rtype: RType::SOA, class: Class::IN },
        prerequisites: RawRecords::new(Vec::new(alloc)),
        updates: RawRecords::new(raws),
    })
}

/// The version behind another.
fn next_of(alloc: Global, version: &Version, update: &Update) -> Option<Version> {
    if version.number() > 1_000_000_000 {
        return None;
    }
    match apply(alloc, version, update, true) {
        Outcome::Next(next) => Some(next),
        _ => None,
    }
}

/// So many versions; how many were made, and the nanoseconds of it.
fn made(rt: &HostRuntime, records: u32, versions: u32, keep: bool) -> Option<(usize, u128)> {
    let alloc = rt.alloc();
    let mut last = Version::first(zone_of(alloc, records)?);
    let mut updates = Vec::new(alloc);
    for number in 0..versions {
        updates.push(update_of(alloc, records, number)?).ok()?;
    }
    let start = Instant::now(rt).ok()?;
    let mut kept = Vec::new(alloc);
    let mut count = 0usize;
    for update in &updates {
        let next = next_of(alloc, &last, update)?;
        if keep {
            kept.push(last).ok()?;
        }
        last = next;
        count = count.saturating_add(1);
    }
    let spent = start.elapsed(rt).ok()?.as_nanos();
    Some((count, spent))
}

fn main(rt: HostRuntime) -> io::Result<()> {
    let alloc = rt.alloc();
    let words: Vec<String> = env::args(&rt)?.collect(alloc)?;
    let mut numbers = [0u32; 3];
    for (place, word) in numbers.iter_mut().zip(words.iter().skip(1)) {
        *place = word.as_str().parse::<u32>().unwrap_or(0);
    }
    let [records, versions, keep] = numbers;
    match made(&rt, records, versions, keep == 1) {
        Some((count, spent)) => println!(rt; "{count} {spent}")?,
        None => println!(rt; "no memory")?,
    }
    Ok(())
}
RT
    cd "$work/crates/version_bench"
    if ! rt run -- 1000 1 0 > "$work/said" 2>&1; then
        cat "$work/said" >&2
        exit 1
    fi
    cd - > /dev/null
}

program=${BENCH:-}
[ -n "$program" ] || { build; program=$work/crates/version_bench/out/version_bench; }

# The seconds of processor time and the peak memory in KiB of a run.
run() { /usr/bin/time -f '%U %S %M' -o "$work/cost" "$program" "$@" > "$work/out"; cat "$work/cost"; }

[ $# -gt 0 ] || set -- 1000 100000 900000
for records in "$@"; do
    none=$(run "$records" 0 0)
    last=$(run "$records" "$versions" 0)
    all=$(run "$records" "$versions" 1)
    grep -q "^$versions " "$work/out" || { echo "bench: not all versions were made" >&2; exit 1; }
    python3 - "$records" "$versions" $none $last $all <<'PY'
import sys
records, versions = map(int, sys.argv[1:3])
u0, s0, m0, u1, s1, m1, u2, s2, m2 = map(float, sys.argv[3:12])
print(f"{records:>9,} records  {(m2 - m1) * 1024 / versions:7,.0f} octets a version  {(u1 + s1 - u0 - s0) / versions * 1e6:6.1f} us an update")
PY
done
