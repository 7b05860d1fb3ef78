#!/usr/bin/env bash
# Counts how often answers search a zone as bench/answer.sh makes it, for a name that owns records, one that doesn't exist, and an alias, by a
# zone that counts in a program of its own. The program is compiled beside a copy of the crates below lookup_core and runs as it is
# compiled: nothing is proved, since a count is the same either way.
# Usage: bench/searches.sh [RECORDS], by default 1000.
set -euo pipefail
cd "$(dirname "$0")/.."
records=${1:-1000}
work=$(mktemp -d)
trap 'rm -rf "$work"' EXIT
for crate in dns_name dns_rdata shared_tree zone_tree lookup_core; do
    mkdir -p "$work/crates/$crate"
    cp -r "crates/$crate"/{src,specs,proofs} "$work/crates/$crate/"
    grep "^$crate:" crates.txt
done > "$work/crates.txt"
echo "search_bench: dns_name dns_rdata zone_tree lookup_core" >> "$work/crates.txt"
mkdir -p "$work/crates/search_bench/src"
sed "s/RECORDS/$records/" > "$work/crates/search_bench/src/main.rt" <<'RT'
//! Answers queries for the hosts of a zone, and prints how often the zone was searched for a name.
#![tactic(auto)]

use dns_name::{Name, Sought};
use dns_rdata::{RData, RRset, RType, Ttl};
use lookup_core::answer;
use std::alloc::Global;
use std::cell::Cell;
use std::io;
use zone_tree::{Near, Walk, Zone, ZoneRead};

/// The data of an SOA of serial 1, and of an NS.
const SOA: &[u8] = b"\0\0\0\0\0\x01\0\0\x1c\x20\0\0\x03\x84\0\x12\x75\0\0\0\x01\x2c";
const NS: &[u8] = b"\x03ns1\x07example\x04test\0";

/// How many hosts the zone has.
const HOSTS: u32 = RECORDS;

/// A zone that counts the searches for a name.
#[derive(Drop)]
struct Counted {
    zone: Zone,
    searches: Cell<u64>,
}

impl Counted {
    fn count(&self) {
        self.searches.set(self.searches.get().saturating_add(1));
    }
}

impl ZoneRead for Counted {
    ghost records = { λ counted. counted.zone };

    fn apex(&self) -> &Name {
        self.zone.apex()
    }

    fn rrset(&self, owner: &Name, rtype: RType) -> Option<&RRset> {
        self.count();
        self.zone.rrset(owner, rtype)
    }

    fn rrsets_at(&self, owner: &Name) -> &[RRset] {
        self.count();
        self.zone.rrsets_at(owner)
    }

    fn sets_at(&self, owner: &Sought<'_>) -> &[RRset] {
        self.count();
        self.zone.sets_at(owner)
    }

    fn around<'r>(&self, name: &Sought<'r>) -> Near<'_, 'r> {
        self.count();
        self.zone.around(name)
    }

    fn exists(&self, name: &Name) -> bool {
        self.count();
        self.zone.exists(name)
    }

    fn soa(&self) -> &RRset {
        self.zone.soa()
    }

    fn walk(&self) -> Walk<'_> {
        self.zone.walk()
    }
}

/// A name of the zone with a number behind a letter.
fn host(alloc: Global, letter: &str, number: u32) -> Option<Name> {
    let text = format!(in alloc; "{letter}{number:07}.example.test.").ok()?;
    Name::from_text(text.as_bytes(), &Name::root()).ok()
}

/// A set of one record.
fn set_of(alloc: Global, owner: &Name, rtype: RType, octets: &[u8]) -> Option<RRset> {
    let data = RData::from_wire(alloc, rtype, octets).ok()?;
    RRset::new(alloc, owner, Ttl(3600), data).ok()
}

/// A zone of an SOA, an NS, and hosts of which each tenth is an alias of the one before it.
fn zone_of(alloc: Global) -> Option<Zone> {
    let apex = Name::from_text(b"example.test.", &Name::root()).ok()?;
    let mut sets = Vec::new(alloc);
    sets.push(set_of(alloc, &apex, RType::NS, NS)?).ok()?;
    sets.push(set_of(alloc, &apex, RType::SOA, SOA)?).ok()?;
    for number in 0..HOSTS {
        let owner = host(alloc, "h", number)?;
        let set = if number % 10 == 9 {
            let target = host(alloc, "h", number.saturating_sub(1))?;
            set_of(alloc, &owner, RType::CNAME, target.wire())?
        } else {
            set_of(alloc, &owner, RType::A, &[192, 0, 2, 1])?
        };
        sets.push(set).ok()?;
    }
    Zone::new(alloc, sets).ok()
}

/// How many searches the names of each tenth host want, where it is asked for by this letter and at this place among ten.
fn searches(alloc: Global, zone: &Counted, letter: &str, place: u32) -> Option<(u64, u64)> {
    zone.searches.set(0);
    let mut queries = 0u64;
    for ten in 0..HOSTS / 10 {
        let name = host(alloc, letter, ten.saturating_mul(10).saturating_add(place))?;
        let _ = answer(zone, &name, RType::A);
        queries = queries.saturating_add(1);
    }
    Some((zone.searches.get(), queries))
}

/// Searches a query, with a digit behind the point.
fn told(alloc: Global, counted: (u64, u64)) -> Option<String> {
    let (searches, queries) = counted;
    let tenths = searches.saturating_mul(10) / queries.max(1);
    format!(in alloc; "{}.{}", tenths / 10, tenths % 10).ok()
}

/// What is printed.
fn report(alloc: Global) -> Option<String> {
    let zone = Counted {
        zone: zone_of(alloc)?,
        searches: Cell::new(0),
    };
    let owned = told(alloc, searches(alloc, &zone, "h", 0)?)?;
    let missing = told(alloc, searches(alloc, &zone, "x", 0)?)?;
    let alias = told(alloc, searches(alloc, &zone, "h", 9)?)?;
    format!(in alloc;
        "searches of the zone a query: {owned} of a name that owns records, {missing} of one that doesn't exist, {alias} of an alias"
    )
    .ok()
}

fn main(rt: HostRuntime) -> io::Result<()> {
    match report(rt.alloc()) {
        Some(text) => println!(rt; "{text}"),
        None => println!(rt; "no memory"),
    }
}
RT
cd "$work" && git init -q . && cd crates/search_bench
rt try --steps 1 2> "$work/said" || { cat "$work/said" >&2; exit 1; }
