#!/usr/bin/env bash
# Builds trees of so many keys by `with`, one key after another in no order, and prints what a call costs: nanoseconds of `with` and
# of `get`, nodes made by a `with` on average and at most beside the bound of its contract, and the tree's height. The program is
# proved and built beside a copy of crates/shared_tree.
# Usage: bench/tree.sh [KEYS ..], by default 1000 10000 100000 1000000.
set -euo pipefail
cd "$(dirname "$0")/.."
work=$(mktemp -d)
trap 'rm -rf "$work"' EXIT
mkdir -p "$work/crates/tree_bench/src" "$work/crates/shared_tree"
cp -r crates/shared_tree/{src,specs,proofs} "$work/crates/shared_tree/"
[ ! -d crates/shared_tree/out ] || cp -r crates/shared_tree/out "$work/crates/shared_tree/"
printf 'shared_tree: arrayvec thiserror\ntree_bench: shared_tree\n' > "$work/crates.txt"
cat > "$work/crates/tree_bench/src/main.rt" <<'RT'
//! Times a tree's calls.
#![tactic(auto)]

use shared_tree::Tree;
use std::env;
use std::io;
use std::rt::Env;
use std::time::Instant;

/// Keys in no order, no two equal: the number times an odd constant.
fn key(number: u32) -> u32 {
    number.wrapping_mul(0x9e37_79b1)
}

fn main(rt: HostRuntime) -> io::Result<()> {
    let alloc = rt.alloc();
    let words: Vec<String> = env::args(&rt)?.collect(alloc)?;
    for word in words.iter().skip(1) {
        let count = word.as_str().parse::<u32>().unwrap_or(0);
        let mut tree = Tree::new();
        let mut made = 0u64;
        let mut most = 0u64;
        let mut bound = 0u64;
        let start = Instant::now(&rt)?;
        for number in 0..count {
            let limit = 4 * (u64::from(tree.height()) + 1);
            let Ok((next, nodes)) = tree.with(alloc, key(number), number) else {
                println!(rt; "no memory at {number}")?;
                return Ok(());
            };
            tree = next;
            made = made.saturating_add(nodes);
            most = most.max(nodes);
            bound = limit;
        }
        let put = start.elapsed(&rt)?.as_nanos();
        let start = Instant::now(&rt)?;
        let mut found = 0u32;
        for number in 0..count {
            if let Some(value) = tree.get(&key(number)) {
                found = found.saturating_add(*value & 1);
            }
        }
        let got = start.elapsed(&rt)?.as_nanos();
        let keys = u128::from(count.max(1));
        let tenths = made.saturating_mul(10) / u64::from(count.max(1));
        let height = tree.height();
        println!(rt; "{count:9} keys, height {height:2}: with {:5} ns, {}.{} nodes, at most {most} of {bound}; get {:5} ns ({found} odd)",
            put / keys, tenths / 10, tenths % 10, got / keys)?;
    }
    Ok(())
}
RT
cd "$work/crates/tree_bench"
if ! rt run -- 1 > "$work/said" 2>&1; then
    cat "$work/said" >&2
    exit 1
fi
[ $# -gt 0 ] || set -- 1000 10000 100000 1000000
out/tree_bench "$@"
