#!/usr/bin/env bash
# Loads the version published last and releases it, so many times in each of 1, 2 and 4 threads, and prints nanoseconds a load with its
# release, of processor time and of time passed: for the cell on words that threads share; for an Arc under a Mutex, which is cloned and
# dropped; and for the limit, one addition and one subtraction on two words that no line of the cache has both of. Beside them the same
# on words 8 octets apart, and on a word of each thread's own, 8 octets from the next thread's and in lines of its own. All are run by
# turns, so many rounds, and the least and the middle of the rounds are printed. The program is proved and built beside copies of the crates.
# Usage: bench/cell.sh [COUNT [ROUNDS]], by default 1000000 in each thread and 7.
set -euo pipefail
cd "$(dirname "$0")/.."
count=${1:-1000000}
rounds=${2:-7}
work=$(mktemp -d)
trap 'rm -rf "$work"' EXIT
for crate in cell_core raw_slots counted_handles snapshot_cell; do
    mkdir -p "$work/crates/$crate/out"
    cp -r "crates/$crate"/{src,specs,proofs} "$work/crates/$crate/"
    [ ! -d "crates/$crate/out/rlib" ] || cp -r "crates/$crate/out/rlib" "$work/crates/$crate/out/"
    grep "^$crate:" crates.txt
done > "$work/crates.txt"
echo "cell_bench: cell_core snapshot_cell crossbeam_utils" >> "$work/crates.txt"
bench=$work/crates/cell_bench
mkdir -p "$bench/src" "$bench/proofs/play"
cat > "$bench/src/main.rt" <<'RT'
//! Loads and releases, or adds and subtracts, in threads.
#![tactic(auto)]
ghost use Rattle.std.specs.Prelude.{◌≡◌};
ghost use Rattle.std.specs.List.{All};

use cell_core::Follows;
use crossbeam_utils::CachePadded;
use std::alloc::Global;
use std::env;
use std::io;
use std::marker::Brand;
use std::process::Abort;
use std::rt::Env;
use std::sync::atomic::AtomicU64;
use std::sync::atomic::Ordering::SeqCst;
use std::sync::{Arc, Mutex, Wait};
use std::thread;
use std::thread::Threads;
use snapshot_cell::{Cell, NamedCell, NamedPublisher, NamedReader, Names, Naming, Parts, Reader};

/// Any value may follow another.
struct Any;

impl Follows<u64> for Any {
    ghost follows = { λ _ _. Unit {0} };
}

impl Names<u64> for Any {
    ghost begins = { λ _. Unit {0} };
}

/// A reader at its cell.
#[derive(Drop)]
struct Loader<'a, N: Naming> {
    cell: &'a NamedCell<u64, Any, N>,
    reader: NamedReader<u64, N>,
}

/// What a thread does.
#[derive(Drop)]
enum Job<'a> {
    Lock(&'a Mutex<Arc<u64>>),
    Words(&'a AtomicU64, &'a AtomicU64),
}

impl<'a, N: Naming> Loader<'a, N> {
    fn load(&mut self) -> u64 {
        match self.cell.load(&mut self.reader) {
            Ok(strong) => {
                let value = *strong.get();
                strong.release();
                value
            }
            Err(_) => 0,
        }
    }

    fn run(mut self, count: u64) -> Loaded<N> {
        let mut sum = 0u64;
        for _ in 0..count {
            sum = sum.wrapping_add(self.load());
        }
        let Loader { cell: _, reader } = self;
        Loaded { sum, reader }
    }
}

/// What a reader has read, added up.
#[derive(Drop)]
struct Loaded<N: Naming> {
    sum: u64,
    reader: NamedReader<u64, N>,
}

fn lock_all<R: Wait>(rt: &R, last: &Mutex<Arc<u64>>, count: u64) -> u64 {
    let mut sum = 0u64;
    for _ in 0..count {
        let owner = Arc::try_clone(&*last.lock(rt));
        if let Ok(owner) = owner {
            sum = sum.wrapping_add(*owner);
        }
    }
    sum
}

fn add_all(up: &AtomicU64, down: &AtomicU64, count: u64) -> u64 {
    let mut sum = 0u64;
    for _ in 0..count {
        sum = sum.wrapping_add(up.fetch_add(1, SeqCst));
        down.fetch_sub(1, SeqCst);
    }
    sum
}

impl<'a> Job<'a> {
    fn run<R: Wait>(self, rt: &R, count: u64) -> u64 {
        match self {
            Job::Lock(last) => lock_all(rt, last, count),
            Job::Words(up, down) => add_all(up, down, count),
        }
    }
}

/// Runs each job in a thread of its own: what they read, added up.
fn play<R: Threads + Wait + Sync>(rt: &R, jobs: Vec<Job<'_>>, count: u64) -> Option<u64> {
    let work = |job: Job<'_>| -> u64
        ensures { Unit {0} }
    { job.run(rt, count) };
    let sums = thread::map_vec(rt, jobs, &work).ok()?;
    let mut sum = 0u64;
    for one in sums.iter() {
        sum = sum.wrapping_add(*one);
    }
    Some(sum)
}

/// A reader at its cell for each.
fn loaders_of<'a, N: Naming>(
    alloc: Global,
    cell: &'a NamedCell<u64, Any, N>,
    mut readers: Vec<Reader<u64>>,
) -> Option<Vec<Loader<'a, N>>>
    requires { All (λ r. r.cell ≡ N.cell) readers.items }
{
    let mut loaders = Vec::new(alloc);
    while let Some(reader) = readers.pop() {
        let reader = NamedReader::of(reader);
        loaders.push(Loader { cell, reader }).ok()?;
    }
    Some(loaders)
}

/// Loads by each reader in a thread of its own, and ends the cell: what they read, added up.
fn load_all<R: Threads + Wait + Sync + Abort, N: Naming + Send + Sync>(
    rt: &R,
    alloc: Global,
    parts: Parts<u64, Any>,
    count: u64,
) -> u64
    requires cell { (parts.cell ≡ N.cell) × (parts.publisher.cell ≡ N.cell) }
    requires readers { All (λ r. r.cell ≡ N.cell) parts.readers.items }
{
    let Parts {
        cell,
        publisher,
        readers,
    } = parts;
    let cell = NamedCell::<u64, Any, N>::of(cell);
    let publisher = NamedPublisher::<u64, Any, N>::of(publisher);
    let loaders = loaders_of(alloc, &cell, readers).expect(rt, "memory");
    let work = |loader: Loader<'_, N>| -> Loaded<N>
        ensures { Unit {0} }
    { loader.run(count) };
    let all = thread::map_vec(rt, loaders, &work).ok().expect(rt, "memory");
    let mut sum = 0u64;
    let mut readers = Vec::new(alloc);
    for loaded in all {
        sum = sum.wrapping_add(loaded.sum);
        readers.push(loaded.reader).ok().expect(rt, "memory");
    }
    match cell.close(publisher, readers) {
        Ok(_) => sum,
        Err(_) => panic!(rt; "the cell is in use"),
    }
}

fn loads<R: Threads + Wait + Sync + Abort>(
    rt: &R,
    alloc: Global,
    threads: usize,
    count: u64,
) -> Option<u64> {
    match Cell::<u64, Any>::new(alloc, threads, 7) {
        Ok(parts) => Some(load_all::<R, Brand>(rt, alloc, parts, count)),
        Err(_) => None,
    }
}

fn locks<R: Threads + Wait + Sync>(
    rt: &R,
    alloc: Global,
    threads: usize,
    count: u64,
) -> Option<u64> {
    let last = Mutex::new(Arc::new(alloc, 7u64).ok()?);
    let mut jobs = Vec::new(alloc);
    for _ in 0..threads {
        jobs.push(Job::Lock(&last)).ok()?;
    }
    play(rt, jobs, count)
}

fn shared<R: Threads + Wait + Sync>(
    rt: &R,
    alloc: Global,
    words: (&AtomicU64, &AtomicU64),
    threads: usize,
    count: u64,
) -> Option<u64> {
    let mut jobs = Vec::new(alloc);
    for _ in 0..threads {
        jobs.push(Job::Words(words.0, words.1)).ok()?;
    }
    play(rt, jobs, count)
}

/// Each thread has a word of its own, of these four.
fn own<R: Threads + Wait + Sync>(
    rt: &R,
    alloc: Global,
    words: [&AtomicU64; 4],
    threads: usize,
    count: u64,
) -> Option<u64> {
    let mut jobs = Vec::new(alloc);
    for thread in 0..threads {
        let word = words[thread % 4];
        jobs.push(Job::Words(word, word)).ok()?;
    }
    play(rt, jobs, count)
}

fn main(rt: HostRuntime) -> io::Result<()> {
    let alloc = rt.alloc();
    let words: Vec<String> = env::args(&rt)?.collect(alloc)?;
    let number = |at: usize| match words.get(at) {
        Some(word) => word.as_str().parse::<u64>().unwrap_or(0),
        None => 0,
    };
    let threads = number(2) as usize;
    let count = number(3);
    let kind = match words.get(1) {
        Some(word) => word.as_str(),
        None => "",
    };
    let near = [
        AtomicU64::new(0),
        AtomicU64::new(0),
        AtomicU64::new(0),
        AtomicU64::new(0),
    ];
    let far = [
        CachePadded::new(AtomicU64::new(0)),
        CachePadded::new(AtomicU64::new(0)),
        CachePadded::new(AtomicU64::new(0)),
        CachePadded::new(AtomicU64::new(0)),
    ];
    let due = count.wrapping_mul(threads as u64).wrapping_mul(7);
    let sum = match kind {
        "cell" => loads(&rt, alloc, threads, count),
        "mutex" => locks(&rt, alloc, threads, count),
        "limit" => shared(&rt, alloc, (&far[0], &far[1]), threads, count),
        "near" => shared(&rt, alloc, (&near[0], &near[1]), threads, count),
        "own" => own(&rt, alloc, [&far[0], &far[1], &far[2], &far[3]], threads, count),
        "own-near" => own(&rt, alloc, [&near[0], &near[1], &near[2], &near[3]], threads, count),
        _ => None,
    };
    match sum {
        Some(sum) if kind != "cell" || sum == due => println!(rt; "done"),
        _ => println!(rt; "nothing is done"),
    }
}
RT
mkdir -p "$bench/proofs"/{load_all,loaders_of,loads}
echo "pub mod SendLemmas" > "$bench/proofs/Lib.antt"
cat > "$bench/proofs/SendLemmas.antt" <<'ANTT'
-- A job may be sent to another thread, and what is loaded back.
use denote.Ref.{NamedLft}
use denote.RattleType.{RattleType}
use denote.Param.Send.{IsSend, sendable}
use Rattle.std.proofs.Crossing as crossing
use Rattle.std.proofs.sync.Mutex.TheSendSync as mutex
use Rattle.snapshot_cell.proofs.SendLemmas as cell
use Rattle.snapshot_cell.specs.declared.named.Naming as naming
use Rattle.cell_bench.specs.contracts.Job as job
use Rattle.cell_bench.specs.contracts.Loaded as loaded
use Rattle.cell_bench.specs.contracts.Loader as loader

module _ (N : RattleType) (n : naming.Ghosts N.Denot) where
  pub loaded_send : IsSend (loaded.the_row N n)
  loaded_send = search (cell.crosses, crossing.crosses, sendable) depth 60 fits 20000

  pub loader_send : (a : NamedLft) → IsSend (loader.the_row a N n)
  loader_send a = search (cell.crosses, crossing.crosses, sendable) depth 60 fits 20000

module _ (a : NamedLft) where
  pub job_send : IsSend (job.the_row a)
  job_send = search (mutex.the_sync, crossing.crosses, sendable) depth 60 fits 20000
ANTT
cat > "$bench/proofs/play/Answers.antt" <<'ANTT'
use denote.Exit.{no}
use denote.Param.Send.{param_send, arg_send}
use Rattle.cell_bench.proofs.SendLemmas.{job_send}
use Rattle.cell_bench.proofs.play.Goals as goal

pub map_vec-requires-send-J : goal.map_vec-requires-send-J
map_vec-requires-send-J g c κs within = param_send _ _ (arg_send _ no _ (job_send _))
ANTT
cat > "$bench/proofs/load_all/Answers.antt" <<'ANTT'
use denote.Exit.{no}
use denote.Param.{param}
use denote.Param.Send.{param_send, arg_send}
use Rattle.cell_bench.proofs.SendLemmas.{loader_send, loaded_send}
use Rattle.cell_bench.proofs.load_all.Goals as goal

pub map_vec-requires-send-J : goal.map_vec-requires-send-J
map_vec-requires-send-J g c κs within = param_send _ _ (arg_send _ no _ (loader_send (param 1 g.row.N) g.N.Naming _))

pub map_vec-requires-send-X : goal.map_vec-requires-send-X
map_vec-requires-send-X g c κs within = param_send _ _ (arg_send _ no _ (loaded_send (param 1 g.row.N) g.N.Naming))
ANTT
cat > "$bench/proofs/loaders_of/Invariants.antt" <<'ANTT'
use Rattle.std.proofs.Common.{◌≡◌, vec_len}
use Rattle.std.specs.List.{All}
use Rattle.cell_bench.proofs.loaders_of.Given as goal

abbrev pub invariant-loop-reader : goal.invariant-loop-reader
invariant-loop-reader g l = All (λ r. r.cell ≡ g.N.Naming.cell) l.readers.items

abbrev pub decreases-loop-reader : goal.decreases-loop-reader
decreases-loop-reader g l = vec_len l.readers
ANTT
cat > "$bench/proofs/loads/Invariants.antt" <<'ANTT'
use Rattle.cell_bench.proofs.loads.Given as goal

abbrev pub ghosts-load_all : goal.ghosts-load_all
ghosts-load_all g a = record { cell = a.parts.cell }
ANTT
cd "$bench"
if ! rt run -- none 1 1 > "$work/said" 2>&1; then
    cat "$work/said" >&2
    exit 1
fi
python3 - "$bench/out/cell_bench" "$count" "$rounds" <<'PY'
import os, statistics, sys, time
program, count, rounds = sys.argv[1], int(sys.argv[2]), int(sys.argv[3])
kinds = ["cell", "mutex", "limit", "near", "own", "own-near"]

# Seconds of processor time and of time passed that a run takes.
def run(kind, threads, times):
    start = time.monotonic()
    words = [program, kind, str(threads), str(times)]
    quiet = os.open(os.devnull, os.O_WRONLY)
    pid = os.posix_spawn(program, words, os.environ, file_actions=[(os.POSIX_SPAWN_DUP2, quiet, 1)])
    os.close(quiet)
    _, status, used = os.wait4(pid, 0)
    if status != 0:
        sys.exit(f"bench: {' '.join(words[1:])} ends with {status}")
    return used.ru_utime + used.ru_stime, time.monotonic() - start

for threads in (1, 2, 4):
    taken = {kind: [] for kind in kinds}
    begun = {kind: [] for kind in kinds}
    for _ in range(rounds):
        for kind in kinds:
            begun[kind].append(run(kind, threads, 0))
            taken[kind].append(run(kind, threads, count))
    told = {}
    for kind in kinds:
        # what a run of no turns takes is taken off; processor time a turn of each thread, time passed a turn of all at once
        cpu, passed = ([1e9 * (t[i] - min(b[i] for b in begun[kind])) / count for t in taken[kind]] for i in (0, 1))
        cpu = [ns / threads for ns in cpu]
        told[kind] = min(cpu), statistics.median(cpu)
        print(f"{threads} threads, {kind:8}: processor {min(cpu):6.1f} ns at least, {statistics.median(cpu):6.1f} in the middle; passed {min(passed):6.1f}, {statistics.median(passed):6.1f}")
    parts = [f"{told['cell'][i] / told[other][i]:.2f}" for other in ("limit", "mutex") for i in (0, 1)]
    print(f"{threads} threads: the cell takes {parts[0]} and {parts[1]} of the limit's processor time, {parts[2]} and {parts[3]} of the lock's")
PY
