#!/usr/bin/env bash
# Measures a million accesses by 1, 2, 4 and 16 threads over one memory: interlocked additions to one word, as the tests of
# tools/measure/shared make them; and the same by one thread over a memory that it does not share. The time is from making the memory to
# closing it.
set -euo pipefail
. "$(dirname "$0")/scratch.sh"
scratch "shared_memory memory_core vt_outside image_file vax_form" <<'PROGRAM'
//! The time of a million accesses.
#![tactic(auto)]

ghost use Rattle.std.specs.Prelude.{◌≡◌};

mod threads;
mod worker;

use image_file::{Image, read_image};
use memory_core::{Change, Kind, Limit, MemState, Reply, Request};
use std::io;
use std::process::Abort;
use std::rt::Clock;
use std::sync::Wait;
use std::thread::Threads;
use std::time::Instant;
use threads::count_up;
use vt_outside::OpenGate;
use worker::{Plan, QUAD, Way};

const ACCESSES: u32 = 1_000_000;

const ROUNDS: u32 = 3;

/// One thread; a read-only section at 200, and a writable one at 1000.
const IMAGE: [u8; 52] = [
    0x56, 0x58, 0x49, 0x4d, 1, 0, 1, 0, 2, 0, 0, 0, //
    0, 2, 0, 0, 0, 0x12, 0, 0, //
    0, 2, 0, 0, 0, 2, 0, 0, 0, 0, 0, 0, 0, 0, 0, 0, //
    0, 0x10, 0, 0, 0, 2, 0, 0, 0, 0, 0, 0, 1, 0, 0, 0,
];

/// How many of so many additions are made.
fn added(image: &Image, memory: &mut MemState, accesses: u32) -> u32
    requires image { memory.old.set_up.image ≡ image.now }
    requires processors { memory.old.processors ≡ 1 }
{
    let mut made = 0;
    for n in 0..accesses {
        if !image.pages.allowed(QUAD, true) || !image.pages.allowed(QUAD, false) {
            return made;
        }
        let request = Request {
            processor: 0,
            retired: 0,
            kind: Kind::TieLocked,
            quad: QUAD,
            change: Change::AddWord { at: 0, value: 1 },
        };
        if let Reply::Made { .. } = memory.access(&request) {
            made += 1;
        }
    }
    made
}

fn not_shared(rt: &(impl AllocGlobal + Print + Clock)) -> io::Result<()> {
    let Ok(image) = read_image(rt.alloc(), &IMAGE) else {
        return println!(rt; "no image");
    };
    let start = Instant::now(rt)?;
    let Ok(mut memory) = MemState::new(rt.alloc(), &image, Vec::new(rt.alloc()), 1, Limit::Entries(ACCESSES), 0) else {
        return println!(rt; "no memory");
    };
    let made = added(&image, &mut memory, ACCESSES);
    let time = start.elapsed(rt)?.as_millis();
    println!(rt; "{made} accesses to a memory that is not shared: {time} milliseconds")
}

fn shared<R: Threads + Wait + Abort + Sync + AllocGlobal + Print + Clock>(rt: &R, threads: u8) -> io::Result<()> {
    let plan = Plan {
        way: Way::Interlocked,
        count: ACCESSES / u32::from(threads.max(1)),
    };
    let start = Instant::now(rt)?;
    let end = count_up(rt, rt.alloc(), &OpenGate, plan, threads, ACCESSES);
    let time = start.elapsed(rt)?.as_millis();
    let entries = end.memory.history().unwrap_or(&[]).len();
    println!(rt; "{entries} accesses by {threads} threads: {time} milliseconds")
}

fn main(rt: HostRuntime) -> io::Result<()> {
    for _ in 0..ROUNDS {
        not_shared(&rt)?;
        for threads in [1, 2, 4, 16] {
            shared(&rt, threads)?;
        }
    }
    Ok(())
}
PROGRAM
workers
mkdir -p proofs/added
cat > proofs/added/Invariants.antt <<'PROOF'
use Rattle.std.proofs.Common.{◌≡◌, ◌≤◌}
use Rattle.measure.proofs.added.Given as goal

abbrev pub invariant-loop-n : goal.invariant-loop-n
invariant-loop-n l = record {
    image : l.memory.set_up.image ≡ l.image;
    processors : l.memory.processors ≡ 1;
    made : l.made ≤ l.n;
  }
PROOF
rt run
