#!/usr/bin/env bash
# Measures a memory of one owner: as many accesses as it has room for; and a new memory of a small image, of one of 1 MB, and of a
# small one that ends at address 80000000, each the fastest of 20.
# Usage: tools/measure/memory.sh [ACCESSES], in the repository. It proves, builds and runs a program in a copy.
set -euo pipefail
accesses=${1:-4194304}
. "$(dirname "$0")/scratch.sh"
scratch "vax_form image_file memory_core anyhow" <<'PROGRAM'
#![tactic(auto)]

ghost use Rattle.std.specs.Prelude.{◌≡◌, IfOk};
ghost use Rattle.image_file.specs.Whole.{IsWhole};

use anyhow::{Context, Result, bail};
use image_file::{Image, read_image};
use memory_core::{Change, Kind, Limit, MemState, Reply, Request};
use std::alloc::Global;
use std::time::Instant;

// A read-only section at 200 and a writable one at 1000.
const IMAGE: [u8; 52] = [
    0x56, 0x58, 0x49, 0x4d, 1, 0, 1, 0, 2, 0, 0, 0, //
    0, 2, 0, 0, 0, 0x12, 0, 0, //
    0, 2, 0, 0, 0, 2, 0, 0, 0, 0, 0, 0, 0, 0, 0, 0, //
    0, 0x10, 0, 0, 0, 2, 0, 0, 0, 0, 0, 0, 1, 0, 0, 0,
];

// Where the second section's start and size stand.
const START: usize = 36;
const SIZE: usize = 40;

const ROUNDS: u32 = 20;

// The image with its second section there.
fn image_of(alloc: Global, start: u32, size: u32) -> Result<Image>
    ensures { IfOk result IsWhole }
{
    let mut bytes = IMAGE;
    bytes[START..SIZE].copy_from_slice(&start.to_le_bytes());
    bytes[SIZE..SIZE + 4].copy_from_slice(&size.to_le_bytes());
    match read_image(alloc, &bytes) {
        Ok(image) => Ok(image),
        Err(_) => bail!("no image"),
    }
}

// Makes memories with room for one entry.
fn measure_new(rt: &HostRuntime, name: &str, start: u32, size: u32) -> Result<()> {
    let image = image_of(rt.alloc(), start, size)?;
    let mut fastest = u128::MAX;
    for _ in 0..ROUNDS {
        let start = Instant::now(rt)?;
        let input = Vec::new(rt.alloc());
        let memory = MemState::new(rt.alloc(), &image, input, 16, Limit::Entries(1), 0).ok().context("no memory")?;
        fastest = fastest.min(start.elapsed(rt)?.as_micros());
        drop(memory);
    }
    println!(rt; "a new memory of {name}: {fastest} microseconds")?;
    Ok(())
}

// Rounds of a load, a load-locked with its store conditional, and a write of four bytes, by 16 processors.
fn work(image: &Image, memory: &mut MemState, accesses: u32) -> u32
    requires image { memory.old.set_up.image ≡ image.now }
    requires processors { memory.old.processors ≡ 16 }
{
    let mut made = 0;
    for n in 0..accesses {
        let round = n / 4;
        let processor = (round % 16) as u8;
        let quad = 0x1000 + 8 * (round % 64);
        let value = u64::from(n);
        let (kind, change) = match n % 4 {
            0 => (Kind::Load, Change::Nothing),
            1 => (Kind::LoadLocked, Change::Nothing),
            2 => (Kind::StoreConditional, Change::Bytes { mask: 0xff, value }),
            _ => (Kind::TieWrite, Change::Bytes { mask: 0x0f, value }),
        };
        if !image.pages.allowed(quad, true) || !image.pages.allowed(quad, false) {
            return made;
        }
        let request = Request {
            processor,
            retired: u64::from(round),
            kind,
            quad,
            change,
        };
        if let Reply::Made { success: true, .. } = memory.access(&request) {
            made += 1;
        }
    }
    made
}

fn main(rt: HostRuntime) -> Result<()> {
    measure_new(&rt, "a small image", 0x1000, 0x200)?;
    measure_new(&rt, "1 MB", 0x1000, 0xf_fe00)?;
    measure_new(&rt, "a small image with the last page", 0x7fff_fe00, 0x200)?;
    let image = image_of(rt.alloc(), 0x1000, 0x200)?;
    let input = Vec::new(rt.alloc());
    let mut memory = MemState::new(rt.alloc(), &image, input, 16, Limit::Entries(ACCESSES), 0).ok().context("no memory")?;
    let start = Instant::now(&rt)?;
    let made = work(&image, &mut memory, ACCESSES);
    let accesses = start.elapsed(&rt)?.as_micros();
    let entries = memory.history().unwrap_or(&[]).len();
    println!(rt; "{entries} accesses, of which {made} succeed: {accesses} microseconds")?;
    Ok(())
}
PROGRAM
sed -i "s/ACCESSES/$accesses/" src/main.rt
mkdir -p specs proofs/work
: > specs/Lib.antt
: > proofs/Lib.antt
cat > proofs/work/Invariants.antt <<'PROOF'
use Rattle.std.proofs.Common.{◌≡◌, ◌≤◌}
use Rattle.measure.proofs.work.Given as goal

abbrev pub invariant-loop-n : goal.invariant-loop-n
invariant-loop-n l = record {
    image : l.memory.set_up.image ≡ l.image;
    processors : l.memory.processors ≡ 16;
    made : l.made ≤ l.n;
  }
PROOF

rt run > log 2>&1 || { tail -n 20 log; exit 1; }
for turn in 1 2 3; do
    ./out/measure
done
