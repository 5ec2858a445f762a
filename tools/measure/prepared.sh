#!/usr/bin/env bash
# Prints how long a step takes in a loop of seven ADDL, each on a register of its own, and a BR: through prepared code
# inside a block, through a processor that lands at each turn of the loop, and by alpha_machine::step alone. Processor time
# counts, so that other work on the machine weighs less.
set -euo pipefail
. "$(dirname "$0")/scratch.sh"
scratch "tie_switch prepared_code image_file vax_form address_map exception_records alpha_machine alpha_meaning alpha_encode anyhow" <<'PROGRAM'
#![tactic(auto)]

ghost use Rattle.std.specs.Prelude.{ℕ, ◌<◌, length, slice_index, IsSome};
ghost use Rattle.alpha_encode.specs.Words.{instr_at};

use address_map::AddressMap;
use alpha_machine::{AlphaStep, Cpu, step};
use anyhow::{Context, Result};
use exception_records::Points;
use image_file::Start;
use prepared_code::{Prepared, prepare};
use std::alloc::Global;
use tie_switch::Processor;
use vax_form::{PageRange, Pages};

const STEPS: u64 = 400_000_000;

/// ADDL Rn,#1,Rn for R1 to R7; BR to the first
const CODE: [u32; 8] = [
    0x4020_3001,
    0x4040_3002,
    0x4060_3003,
    0x4080_3004,
    0x40a0_3005,
    0x40c0_3006,
    0x40e0_3007,
    0xc3ff_fff8,
];

/// Where the block begins, and ADDL2 R1,R2, which writes all codes.
const ADDRESS: u32 = 0x200;
const ADD: [u8; 3] = [0xc0, 0x51, 0x52];

/// Steps until the program counter leaves the code, or a step isn't local.
#[inline(never)]
fn run(cpu: &mut Cpu, code: &[u32], most: u64) -> u64
    requires { (k : ℕ) → k < length code.now → IsSome (instr_at (slice_index code.now k)) }
{
    for made in 0..most {
        if cpu.pc as usize >= code.len() {
            return made;
        }
        match step(cpu, code) {
            AlphaStep::Local => {}
            AlphaStep::Want(_) | AlphaStep::Pal(_) => return made,
        }
    }
    most
}

fn pages(alloc: Global) -> Result<Pages> {
    let mut code = vec![in alloc; 0; 512]?;
    for place in 0..ADD.len() {
        code[place] = ADD[place];
    }
    let mut ranges = Vec::new(alloc);
    ranges.push(PageRange {
        first: ADDRESS / 512,
        count: 1,
        writable: false,
        place: 0,
    })?;
    Ok(Pages { ranges, code })
}

fn prepared<'a>(alloc: Global, map: &'a AddressMap, points: &'a Points, pages: &'a Pages) -> Result<Prepared<'a>> {
    prepare(alloc, &CODE, map, points, pages).ok().context("no memory")
}

// Each answers how many steps were made, and R1.
fn inside(alloc: Global, points: &Points, pages: &Pages) -> Result<(u64, u64)> {
    let map = address_map::build(alloc, &[]).ok().context("no map")?;
    let prepared = prepared(alloc, &map, points, pages)?;
    let mut cpu = Cpu { r: [0; 32], pc: 0 };
    let steps = prepared.run_inside(&mut cpu, STEPS);
    Ok((steps, cpu.r[1]))
}

fn landing(alloc: Global, points: &Points, pages: &Pages) -> Result<(u64, u64)> {
    let map = address_map::build(alloc, &[(ADDRESS, 0)]).ok().context("no map")?;
    let prepared = prepared(alloc, &map, points, pages)?;
    let start = Start {
        pc: ADDRESS,
        sp: 0,
        first: [0; 14],
    };
    let mut processor = Processor::new(0, &start, STEPS);
    let steps = processor.run_local(&prepared, &[], STEPS);
    Ok((steps, u64::from(processor.shown().r[1])))
}

fn alone() -> (u64, u64) {
    let mut cpu = Cpu { r: [0; 32], pc: 0 };
    let steps = run(&mut cpu, &CODE, STEPS);
    (steps, cpu.r[1])
}

fn main(rt: HostRuntime) -> Result<()> {
    let points = exception_records::build(Vec::new(rt.alloc())).ok().context("no points")?;
    let pages = pages(rt.alloc())?;
    let (steps, sum) = match std::env::args(&rt)?.count() {
        1 => inside(rt.alloc(), &points, &pages)?,
        2 => landing(rt.alloc(), &points, &pages)?,
        _ => alone(),
    };
    println!(rt; "{steps} {sum}")?;
    Ok(())
}
PROGRAM
rt run > "$room/log" 2>&1 || { tail -n 20 "$room/log"; exit 1; }
TIMEFORMAT=%U
# Prints the time of the program with these arguments, under a name.
measure() {
    local name=$1 seconds
    shift
    seconds=$({ time ./out/measure "$@" > "$room/steps"; } 2>&1)
    awk -v name="$name" -v seconds="$seconds" '{ printf "%s: %d steps in %s s: %.1f ns a step\n", name, $1, seconds, seconds / $1 * 1e9 }' "$room/steps"
}
for turn in 1 2 3; do
    measure "inside a block"
    measure "with landings" landing
    measure "alpha_machine::step" alone alone
done
