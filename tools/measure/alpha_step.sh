#!/usr/bin/env bash
# Prints how many steps a second alpha_machine makes in a loop of ADDL, CMPLT and BNE. Processor time counts, so that
# other work on the machine weighs less.
set -euo pipefail
. "$(dirname "$0")/scratch.sh"
scratch "alpha_machine alpha_meaning alpha_encode" <<'PROGRAM'
#![tactic(auto)]

ghost use Rattle.std.specs.Prelude.{ℕ, ◌<◌, length, slice_index, IsSome};
ghost use Rattle.alpha_encode.specs.Words.{instr_at};

use alpha_machine::{AlphaStep, Cpu, step};
use std::io;

const TURNS: u64 = 100_000_000;

/// ADDL R1,#1,R1; CMPLT R1,R2,R3; BNE R3 to the first
const CODE: [u32; 3] = [0x4020_3001, 0x4022_09a3, 0xf47f_fffd];

/// Steps until the program counter leaves the code, or a step isn't local.
#[inline(never)]
fn run(cpu: &mut Cpu, code: &[u32], most: u64) -> u64
    requires { (k : ℕ) → k < length code.now → IsSome (instr_at (slice_index code.now k)) }
{
    for steps in 0..most {
        if cpu.pc as usize >= code.len() {
            return steps;
        }
        match step(cpu, code) {
            AlphaStep::Local => {}
            AlphaStep::Want(_) | AlphaStep::Pal(_) => return steps,
        }
    }
    most
}

fn main(rt: HostRuntime) -> io::Result<()> {
    let mut cpu = Cpu { r: [0; 32], pc: 0 };
    cpu.r[2] = TURNS;
    let steps = run(&mut cpu, &CODE, 4 * TURNS);
    println!(rt; "{steps}")
}
PROGRAM
rt run > "$room/log" 2>&1 || { tail -n 20 "$room/log"; exit 1; }
TIMEFORMAT=%U
for turn in 1 2 3; do
    seconds=$({ time ./out/measure > "$room/steps"; } 2>&1)
    awk -v seconds="$seconds" '{ printf "%d steps in %s s: %.0f million steps a second\n", $1, seconds, $1 / seconds / 1000000 }' "$room/steps"
done
