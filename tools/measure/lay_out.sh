#!/usr/bin/env bash
# Measures how long `lay_out` takes over 32,768 blocks of ten words and exits of all forms, as the crates stand at each commit
# that is given, `here` for as they stand here: `lay_out.sh COMMIT..`. Before short exits they stand at 31ae3b02. Each is built by
# `rt try`, which proves nothing and keeps its checks, so only the times beside one another count, and how many words there are.
set -euo pipefail
. "$(dirname "$0")/scratch.sh"
top=$(cd "$(dirname "$0")/../.." && pwd)
[ $# -gt 0 ] || set -- here
program() {
    cat <<'PROGRAM'
//! The time of `lay_out`, five times.
#![tactic(auto)]

mod blocks;

use anyhow::{Result, bail};
use blocks::{Site, made};
use branch_layout::lay_out;
use exception_records::Block;
use micro_ops::{Arg, Exit, Micro, MicroOp};
use std::alloc::Global;
use std::time::Instant;
use vax_form::{Flags, Size};

const COUNT: u32 = 32_768;

const FIRST: u32 = 0x200;

/// Where no block is.
const NOWHERE: u32 = 0x10_0000;

/// R21 gets the low byte of R1.
const MOVES: Micro = Micro::Compute {
    to: 0,
    op: MicroOp::Move,
    size: Size::Byte,
    a: Arg::Register(1),
    b: Arg::Const(0),
};

/// The exit of a block, by its number: to the next, to the first, to no block, and to the next or the first.
fn exit_of(number: u32, at: u32) -> Exit {
    match number % 4 {
        0 => Exit::Fixed(at + 1),
        1 => Exit::Fixed(FIRST),
        2 => Exit::Fixed(NOWHERE),
        _ => Exit::Choice {
            when: 0,
            taken: at + 1,
            other: FIRST,
        },
    }
}

fn blocks_of(alloc: Global) -> Result<Vec<(u32, Block)>> {
    let mut blocks = Vec::new(alloc);
    for number in 0..COUNT {
        let at = FIRST + number;
        let leave = Micro::Leave(exit_of(number, at));
        let program = [
            MOVES, MOVES, MOVES, MOVES, MOVES, MOVES, MOVES, MOVES, MOVES, MOVES, leave,
        ];
        let site = Site { at, after: at };
        blocks.push((at, made(alloc, site, 0x01, &program, Flags::NONE)?))?;
    }
    Ok(blocks)
}

fn main(rt: HostRuntime) -> Result<()> {
    let blocks = blocks_of(rt.alloc())?;
    for _ in 0..5 {
        let start = Instant::now(&rt)?;
        let Ok((words, _, _)) = lay_out(rt.alloc(), &blocks) else {
            bail!("want of memory");
        };
        let time = start.elapsed(&rt)?.as_micros();
        println!(rt; "{} words in {time} microseconds", words.len())?;
    }
    Ok(())
}
PROGRAM
}
for commit in "$@"; do
    (
        scratch "program_codegen branch_layout flag_codegen exception_records block_law micro_ops vax_form anyhow" < <(program)
        if [ "$commit" != here ]; then
            find .. -mindepth 1 -maxdepth 1 ! -name measure -exec rm -rf {} +
            git -C "$top" archive "$commit" crates crates.txt | tar -C ../.. -xf -
            echo "measure: program_codegen branch_layout flag_codegen exception_records block_law micro_ops vax_form anyhow" >> ../../crates.txt
        fi
        cp ../block_rows/src/blocks.rt src/
        echo "$commit"
        rt try --steps 1 2> log || { tail -n 20 log; exit 1; }
    )
done
