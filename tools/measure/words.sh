#!/usr/bin/env bash
# Measures how long `read_words` takes over a line with 67 options, as many as may stand, and over one with 70.
set -euo pipefail
. "$(dirname "$0")/scratch.sh"
scratch "command_words anyhow" <<'PROGRAM'
//! The time of `read_words` over `run` with all its options and as many ranges as are asked for.
#![tactic(auto)]

use anyhow::Result;
use command_words::read_words;
use std::alloc::{AllocError, Global};
use std::time::Instant;

const OTHERS: [&str; 5] = ["run", "x", "--budget=5", "--events=6", "--miss=7"];

fn words_of(alloc: Global, ranges: u32) -> Result<Vec<String>, AllocError> {
    let mut words = Vec::new(alloc);
    for word in OTHERS {
        words.push(String::from_str(alloc, word)?)?;
    }
    for _ in 0..ranges {
        words.push(String::from_str(alloc, "--interpret=1:200-2FF")?)?;
    }
    Ok(words)
}

fn measure(rt: &(impl AllocGlobal + Print + std::rt::Clock), ranges: u32) -> Result<()> {
    let words = words_of(rt.alloc(), ranges)?;
    for _ in 0..5 {
        let start = Instant::now(rt)?;
        let spelled = read_words(rt.alloc(), words.as_slice()).is_ok();
        let time = start.elapsed(rt)?.as_micros();
        println!(rt; "{ranges} ranges, spelled {spelled}: {time} microseconds")?;
    }
    Ok(())
}

fn main(rt: HostRuntime) -> Result<()> {
    measure(&rt, 64)?;
    measure(&rt, 67)
}
PROGRAM
rt run
