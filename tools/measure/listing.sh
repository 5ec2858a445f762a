#!/usr/bin/env bash
# Measures how long `listing` takes over 32,768 blocks of 16 words, and `generated` for the greatest number.
set -euo pipefail
. "$(dirname "$0")/scratch.sh"
scratch "report_text address_map anyhow" <<'PROGRAM'
//! The times of `listing` and of `generated`.
#![tactic(auto)]

use address_map::{AddressMap, build};
use anyhow::{Result, anyhow, ensure};
use report_text::{MOST_GROUPS, are_within, generated, listing};
use std::alloc::{AllocError, Global};
use std::time::Instant;

const BLOCKS: u32 = 32_768;

const WORDS: u32 = 16;

fn words_of(alloc: Global) -> Result<Vec<u32>, AllocError> {
    let mut words = Vec::new(alloc);
    for place in 0..BLOCKS * WORDS {
        words.push(place.wrapping_mul(0x9E37_79B9))?;
    }
    Ok(words)
}

fn map_of(alloc: Global) -> Result<AddressMap> {
    let mut pairs = Vec::new(alloc);
    for block in 0..BLOCKS {
        pairs.push((0x200 + 4 * block, WORDS * block))?;
    }
    match build(alloc, &pairs) {
        Ok(map) => Ok(map),
        Err(refusal) => Err(anyhow!("no map: {refusal:?}")),
    }
}

fn list(rt: &(impl AllocGlobal + Print + std::rt::Clock)) -> Result<()> {
    let words = words_of(rt.alloc())?;
    let map = map_of(rt.alloc())?;
    ensure!(are_within(&words, &map), "a block without words");
    for _ in 0..5 {
        let start = Instant::now(rt)?;
        let bytes = match listing(rt.alloc(), &words, &map) {
            Ok(text) => text.len(),
            Err(_) => 0,
        };
        let time = start.elapsed(rt)?.as_micros();
        println!(rt; "a listing of {bytes} bytes: {time} microseconds")?;
    }
    Ok(())
}

fn generate(rt: &(impl AllocGlobal + Print + std::rt::Clock)) -> Result<()> {
    for _ in 0..5 {
        let start = Instant::now(rt)?;
        let made = generated(rt.alloc(), MOST_GROUPS).is_ok();
        let time = start.elapsed(rt)?.as_micros();
        println!(rt; "image {MOST_GROUPS}, made {made}: {time} microseconds")?;
    }
    Ok(())
}

fn main(rt: HostRuntime) -> Result<()> {
    list(&rt)?;
    generate(&rt)
}
PROGRAM
rt run
