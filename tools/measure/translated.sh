#!/usr/bin/env bash
# Prints how long it takes to read and compare the largest translated file that can be accepted, and to write it: an
# image of version 2 with 4,194,304 stored bytes, 32,768 hints, 8,388,608 words and 32,768 pairs.
set -euo pipefail
. "$(dirname "$0")/scratch.sh"
scratch "translated_file image_file address_map anyhow" <<'PROGRAM'
//! Writes, reads and compares the largest file some times, and prints the times of the fastest.
#![tactic(auto)]

ghost use Rattle.std.specs.Prelude.{IfOk};
ghost use Rattle.translated_file.specs.Whole.{AreWhole};

use address_map::{AddressMap, build};
use anyhow::{Result, anyhow, bail, ensure};
use image_file::write_image;
use std::alloc::{AllocError, Global};
use std::time::{Duration, Instant};
use translated_file::{MOST_PAIRS, MOST_WORDS, Parts, compare, read_parts, write_translated};

const SECTIONS: u32 = 64;
const SECTION_BYTES: u32 = 0x1_0000;
const ENTRIES: u32 = 4096;
const HINTS: u32 = 32_768;
const RUNS: u32 = 20;

/// 32 threads, 64 sections of 65,536 stored bytes, and 4,096 entries.
fn image_bytes(alloc: Global) -> Result<Vec<u8>, AllocError> {
    let mut bytes = Vec::new(alloc);
    bytes.extend_from_slice(&[0x56, 0x58, 0x49, 0x4d, 2, 0, 32, 0, 64, 0, 0, 0x10])?;
    bytes.resize(12 + 32 * 64, 0)?;
    for place in 0..SECTIONS {
        for number in [SECTION_BYTES * place, SECTION_BYTES, SECTION_BYTES, place % 2] {
            bytes.extend_from_slice(&number.to_le_bytes())?;
        }
    }
    for _ in 0..ENTRIES {
        bytes.extend_from_slice(&0u32.to_le_bytes())?;
    }
    let end = bytes.len();
    bytes.resize(end.saturating_add(0x40_0000), 1)?;
    Ok(bytes)
}

/// A file with this image, the hints 0, 1 and so on, and an empty tail.
fn front_bytes(alloc: Global) -> Result<Vec<u8>> {
    let image = image_bytes(alloc)?;
    let mut file = b"VXTR".to_vec(alloc)?;
    for number in [1, u32::try_from(image.len())?, HINTS] {
        file.extend_from_slice(&number.to_le_bytes())?;
    }
    file.extend_from_slice(&image)?;
    for hint in 0..HINTS {
        file.extend_from_slice(&hint.to_le_bytes())?;
    }
    Ok(file)
}

fn parts_of(alloc: Global, bytes: &[u8]) -> Result<Parts>
    ensures { IfOk result (λ parts. AreWhole parts) }
{
    match read_parts(alloc, bytes) {
        Ok(parts) => Ok(parts),
        Err(refusal) => bail!("no file: {refusal:?}"),
    }
}

fn words_of(alloc: Global) -> Result<Vec<u32>> {
    let mut words = Vec::new(alloc);
    for word in 0..8_388_608u32 {
        words.push(word.wrapping_mul(0x9e37_79b1))?;
    }
    Ok(words)
}

fn map_of(alloc: Global) -> Result<AddressMap> {
    let mut pairs = Vec::new(alloc);
    for pair in 0..32_768u32 {
        pairs.push((2 * pair, 256 * pair))?;
    }
    build(alloc, &pairs).map_err(|refusal| anyhow!("no map: {refusal:?}"))
}

fn written(alloc: Global, parts: &Parts, words: &[u32], map: &AddressMap) -> Result<Vec<u8>>
    requires { AreWhole parts.now }
{
    ensure!(words.len() <= MOST_WORDS, "too many words");
    ensure!(map.pairs().len() <= MOST_PAIRS, "too many pairs");
    write_translated(alloc, &parts.image, &parts.hints, words, map)
        .map_err(|want| anyhow!("{want:?}"))
}

fn is_accepted(alloc: Global, bytes: &[u8], words: &[u32], map: &AddressMap) -> Result<bool> {
    ensure!(words.len() <= MOST_WORDS, "too many words");
    ensure!(map.pairs().len() <= MOST_PAIRS, "too many pairs");
    let parts = parts_of(alloc, bytes)?;
    Ok(compare(&parts, words, map).is_ok())
}

fn main(rt: HostRuntime) -> Result<()> {
    let alloc = rt.alloc();
    let front = parts_of(alloc, &front_bytes(alloc)?)?;
    let (words, map) = (words_of(alloc)?, map_of(alloc)?);
    let start = Instant::now(&rt)?;
    let file = written(alloc, &front, &words, &map)?;
    let writing = start.elapsed(&rt)?;
    let mut best = Duration::from_secs(3600);
    let mut accepted = 0u32;
    for _ in 0..RUNS {
        let start = Instant::now(&rt)?;
        if is_accepted(alloc, &file, &words, &map)? {
            accepted = accepted.saturating_add(1);
        }
        best = best.min(start.elapsed(&rt)?);
    }
    println!(rt; "{} bytes written in {writing:?}; accepted {accepted} of {RUNS}, fastest {best:?}", file.len())?;
    Ok(())
}
PROGRAM
rt run
