#!/usr/bin/env bash
# Measures how long `translate` takes over 32,000 ADDL2 and MOVL and over 32,768 ADDL3, and prints how many words the block of
# each instruction has in a loop over registers and in a loop over bytes.
set -euo pipefail
. "$(dirname "$0")/scratch.sh"
scratch "translate system_model address_map image_file anyhow" <<'PROGRAM'
//! The time of `translate` over pairs of ADDL2 and MOVL and over ADDL3, and the words of the blocks of two loops.
#![tactic(auto)]

use anyhow::{Result, anyhow, bail};
use image_file::{Image, read_image};
use std::alloc::{AllocError, Global};
use std::time::Instant;
use system_model::Translation;
use translate::{Target, translate};

/// ADDL2 #1,R0; MOVL #5,R1.
const PAIR: &[u8] = b"\xC0\x01\x50\xD0\x05\x51";

const PAIRS: u32 = 16_000;

/// ADDL3 R1,R2,R3.
const SUM: &[u8] = b"\xC1\x51\x52\x53";

const SUMS: u32 = 32_768;

/// ADDL2 R1,R0; XORL2 R1,R2; INCL R3; SOBGTR R4 to the first; CHMK #1.
const REGISTER_LOOP: &[u8] = b"\xC0\x51\x50\xCC\x51\x52\xD6\x53\xF5\x54\xF5\xBC\x01";

/// MOVB (R1)+,(R2)+; SOBGTR R4 to it; CHMK #1.
const BYTE_LOOP: &[u8] = b"\x90\x81\x82\xF5\x54\xFA\xBC\x01";

fn file_of(alloc: Global, code: &[u8]) -> Result<Vec<u8>> {
    let mut file = Vec::new(alloc);
    file.extend_from_slice(b"VXIM")?;
    for count in [1u16, 1, 1, 0] {
        file.extend_from_slice(&count.to_le_bytes())?;
    }
    let size = u32::try_from(code.len())?;
    for word in [0x200, 0x1200, 0x200, size, size, 0] {
        file.extend_from_slice(&word.to_le_bytes())?;
    }
    file.extend_from_slice(code)?;
    Ok(file)
}

fn image_of(alloc: Global, code: &[u8]) -> Result<Image> {
    let file = file_of(alloc, code)?;
    read_image(alloc, file.as_slice()).map_err(|refusal| anyhow!("no image: {refusal:?}"))
}

fn translated(alloc: Global, image: &Image) -> Result<Translation> {
    match translate(alloc, image, &[], Target::Original) {
        Ok(translation) => Ok(translation),
        Err(refusal) => bail!("no translation: {refusal:?}"),
    }
}

fn repeated(alloc: Global, code: &[u8], count: u32) -> Result<Vec<u8>, AllocError> {
    let mut all = Vec::new(alloc);
    for _ in 0..count {
        all.extend_from_slice(code)?;
    }
    Ok(all)
}

fn measure(rt: &(impl AllocGlobal + Print + std::rt::Clock), image: &Image) -> Result<()> {
    for _ in 0..5 {
        let start = Instant::now(rt)?;
        let translation = translated(rt.alloc(), image)?;
        let passed = start.elapsed(rt)?;
        let words = translation.words.len();
        let map = &translation.map;
        let count = map.pairs().len();
        let time = passed.as_micros();
        println!(rt; "{count} instructions, {words} words, in {time} microseconds")?;
    }
    Ok(())
}

fn print_words(rt: &(impl AllocGlobal + Print), name: &str, code: &[u8]) -> Result<()> {
    let image = image_of(rt.alloc(), code)?;
    let translation = translated(rt.alloc(), &image)?;
    let map = &translation.map;
    println!(rt; "{name}: {} words", translation.words.len())?;
    for (address, word) in map.pairs() {
        println!(rt; "{address:X} from word {word}")?;
    }
    Ok(())
}

fn main(rt: HostRuntime) -> Result<()> {
    for (code, count) in [(PAIR, PAIRS), (SUM, SUMS)] {
        let code = repeated(rt.alloc(), code, count)?;
        let image = image_of(rt.alloc(), &code)?;
        measure(&rt, &image)?;
    }
    print_words(&rt, "registers", REGISTER_LOOP)?;
    print_words(&rt, "bytes", BYTE_LOOP)
}
PROGRAM
rt run
