#!/usr/bin/env bash
# Measures how long `reach` takes over 32,768 instructions.
set -euo pipefail
. "$(dirname "$0")/scratch.sh"
scratch "vax_form vax_decode image_file flow_discovery" <<'PROGRAM'
//! The time of `reach` over groups of ADDL2, MOVL, BEQL and NOP.
#![tactic(auto)]

use flow_discovery::reach;
use image_file::{Image, read_image};
use std::alloc::{AllocError, Global};
use std::io;
use std::time::Instant;

const GROUPS: u32 = 8_192;

fn file_of(alloc: Global) -> Result<Vec<u8>, AllocError> {
    let mut file = Vec::new(alloc);
    file.extend_from_slice(b"VXIM")?;
    for count in [1u16, 1, 1, 0] {
        file.extend_from_slice(&count.to_le_bytes())?;
    }
    let size = 10 * GROUPS;
    for word in [0x200, 0x1200, 0x200, size, size, 0] {
        file.extend_from_slice(&word.to_le_bytes())?;
    }
    for _ in 0..GROUPS {
        file.extend_from_slice(b"\xC0\x01\x50\xD0\xA1\x10\x52\x13\x00\x01")?;
    }
    Ok(file)
}

fn measure(rt: &(impl AllocGlobal + Print + std::rt::Clock), image: &Image) -> io::Result<()> {
    for _ in 0..5 {
        let start = Instant::now(rt)?;
        match reach(rt.alloc(), image, &[]) {
            Ok(instrs) => {
                let passed = start.elapsed(rt)?;
                let count = instrs.len();
                let time = passed.as_micros();
                println!(rt; "{count} instructions in {time} microseconds")?;
            }
            Err(_) => println!(rt; "refused")?,
        }
    }
    Ok(())
}

fn main(rt: HostRuntime) -> io::Result<()> {
    let file = file_of(rt.alloc())?;
    match read_image(rt.alloc(), file.as_slice()) {
        Ok(image) => measure(&rt, &image),
        Err(_) => println!(rt; "no image"),
    }
}
PROGRAM
rt run
