#!/usr/bin/env bash
# Prints how long it takes to read the largest image of each version: 64 sections of 16,384 or 65,536 stored bytes, half of
# them read-only.
set -euo pipefail
. "$(dirname "$0")/scratch.sh"
scratch "image_file anyhow" <<'PROGRAM'
//! Reads the largest image of each version some times and prints the time of the fastest.
#![tactic(auto)]

use anyhow::Result;
use image_file::read_image;
use std::alloc::{AllocError, Global};
use std::time::{Duration, Instant};

/// One thread, 64 sections of so many bytes, and no entries.
fn largest(alloc: Global, version: u8, section: u32) -> Result<Vec<u8>, AllocError> {
    let thread = if version == 1 { 8 } else { 64 };
    let mut bytes = Vec::new(alloc);
    bytes.extend_from_slice(&[0x56, 0x58, 0x49, 0x4d, version, 0, 1, 0, 64, 0, 0, 0])?;
    bytes.resize(12 + thread, 0)?;
    for place in 0..64u32 {
        let start = section.saturating_mul(64 - place);
        for number in [start, section, section, place % 2] {
            bytes.extend_from_slice(&number.to_le_bytes())?;
        }
    }
    let stored = (section as usize).saturating_mul(64);
    bytes.resize(bytes.len().saturating_add(stored), 1)?;
    Ok(bytes)
}

fn read(rt: &HostRuntime, version: u8, section: u32) -> Result<()> {
    let bytes = largest(rt.alloc(), version, section)?;
    let mut best = Duration::from_secs(3600);
    let mut read = 0u32;
    for _ in 0..20u32 {
        let start = Instant::now(rt)?;
        if read_image(rt.alloc(), &bytes).is_ok() {
            read = read.saturating_add(1);
        }
        best = best.min(start.elapsed(rt)?);
    }
    println!(rt; "version {version}: read {read} of 20, fastest {best:?}")?;
    Ok(())
}

fn main(rt: HostRuntime) -> Result<()> {
    read(&rt, 1, 0x4000)?;
    read(&rt, 2, 0x1_0000)
}
PROGRAM
rt run
