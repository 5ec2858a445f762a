#!/usr/bin/env bash
# Prints how long it takes to append the largest order file, of 4,194,304 picks by 255 threads with 65,536 bytes of input, and to read it.
set -euo pipefail
. "$(dirname "$0")/scratch.sh"
scratch "run_files memory_core anyhow" <<'PROGRAM'
//! Appends and reads the largest order file some times, and prints the times of the fastest.
#![tactic(auto)]

use anyhow::{Result, bail, ensure};
use memory_core::{Entry, Kind};
use run_files::{MOST_INPUT, MOST_PICKS, MOST_THREADS, append_order, order_room, read_order};
use std::alloc::{AllocError, Global};
use std::time::{Duration, Instant};

const THREADS: u8 = 255;
const ENTRIES: u32 = 4_194_304;
const INPUT: usize = 65_536;
const RUNS: u32 = 20;

/// Reads of one quadword, by each thread in turn.
fn history_of(alloc: Global) -> Result<Vec<Entry>, AllocError> {
    let mut history = Vec::new(alloc);
    for number in 0..ENTRIES {
        history.push(Entry {
            retired: u64::from(number),
            before: 0,
            after: 0,
            quad: 0x1000,
            processor: (number % u32::from(THREADS)) as u8,
            kind: Kind::TieRead,
            success: true,
        })?;
    }
    Ok(history)
}

fn ends_of(alloc: Global) -> Result<Vec<(u64, bool)>, AllocError> {
    let mut ends = Vec::new(alloc);
    for thread in 0..THREADS {
        ends.push((u64::from(thread), thread % 2 == 0))?;
    }
    Ok(ends)
}

/// The file, and how long it took to append it to room that was there.
fn appended(
    rt: &HostRuntime,
    history: &[Entry],
    input: &[u8],
    ends: &[(u64, bool)],
) -> Result<(Vec<u8>, Duration)> {
    ensure!(ends.len() <= MOST_THREADS, "too many threads");
    ensure!(input.len() <= MOST_INPUT, "too long an input");
    ensure!(history.len() <= MOST_PICKS, "too many entries");
    let room = order_room(ends.len(), input.len(), history.len());
    let mut file = Vec::with_capacity(rt.alloc(), room)?;
    let start = Instant::now(rt)?;
    append_order(history, input, ends, &mut file);
    Ok((file, start.elapsed(rt)?))
}

fn read(rt: &HostRuntime, file: &[u8]) -> Result<Duration> {
    let start = Instant::now(rt)?;
    match read_order(rt.alloc(), file, THREADS) {
        Ok(order) => ensure!(order.picks.len() == ENTRIES as usize, "other picks"),
        Err(refusal) => bail!("no order: {refusal:?}"),
    }
    Ok(start.elapsed(rt)?)
}

fn main(rt: HostRuntime) -> Result<()> {
    let history = history_of(rt.alloc())?;
    let ends = ends_of(rt.alloc())?;
    let mut input = Vec::new(rt.alloc());
    input.resize(INPUT, 7)?;
    let mut appending = Duration::from_secs(3600);
    let mut reading = Duration::from_secs(3600);
    for _ in 0..RUNS {
        let (file, time) = appended(&rt, &history, &input, &ends)?;
        appending = appending.min(time);
        reading = reading.min(read(&rt, &file)?);
    }
    println!(rt; "fastest of {RUNS}: appended in {appending:?}, read in {reading:?}")?;
    Ok(())
}
PROGRAM
rt run
