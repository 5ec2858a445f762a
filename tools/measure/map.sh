#!/usr/bin/env bash
# Prints how long a call of look_up, vax_of and find takes that finds something, and one that doesn't, over 32,768 pairs in
# scattered order; and how long it takes to build the map and the points. Each is the fastest of five rounds.
set -euo pipefail
. "$(dirname "$0")/scratch.sh"
scratch "address_map exception_records vax_form anyhow" <<'PROGRAM'
#![tactic(auto)]

use address_map::{AddressMap, build};
use anyhow::{Context, Result, bail};
use exception_records::{CodeRule, Point, Points, Rules};
use std::alloc::Global;
use std::time::Instant;

const PAIRS: u32 = 32_768;
const CALLS: u32 = 10_000_000;
const ROUNDS: u32 = 5;

/// Where the addresses begin, and how far addresses and words are apart.
const START: u32 = 0x200;
const ADDRESSES: u32 = 3;
const WORDS: u32 = 7;

const RULES: Rules = Rules {
    n: CodeRule::Ready,
    z: CodeRule::Ready,
    v: CodeRule::Ready,
    c: CodeRule::Ready,
};

fn address_of(pair: u32) -> u32 {
    START.wrapping_add(ADDRESSES.wrapping_mul(pair))
}

fn word_of(pair: u32) -> u32 {
    WORDS.wrapping_mul(pair)
}

fn pairs_of(alloc: Global) -> Result<Vec<(u32, u32)>> {
    let mut pairs = Vec::new(alloc);
    for pair in 0..PAIRS {
        pairs.push((address_of(pair), word_of(pair)))?;
    }
    Ok(pairs)
}

fn points_of(alloc: Global) -> Result<Points> {
    let mut list = Vec::new(alloc);
    for pair in 0..PAIRS {
        let point = Point {
            vax_pc: address_of(pair),
            done: 0,
            count: 0,
            write: false,
            raises: 0,
            rules: RULES,
        };
        list.push((word_of(pair), point))?;
    }
    exception_records::build(list).ok().context("no points")
}

/// The number of a pair, in no order that a processor foresees.
fn scattered(call: u32) -> u32 {
    (call.wrapping_mul(0x9e37_79b1) >> 8) % PAIRS
}

#[inline(never)]
fn look_up(map: &AddressMap, behind: u32) -> u32 {
    let mut sum: u32 = 0;
    for call in 0..CALLS {
        let address = address_of(scattered(call)).wrapping_add(behind);
        sum = sum.wrapping_add(map.look_up(address).unwrap_or(0));
    }
    sum
}

#[inline(never)]
fn vax_of(map: &AddressMap, behind: u32) -> u32 {
    let mut sum: u32 = 0;
    for call in 0..CALLS {
        let word = word_of(scattered(call)).wrapping_add(behind);
        sum = sum.wrapping_add(map.vax_of(word).unwrap_or(0));
    }
    sum
}

#[inline(never)]
fn find(points: &Points, behind: u32) -> u32 {
    let mut sum: u32 = 0;
    for call in 0..CALLS {
        let word = word_of(scattered(call)).wrapping_add(behind);
        if let Some(point) = points.find(word) {
            sum = sum.wrapping_add(point.vax_pc);
        }
    }
    sum
}

/// What the loops do besides.
#[inline(never)]
fn nothing(behind: u32) -> u32 {
    let mut sum: u32 = 0;
    for call in 0..CALLS {
        let word = word_of(scattered(call)).wrapping_add(behind);
        sum = (sum ^ word).rotate_left(1);
    }
    sum
}

#[derive(Clone, Copy)]
enum Work {
    Nothing,
    LookUp,
    VaxOf,
    Find,
}

fn done(work: Work, map: &AddressMap, points: &Points, behind: u32) -> u32 {
    match work {
        Work::Nothing => nothing(behind),
        Work::LookUp => look_up(map, behind),
        Work::VaxOf => vax_of(map, behind),
        Work::Find => find(points, behind),
    }
}

fn measure(rt: &HostRuntime, name: &str, work: Work, map: &AddressMap, points: &Points, behind: u32) -> Result<()> {
    let mut fastest = u128::MAX;
    let mut sum = 0;
    for _ in 0..ROUNDS {
        let start = Instant::now(rt)?;
        sum = done(work, map, points, behind);
        fastest = fastest.min(start.elapsed(rt)?.as_micros());
    }
    let picoseconds = fastest.saturating_mul(1_000_000) / u128::from(CALLS);
    println!(rt; "{name}: {picoseconds} ps a call (sum {sum:x})")?;
    Ok(())
}

fn build_times(rt: &HostRuntime) -> Result<(AddressMap, Points)> {
    let pairs = pairs_of(rt.alloc())?;
    let (mut fastest, mut prepared) = (u128::MAX, u128::MAX);
    for _ in 0..ROUNDS {
        let start = Instant::now(rt)?;
        let Ok(map) = build(rt.alloc(), pairs.as_slice()) else {
            bail!("no map");
        };
        fastest = fastest.min(start.elapsed(rt)?.as_micros());
        drop(map);
        let mut points = points_of(rt.alloc())?;
        let start = Instant::now(rt)?;
        points.prepare(rt.alloc()).ok().context("no memory")?;
        prepared = prepared.min(start.elapsed(rt)?.as_micros());
        drop(points);
    }
    println!(rt; "a map of {PAIRS} pairs: {fastest} microseconds")?;
    println!(rt; "so many points prepared: {prepared} microseconds")?;
    let Ok(map) = build(rt.alloc(), pairs.as_slice()) else {
        bail!("no map");
    };
    Ok((map, points_of(rt.alloc())?))
}

fn main(rt: HostRuntime) -> Result<()> {
    let (map, mut points) = build_times(&rt)?;
    measure(&rt, "nothing", Work::Nothing, &map, &points, 0)?;
    measure(&rt, "look_up, present", Work::LookUp, &map, &points, 0)?;
    measure(&rt, "look_up, absent", Work::LookUp, &map, &points, 1)?;
    measure(&rt, "vax_of, present", Work::VaxOf, &map, &points, 0)?;
    measure(&rt, "vax_of, absent", Work::VaxOf, &map, &points, 1)?;
    measure(&rt, "find by a search, present", Work::Find, &map, &points, 0)?;
    measure(&rt, "find by a search, absent", Work::Find, &map, &points, 1)?;
    points.prepare(rt.alloc()).ok().context("no memory")?;
    measure(&rt, "find, prepared, present", Work::Find, &map, &points, 0)?;
    measure(&rt, "find, prepared, absent", Work::Find, &map, &points, 1)
}
PROGRAM
rt run > "$room/log" 2>&1 || { tail -n 20 "$room/log"; exit 1; }
for turn in 1 2 3; do
    ./out/measure
done
