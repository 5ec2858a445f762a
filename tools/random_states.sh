#!/usr/bin/env bash
# Runs each operate instruction of the Alpha table, by registers and by a literal, LDA and LDAH from random registers, and random
# blocks of twenty of them and a BR with each budget up to 60, through prepared code and by alpha_machine::step, and compares all
# registers, the program counter and how many steps were made. Status 1 where any differ. It proves nothing: `rt try` compiles it.
#
# tools/random_states.sh [WRONG_BODY]
#
# With a file of tools/wrong_bodies/CRATE/ the copy has that wrong body.
set -euo pipefail
body=${1:+$(realpath "$1")}
. "$(dirname "$0")/measure/scratch.sh"
scratch "prepared_code vax_form address_map exception_records alpha_machine alpha_encode anyhow" <<'PROGRAM'
#![tactic(auto)]

use address_map::AddressMap;
use alpha_encode::decode;
use alpha_machine::{AlphaStep, Cpu, step};
use anyhow::{Context, Result, ensure};
use exception_records::Points;
use prepared_code::{Prepared, prepare};
use std::alloc::Global;
use vax_form::Pages;

/// How many states each form of an instruction has, and how many blocks there are.
const STATES: usize = 2_000;
const BLOCKS: u64 = 1_000;

/// Each of so many words is one at which a block begins.
const SPACE: usize = 8;

/// The opcodes of operate format, and how many functions each has room for.
const OPERATE: [u32; 5] = [0x10, 0x11, 0x12, 0x13, 0x1c];
const FUNCTIONS: u32 = 128;

/// LDA and LDAH.
const ADDRESSES: [u32; 2] = [0x08, 0x09];

/// The register that reads zero.
const ZERO: u32 = 31;

const EDGES: [u64; 14] = [
    0,
    1,
    2,
    0x7f,
    0x80,
    0xff,
    0x7fff_ffff,
    0x8000_0000,
    0xffff_ffff,
    0x1_0000_0000,
    0x7fff_ffff_ffff_ffff,
    0x8000_0000_0000_0000,
    0xffff_ffff_8000_0000,
    0xffff_ffff_ffff_ffff,
];

/// The address of a block, and how many instructions one of this program has before its BR.
const ADDRESS: u32 = 0x200;
const LENGTH: usize = 20;

/// BR to the word LENGTH before it.
const BACK: u32 = 0xc3ff_ffff - LENGTH as u32;

/// The greatest budget.
const MOST: u64 = 60;

/// Pseudo-random numbers, by three shifts.
#[derive(Drop)]
struct Random {
    state: u64,
}

impl Random {
    fn next(&mut self) -> u64 {
        let mut state = self.state;
        state ^= state << 13;
        state ^= state >> 7;
        state ^= state << 17;
        self.state = state;
        state >> 1
    }

    fn below(&mut self, count: u64) -> u64 {
        self.next() % count
    }

    fn value(&mut self) -> u64 {
        match self.below(4) {
            0 => EDGES[self.below(14) as usize],
            1 => self.below(70),
            2 => self.next() << 1 >> self.below(64),
            _ => (self.next() << 32) ^ self.next(),
        }
    }

    fn register(&mut self) -> u32 {
        match self.below(6) {
            0 => ZERO,
            1 => self.below(4) as u32,
            _ => self.below(32) as u32,
        }
    }

    /// Registers, something in the place of the one that reads zero too.
    fn cpu(&mut self) -> Cpu {
        let mut cpu = Cpu { r: [0; 32], pc: 0 };
        for number in 0..32 {
            cpu.r[number] = self.value();
        }
        cpu
    }

    /// A word of a form.
    fn word(&mut self, form: &Form) -> u32 {
        let (a, b, c) = (self.register(), self.register(), self.register());
        match form {
            Form::Address(opcode) => (opcode << 26) | (a << 21) | (b << 16) | (self.value() % (1 << 16)) as u32,
            Form::Registers(code) => with_first(*code, a) | (b << 16) | c,
            Form::Literal(code) => with_first(*code, a) | (self.below(256) as u32) << 13 | 1 << 12 | c,
        }
    }
}

/// What the words of an instruction have in common: the opcode, or that and the function in their places.
#[derive(Clone, Copy)]
enum Form {
    Address(u32),
    Registers(u32),
    Literal(u32),
}

/// The code with that first register, where it spells an instruction so, else with register 31.
fn with_first(code: u32, a: u32) -> u32 {
    let word = code | (a << 21);
    if decode(word).is_some() { word } else { code | (ZERO << 21) }
}

fn forms(alloc: Global) -> Result<Vec<Form>> {
    let mut forms = Vec::new(alloc);
    for opcode in ADDRESSES {
        forms.push(Form::Address(opcode))?;
    }
    for opcode in OPERATE {
        for function in 0..FUNCTIONS {
            let code = (opcode << 26) | (function << 5);
            if decode(code | (ZERO << 21)).is_some() {
                forms.push(Form::Registers(code))?;
                forms.push(Form::Literal(code))?;
            }
        }
    }
    Ok(forms)
}

/// What was compared, and what differs.
#[derive(Drop)]
struct Tally {
    compared: u64,
    differ: u64,
    crossed: u64,
}

impl Tally {
    fn add(&mut self, alike: bool) {
        self.compared += 1;
        if !alike {
            self.differ += 1;
        }
    }
}

/// Steps by `alpha_machine::step` alone, each of which goes on inside a block, where one begins at that word, if at any.
fn alone(cpu: &mut Cpu, code: &[u32], block: Option<u32>, most: u64) -> u64 {
    for made in 0..most {
        let before = *cpu;
        if cpu.pc as usize >= code.len() {
            return made;
        }
        match step(cpu, code) {
            AlphaStep::Local => {}
            AlphaStep::Want(_) | AlphaStep::Pal(_) => return made,
        }
        if block == Some(cpu.pc) {
            *cpu = before;
            return made;
        }
    }
    most
}

/// Whether all registers are the same, and the program counter. That of prepared code has 0 in the place of register 31.
fn alike(prepared: &Cpu, other: &Cpu) -> bool {
    for number in 0..31 {
        if prepared.r[number] != other.r[number] {
            return false;
        }
    }
    prepared.r[31] == 0 && prepared.pc == other.pc
}

/// The steps of prepared code inside a block, beside those alone.
fn compare(tally: &mut Tally, prepared: &Prepared<'_>, block: Option<u32>, start: &Cpu, most: u64) {
    let (mut cpu, mut other) = (*start, *start);
    let made = prepared.run_inside(&mut cpu, most);
    let expected = alone(&mut other, prepared.words(), block, most);
    tally.add(made == expected && alike(&cpu, &other));
}

/// Steps that lead to a block, beside as many alone.
fn compare_cross(tally: &mut Tally, prepared: &Prepared<'_>, start: &Cpu, most: u64) {
    let (mut cpu, mut other) = (*start, *start);
    match prepared.cross(&mut cpu, most) {
        Some(made) => {
            let expected = alone(&mut other, prepared.words(), None, made);
            tally.crossed += 1;
            tally.add(made <= most && made == expected && alike(&cpu, &other));
        }
        None => tally.add(most <= LENGTH as u64),
    }
}

/// The same from block to block, as far as it is guessed to come with so many steps.
fn compare_blocks(tally: &mut Tally, prepared: &Prepared<'_>, start: &Cpu, most: u64) {
    let (mut cpu, mut other) = (*start, *start);
    let (mut made, mut turns) = (0, 0);
    while turns < most {
        let within = prepared.guess(cpu.pc);
        if within == 0 || made + within > most {
            break;
        }
        match prepared.cross(&mut cpu, within) {
            Some(steps) => made += steps,
            None => break,
        }
        turns += 1;
    }
    let expected = alone(&mut other, prepared.words(), None, made);
    tally.add(turns == most / (LENGTH as u64 + 1) && made == expected && (turns == 0 || alike(&cpu, &other)));
}

/// An image of no page.
#[derive(Drop)]
struct Image {
    points: Points,
    pages: Pages,
}

/// A map of blocks that begin at these words.
fn map_of(alloc: Global, words: &[u32]) -> Result<AddressMap> {
    let mut pairs = Vec::new(alloc);
    for word in words {
        pairs.push((ADDRESS + *word, *word))?;
    }
    address_map::build(alloc, &pairs).ok().context("no map")
}

fn ready<'a>(alloc: Global, words: &'a [u32], map: &'a AddressMap, image: &'a Image) -> Result<Prepared<'a>> {
    prepare(alloc, words, map, &image.points, &image.pages).ok().context("no memory")
}

/// Words of a form in a row, each run alone, with those behind it, up to a block, and where it is the only word.
fn compare_form(alloc: Global, random: &mut Random, form: &Form, image: &Image) -> Result<Tally> {
    let mut tally = Tally { compared: 0, differ: 0, crossed: 0 };
    let mut words = Vec::new(alloc);
    let mut begun = Vec::new(alloc);
    for place in 0..STATES {
        words.push(random.word(form))?;
        if place % SPACE == SPACE - 1 {
            begun.push(place as u32)?;
        }
    }
    let (none, blocks) = (map_of(alloc, &[])?, map_of(alloc, &begun)?);
    let (open, closed) = (ready(alloc, &words, &none, image)?, ready(alloc, &words, &blocks, image)?);
    for place in 0..STATES {
        let mut start = random.cpu();
        start.pc = place as u32;
        let most = 2 + random.below(9);
        compare(&mut tally, &open, None, &start, 1);
        compare(&mut tally, &open, None, &start, most);
        compare(&mut tally, &closed, Some(next_of(place)), &start, most);
        if place % SPACE == 0 {
            let only = [words[place]];
            start.pc = 0;
            compare(&mut tally, &ready(alloc, &only, &none, image)?, None, &start, most);
        }
    }
    Ok(tally)
}

/// The word behind a place at which the next block begins.
fn next_of(place: usize) -> u32 {
    ((place + 1) / SPACE * SPACE + SPACE - 1) as u32
}

/// A block, with each budget.
fn compare_block(alloc: Global, tally: &mut Tally, image: &Image, words: &[u32], start: &Cpu) -> Result<()> {
    let (none, first) = (map_of(alloc, &[])?, map_of(alloc, &[0])?);
    let (open, begun) = (ready(alloc, words, &none, image)?, ready(alloc, words, &first, image)?);
    for most in 1..MOST + 1 {
        compare(tally, &open, None, start, most);
        compare(tally, &begun, Some(0), start, most);
        compare_cross(tally, &begun, start, most);
        compare_blocks(tally, &begun, start, most);
    }
    Ok(())
}

fn compare_all_blocks(alloc: Global, random: &mut Random, forms: &[Form], image: &Image) -> Result<Tally> {
    let mut tally = Tally { compared: 0, differ: 0, crossed: 0 };
    for _ in 0..BLOCKS {
        let mut words = [BACK; LENGTH + 1];
        for place in 0..LENGTH {
            let form = random.below(forms.len() as u64) as usize;
            words[place] = random.word(&forms[form]);
        }
        let start = random.cpu();
        compare_block(alloc, &mut tally, image, &words, &start)?;
    }
    Ok(tally)
}

fn main(rt: HostRuntime) -> Result<()> {
    let alloc = rt.alloc();
    let image = Image {
        points: exception_records::build(Vec::new(alloc)).ok().context("no points")?,
        pages: Pages {
            ranges: Vec::new(alloc),
            code: Vec::new(alloc),
        },
    };
    let mut random = Random {
        state: 0x9e37_79b9_7f4a_7c15 ^ std::env::args(&rt)?.count() as u64,
    };
    let forms = forms(alloc)?;
    let (mut differ, mut compared) = (0, 0);
    for form in &forms {
        let tally = compare_form(alloc, &mut random, form, &image)?;
        if tally.differ > 0 {
            let word = random.word(form);
            println!(rt; "as {word:08X}: {} of {} runs differ", tally.differ, tally.compared)?;
        }
        differ += tally.differ;
        compared += tally.compared;
    }
    println!(rt; "{} forms of an instruction, {STATES} states each, {compared} runs: {differ} differ", forms.len())?;
    let tally = compare_all_blocks(alloc, &mut random, &forms, &image)?;
    println!(rt; "{BLOCKS} blocks, {} runs, {} of them by one call to a block: {} differ", tally.compared, tally.crossed, tally.differ)?;
    ensure!(differ + tally.differ == 0, "prepared code differs");
    Ok(())
}
PROGRAM
[ -z "$body" ] || python3 - "$body" <<'CHANGE'
import pathlib, sys
crate = pathlib.Path("..", pathlib.Path(sys.argv[1]).parent.name)
for line in pathlib.Path(sys.argv[1]).read_text().splitlines():
    word, _, text = line.partition(": ")
    if word == "file":
        file = crate / text
    elif word == "old":
        old = text
    elif word == "new":
        whole = file.read_text()
        if whole.count(old) != 1:
            sys.exit(f"this doesn't stand once in {file}: {old}")
        file.write_text(whole.replace(old, text))
CHANGE
rt try --steps 1 --seconds 900 > "$room/log" 2>&1 || status=$?
cat "$room/log"
exit "${status:-0}"
