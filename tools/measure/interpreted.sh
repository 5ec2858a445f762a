#!/usr/bin/env bash
# Times 1,000,000 interpreted ADDL2 R1,R2, each decoded anew, and MOVC3 of 6,553 and of 65,535 bytes, in a program that is
# proved and built in a temporary copy.
set -euo pipefail
source "$(dirname "$0")/scratch.sh"

scratch "tie_interpreter tie_strings vax_decode vax_form" <<'PROGRAM'
#![tactic(auto)]

use std::alloc::{AllocError, Global};
use std::io;
use std::time::Instant;
use tie_interpreter::{Tie, TieStep};
use tie_strings::LongTie;
use vax_decode::{Decoded, decode_at};
use vax_form::{PageRange, Pages, Pending, VaxState, is_long};

// ADDL2 R1,R2 at 200; MOVC3 R0,(R1),(R2) at 210.
static TEXT: [u8; 20] = [
    0xc0, 0x51, 0x52, 0, 0, 0, 0, 0, 0, 0, 0, 0, 0, 0, 0, 0, 0x28, 0x50, 0x61, 0x62,
];

// The code, and behind it 1,024 pages that may be written.
fn image(alloc: Global) -> Result<Pages, AllocError> {
    let mut bytes = [0; 512];
    bytes[..20].copy_from_slice(&TEXT);
    let code = Vec::from_slice(alloc, &bytes)?;
    let ranges = vec![in alloc;
        PageRange { first: 1, count: 1, writable: false, place: 0 },
        PageRange { first: 8, count: 1024, writable: true, place: 0 }]?;
    Ok(Pages { ranges, code })
}

fn start(pc: u32, length: u32) -> VaxState {
    let mut state = VaxState { r: [0; 15], pc, psw: 0, handler: 0, pending: Pending::Nothing };
    state.set_register(0, length);
    state.set_register(1, 0x1000);
    state.set_register(2, 0x2_1001);
    state
}

// So many additions one after the other, as a thread makes them.
fn added(pages: &Pages, count: u32) -> u32 {
    let mut state = start(0x200, 0);
    for _ in 0..count {
        let decoded = decode_at(pages, state.pc);
        if let Decoded::Instr(instr) = decoded {
            if !is_long(instr.opcode) {
                let mut tie = Tie::begin_decoded(&state, &decoded, 0);
                if let TieStep::Retired(after) = tie.step(pages, None) {
                    state = after;
                    state.pc = 0x200;
                }
            }
        }
    }
    state.register(2)
}

// How many references a move of so many bytes makes, each answered with 65 (hexadecimal).
fn moved(pages: &Pages, length: u32) -> u32 {
    let state = start(0x210, length);
    let decoded = decode_at(pages, state.pc);
    let mut count = 0u32;
    if let Decoded::Instr(instr) = decoded {
        if is_long(instr.opcode) {
            let mut tie = LongTie::begin_decoded(&state, &decoded, 0);
            let mut reply = None;
            for _ in 0..200_000u32 {
                if let TieStep::Want(_) = tie.step(pages, reply) {
                    count = count.wrapping_add(1);
                    reply = Some(0x65);
                } else {
                    return count;
                }
            }
        }
    }
    count
}

fn main(rt: HostRuntime) -> io::Result<()> {
    let pages = image(rt.alloc())?;
    let begun = Instant::now(&rt)?;
    let sum = added(&pages, 1_000_000);
    let time = begun.elapsed(&rt)?.as_millis();
    println!(rt; "1000000 ADDL2, R2 is {sum:X}: {time} ms")?;
    for length in [6_553, 65_535] {
        let begun = Instant::now(&rt)?;
        let count = moved(&pages, length);
        let time = begun.elapsed(&rt)?.as_micros();
        println!(rt; "MOVC3 of {length} bytes, {count} references: {time} us")?;
    }
    Ok(())
}
PROGRAM

rt run | grep -e "ADDL2" -e "MOVC3"
