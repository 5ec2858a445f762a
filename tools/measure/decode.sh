#!/usr/bin/env bash
# Times 1,000,000 calls of decode_at in a scratch program, which is made, proved and built in a temporary copy.
set -euo pipefail
. "$(dirname "$0")/scratch.sh"
scratch "vax_decode vax_form" <<'PROGRAM'
#![tactic(auto)]

use std::alloc::{AllocError, Global};
use std::io;
use std::time::Instant;
use vax_decode::{Decoded, decode_at};
use vax_form::{PageRange, Pages};

// MOVL, MOVB with a long displacement, SOBGTR, MOVAB, BBSSI, MOVZBL, INCB with an index; then a reserved opcode.
static TEXT: [u8; 42] = [
    0xd0, 0x8f, 0x00, 0x10, 0x00, 0x00, 0x52, 0x90, 0x50, 0xe0, 0x00, 0x10, 0x00, 0x00, 0xf5, 0x52,
    0xf6, 0x9e, 0x9f, 0x20, 0x02, 0x00, 0x00, 0x51, 0xe6, 0x00, 0x9f, 0x00, 0x11, 0x00, 0x00, 0x00,
    0x9a, 0x82, 0x50, 0x96, 0x43, 0xc1, 0x34, 0x12, 0x01, 0x00,
];

// A writable section before the code and one behind it.
fn image(alloc: Global) -> Result<Pages, AllocError> {
    let mut bytes = [0; 512];
    bytes[..42].copy_from_slice(&TEXT);
    let code = Vec::from_slice(alloc, &bytes)?;
    let ranges = vec![in alloc;
        PageRange { first: 0, count: 1, writable: true, place: 0 },
        PageRange { first: 1, count: 1, writable: false, place: 0 },
        PageRange { first: 8, count: 8, writable: true, place: 0 }]?;
    Ok(Pages { ranges, code })
}

// How many of so many calls decode an instruction; behind a reserved opcode the program begins again.
fn decoded(pages: &Pages, calls: u32) -> u32 {
    let (mut pc, mut count) = (0x200, 0u32);
    for _ in 0..calls {
        match decode_at(pages, pc) {
            Decoded::Instr(instr) => {
                count = count.wrapping_add(1);
                pc = instr.after;
            }
            _ => pc = 0x200,
        }
    }
    count
}

fn main(rt: HostRuntime) -> io::Result<()> {
    let pages = image(rt.alloc())?;
    let start = Instant::now(&rt)?;
    let count = decoded(&pages, 1_000_000);
    let time = start.elapsed(&rt)?.as_millis();
    println!(rt; "1000000 calls, {count} instructions: {time} ms")
}
PROGRAM
rt run | grep "instructions:"
