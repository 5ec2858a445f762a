#!/usr/bin/env bash
# Measures how long `decode` of alpha_encode takes a word: eight words again and again, each instruction looked at. `alpha_decode.sh COMMIT..`
# measures alpha_encode as it stands at each commit, `here` for as it stands here, one beside the other in each of five rounds; without one,
# as it stands here. Processor time counts. Where the linker puts the code can make a fifth more or less of it, so each is built in so many
# layouts as LAYOUTS says (4 where it isn't set), with one more function in front of the loop in each, and the means of their medians count.
# With COUNTED=1 it counts machine instructions in the place of time, by `valgrind`: what so many more turns take, of which no layout changes much.
set -euo pipefail
top=$(cd "$(dirname "$0")/../.." && pwd)
turns=40000000
fewer=100000
layouts=${LAYOUTS:-4}
# So many functions that stand in front of the loop.
padding() {
    local number
    for ((number = 0; number < $1; number++)); do
        cat <<PADDING
#[inline(never)]
fn padding_$number(x: u64) -> u64 {
    (x ^ (x << 13)).wrapping_mul(0x9e37_79b9_0000_000$((2 * number + 1)))
}

PADDING
    done
}
# The calls of these, of a sum.
padded() {
    local number calls=sum
    for ((number = 0; number < $1; number++)); do
        calls="padding_$number($calls)"
    done
    echo "$calls"
}
program() {
    cat <<PROGRAM
//! Decodes eight words of Alpha again and again.
#![tactic(auto)]

use alpha_encode::{AlphaInstr, Second, decode};
use std::io;

// ADDL R1,#1,R1; CMPLT R1,R2,R3; BNE R3; LDQ_U R31,0(R30); STQ_C R1,0(R2); EXTBL R1,R2,R3; LDA R0,5(R31); BIS R31,R31,R31
const CODE: [u32; 8] = [
    0x4020_3001, 0x4022_09a3, 0xf47f_fffd, 0x2ffe_0000, 0xbc22_0000, 0x4822_00c3, 0x201f_0005, 0x47ff_041f,
];

/// What is looked at of an instruction.
fn looked_at(instr: AlphaInstr) -> u64 {
    match instr {
        AlphaInstr::Memory { ra, rb, .. } => u64::from(ra ^ rb),
        AlphaInstr::Branch { ra, .. } => u64::from(ra),
        AlphaInstr::Operate { ra, rb: Second::Register(rb), rc, .. } => u64::from(ra ^ rb ^ rc),
        AlphaInstr::Operate { ra, rc, .. } => u64::from(ra ^ rc),
        _ => 1,
    }
}

$(padding "$1")

// In each turn a bit of Rb in one word is turned round.
fn sum_of(turns: u64) -> u64 {
    let mut code = CODE;
    let mut sum = 0u64;
    for turn in 0..turns {
        code[(turn % 8) as usize] ^= 1 << 16;
        for word in &code {
            if let Some(instr) = decode(*word) {
                sum = sum.wrapping_add(looked_at(instr));
            }
        }
    }
    sum
}

fn main(rt: HostRuntime) -> io::Result<()> {
    let sum = sum_of($2);
    let sum = $(padded "$1");
    println!(rt; "{sum}")
}
PROGRAM
}
# Builds the program over alpha_encode as it stands at a commit, in a layout, with so many turns, and leaves it under that name.
build() {
    (
        . "$top/tools/measure/scratch.sh"
        scratch "alpha_encode" < <(program "$2" "$3")
        if [ "$1" != here ]; then
            rm -rf ../alpha_encode
            git -C "$top" archive "$1" crates/alpha_encode | tar -C ../.. -xf -
        fi
        rt run > log 2>&1 || { tail -n 20 log; exit 1; }
        cp out/measure "$built/$1-$2-$3"
    )
}
# How many machine instructions the program of a commit takes with so many turns.
counted() {
    build "$1" 0 "$2" >&2
    valgrind --tool=cachegrind --cache-sim=no --cachegrind-out-file=/dev/null "$built/$1-0-$2" 2>&1 | sed -n 's/,//g; s/.*I *refs: *//p'
}
built=$(mktemp -d)
trap 'rm -rf "$built"' EXIT
[ $# -gt 0 ] || set -- here
if [ -n "${COUNTED:-}" ]; then
    for commit in "$@"; do
        few=$(counted "$commit" "$fewer")
        many=$(counted "$commit" $((2 * fewer)))
        awk -v commit="$commit" -v more=$((many - few)) -v words=$((8 * fewer)) 'BEGIN { printf "%s: %.1f machine instructions a word\n", commit, more / words }'
    done
    exit
fi
for commit in "$@"; do
    for ((layout = 0; layout < layouts; layout++)); do
        build "$commit" "$layout" "$turns"
    done
done
TIMEFORMAT=%U
for round in 1 2 3 4 5; do
    for ((layout = 0; layout < layouts; layout++)); do
        for commit in "$@"; do
            seconds=$({ time "$built/$commit-$layout-$turns" > /dev/null; } 2>&1)
            echo "$commit $layout $round $seconds"
        done
    done
done | awk -v words=$((8 * turns)) '
    { nanoseconds[$1, $2, $3] = $4 * 1e9 / words; commits[$1]; if ($2 >= layouts) layouts = $2 + 1; rounds = $3 }
    function median(commit, layout,    at, other, below) {
        for (at = 1; at <= rounds; at++) {
            below = 0
            for (other = 1; other <= rounds; other++)
                if (nanoseconds[commit, layout, other] < nanoseconds[commit, layout, at] ||
                    (nanoseconds[commit, layout, other] == nanoseconds[commit, layout, at] && other < at)) below++
            if (below == int(rounds / 2)) return nanoseconds[commit, layout, at]
        }
    }
    END {
        for (commit in commits) {
            printf "%s:", commit
            sum = 0
            for (layout = 0; layout < layouts; layout++) {
                sum += median(commit, layout)
                printf " %.2f", median(commit, layout)
            }
            printf " ns a word, %.2f in the mean\n", sum / layouts
        }
    }'
