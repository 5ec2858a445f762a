#!/usr/bin/env bash
# Measures accesses by 1, 2, 4 and 16 threads over one memory with local work between them, as real threads have it: so many
# steps of a xorshift in front of each access. `waiting.sh COMMIT..` measures shared_memory as it stands at each
# commit, one beside the other in each round; without one, as it stands here. The time is from making the memory to closing
# it.
set -euo pipefail
top=$(cd "$(dirname "$0")/../.." && pwd)
program() {
    cat <<'PROGRAM'
//! The time of accesses with local work between them.
#![tactic(auto)]

mod threads;
mod worker;

use std::io;
use std::thread::yield_now;
use std::time::Instant;
use threads::count_up;
use vt_outside::Gate;
use worker::{Plan, Way};

/// Makes so many steps of a xorshift before each access.
#[derive(Clone, Copy)]
struct Busy {
    steps: u32,
}

impl Gate for Busy {
    fn before(&self, _processor: u8, number: u64) {
        let mut value = number | 1;
        for _ in 0..self.steps {
            value ^= value << 13;
            value ^= value >> 7;
            value ^= value << 17;
        }
        // It never is: so that the steps are made.
        if value == 0 {
            yield_now();
        }
    }
}

const ACCESSES: u32 = 400_000;

fn main(rt: HostRuntime) -> io::Result<()> {
    for steps in [0, 100, 1000] {
        for threads in [1u8, 2, 4, 16] {
            let plan = Plan {
                way: Way::Interlocked,
                count: ACCESSES / u32::from(threads),
            };
            let start = Instant::now(&rt)?;
            let end = count_up(&rt, rt.alloc(), &Busy { steps }, plan, threads, ACCESSES);
            let time = start.elapsed(&rt)?.as_millis();
            let entries = end.memory.history().unwrap_or(&[]).len();
            println!(rt; "{entries} accesses by {threads} threads, {steps} steps before each: {time} ms")?;
        }
    }
    Ok(())
}
PROGRAM
}
# Builds the program over shared_memory as it stands at a commit, and leaves it under that name.
build() {
    (
        . "$top/tools/measure/scratch.sh"
        scratch "shared_memory memory_core vt_outside image_file vax_form" < <(program)
        workers
        if [ "$1" != here ]; then
            rm -rf ../shared_memory
            git -C "$top" archive "$1" crates/shared_memory | tar -C ../.. -xf -
            own=$(git -C "$top" show "$1:crates.txt" | grep '^shared_memory ')
            sed -i "s/^shared_memory .*/$own/" ../../crates.txt
        fi
        rt run > log 2>&1 || { tail -n 20 log; exit 1; }
        cp out/measure "$built/$1"
    )
}
built=$(mktemp -d)
trap 'rm -rf "$built"' EXIT
[ $# -gt 0 ] || set -- here
for commit in "$@"; do
    build "$commit"
done
for round in 1 2 3; do
    for commit in "$@"; do
        echo "round $round, $commit"
        "$built/$commit"
    done
done
