#!/usr/bin/env python3
"""Counts the machine instructions that a step of Alpha code takes, and a VAX instruction, and prints a table: `valgrind` runs each loop with
two budgets, and what is between them is counted, so that other work on the machine changes nothing.

tools/measure/counted.py PROGRAM [PROGRAM ..]

Two more lines come of those of NOP and ADDL2: what a step takes and what a landing does, where each takes the same in both loops."""
import pathlib
import re
import subprocess
import sys
import tempfile

from simulator import ENDLESS, REGISTERS, Loop, image

BUDGETS = 200_000, 600_000
# TSTL R0, which writes all codes; MOVL #N,R2; 32 instructions; SOBGTR R2 over a branch, since a byte doesn't reach
HEAD, TAIL = "D550 D08F N 52", "F55202 1103 31"
LOOPS = [
    Loop("registers", "D550 " + REGISTERS, 4, 0),
    Loop("compares and branches", "D550 D452 D08F N 53  D15253 1900 E0005400 F25352F3", 4, 0),
]
SINGLE = [("NOP", "01"), ("MOVL R0,R1", "D05051"), ("XORL2 R0,R1", "CC5051"), ("ADDL2 R0,R1", "C05051")]
COPIES = 32


def long_loop(name, code):
    """COPIES of an instruction, SOBGTR of the next but one, BRB behind the BRW, BRW back."""
    size = COPIES * len(code) // 2 + 3 + 2 + 3
    back = (-size & 0xFFFF).to_bytes(2, "little").hex()
    return Loop(name, f"{HEAD} {code * COPIES} {TAIL}{back}", COPIES + 2, 0)


def counted(program, name, budget):
    """How many machine instructions a run takes, and how many VAX instructions it retires."""
    words = ["valgrind", "--tool=cachegrind", "--cache-sim=no", "--cachegrind-out-file=/dev/null", program, "run", name, "--unkept", "--budget", str(budget)]
    report = subprocess.run(words, capture_output=True, text=True, check=False).stderr
    refs = re.search(r"I +refs: +([\d,]+)", report)
    retired = re.search(r"spent retired (\d+)", report)
    if not refs or not retired:
        sys.exit(report)
    return int(refs.group(1).replace(",", "")), int(retired.group(1))


def measure(program, loop, room):
    """Alpha steps and machine instructions of a VAX instruction."""
    name = pathlib.Path(room, "image")
    name.write_bytes(image(loop.code_bytes(ENDLESS), 1))
    (few, first), (many, second) = [counted(program, name, budget) for budget in BUDGETS]
    retired = second - first
    return (BUDGETS[1] - BUDGETS[0]) / retired, (many - few) / retired


def main(program):
    print(f"{program}\n| Loop | Alpha steps an instruction | machine instructions a step | machine instructions an instruction |\n|---|---|---|---|")
    found = {}
    with tempfile.TemporaryDirectory() as room:
        for loop in LOOPS + [long_loop(*single) for single in SINGLE]:
            steps, taken = found[loop.name] = measure(program, loop, room)
            print(f"| {loop.name} | {steps:.2f} | {taken / steps:.1f} | {taken:.0f} |", flush=True)
    (few, small), (many, large) = found["NOP"], found["ADDL2 R0,R1"]
    step = (large - small) / (many - few)
    print(f"a step {step:.1f}; a landing {small - few * step:.1f} more")


if __name__ == "__main__":
    if len(sys.argv) < 2:
        sys.exit(__doc__)
    for each in sys.argv[1:]:
        main(each)
