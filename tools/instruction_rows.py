#!/usr/bin/env python3
"""Prints the families of crates/vectors/data/simulator.txt that come from a simulator's answers. The families
behind them were worked by hand.

usage: instruction_rows.py ANSWERS.jsonl

A line of ANSWERS is an object with the keys name, pc, regs (R0 to R14), psw, memory and stop, and pc2, regs2, psw2 and
memory2 for what stands behind the instruction. Numbers are hexadecimal texts; memory is {address: bytes}, and memory2 has
the areas that changed. stop is ["step"], or ["trap", TYPE] or ["fault", OFFSET] with a number.
"""

import json
import re
import sys

FAMILIES = {
    "moves": r"MOV[BWLQ]|MOVZ..|MCOM.|MNEG.|CLR.|PUSHL",
    "conversions": r"CVT..",
    "addresses": r"(MOV|PUSH)A.",
    "comparisons": r"CMP[BWL]|TST.|BIT.",
    "additions": r"ADD..|INC.|ADWC|ADAWI",
    "subtractions": r"SUB..|DEC.|SBWC",
    "multiplications": r"MUL..|EMUL",
    "divisions": r"DIV..",
    "logical operations": r"(BIS|BIC|XOR)[BWL].",
    "shifts": r"ASHL|ROTL",
    "bit fields": r"EXTV|EXTZV|INSV",
    "branches": r"B(R[BW]|NEQ|EQL|GTR|LEQ|GEQ|LSS|GTRU|LEQU|VC|VS|CC|CS)|JMP",
    "branches on bits": r"BLB[SC]|BB[SC]([SC]I?)?",
    "loops": r"AOB...|SOB...|ACB.",
    "cases": r"CASE.",
    "subroutines": r"BSB[BW]|JSB|RSB",
    "procedures": r"CALL[GS]|RET",
    "register lists": r"PUSHR|POPR",
    "processor status": r"MOVPSL|BI[SC]PSW",
    "index": r"INDEX",
    "character strings": r"MOVC[35]|CMPC3|LOCC|SKPC",
    "no operation and breakpoint": r"NOP|BPT",
}

HEAD = """\
# What the VAX simulator SIMH has behind one instruction, by families. All of memory may be read and written there.
#
# A line is a case, and its parts are: the instruction's name; the PC, the PSW and R0 to R14 before it; how it ends (done,
# trap with its type, or fault with its vector offset); the PC and the PSW behind it; the registers that it changed, as
# NUMBER=VALUE, and the bytes, as ADDRESS=BYTES, or - for none; and the memory before it, area by area. Memory is 0 outside
# the areas. All numbers are hexadecimal, and bytes stand from the lowest address up.
"""


def ending(stop):
    return stop[0].replace("step", "done") if len(stop) == 1 else f"{stop[0]}={stop[1]:X}"


def listed(parts):
    return ",".join(parts) or "-"


def changed_bytes(before, behind):
    """The runs of changed bytes."""
    for start, after in behind.items():
        old, new = bytes.fromhex(before[start]), bytes.fromhex(after)
        run = ""
        for place in range(len(new) + 1):
            if place < len(new) and old[place] != new[place]:
                run += f"{new[place]:02x}"
            elif run:
                yield f"{int(start, 16) + place - len(run) // 2:X}={run}"
                run = ""


def line_of(case):
    pairs = enumerate(zip(case["regs"], case["regs2"]))
    registers = [f"{number:X}={new}" for number, (old, new) in pairs if old != new]
    return " ".join([
        case["name"], case["pc"], case["psw"], ",".join(case["regs"]),
        ending(case["stop"]), case["pc2"], case["psw2"],
        listed(registers), listed(changed_bytes(case["memory"], case["memory2"])),
        ",".join(f"{start}={data}" for start, data in case["memory"].items()),
    ])


def main():
    cases = [json.loads(line) for line in open(sys.argv[1])]
    rows, count = [HEAD], 0
    for family, names in FAMILIES.items():
        members = [case for case in cases if re.fullmatch(names, case["name"])]
        rows.append(f"\nfamily {family}\n" + "".join(line_of(case) + "\n" for case in members))
        count += len(members)
    assert count == len(cases), "a case of no family, or of two"
    print("".join(rows), end="")


main()
