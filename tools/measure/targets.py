#!/usr/bin/env python3
"""Measures code for each target beside the other, turn by turn: the loop of MOVB (R1),(R2) and SOBGTR R3, by Alpha steps, by entries of the
history and by user time of its run; and `translate` of 32,768 ADDL3. Each time is the median of five. The status is 1 where the loop takes
more than 0.85 of the original's steps or time with the byte-word extension, or `translate` more than 1.05 of the original's time.

tools/measure/targets.py PROGRAM"""
import pathlib
import statistics
import struct
import subprocess
import sys
import tempfile

import simulator

TARGETS = ("original", "byteword")
ROUNDS = 5
MOST_OF_THE_LOOP, MOST_OF_TRANSLATE = 0.85, 1.05
# MOVL #N,R3; MOVAL @#1000,R1; MOVAL @#1100,R2; MOVB (R1),(R2); SOBGTR R3
BYTES = simulator.Loop("MOVB and SOBGTR", "D08F N 53 DE9F0010000051 DE9F0011000052  906162 F553FA", 2, 300_000)
INSTRUCTIONS = 32_768
ADDL3 = bytes.fromhex("C1505152")


def straight_image():
    """An image of so many instructions, one behind the other."""
    code = ADDL3 * (INSTRUCTIONS - 1) + bytes.fromhex(simulator.EXIT)
    head = b"VXIM" + struct.pack("<HHHH", 1, 1, 1, 0) + struct.pack("<II", simulator.PAGE, 0)
    return head + struct.pack("<IIII", simulator.PAGE, len(code), len(code), 0) + code


def seconds_of(words):
    """The user time of a call that succeeds."""
    begun = simulator.clock()
    subprocess.run(words, capture_output=True, check=True)
    return simulator.clock() - begun


def medians(calls):
    """The median time of each call, in turn."""
    taken = {name: [] for name in calls}
    for _ in range(ROUNDS):
        for name, words in calls.items():
            taken[name].append(seconds_of(words))
    return {name: statistics.median(times) for name, times in taken.items()}


def main():
    wrong = 0

    def told(what, found, most):
        nonlocal wrong
        ratio = found["byteword"] / found["original"]
        wrong += ratio > most
        print(f"{what}: {found['original']:.4g} and {found['byteword']:.4g}, {ratio:.2f} of it, at most {most}")

    with tempfile.TemporaryDirectory() as room:
        program = simulator.Program(sys.argv[1], room)
        steps = {target: 1_000_000 / program.retired(BYTES, "--target", target, "--budget", "1000000") for target in TARGETS}
        entries = {}
        for target in TARGETS:
            retired = [program.retired(BYTES, "--target", target, "--budget", "5000000", "--events", str(most)) for most in (100_000, 200_000)]
            entries[target] = 100_000 / (retired[1] - retired[0])
        told("Alpha steps an instruction of the loop", steps, MOST_OF_THE_LOOP)
        told("entries an instruction of the loop", entries, MOST_OF_THE_LOOP)
        name = pathlib.Path(room, "loop")
        name.write_bytes(simulator.image(BYTES.code_bytes(BYTES.turns), 1))
        told("seconds of the loop", medians({target: [program.path, "run", name, "--target", target] for target in TARGETS}), MOST_OF_THE_LOOP)
        straight, out = pathlib.Path(room, "straight"), pathlib.Path(room, "out")
        straight.write_bytes(straight_image())
        told(f"seconds of translating {INSTRUCTIONS} instructions", medians({target: [program.path, "translate", straight, out, "--target", target] for target in TARGETS}), MOST_OF_TRANSLATE)
    return 1 if wrong else 0


if __name__ == "__main__":
    sys.exit(main())
