#!/usr/bin/env python3
"""Measures hints in the built program: `translate` of 32,768 instructions with as many hints beside the same without them, and a run of
a loop of 1,000,000 turns that only a computed jump comes to, translated without hints and with those that its replay finds. Prints a table
of seconds of a processor, each the median of five in turn.

tools/measure/hints.py PROGRAM

Status 1 where hints take more than 20 ms of `translate`, or where the loop is no faster with them."""
import os
import pathlib
import resource
import statistics
import struct
import subprocess
import sys
import tempfile

ROUNDS = 5
MOST_HINTS = 32_768
MORE_WITH_HINTS = 0.020
START = 0x200
LOOP = 0x220
# MOVAB @#220,R1; JMP (R1)
JUMP = bytes.fromhex("9E9F20020000511761")
# MOVL #1000000,R2; SOBGTR R2 to itself; CHMK #1
TURNS = bytes.fromhex("D08F40420F0052F552FDBC01")
NOP = b"\x01"
EXIT = b"\xbc\x01"


def image(code):
    """An image of one thread, with that code and a page of stack."""
    head = b"VXIM" + struct.pack("<4H", 1, 1, 2, 0)
    stack = 0x7FFF_0000
    return head + struct.pack("<10I", START, stack + 512, START, len(code), len(code), 0, stack, 512, 0, 1) + code


def seconds(words, folder):
    """The seconds of a processor that a call takes."""
    before = resource.getrusage(resource.RUSAGE_CHILDREN)
    subprocess.run(words, cwd=folder, check=True, stdin=subprocess.DEVNULL, stdout=subprocess.DEVNULL, stderr=subprocess.DEVNULL)
    after = resource.getrusage(resource.RUSAGE_CHILDREN)
    return after.ru_utime + after.ru_stime - before.ru_utime - before.ru_stime


def medians(calls, folder):
    """The median of each call, made in turn."""
    rounds = [[seconds(words, folder) for words in calls] for _ in range(ROUNDS)]
    return [statistics.median(each) for each in zip(*rounds)]


def main():
    program = os.path.abspath(sys.argv[1])
    with tempfile.TemporaryDirectory() as folder:
        at = pathlib.Path(folder)
        at.joinpath("nops").write_bytes(image(NOP * (MOST_HINTS - 1) + EXIT))
        hints = struct.pack(f"<{MOST_HINTS}I", *range(START, START + MOST_HINTS))
        at.joinpath("hints").write_bytes(b"VXHT" + struct.pack("<2I", 1, MOST_HINTS) + hints)
        without, hinted = medians(
            [[program, "translate", "nops", "a"], [program, "translate", "nops", "b", "--hints", "hints"]], folder
        )
        at.joinpath("loop").write_bytes(image(JUMP.ljust(LOOP - START, b"\0") + TURNS))
        seconds([program, "run", "loop", "--order", "order"], folder)
        seconds([program, "replay", "loop", "order", "--hints", "found"], folder)
        seconds([program, "translate", "loop", "before"], folder)
        seconds([program, "translate", "loop", "after", "--hints", "found"], folder)
        before, after = medians([[program, "run", "before"], [program, "run", "after"]], folder)
    print(f"translate of 32,768 instructions: {without:.3f} s, with as many hints {hinted:.3f}")
    print(f"a loop of 1,000,000 turns behind a computed jump: {before:.3f} s, with the hints of its replay {after:.3f}")
    return 1 if hinted - without > MORE_WITH_HINTS or after >= before else 0


if __name__ == "__main__":
    sys.exit(main())
