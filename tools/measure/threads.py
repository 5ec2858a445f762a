#!/usr/bin/env python3
"""Measures a loop on registers in the built program, round by round: by one thread, by four threads of one image, and, every third
round, by four programs of one thread each beside one another. Prints the wall time of each, and the ratios of their medians.

tools/measure/threads.py PROGRAM"""
import os
import pathlib
import statistics
import struct
import subprocess
import sys
import tempfile
import time

ROUNDS = 13
TURNS = 1_000_000
THREADS = 4
PAGE = 512
BUDGET = "1000000000000"
# MOVL #N,R2; ADDL2 R2,R0; XORL2 R0,R1; INCL R3; SOBGTR R2; CHMK #1
CODE = bytes.fromhex(f"D08F{struct.pack('<I', TURNS).hex()}52C05250CC5051D653F552F5BC01")


def image(threads):
    """An image whose threads all run the loop."""
    head = b"VXIM" + struct.pack("<HHHH", 1, threads, 2, 0)
    starts = struct.pack("<II", 0x200, 0x1200) * threads
    rows = struct.pack("<IIII", 0x200, PAGE, len(CODE), 0) + struct.pack("<IIII", 0x1000, PAGE, 0, 1)
    return head + starts + rows + CODE


def seconds(program, file, count):
    """Wall time in which so many programs beside one another run an image."""
    begun = time.monotonic()
    runs = [subprocess.Popen([program, "run", file, "--budget", BUDGET], stdin=subprocess.DEVNULL, stdout=subprocess.DEVNULL,
                             stderr=subprocess.DEVNULL) for _ in range(count)]
    if any([run.wait() for run in runs]):
        sys.exit("a run didn't end with status 0")
    return time.monotonic() - begun


def main():
    program = os.path.abspath(sys.argv[1])
    with tempfile.TemporaryDirectory() as room:
        one, four = pathlib.Path(room) / "one", pathlib.Path(room) / "four"
        one.write_bytes(image(1))
        four.write_bytes(image(THREADS))
        cases = {"one thread": (one, 1), "four threads": (four, 1), "four programs": (one, THREADS)}
        found = {name: [] for name in cases}
        for number in range(ROUNDS):
            for name, (file, count) in cases.items():
                if count == 1 or number % 3 == 0:
                    found[name].append(seconds(program, file, count))
    medians = {name: statistics.median(times) for name, times in found.items()}
    for name, times in found.items():
        print(f"{name}: {' '.join(f'{it:.3f}' for it in times)}; median {medians[name]:.3f}, "
              f"{medians[name] / medians['one thread']:.2f} times one thread")


if __name__ == "__main__":
    main()
