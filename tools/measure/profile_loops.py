#!/usr/bin/env python3
"""Prints, for each loop of simulator.py, the functions in which the built program spends most of its time, by `perf`.

tools/measure/profile_loops.py PROGRAM"""
import pathlib
import subprocess
import sys
import tempfile

import simulator

FUNCTIONS = 8


def profile(program, loop, room):
    """The lines of the functions that take most, of one run."""
    name, record = pathlib.Path(room, "image"), pathlib.Path(room, "record")
    name.write_bytes(simulator.image(loop.code_bytes(loop.turns), loop.threads))
    words = [program, "run", name, "--budget", str(simulator.MOST_STEPS)]
    if loop.interpreted:
        words += ["--interpret", f"0:{simulator.EVERYTHING}"]
    subprocess.run(["perf", "record", "-q", "-o", record, *words], stdin=subprocess.DEVNULL, capture_output=True, check=False)
    report = ["perf", "report", "-i", record, "--stdio", "--no-children", "-s", "symbol", "-q"]
    found = subprocess.run(report, capture_output=True, text=True, check=False).stdout
    return [" ".join(line.split()[:3]) for line in found.splitlines() if line.strip()][:FUNCTIONS]


def main():
    with tempfile.TemporaryDirectory() as room:
        for loop in simulator.LOOPS:
            print(loop.name)
            for line in profile(sys.argv[1], loop, room):
                print(f"    {line}")


if __name__ == "__main__":
    main()
