#!/usr/bin/env python3
"""Measures loops in the built program and in SIMH's VAX, turn by turn, and prints a table: instructions a second of both (the
median of five runs), their ratio, Alpha words and steps for each VAX instruction, and entries of the history for each.
Processor time counts where one thread runs, so that other work on the machine weighs less, and wall time where several do.

tools/measure/simulator.py PROGRAM

Without SIMH (Debian's package `simh`) the program's side alone is measured. Instructions are counted by what the loops do. It
ends with status 1 where a ratio is below its aim."""
import dataclasses
import os
import pathlib
import re
import resource
import shutil
import statistics
import struct
import subprocess
import sys
import tempfile
import time

ROUNDS = 5
PAGE = 512
CODE = 0x200
DATA = 0x1000
STACK = 0x9000
EXIT = "BC01"
ENDLESS = 0x7FFFFFFF
MOST_STEPS = 1_000_000_000_000
EVERYTHING = "0-FFFFFFFF"


@dataclasses.dataclass
class Loop:
    """A loop: its name, its code with N for the turns, instructions a turn, turns, how many the simulator makes for each of
    them, and how it is run."""
    name: str
    code: str
    instructions: int
    turns: int
    simulated: int = 1
    threads: int = 1
    interpreted: bool = False
    aim: float | None = None

    def code_bytes(self, turns, end=EXIT):
        return bytes.fromhex(self.code.replace("N", struct.pack("<I", turns).hex()).replace(" ", "") + end + self.behind())

    def behind(self):
        return "000004" if "FB00" in self.code else ""


REGISTERS = "D08F N 52  C05250 CC5051 D653 F552F5"
LOOPS = [
    # MOVL #N,R2; ADDL2 R2,R0; XORL2 R0,R1; INCL R3; SOBGTR R2
    Loop("registers", REGISTERS, 4, 2_000_000, simulated=10, aim=0.65),
    # CLRL R2; MOVL #N,R3; CMPL R2,R3; BLSS; BBS #0,R4; AOBLSS R3,R2
    Loop("compares and branches", "D452 D08F N 53  D15253 1900 E0005400 F25352F3", 4, 2_000_000, simulated=10, aim=0.75),
    # MOVL #N,R2; MOVAL @#1000,R3; MOVL (R3),R0; ADDL2 R0,4(R3); MOVL R0,(R3); SOBGTR R2
    Loop("longwords in memory", "D08F N 52 DE9F0010000053  D06350 C050A304 D05063 F552F3", 4, 200_000, simulated=100, aim=0.2),
    # the same with MOVB and ADDB2
    Loop("bytes in memory", "D08F N 52 DE9F0010000053  906350 8050A304 905063 F552F3", 4, 100_000, simulated=200, aim=0.12),
    # MOVL #N,R2; CALLS #0 of a procedure that is RET; SOBGTR R2
    Loop("CALLS and RET", "D08F N 52  FB00AF05 F552F9", 3, 50_000, simulated=200),
    # MOVL #N,R11; MOVC3 #4096,@#2000,@#4000; SOBGTR R11
    Loop("MOVC3 of 4,096 bytes", "D08F N 5B  288F00109F002000009F00400000 F55BEF", 2, 50, simulated=200),
    Loop("registers, interpreted", REGISTERS, 4, 200_000, simulated=100, interpreted=True),
    Loop("registers, 4 threads", REGISTERS, 4, 500_000, threads=4),
    # MOVL #N,R2; ADAWI #1,@#1000; SOBGTR R2
    Loop("ADAWI of one word, 4 threads", "D08F N 52  58019F00100000 F552F6", 2, 100_000, threads=4),
]


def image(code, threads):
    """An image of version 1 with the code, and a writable section for data and stacks."""
    head = b"VXIM" + struct.pack("<HHHH", 1, threads, 2, 0)
    starts = b"".join(struct.pack("<II", CODE, STACK - PAGE * number) for number in range(threads))
    rows = struct.pack("<IIII", CODE, PAGE, len(code), 0) + struct.pack("<IIII", DATA, STACK - DATA, 0, 1)
    return head + starts + rows + code


def clock(threads=1):
    """What time is counted by."""
    return time.perf_counter() if threads > 1 else resource.getrusage(resource.RUSAGE_CHILDREN).ru_utime


class Program:
    """The built program."""

    def __init__(self, path, room):
        self.path = os.path.abspath(path)
        self.name = pathlib.Path(room, "image")

    def run(self, loop, turns, *options):
        """The report of a run."""
        self.name.write_bytes(image(loop.code_bytes(turns), loop.threads))
        words = [self.path, "run", self.name, *options]
        if loop.interpreted:
            for thread in range(loop.threads):
                words += ["--interpret", f"{thread}:{EVERYTHING}"]
        found = subprocess.run(words, capture_output=True, text=True, check=False)
        return found.returncode, found.stderr

    def seconds(self, loop):
        begun = clock(loop.threads)
        status, report = self.run(loop, loop.turns, "--budget", str(MOST_STEPS))
        taken = clock(loop.threads) - begun
        if status != 0:
            sys.exit(f"{loop.name}: status {status}: {report}")
        return taken

    def retired(self, loop, *options):
        """The instructions that thread 0 retired until it was spent."""
        status, report = self.run(loop, ENDLESS, *options)
        if status != 5:
            sys.exit(f"{loop.name}: status {status}: {report}")
        return int(re.search(r"spent retired (\d+)", report).group(1))

    def words(self, loop):
        """Alpha words for each mapped instruction, by the listing of the translation."""
        self.name.write_bytes(image(loop.code_bytes(1), loop.threads))
        target = self.name.with_name("translated")
        if subprocess.run([self.path, "translate", self.name, target], capture_output=True, check=False).returncode != 0:
            return None
        listing = subprocess.run([self.path, "list", target], capture_output=True, text=True, check=False).stdout
        lines = [line.split() for line in listing.splitlines()]
        return sum(len(line) - 2 for line in lines) / len(lines) if lines else None


class Simulator:
    """SIMH's VAX, where it stands."""

    def __init__(self, room):
        self.path = shutil.which("vax")
        self.script = pathlib.Path(room, "script")
        self.start = self.seconds_of(bytes.fromhex("00")) if self.path else 0

    def seconds_of(self, code):
        lines = ["set cpu 16m", "set cpu simhalt", "d psl 041F0000", f"d sp {STACK:X}"]
        lines += [f"d -b {CODE + place:X} {byte:02X}" for place, byte in enumerate(code)]
        self.script.write_text("\n".join([*lines, f"go {CODE:X}", "quit", ""]))
        begun = clock()
        found = subprocess.run([self.path, self.script], capture_output=True, text=True, check=False, stdin=subprocess.DEVNULL)
        taken = clock() - begun
        if "HALT instruction" not in found.stdout:
            sys.exit(f"the simulator says {found.stdout}")
        return taken

    def seconds(self, loop):
        """The time of the loop's code, which ends by HALT there."""
        return (self.seconds_of(loop.code_bytes(loop.simulated * loop.turns, "0000")) - self.start) / loop.simulated


def figure(value, form):
    return "-" if value is None else format(value, form)


def row(loop, program, simulator):
    """A line of the table, and whether the loop's aim is lost."""
    beside = simulator.path and loop.threads == 1
    own, other = [], []
    for _ in range(ROUNDS):
        own.append(program.seconds(loop))
        if beside:
            other.append(simulator.seconds(loop))
    count = loop.instructions * loop.turns * loop.threads
    speed = count / statistics.median(own)
    simulated = count / statistics.median(other) if other else None
    steps = None if loop.interpreted else 1_000_000 / program.retired(loop, "--budget", "1000000")
    entries = entries_of(loop, program) if loop.threads == 1 else None
    ratio = speed / simulated if simulated else None
    cells = [loop.name, f"{speed / 1e6:.4g}", figure(simulated and simulated / 1e6, ".4g"),
             figure(ratio, ".2f"), figure(loop.aim, "g"), figure(program.words(loop), ".1f"),
             figure(steps, ".1f"), figure(entries, ".2f")]
    return "| " + " | ".join(cells) + " |", bool(ratio and loop.aim and ratio < loop.aim)


def entries_of(loop, program):
    """Entries for each instruction: what stands between two limits of the history."""
    few, many = 100_000, 200_000
    budget = ("--budget", "5000000")
    between = program.retired(loop, *budget, "--events", str(many)) - program.retired(loop, *budget, "--events", str(few))
    return (many - few) / between if between else 0.0


def main():
    with tempfile.TemporaryDirectory() as room:
        program, simulator = Program(sys.argv[1], room), Simulator(room)
        if not simulator.path:
            print("SIMH's vax is not here: the program's side alone")
        print("| Loop | million instructions a second | SIMH | ratio | aim | Alpha words an instruction | Alpha steps | entries |")
        print("|---|---|---|---|---|---|---|---|")
        lost = 0
        for loop in LOOPS:
            line, is_lost = row(loop, program, simulator)
            lost += is_lost
            print(line, flush=True)
        sys.exit(1 if lost else 0)


if __name__ == "__main__":
    main()
