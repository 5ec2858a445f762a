#!/usr/bin/env python3
"""Measures `replay` in the built program, beside the runs whose order it drives again: the loops of simulator.py, a loop of reads, a move of
65,535 bytes, and orders of 4,194,304 picks by one thread and by four. Prints a table: seconds of processors of the run, of the same run
interpreted, of its replay, and of its replay with a file for hints, each the median of five, and what the replay makes of millions of
instructions a second, and its memory.

tools/measure/replay.py PROGRAM

Status 1 where an aim is lost: 1,000,000 instructions a second of the loop of registers, 1,000,000 references a second of the loop of
reads; 40 ms for the move; 6 s and 200 MB for each of the long orders; with hints 1.3 times the replay without, and 5 ms beside."""
import dataclasses
import os
import pathlib
import statistics
import struct
import subprocess
import sys
import tempfile

import simulator

ROUNDS = 5
MOST_PICKS = 4_194_304
READS = 64
# MOVL #N,R2; MOVAL @#1000,R3; 64 times MOVL (R3),R0; DECL R2; BEQL over BRW to the first MOVL
READING = "D08F N 52 DE9F0010000053" + "D06350" * READS + "D752 1303 3139FF"
# MOVC3 #65535,@#2000,@#20000
MOVING = "288FFFFF9F002000009F00000200"
MOST_MOVE, MOST_LONG, MOST_MEMORY = 0.040, 6.0, 200_000
LEAST_SPEED = 1_000_000
MOST_WITH_HINTS, CLOCK = 1.3, 0.005


@dataclasses.dataclass
class Case:
    """A case: its name, its image, its threads, how many instructions or references it makes, the least of them a second, and the most seconds."""
    name: str
    image: bytes
    threads: int
    count: int
    least: float = 0.0
    most: float | None = None


def image(code, threads, data=0x40000):
    """An image with so many bytes of data, and a page of stack behind them for each thread."""
    end = simulator.DATA + data + simulator.PAGE * threads
    starts = b"".join(struct.pack("<II", simulator.CODE, end - simulator.PAGE * number) for number in range(threads))
    rows = struct.pack("<IIII", simulator.CODE, simulator.PAGE, len(code), 0)
    rows += struct.pack("<IIII", simulator.DATA, end - simulator.DATA, 0, 1)
    return b"VXIM" + struct.pack("<HHHH", 1, threads, 2, 0) + starts + rows + code


def code(text, turns):
    return bytes.fromhex(text.replace("N", struct.pack("<I", turns).hex()).replace(" ", "") + simulator.EXIT)


def cases():
    for loop in simulator.LOOPS:
        count = loop.instructions * loop.turns * loop.threads
        least = LEAST_SPEED if loop.name == "registers" else 0.0
        yield Case(loop.name, simulator.image(loop.code_bytes(loop.turns), loop.threads), loop.threads, count, least)
    yield Case("64 MOVL from memory", image(code(READING, 30_000), 1), 1, 30_000 * READS, LEAST_SPEED)
    yield Case("MOVC3 of 65,535 bytes", image(code(MOVING, 0), 1), 1, 1, most=MOST_MOVE)
    for threads in (1, 4):
        turns = MOST_PICKS // READS // threads
        yield Case(f"4,194,304 picks, {threads} threads", image(code(READING, turns), threads), threads, MOST_PICKS, most=MOST_LONG)


def timed(words):
    """The seconds of processors and the greatest memory, in kilobytes, of a call that ends with status 0, and what it wrote."""
    with tempfile.TemporaryFile() as out, tempfile.TemporaryFile() as report:
        child = subprocess.Popen(words, stdin=subprocess.DEVNULL, stdout=out, stderr=report)
        _, status, used = os.wait4(child.pid, 0)
        child.returncode = os.waitstatus_to_exitcode(status)
        out.seek(0)
        report.seek(0)
        said = out.read(), report.read()
    if child.returncode != 0:
        sys.exit(f"{' '.join(map(str, words))}: status {child.returncode}: {said[1].decode()}")
    return used.ru_utime + used.ru_stime, used.ru_maxrss, said


def measured(program, case, room):
    """The medians of the run, of the run interpreted, of the replay and of the replay with hints, and the memory of the replay."""
    name, order, hints = (pathlib.Path(room, file) for file in ("image", "order", "hints"))
    name.write_bytes(case.image)
    budget = ["--budget", str(simulator.MOST_STEPS)]
    interpreted = [word for thread in range(case.threads) for word in ("--interpret", f"{thread}:{simulator.EVERYTHING}")]
    times = [], [], [], []
    memory = 0
    for _ in range(ROUNDS):
        times[0].append(timed([program, "run", name, *budget])[0])
        times[1].append(timed([program, "run", name, *budget, *interpreted])[0])
        stored = timed([program, "run", name, *budget, "--order", order])[2]
        taken, used, said = timed([program, "replay", name, order])
        times[2].append(taken)
        memory = max(memory, used)
        taken, _, with_hints = timed([program, "replay", name, order, "--hints", hints])
        times[3].append(taken)
        if said != stored or with_hints != stored:
            sys.exit(f"{case.name}: the replay wrote something else than its run")
    return [statistics.median(each) for each in times], memory


def main():
    if len(sys.argv) != 2:
        sys.exit(__doc__)
    program = pathlib.Path(sys.argv[1]).resolve()
    print("| Case | run | interpreted | replay | with hints | million a second | memory, MB |")
    print("|---|---|---|---|---|---|---|")
    lost = []
    with tempfile.TemporaryDirectory() as room:
        for case in cases():
            (run, interpreted, replay, with_hints), memory = measured(program, case, room)
            speed = case.count / replay
            print(f"| {case.name} | {run:.3f} | {interpreted:.3f} | {replay:.3f} | {with_hints:.3f} | {speed / 1e6:.3g} | {memory / 1000:.0f} |", flush=True)
            is_long = case.most == MOST_LONG
            is_slower = with_hints > MOST_WITH_HINTS * replay + CLOCK
            if speed < case.least or case.most and replay > case.most or is_long and memory > MOST_MEMORY or is_slower:
                lost.append(case.name)
    sys.exit(f"lost: {', '.join(lost)}" if lost else 0)


if __name__ == "__main__":
    main()
