#!/usr/bin/env python3
"""Measures `generate N` in the built program for N = 1,000, 2,000, 4,000 .. 32,000, and prints tables: of five runs the one that
took the least time of processors, and its memory, beside those of half the number; the parts of the processors' time; and the
time by the clock by 1, 2 and 4 processors.

tools/measure/generate.py PROGRAM

Each call has to end with status 0 and to write just the lines that the script works out for N. The parts are told by calls over
the same image as a file: `translate` reads, finds, translates and writes, and `list` lists in the place of writing; `run` with a
budget of no step makes ready in that place; and `run` runs besides. What is left of `generate` is making the image and summing its
memory. Memory is the most that was resident, and never less than what the script itself has."""
import dataclasses
import functools
import os
import pathlib
import shutil
import struct
import subprocess
import sys
import tempfile
import time

ROUNDS = 5
NUMBERS = [1_000, 2_000, 4_000, 8_000, 16_000, 32_000]
PROCESSORS = ["0", "0,1", "0-3"]
ADDRESSES_BESIDE_GROUPS = 5
OK = 0
SPENT = 5
CODE = 0x10000
DATA = 0x1000
DATA_BYTES = 2048
STACK = 0x1800
THREADS = 4
MODULUS = 1 << 32


def next_number(x):
    """The number behind another one."""
    return (x * 1_664_525 + 1_013_904_223) % MODULUS


def group(x):
    """The code of the group that a number makes."""
    byte = x >> 24
    kind = (x >> 22) % 4
    if kind == 3:
        return bytes.fromhex("9052C1") + struct.pack("<H", DATA + 4 * ((x >> 10) % 512))
    return [bytes([0x80, 0x8F, byte, 0x52]), bytes([0x8C, 0x8F, byte, 0x52]), bytes.fromhex("9C035252")][kind]


def stepped(x, register, memory, thread):
    """R2 behind the group that a number makes, which may have stored its low byte."""
    byte, kind = x >> 24, (x >> 22) % 4
    if kind == 0:
        return register & ~0xFF | (register + byte) & 0xFF
    if kind == 1:
        return register ^ byte
    if kind == 2:
        return (register << 3 | register >> 29) % MODULUS
    memory[4 * ((x >> 10) % 512) + thread] = register & 0xFF
    return register


@functools.cache
def texts(number):
    """The output and the report of a number, by what its groups do."""
    memory = bytearray(DATA_BYTES)
    report = ""
    for thread in range(THREADS):
        x, register = number, thread
        for _ in range(number):
            register = stepped(x, register, memory, thread)
            x = next_number(x)
        report += f"thread {thread} exit {register:08X}\n"
    out = f"image {number} bytes {len(image(number))}\nmapped {number + ADDRESSES_BESIDE_GROUPS}\nmemory {sum(memory):08X}\n"
    return out, report


def image(number):
    """The file of the image of a number."""
    code = bytearray.fromhex("BC04D05051D05052")
    x = number
    for _ in range(number):
        code += group(x)
        x = next_number(x)
    code += bytes.fromhex("D05250BC01")
    head = b"VXIM" + struct.pack("<HHHH", 1, THREADS, 2, 0) + struct.pack("<II", CODE, STACK) * THREADS
    rows = struct.pack("<IIII", CODE, len(code), len(code), 0) + struct.pack("<IIII", DATA, DATA_BYTES, 0, 1)
    return head + rows + bytes(code)


@dataclasses.dataclass
class Call:
    """What a call came to: its status, its output and report, its seconds by the clock and of processors, and the most memory that
    it had, in bytes."""
    status: int
    texts: tuple
    seconds: float
    processor: float
    memory: int


class Program:
    """The built program."""

    def __init__(self, path, room):
        self.path = os.path.abspath(path)
        self.image = pathlib.Path(room, "image")
        self.target = pathlib.Path(room, "translated")

    def call(self, words, processors=None):
        before = ["taskset", "-c", processors] if processors else []
        begun = time.perf_counter()
        with subprocess.Popen([*before, self.path, *words], stdin=subprocess.DEVNULL, stdout=subprocess.PIPE,
                              stderr=subprocess.PIPE, text=True) as child:
            found = child.stdout.read(), child.stderr.read()
            _, ended, used = os.wait4(child.pid, 0)
            child.returncode = os.waitstatus_to_exitcode(ended)
        return Call(child.returncode, found, time.perf_counter() - begun, used.ru_utime + used.ru_stime, used.ru_maxrss * 1024)

    def fastest(self, words, status, processors=None, time_of=lambda call: call.processor):
        """The call of some that took the least time; they have to agree."""
        calls = [self.call(words, processors) for _ in range(ROUNDS)]
        for call in calls:
            if call.status != status or call.texts != calls[0].texts:
                sys.exit(f"{' '.join(words)}: status {call.status}: {call.texts}")
        return min(calls, key=time_of)

    def generate(self, number, *how):
        call = self.fastest(["generate", str(number)], OK, *how)
        if call.texts != texts(number):
            sys.exit(f"generate {number}: {call.texts}, not {texts(number)}")
        return call

    def parts(self, number):
        """The processors' seconds of starting, of `translate` and of `list` besides, of making ready and of running, and of all of `run`."""
        self.image.write_bytes(image(number))
        start = self.fastest(["run", str(self.target.with_name("absent"))], 2).processor
        translated = self.fastest(["translate", str(self.image), str(self.target)], OK).processor
        listed = self.fastest(["list", str(self.image)], OK).processor
        ready = self.fastest(["run", str(self.image), "--budget", "0"], SPENT).processor
        run = self.fastest(["run", str(self.image)], OK).processor
        return start, translated - start, listed - start, ready - translated, run - ready, run


def ratio(value, half):
    return f"{value / half:.2f}" if half else "-"


def growth(program):
    """The table of times and memory."""
    print("| N | milliseconds | of processors | of half N | MB | of half N | memory's sum |")
    print("|---|---|---|---|---|---|---|")
    spent, memory = None, None
    for number in NUMBERS:
        call = program.generate(number)
        left = call.texts[0].split()[-1]
        print(f"| {number:,} | {call.seconds * 1e3:.1f} | {call.processor * 1e3:.1f} | {ratio(call.processor, spent)} | {call.memory / 1e6:.1f} "
              f"| {ratio(call.memory, memory)} | {left} |", flush=True)
        spent, memory = call.processor, call.memory


def division(program):
    print("\n| N | start | read, find, translate, write | read, find, translate, list | make ready less writing | run | all of `run` | `generate` less `run` |")
    print("|---|---|---|---|---|---|---|---|")
    for number in NUMBERS:
        parts = program.parts(number)
        rest = program.generate(number).processor - parts[-1]
        print(f"| {number:,} | " + " | ".join(f"{part * 1e3:.1f}" for part in [*parts, rest]) + " |", flush=True)


def processors(program):
    if not shutil.which("taskset"):
        return
    print("\n| processors | " + " | ".join(f"{number:,}" for number in NUMBERS) + " |")
    print("|---|" + "---|" * len(NUMBERS))
    for given in PROCESSORS:
        times = [program.generate(number, given, lambda call: call.seconds).seconds for number in NUMBERS]
        print(f"| {given} | " + " | ".join(f"{seconds * 1e3:.1f}" for seconds in times) + " |", flush=True)


def main():
    with tempfile.TemporaryDirectory() as room:
        program = Program(sys.argv[1], room)
        growth(program)
        division(program)
        processors(program)


if __name__ == "__main__":
    main()
