#!/usr/bin/env python3
"""Runs the built program on images of 2, 16 and 32 threads under limits of processes and of address space. Prints from which limit on
the run is whole: from there on it always is, and below it the answer is status 9 with nothing written. Another answer, or a run that
doesn't end, is told, and the status is then 1.

Then, that no thread makes a step before all of them stand: threads that loop for many seconds are refused at once where the system makes
one fewer. A program whose threads begin sooner is told by its time alone.

tools/refused_threads.py PROGRAM

It needs the right to change its user, since a limit of processes binds no superuser. The system places nothing at random in these runs,
or the least limit would vary by a page."""
import ctypes
import os
import pathlib
import resource
import struct
import subprocess
import sys
import tempfile

LIBC = ctypes.CDLL(None)
# ADDR_NO_RANDOMIZE of sys/personality.h
NOTHING_AT_RANDOM = 0x40000
SECONDS = 60
SOON = 5
USER = 61234
COUNTS = [2, 16, 32]
# CHMK #4; ADDL2 #30,R0; CHMK #2; CHMK #1, as in docs/USING.md
CODE = bytes.fromhex("BC04C03050BC02BC01")
# BRB to itself
LOOP = bytes.fromhex("11FE")
LONG = ["--budget", "1000000000000"]
STORED, STACK = 0x200, 0x1000
KILO, MOST_KILOS, STEP_KILOS = 1024, 1 << 22, 512
AROUND = 12
REFUSED = (9, b"", b"no memory\n")


def image(count, code):
    """An image of version 2, whose threads all start at its code."""
    head = b"VXIM" + struct.pack("<HHHH", 2, count, 2, 0)
    threads = b"".join(struct.pack("<16I", STORED, STACK + STORED, *[0] * 14) for _ in range(count))
    sections = struct.pack("<IIII", STORED, STORED, len(code), 0) + struct.pack("<IIII", STACK, STORED, 0, 1)
    return head + threads + sections + code


def run(words, kind=None, limit=None, seconds=SECONDS):
    """The status, the output and the report, or nothing where the run doesn't end in that time."""
    def limited():
        LIBC.personality(NOTHING_AT_RANDOM)
        if kind is not None:
            resource.setrlimit(kind, (limit, limit))
        os.setgid(USER)
        os.setuid(USER)
    try:
        ran = subprocess.run(words, preexec_fn=limited, capture_output=True, stdin=subprocess.DEVNULL, timeout=seconds)
    except subprocess.TimeoutExpired:
        return None
    return ran.returncode, bytes(sorted(ran.stdout)), ran.stderr


def least(words, kind, low, high, unit, whole):
    """The least limit at which the run is whole; it isn't at those that were tried below."""
    while low < high:
        middle = (low + high) // 2
        if run(words, kind, middle * unit) == whole:
            high = middle
        else:
            low = middle + 1
    return high


def odd_ones(words, kind, first, step, unit, whole):
    """Limits around the first at which the answer isn't the one that it has to be."""
    for place in range(-AROUND, AROUND + 1):
        limit = first + place * step
        if limit > 0:
            found = run(words, kind, limit * unit)
            if found != (whole if limit >= first else REFUSED):
                yield limit, found


def steps_too_soon(program, name, count, first):
    """How many of two answers differ: the run goes on where its threads are made, and is refused at once where one is not."""
    pathlib.Path(name).write_bytes(image(count, LOOP))
    words = [program, "run", name, *LONG]
    wrong = 0
    for limit, wanted in [(first, None), (first - 1, REFUSED)]:
        found = run(words, resource.RLIMIT_NPROC, limit, SOON)
        if found != wanted:
            print(f"{count} threads that loop, at {limit} processes: {found}")
            wrong += 1
    return wrong


def main():
    program = str(pathlib.Path(sys.argv[1]).resolve())
    wrong = 0
    with tempfile.TemporaryDirectory() as room:
        os.chmod(room, 0o755)
        for count in COUNTS:
            name = os.path.join(room, f"{count}.img")
            pathlib.Path(name).write_bytes(image(count, CODE))
            words = [program, "run", name]
            report = "".join(f"thread {t} exit {0x30 + t:08X}\n" for t in range(count)).encode()
            whole = (0, bytes(range(0x30, 0x30 + count)), report)
            if run(words) != whole:
                print(f"{count} threads: {run(words)}")
                wrong += 1
                continue
            for kind, title, most, step, unit in [
                (resource.RLIMIT_AS, "kilobytes", MOST_KILOS, STEP_KILOS, KILO),
                (resource.RLIMIT_NPROC, "processes", 4 * count, 1, 1),
            ]:
                first = least(words, kind, 1, most, unit, whole)
                print(f"{count} threads: whole from {first} {title} on")
                for limit, found in odd_ones(words, kind, first, step, unit, whole):
                    wrong += 1
                    print(f"{count} threads at {limit} {title}: {found}")
            wrong += steps_too_soon(program, name, count, first)
    print(f"{wrong} answers differ")
    return 1 if wrong else 0


if __name__ == "__main__":
    sys.exit(main())
