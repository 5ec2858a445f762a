#!/usr/bin/env python3
"""Measures runs of 1, 2, 4 and 16 threads that share a memory, by two programs in turn: threads that add to one word by ADAWI, and threads
that add up a longword of their own. Prints the medians of wall time and of processor time, and the ratios of the second program to the first.

tools/measure/leases.py PROGRAM PROGRAM [ROUNDS]

Another status where a run doesn't end with status 0, or where the second takes more than 1.05 times the processor time of the first."""
import os
import pathlib
import resource
import statistics
import struct
import subprocess
import sys
import tempfile
import time

PAGE = 512
CODE = 0x200
WORD = 0x10000
TURNS = 600_000
THREADS = (1, 2, 4, 16)
MOST = 1.05
# MOVL #N,R2; ADAWI #1,@#10000; SOBGTR R2 to the ADAWI; CHMK #1
ONE_WORD = "D08F N 52 58019F00000100 F552F6 BC01"
# MOVL #N,R2; ADDL2 -4(SP),R0; MOVL R0,-4(SP); SOBGTR R2 to the ADDL2; CHMK #1
OWN_LONGWORD = "D08F N 52 C0AEFC50 D050AEFC F552F5 BC01"


def image(code, threads):
    """An image whose threads all run the code, each with a page for its stack."""
    head = b"VXIM" + struct.pack("<HHHH", 1, threads, 2, 0)
    starts = b"".join(struct.pack("<II", CODE, WORD + PAGE * (number + 1)) for number in range(threads))
    rows = struct.pack("<IIII", CODE, PAGE, len(code), 0) + struct.pack("<IIII", WORD, PAGE * threads, 0, 1)
    return head + starts + rows + code


def used(who):
    usage = resource.getrusage(who)
    return usage.ru_utime + usage.ru_stime


def seconds(program, file):
    """Wall time and processor time of a run."""
    before, begun = used(resource.RUSAGE_CHILDREN), time.monotonic()
    subprocess.run([program, "run", file, "--unkept", "--budget", "1000000000000"], stdin=subprocess.DEVNULL,
                   stdout=subprocess.DEVNULL, stderr=subprocess.DEVNULL, check=True)
    return time.monotonic() - begun, used(resource.RUSAGE_CHILDREN) - before


def main():
    programs = [os.path.abspath(name) for name in sys.argv[1:3]]
    rounds = int(sys.argv[3]) if sys.argv[3:] else 5
    missed = False
    with tempfile.TemporaryDirectory() as room:
        file = pathlib.Path(room) / "image"
        for name, text in (("one word", ONE_WORD), ("a longword of their own", OWN_LONGWORD)):
            for threads in THREADS:
                code = bytes.fromhex(text.replace("N", struct.pack("<I", TURNS // threads).hex()).replace(" ", ""))
                file.write_bytes(image(code, threads))
                found = [[], []]
                for _ in range(rounds):
                    for times, program in zip(found, programs):
                        times.append(seconds(program, file))
                walls, works = ([statistics.median(part) for part in column] for column in
                                zip(*(zip(*times) for times in found)))
                missed |= works[1] > MOST * works[0]
                print(f"{name}, {threads} threads: {walls[0]:.3f} s and {walls[1]:.3f}, {walls[1] / walls[0]:.2f}; "
                      f"of processors {works[0]:.3f} and {works[1]:.3f}, {works[1] / works[0]:.2f}", flush=True)
    return int(missed)


if __name__ == "__main__":
    sys.exit(main())
