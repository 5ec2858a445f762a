#!/usr/bin/env python3
"""Measures runs of the built program that keep no history: loops over memory beside runs that keep it, turn by turn (medians of five of
processor time, and their ratio, where 1.3 is the aim); the greatest resident memory of a run of 1,000,000 accesses and of one of 100,000,000
(at most 4 MB more are the aim); and four threads of 25,000,000 accesses each, which have to end with status 0.

tools/measure/unkept.py PROGRAM [COUNT]

COUNT is in the place of 100,000,000. Another status than 0 where a run ends otherwise than it should or an aim is missed."""
import pathlib
import resource
import statistics
import struct
import subprocess
import sys
import tempfile
import time

ROUNDS = 5
PAUSE = 0.005
PAGE = 512
CODE, DATA, STACK = 0x200, 0x1000, 0x9000
BUDGET = "1000000000000"
EXIT = "BC01"
RATIO = 1.3
MORE_MEMORY = 4_096  # kilobytes
ACCESSES = 100_000_000
TURNS = 200_000
LOOPS = {
    # MOVL #N,R2; MOVAL @#1000,R3; MOVL (R3),R0; ADDL2 R0,4(R3); MOVL R0,(R3); SOBGTR R2
    "longwords": "D08F N 52 DE9F0010000053 D06350 C050A304 D05063 F552F3",
    # the same with MOVB and ADDB2
    "bytes": "D08F N 52 DE9F0010000053 906350 8050A304 905063 F552F3",
}
# MOVL #N,R2; MOVAL @#1000,R3; MOVL R2,(R3); SOBGTR R2
ONE_ACCESS = "D08F N 52 DE9F0010000053 D05263 F552FA"


def image(code, turns, threads=1):
    """An image of a loop of so many turns, for so many threads."""
    code = bytes.fromhex(code.replace("N", struct.pack("<I", turns).hex()).replace(" ", "") + EXIT)
    head = b"VXIM" + struct.pack("<HHHH", 1, threads, 2, 0)
    starts = b"".join(struct.pack("<II", CODE, STACK - PAGE * number) for number in range(threads))
    rows = struct.pack("<IIII", CODE, PAGE, len(code), 0) + struct.pack("<IIII", DATA, STACK - DATA, 0, 1)
    return head + starts + rows + code


def resident(process):
    """Kilobytes that are resident at most until a process ends, as they are told until then."""
    most = 0
    while process.poll() is None:
        try:
            told = pathlib.Path(f"/proc/{process.pid}/status").read_text()
        except OSError:
            break
        most = max([most] + [int(line.split()[1]) for line in told.splitlines() if line.startswith("VmHWM:")])
        time.sleep(PAUSE)
    return most


def run(program, name, *options):
    """Seconds of processors, and kilobytes that were resident at most."""
    before = resource.getrusage(resource.RUSAGE_CHILDREN)
    words = [program, "run", name, "--budget", BUDGET, *options]
    with subprocess.Popen(words, stderr=subprocess.PIPE, text=True) as process:
        memory = resident(process)
        report = process.stderr.read()
    if process.returncode != 0:
        sys.exit(f"{' '.join(options)}: status {process.returncode}: {report}")
    after = resource.getrusage(resource.RUSAGE_CHILDREN)
    return after.ru_utime + after.ru_stime - before.ru_utime - before.ru_stime, memory


def main():
    program, accesses = pathlib.Path(sys.argv[1]).resolve(), int(sys.argv[2]) if len(sys.argv) > 2 else ACCESSES
    missed = 0
    with tempfile.TemporaryDirectory() as room:
        name = pathlib.Path(room, "image")
        print("| Loop | kept | not kept | ratio |\n|---|---|---|---|")
        for loop, code in LOOPS.items():
            name.write_bytes(image(code, TURNS))
            taken = {(): [], ("--unkept",): []}
            for _ in range(ROUNDS):
                for options, seconds in taken.items():
                    seconds.append(run(program, name, *options)[0])
            kept, unkept = (statistics.median(seconds) for seconds in taken.values())
            print(f"| {loop} | {kept:.3f} | {unkept:.3f} | {kept / unkept:.2f} |")
            missed += kept / unkept < RATIO
        memories = []
        for turns in (accesses // 100, accesses):
            name.write_bytes(image(ONE_ACCESS, turns))
            seconds, memory = run(program, name, "--unkept")
            memories.append(memory)
            print(f"{turns} accesses: {seconds:.2f} s of a processor, {memory} KB resident")
        missed += memories[1] > memories[0] + MORE_MEMORY
        name.write_bytes(image(ONE_ACCESS, accesses // 4, threads=4))
        begun = time.perf_counter()
        seconds, memory = run(program, name, "--unkept")
        print(f"4 threads of {accesses // 4} accesses: {time.perf_counter() - begun:.1f} s, {seconds:.1f} of processors, {memory} KB resident")
    sys.exit(1 if missed else 0)


if __name__ == "__main__":
    main()
