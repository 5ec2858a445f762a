#!/usr/bin/env python3
"""Talks with programs that the built program runs with `--live`: through pipes and a terminal, byte by byte, with a closed pipe, with a
long output and a long input, and with lines of progress. Status 1 where one is wrong.

tools/live.py PROGRAM [IMAGE OUTPUT]

IMAGE is run to its end, too, and has to put OUTPUT."""
import os
import pathlib
import pty
import subprocess
import sys
import tempfile
import tty

ROOT = pathlib.Path(__file__).resolve().parent.parent
SECONDS = 300
MOST_STEPS = "1000000000000"
# more than input has without --live
LONG_INPUT = 70_000
# MOVL #10000000,R2; MOVB #58,R0; CHMK #2; SOBGTR R2,back; CLRL R0; CHMK #1
LONG_OUTPUT = 10_000_000
# MOVL #5000000,R2; SOBGTR R2,itself; CLRL R0; CHMK #1: where it is interpreted each instruction is a step
TURNS = "D0 8F 40 4B 4C 00 52  F5 52 FD  D4 50  BC 01"
EVERY = 1_000_000
TOLD = 5
# more steps than a block has
FEW = 64
PUTS = "D0 8F 80 96 98 00 52  90 8F 58 50  BC 02  F5 52 F7  D4 50  BC 01"
HEAD = "56 58 49 4D 01 00 01 00 01 00 00 00  00 02 00 00 00 12 00 00"
ENDED = b"thread 0 exit 00000000\n"


def image_of(text):
    """The bytes of an example, which stand before each #."""
    return bytes.fromhex("".join(line.split("#")[0] for line in text.splitlines()))


def loop_image(text):
    code = bytes.fromhex(text)
    size = len(code).to_bytes(4, "little")
    return bytes.fromhex(HEAD) + bytes.fromhex("00 02 00 00") + size + size + bytes(4) + code


def command(program, image, *options):
    return [program, "run", image, "--live", *options]


def talk(process, write, read):
    """Each byte is answered before the next one is written."""
    for byte in b"a line, and more\n":
        write(bytes([byte]))
        if read() != bytes([byte]).upper():
            return False
    return True


def by_pipe(program, upper):
    with subprocess.Popen(command(program, upper), stdin=subprocess.PIPE, stdout=subprocess.PIPE, stderr=subprocess.PIPE, bufsize=0) as run:
        answered = talk(run, run.stdin.write, lambda: run.stdout.read(1))
        run.stdin.close()
        return answered and run.stdout.read() == b"" and run.stderr.read() == ENDED and run.wait(SECONDS) == 0


def by_terminal(program, upper):
    ours, theirs = pty.openpty()
    tty.setraw(theirs)
    with subprocess.Popen(command(program, upper), stdin=theirs, stdout=theirs, stderr=subprocess.PIPE) as run:
        answered = talk(run, lambda byte: os.write(ours, byte), lambda: os.read(ours, 1))
        run.kill()
    os.close(theirs)
    os.close(ours)
    return answered


def by_closed_pipe(program, loop):
    with subprocess.Popen(command(program, loop, "--budget", MOST_STEPS), stdin=subprocess.DEVNULL, stdout=subprocess.PIPE, stderr=subprocess.PIPE) as run:
        run.stdout.close()
        return run.stderr.read() == b"" and run.wait(SECONDS) == 7


def ended(program, image, given, put):
    run = subprocess.run(command(program, image, "--budget", MOST_STEPS), input=given, capture_output=True, timeout=SECONDS)
    return run.stdout == put and run.returncode == 0


def lines_of(program, image, *options):
    """The lines that tell how far it has come."""
    run = subprocess.run(command(program, image, "--progress", str(EVERY), "--budget", MOST_STEPS, *options), capture_output=True, timeout=SECONDS)
    return run.stderr.removesuffix(ENDED).decode().splitlines() if run.returncode == 0 and run.stderr.endswith(ENDED) else []


def told_at_each_step(program, image):
    """All is interpreted, so each million of steps ends at a boundary."""
    return lines_of(program, image, "--interpret", "0:200-2FF") == [f"thread 0 steps {n * EVERY} retired {n * EVERY} pc 00000207" for n in range(1, TOLD + 1)]


def told_at_boundaries(program, image):
    """In Alpha code a line comes where a block ends, and the next one so many steps behind it."""
    steps = [0] + [int(line.split()[3]) for line in lines_of(program, image)]
    return len(steps) > TOLD and all(EVERY <= after - before < EVERY + FEW for before, after in zip(steps, steps[1:]))


def tries(program, folder, more):
    upper, loop, turns = folder / "upper.img", folder / "loop.img", folder / "turns.img"
    upper.write_bytes(image_of((ROOT / "examples" / "upper.hex").read_text()))
    loop.write_bytes(loop_image(PUTS))
    turns.write_bytes(loop_image(TURNS))
    yield "a pipe, byte by byte", by_pipe(program, upper)
    yield "a terminal, byte by byte", by_terminal(program, upper)
    yield "a closed pipe", by_closed_pipe(program, loop)
    yield f"{LONG_OUTPUT} bytes of output", ended(program, loop, b"", b"X" * LONG_OUTPUT)
    yield f"{LONG_INPUT} bytes of input", ended(program, upper, b"b" * LONG_INPUT, b"B" * LONG_INPUT)
    yield "a line each million of steps", told_at_each_step(program, turns)
    yield "a line at the next boundary", told_at_boundaries(program, turns)
    if more:
        yield more[0], ended(program, more[0], b"", pathlib.Path(more[1]).read_bytes())


def main():
    wrong = 0
    with tempfile.TemporaryDirectory() as folder:
        for name, agrees in tries(sys.argv[1], pathlib.Path(folder), sys.argv[2:]):
            print(f"{name}: {'as it should be' if agrees else 'wrong'}")
            wrong += not agrees
    return 1 if wrong else 0


if __name__ == "__main__":
    sys.exit(main())
