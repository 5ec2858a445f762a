#!/usr/bin/env python3
"""Measures `vximage` in the built program: `make` of an image of 4 MiB, of parts and of an executable, and `show` and `dis` of an image
of 32,768 instructions beside `vest translate` of it, and of `dis` what a line takes, which has the text of an instruction. Prints of ten
runs of each the least time of a processor.

tools/measure/images.py VXIMAGE VEST

Another status where a call doesn't end with status 0, where `make` takes more than 50 ms, or `show` more than 30 ms more than
`translate`, `dis` more than 200 ms more, or with `--alpha` more than 500 ms more, or a line more than 300 ns."""
import pathlib
import resource
import struct
import subprocess
import sys
import tempfile

ROUNDS = 10
PAGES_BYTES = 4_194_304
PAGE = 512
INSTRUCTIONS = 32_768
ADD = bytes([0xC1, 0x51, 0x52, 0x53])  # ADDL3 R1,R2,R3
MOST_MAKE = 0.050
MOST_BESIDE = {"show": 0.030, "dis": 0.200, "dis --alpha": 0.500}
MOST_LINE = 300e-9
ONE_LINE = "dis --from 200 --to 200"
LOAD, EXECUTABLE, VAX, READ_AND_RUN = 1, 2, 75, 5
HEADER, PROGRAM_HEADER = 52, 32
STACK = 0x200


def used():
    """The seconds of a processor that the programs run so far took."""
    usage = resource.getrusage(resource.RUSAGE_CHILDREN)
    return usage.ru_utime + usage.ru_stime


def least(words, room):
    """The least time of some runs."""
    times = []
    for _ in range(ROUNDS):
        begin = used()
        result = subprocess.run(words, cwd=room, stdout=subprocess.DEVNULL, stderr=subprocess.PIPE, check=False)
        times.append(used() - begin)
        if result.returncode != 0:
            sys.exit(f"{' '.join(map(str, words))}: status {result.returncode}: {result.stderr.decode()}")
    return min(times)


def executable(code):
    """A static ELF file for the VAX with one segment, which begins at the file's begin."""
    size = HEADER + PROGRAM_HEADER + len(code)
    start = 0x10000 + HEADER + PROGRAM_HEADER
    ident = b"\x7fELF" + bytes([1, 1, 1]) + bytes(9)
    header = struct.pack("<HHIIIIIHHHHHH", EXECUTABLE, VAX, 1, start, HEADER, 0, 0, HEADER, PROGRAM_HEADER, 1, 0, 0, 0)
    segment = struct.pack("<8I", LOAD, 0, 0x10000, 0x10000, size, size, READ_AND_RUN, 0x1000)
    return ident + header + segment + code


def main():
    if len(sys.argv) != 3:
        sys.exit(__doc__)
    vximage, vest = (pathlib.Path(word).resolve() for word in sys.argv[1:])
    with tempfile.TemporaryDirectory() as name:
        room = pathlib.Path(name)
        (room / "data").write_bytes(bytes([1]) * (PAGES_BYTES - PAGE))
        (room / "code").write_bytes(ADD * INSTRUCTIONS)
        (room / "elf").write_bytes(executable(bytes([1]) * (PAGES_BYTES - STACK - PAGE - HEADER - PROGRAM_HEADER)))
        parts = least([vximage, "make", "x", "--section", "200:r:1", "--section", "1000:w:0:data", "--thread", "200:0"], room)
        elf = least([vximage, "make", "x", "--elf", "elf", "--stack", f"{STACK:X}"], room)
        least([vximage, "make", "y", "--section", "200:r:0:code", "--thread", "200:0"], room)
        translate = least([vest, "translate", "y", "z"], room)
        beside = {words: least([vximage, *words.split(), "y"], room) - translate for words in MOST_BESIDE}
        line = (beside["dis"] + translate - least([vximage, *ONE_LINE.split(), "y"], room)) / INSTRUCTIONS
    print(f"make of parts, 4 MiB: {1000 * parts:.1f} ms")
    print(f"make of an executable, 4 MiB: {1000 * elf:.1f} ms")
    print(f"translate of {INSTRUCTIONS} instructions: {1000 * translate:.1f} ms")
    for words, more in beside.items():
        print(f"{words} of them: {1000 * more:.1f} ms more")
    print(f"a line of dis: {1e9 * line:.0f} ns")
    if max(parts, elf) > MOST_MAKE or line > MOST_LINE or any(more > MOST_BESIDE[words] for words, more in beside.items()):
        sys.exit("more than it may take")


if __name__ == "__main__":
    main()
