#!/usr/bin/env python3
"""Refuses each growth of the built program's memory in turn: for a run of the sample image, a run of an image with 32 threads, both
with `--order` too, `translate`, `list` and `replay`, with hints and without. Each such call has to end with status 9, `no memory` on standard error and nothing on standard
output or under the second name; a thread that can't be made for want of memory is no exception. Then, that a run takes no memory once its
processors step: it takes as many growths as one whose budget is one step, and succeeds where every growth behind those would be
refused. The status is 1 where a growth isn't answered so, and where none is counted.

tools/refused_growth.py PROGRAM

The program's calls of malloc and realloc are counted by a library that gcc makes and that is loaded before the C library."""
import os
import pathlib
import struct
import subprocess
import sys
import tempfile

PAGE = 512
THREADS = 32
WANT_OF_MEMORY = 9
LINE = "no memory\n"
SAMPLE = bytes.fromhex("D00550BC02BC01")
# MOVAB @#220,R1; JMP (R1); and at 220 CHMK #1
JUMP = bytes.fromhex("9E9F20020000511761") + bytes(23) + bytes.fromhex("BC01")

SHIM = r"""
#define _GNU_SOURCE
#include <dlfcn.h>
#include <fcntl.h>
#include <stdint.h>
#include <stdio.h>
#include <stdlib.h>
#include <string.h>
#include <unistd.h>

static uintptr_t low, high;
static long count, first = -1, last = -1;
static int counted = -1;

/* Where the program's own code stands: what the C library takes for itself isn't counted. */
__attribute__((constructor)) static void begin(void) {
    char line[512], name[256];
    ssize_t length = readlink("/proc/self/exe", name, sizeof name - 1);
    name[length < 0 ? 0 : length] = 0;
    FILE *maps = fopen("/proc/self/maps", "r");
    while (maps && fgets(line, sizeof line, maps)) {
        uintptr_t from, to;
        if (strstr(line, name) && sscanf(line, "%lx-%lx", &from, &to) == 2) {
            if (!low) low = from;
            high = to;
        }
    }
    if (maps) fclose(maps);
    if (getenv("GROWTHS")) counted = open(getenv("GROWTHS"), O_WRONLY | O_CREAT | O_TRUNC, 0600);
    if (getenv("REFUSE_FIRST")) first = atol(getenv("REFUSE_FIRST"));
    if (getenv("REFUSE_LAST")) last = atol(getenv("REFUSE_LAST"));
}

static int refused(void *caller) {
    uintptr_t at = (uintptr_t)caller;
    if (at < low || at >= high) return 0;
    long number = __atomic_fetch_add(&count, 1, __ATOMIC_SEQ_CST);
    long sum = number + 1;
    if (counted >= 0 && pwrite(counted, &sum, sizeof sum, 0) < 0) counted = -1;
    return first >= 0 && number >= first && number <= last;
}

void *malloc(size_t size) {
    static void *(*next)(size_t);
    if (!next) next = (void *(*)(size_t))dlsym(RTLD_NEXT, "malloc");
    return refused(__builtin_return_address(0)) ? 0 : next(size);
}

void *realloc(void *old, size_t size) {
    static void *(*next)(void *, size_t);
    if (!next) next = (void *(*)(void *, size_t))dlsym(RTLD_NEXT, "realloc");
    return refused(__builtin_return_address(0)) ? 0 : next(old, size);
}
"""


def image(version, threads, code):
    """An image of that version whose threads all start at its code, and a writable section."""
    head = b"VXIM" + struct.pack("<HHHH", version, threads, 2, 0)
    registers = b"" if version == 1 else bytes(56)
    starts = (struct.pack("<II", 0x200, 0x1200) + registers) * threads
    rows = struct.pack("<IIII", 0x200, PAGE, len(code), 0) + struct.pack("<IIII", 0x1000, PAGE, 0, 1)
    return head + starts + rows + code


class Bench:
    """The built program, and a folder in which it runs."""

    def __init__(self, program, room):
        self.program = os.path.abspath(program)
        self.room = pathlib.Path(room)
        source, self.library = self.room / "shim.c", self.room / "shim.so"
        source.write_text(SHIM)
        subprocess.run(["gcc", "-shared", "-fPIC", "-O1", "-w", "-o", self.library, source, "-ldl"], check=True)
        (self.room / "sample").write_bytes(image(1, 1, SAMPLE))
        (self.room / "threads").write_bytes(image(2, THREADS, SAMPLE))
        (self.room / "jump").write_bytes(image(2, THREADS, JUMP))
        self.call(["run", "jump", "--order", "order"])
        self.call(["replay", "jump", "order", "--hints", "hints"])

    def call(self, words, first=None, last=None):
        """Status, output, report and growths of a call in which the growths from the first to the last are refused."""
        counted = self.room / "growths"
        counted.unlink(missing_ok=True)
        (self.room / "out").unlink(missing_ok=True)
        env = {"LD_PRELOAD": str(self.library), "GROWTHS": str(counted)}
        if first is not None:
            env.update(REFUSE_FIRST=str(first), REFUSE_LAST=str(first if last is None else last))
        run = subprocess.run([self.program, *words], cwd=self.room, env=env, capture_output=True, stdin=subprocess.DEVNULL,
                             check=False)
        growths = int.from_bytes(counted.read_bytes(), "little")
        return run.returncode, run.stdout, run.stderr.decode(), growths


def is_refused(bench, call):
    """Whether a call ended for want of memory and left nothing."""
    return call[:3] == (WANT_OF_MEMORY, b"", LINE) and not (bench.room / "out").exists()


def refuse_each(bench, name, words):
    """How many answers differ where each growth that a call takes is refused in turn."""
    status, _, report, growths = bench.call(words)
    if status != 0:
        sys.exit(f"{name}: status {status}: {report}")
    refused, wrong = 0, 0
    for number in range(growths):
        found = bench.call(words, number)
        if is_refused(bench, found):
            refused += 1
        else:
            print(f"{name}: growth {number} refused: {found[:3]}")
            wrong += 1
    print(f"{name}: {growths} growths: {refused} calls in which one is refused end with status 9 and leave nothing")
    return wrong + (refused == 0)


def takes_none_later(bench, name, words):
    """Whether a run takes no growth behind those of one that is spent at once, and succeeds where later ones are refused."""
    whole = [*words, "--budget", "9" * 9]
    growths = bench.call(whole)[3]
    at_once = bench.call([*words, "--budget", "1"])[3]
    status = bench.call(whole, at_once, 1 << 40)[0]
    print(f"{name}: {growths} growths, {at_once} where it is spent at once; status {status} where each later one is refused")
    return 0 if 0 < growths == at_once and status == 0 else 1


def main():
    with tempfile.TemporaryDirectory() as room:
        bench = Bench(sys.argv[1], room)
        wrong = 0
        for name, words in [("run", ["run", "sample"]), ("run of 32 threads", ["run", "threads"]),
                            ("run --order", ["run", "sample", "--order", "out"]),
                            ("run --order of 32 threads", ["run", "threads", "--order", "out"]),
                            ("translate", ["translate", "sample", "out"]), ("list", ["list", "sample"]),
                            ("translate --hints", ["translate", "jump", "out", "--hints", "hints"]),
                            ("replay", ["replay", "jump", "order"]), ("replay --hints", ["replay", "jump", "order", "--hints", "out"])]:
            wrong += refuse_each(bench, name, words)
        wrong += takes_none_later(bench, "run", ["run", "sample"])
        wrong += takes_none_later(bench, "run of 32 threads", ["run", "threads"])
        wrong += takes_none_later(bench, "run --order", ["run", "sample", "--order", "out"])
        wrong += takes_none_later(bench, "run --order of 32 threads", ["run", "threads", "--order", "out"])
    return 1 if wrong else 0


if __name__ == "__main__":
    sys.exit(main())
