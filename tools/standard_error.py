#!/usr/bin/env python3
"""Runs the built program of crates/vest as its stored run does, and with its sample image, and looks at standard error too, at which the
gate doesn't look. Each run has to end with its status and to write just these bytes and these lines. Then the same with a word that is no
text, with no words, without the file, and with more input than a run may read. The program stands in crates/vest/out/vest behind `rt run` there.

tools/standard_error.py [PROGRAM]"""
import pathlib
import subprocess
import sys

CRATE = pathlib.Path(__file__).resolve().parent.parent / "crates/vest"
SECONDS = 60
ZEROS = " ".join(["00000000"] * 13)
USAGE = b"usage: vest COMMAND WORDS\n"
RUNS = [
    (["run", "echo.img"], b"ab", 4, b"ab",
     f"thread 0 exception 10 pc 0000020A psl 03C00008\nregisters FFFFFFFF {ZEROS} 00001200\n".encode()),
    (["run", "first.img"], b"", 0, b"\x05", b"thread 0 exit 00000005\n"),
    (["run", "none.img"], b"", 2, b"", b"absent\n"),
    (["run", "echo.img"], b"a" * 65537, 8, b"", b"too long\n"),
    ([], b"", 1, b"", USAGE),
    ([b"\xff"], b"", 1, b"", USAGE),
]


def main():
    program = pathlib.Path(sys.argv[1]).resolve() if sys.argv[1:] else CRATE / "out/vest"
    wrong = 0
    for words, given, *wanted in RUNS:
        run = subprocess.run([program, *words], input=given, capture_output=True, cwd=CRATE / "data", timeout=SECONDS)
        left = [run.returncode, run.stdout, run.stderr]
        if left != wanted:
            wrong += 1
            print(f"{words}: {left}, not {wanted}")
    print(f"{wrong} runs differ")
    return 1 if wrong else 0


sys.exit(main())
