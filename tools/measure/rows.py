#!/usr/bin/env python3
"""Times each worked row of vest_rows in the built program: the calls of crates/vest_rows/data/calls.txt, over real files and the
standard streams, each as often as is asked for (default 20). Prints for each the fastest from start to exit, the slowest first,
and for each family their number and sum. Status, output and report have to be those of the row.

tools/measure/rows.py PROGRAM [TIMES]

Calls for which something of the outside fails are left out, and so is what rows say of what a call keeps. A gate holds no access
here, which changes nothing that a row says."""
import os
import pathlib
import subprocess
import sys
import tempfile
import time

TABLE = pathlib.Path(__file__).resolve().parents[2] / "crates/vest_rows/data/calls.txt"
TIMES = 20
ANY = "*"


def piece(files, text):
    """The bytes of a piece of a file."""
    if text.startswith("@"):
        name, _, part = text[1:].partition(":")
        first, _, end = part.partition("-")
        whole = files[name]
        return whole[int(first or "0", 16):int(end, 16) if end else len(whole)]
    digits, _, count = text.partition("*")
    return bytes.fromhex(digits) * (int(count, 16) if count else 1)


def pieces(files, text):
    return b"".join(piece(files, each) for each in text.split())


class Bench:
    """The files and the input of the rows so far, and the folder that the program is run in."""

    def __init__(self, program, room, times):
        self.program, self.room, self.times = os.path.abspath(program), pathlib.Path(room), times
        self.files, self.input, self.is_sound = {}, b"", True
        self.family, self.said, self.rows, self.wrong = "", "", [], 0

    def call(self, words):
        """Status, output, report and time of one run over the files."""
        for path in self.room.iterdir():
            path.unlink()
        for name, data in self.files.items():
            (self.room / name).write_bytes(data)
        begun = time.perf_counter()
        run = subprocess.run([self.program, *words], cwd=self.room, input=self.input, capture_output=True, check=False)
        return run.returncode, run.stdout, run.stderr, time.perf_counter() - begun

    def obey_call(self, row):
        """A row that is a call, with what it leaves; what it leaves of the files stays."""
        line, _, wanted = row.partition(": ")
        status, out, *report = wanted.split(" ", 2)
        texts = [text.replace("|", "\n").encode() for text in (report or [""])[0].split(" or ")]
        words = line.split()
        if self.is_sound:
            calls = [self.call(words) for _ in range(self.times)]
            for found in calls:
                agrees = found[0] == int(status, 16) and (out == ANY or found[1].hex().upper() == out.strip("-"))
                if not agrees or not (texts == [ANY.encode()] or found[2] in texts):
                    self.wrong += 1
                    print(f"not so: {row}: {found[:3]}")
            self.rows.append((min(found[3] for found in calls), self.family, line, self.said))
            self.files = {path.name: path.read_bytes() for path in self.room.iterdir()}
        self.input, self.is_sound = b"", True

    def obey(self, row):
        verb, _, rest = row.partition(" ")
        if verb == "family":
            self.family, self.said = rest, ""
        elif verb == "empty":
            self.files = {}
        elif verb == "file":
            name, _, text = rest.partition(" ")
            self.files[name] = pieces(self.files, text)
        elif verb == "input":
            self.input = pieces(self.files, rest)
        elif verb in ("fails", "turns"):
            self.is_sound = verb == "turns"
        elif verb == "call":
            self.obey_call(rest)
        elif verb == "again":
            self.obey_call(rest.partition(" ")[2])


def main():
    with tempfile.TemporaryDirectory(dir="/dev/shm") as room:
        bench = Bench(sys.argv[1], room, int(sys.argv[2]) if len(sys.argv) > 2 else TIMES)
        before = ""
        for line in TABLE.read_text().splitlines():
            if line.startswith("# "):
                bench.said = f"{bench.said} {line[2:]}" if before.startswith("# ") else line[2:]
            elif line:
                bench.obey(line)
            before = line
    for seconds, family, line, said in sorted(bench.rows, reverse=True):
        print(f"{seconds * 1e3:8.1f} ms  {family}: {line or 'no words'}" + (f"  ({said})" if said else ""))
    for family in dict.fromkeys(row[1] for row in bench.rows):
        times = [row[0] for row in bench.rows if row[1] == family]
        print(f"{family}: {len(times)} calls, {sum(times) * 1e3:.1f} ms")
    return 1 if bench.wrong else 0


if __name__ == "__main__":
    sys.exit(main())
