#!/usr/bin/env python3
"""Says which rows of data refuse each wrong body of tools/wrong_bodies/, and ends with status 1 where none refuses one.

tools/wrong_bodies.py [NAME ..]

A wrong body is a file NAME.edit: a line `crate: CRATE`, a line `rows: PROGRAM`, the program of rows that has to refuse it, and then
what a must-fail edit has. It refuses it where it doesn't end with status 0. With names only these are tried.

Nothing is proved: `rt try` compiles the program once for a batch of wrong bodies, in a scratch copy, where each has copies of its own
of its crate and of all that stand on it. The program as it stands is tried too, and has to agree with each row. Rows that run for
minutes under the checks of `rt try` are left out."""
import collections
import pathlib
import re
import shutil
import subprocess
import sys
import tempfile

TOP = pathlib.Path(__file__).resolve().parent.parent
BODIES = TOP / "tools/wrong_bodies"
RIGHT = "as_it_stands"
AGREED = "run=ended status=0"
UNTOLD = {"", AGREED, "run=no-answer"}
DIFFERS, NOT = "not so: ", ", not "
WIDTH = 120
SECONDS = "300"
BATCH = 13
MAIN = re.compile(r"\bfn main\(rt: HostRuntime\)")
OF_THE_HOST = re.compile(r"^.*\bstandard_streams\(&rt\b.*\n", re.M)
CASE = re.compile(r"^case=(\S+) (run=\S+(?: status=\d+)?)", re.M)
BOUNDS = "std::thread::Threads + std::sync::Wait + Sync + AllocGlobal + Print + std::rt::Files + Drop"
LEFT_OUT = {
    "vest_rows": ["generate 32000", "generate 1000:", "nops", "refused flow", "07*10000", "call run x: 0 * thread 0 exit FFFFFFFF",
                  "left counted 0: 20001", "holds 1.0 0.8", "again 64 ", "prefixes ", "changes ", "turns "],
}

Body = collections.namedtuple("Body", "name crate rows changes")


def body_of(path):
    """A wrong body, whose changes are the file, the old and the new text of each."""
    crate, rows, file, old, changes = "", "", "", "", []
    for line in path.read_text().splitlines():
        word, _, text = line.partition(": ")
        if word == "crate":
            crate = text
        elif word == "rows":
            rows = text
        elif word == "file":
            file = text
        elif word == "old":
            old = text
        elif word == "new":
            changes.append((file, old, text))
    return Body(path.stem, crate, rows, changes)


def lines_of_crates():
    """The libraries that each crate stands on, by its name."""
    lines = [line.split(":") for line in (TOP / "crates.txt").read_text().splitlines() if ":" in line and not line.startswith("#")]
    return {head.split()[0]: libraries.split() for head, libraries in lines}


CRATES = lines_of_crates()


def below(crate):
    """The repository's crates that a crate stands on, and itself."""
    return {crate}.union(*(below(name) for name in CRATES[crate] if name in CRATES))


class Scratch:
    """A copy of the repository's code, to which copies of crates are added."""

    def __init__(self, room):
        self.room, self.count, self.calls, self.roots = pathlib.Path(room), 0, [], []
        for crate in CRATES:
            shutil.copytree(TOP / "crates" / crate / "src", self.crate(crate) / "src")
        self.lines = [f"{crate}: {' '.join(libraries)}" for crate, libraries in CRATES.items()]
        shutil.copy(TOP / "HANDLES", self.room)
        subprocess.run(["git", "init", "-q"], cwd=self.room, check=True)

    def crate(self, name):
        return self.room / "crates" / name

    def add(self, body):
        """Adds the program with a wrong body: copies of its crate and of those above it, whose names have a number behind them."""
        copied = {crate for crate in below(body.rows) if body.crate in below(crate)}
        names = {crate: f"{crate}_{self.count}" for crate in copied}
        self.count += 1
        cited = re.compile(r"(?<![\w:.])(" + "|".join(copied) + r")(?=::)|(?<=Rattle\.)(" + "|".join(copied) + r")(?=\.)")
        for crate, name in names.items():
            shutil.copytree(self.crate(crate) / "src", self.crate(name) / "src")
            if crate == body.crate:
                self.change(body, self.crate(name))
            for file in (self.crate(name) / "src").rglob("*.rt"):
                file.write_text(cited.sub(lambda found: names[found[0]], file.read_text()))
            self.lines.append(f"{name}: {' '.join(names.get(library, library) for library in CRATES[crate])}")
        self.make_library(names[body.rows])
        self.calls.append(f'"{body.name}" => {names[body.rows]}::go_through(rt),')
        self.roots.append(names[body.rows])

    def change(self, body, crate):
        for file, old, new in body.changes:
            text = (crate / file).read_text()
            if text.count(old) != 1:
                sys.exit(f"{body.name}: this doesn't stand once in {file}: {old}")
            (crate / file).write_text(text.replace(old, new))

    def make_library(self, name):
        """Makes a library of a program, without the calls that only the host's own handle allows."""
        main = self.crate(name) / "src/main.rt"
        text = MAIN.sub(f"pub fn go_through<R: {BOUNDS}>(rt: R)", OF_THE_HOST.sub("", main.read_text()))
        main.unlink()
        (main.parent / "lib.rt").write_text(text)

    def make_program(self):
        """The program that goes through the rows with the wrong body whose name is its first word. Returns its folder."""
        folder = self.crate("wrong_bodies")
        (folder / "src").mkdir(parents=True)
        (folder / "src/main.rt").write_text("\n".join([
            "#![tactic(auto)]", "use anyhow::{Result, bail};", "use std::env;", "fn main(rt: HostRuntime) -> Result<()> {",
            "let words: Vec<String> = env::args(&rt)?.skip(1).collect(rt.alloc())?;", "match words[0].as_str() {", *self.calls,
            '_ => bail!("no such body"),', "}", "}", ""]))
        self.lines.append(f"wrong_bodies: {' '.join(self.roots)} anyhow")
        (self.room / "crates.txt").write_text("\n".join(self.lines) + "\n")
        return folder


def tables(rows, room, left_out):
    """The program's files of data, without the rows that are left out, as words for `rt try`."""
    for file in (TOP / "crates" / rows / "data").iterdir():
        lines = file.read_text().splitlines(keepends=True)
        kept = [line for line in lines if not any(text in line for text in left_out)]
        (room / file.name).write_text("".join(kept))
        yield from ["--data", f"{file.name}={room / file.name}"]


def outputs(text):
    """What each case printed, by its name."""
    found = collections.defaultdict(list)
    name = ""
    for line in text.splitlines():
        if line.startswith("== "):
            name = line[3:]
        else:
            found[name].append(line)
    return found


def is_difference(line):
    """Whether a printed line names a row that differs."""
    return line.startswith(DIFFERS) or NOT in line


def tell(body, printed, ended):
    """Prints which rows refuse a wrong body. Returns whether one does, or, of the program as it stands, whether none does."""
    rows = [line for line in printed if is_difference(line)]
    print(f"{body.crate}/{body.name}: {len(rows)} rows of {body.rows} differ; {ended}", flush=True)
    for row in rows:
        print(f"    {row.removeprefix(DIFFERS)[:WIDTH]}")
    return ended == AGREED if body.name == RIGHT else ended not in UNTOLD


def cases_of(bodies, folder):
    """A folder with a case for each body, whose word is the body's name."""
    folder.mkdir()
    for body in bodies:
        (folder / body.name).write_text("")
        (folder / f"{body.name}.args").write_text(f"{body.name}\n")
    return folder


def run_all(rows, bodies, left_out, seconds):
    """How each body ended, and the lines that it printed, by its name."""
    with tempfile.TemporaryDirectory() as room:
        scratch = Scratch(room)
        for body in bodies:
            scratch.add(body)
        folder = scratch.make_program()
        cases = cases_of(bodies, folder / "cases")
        data = folder / "data"
        data.mkdir()
        words = ["rt", "try", "--seconds", seconds, "--steps", "1", "--cases", cases.name, *tables(rows, data, left_out)]
        run = subprocess.run(words, cwd=folder, capture_output=True, text=True, check=False)
    ended = dict(CASE.findall(run.stderr))
    if not ended:
        sys.exit(run.stderr)
    return ended, outputs(run.stdout)


def try_all(rows, bodies):
    """The names of those bodies that the program of rows doesn't refuse, and of the program as it stands if a row differs."""
    bodies = [Body(RIGHT, rows, rows, []), *bodies]
    ended, printed = run_all(rows, bodies, LEFT_OUT.get(rows, []), SECONDS)
    return [body.name for body in bodies if not tell(body, printed[body.name], ended.get(body.name, ""))]


def main():
    bodies = [body_of(path) for path in sorted(BODIES.glob("*.edit")) if not sys.argv[1:] or path.stem in sys.argv[1:]]
    wrong = []
    for rows in sorted({body.rows for body in bodies}):
        those = [body for body in bodies if body.rows == rows]
        for first in range(0, len(those), BATCH):
            wrong += try_all(rows, those[first:first + BATCH])
    for name in wrong:
        print(f"not as it has to be: {name}")
    return 1 if wrong else 0


if __name__ == "__main__":
    sys.exit(main())
