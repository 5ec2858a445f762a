#!/usr/bin/env python3
"""Says of each wrong body of tools/wrong_bodies/CRATE/ whether the prover refuses it, and ends with status 1 where it doesn't.

tools/refuse_bodies.py [CRATE ..]

A wrong body is a file NAME.edit as a must-fail edit is: lines `file: FILE`, and behind each lines `old: TEXT` and `new: TEXT`, where the
old text stands just once. With no names the bodies of all crates are tried.

Bodies of one crate that touch different functions stand in one scratch copy, which is checked once. Each touched function has to be told
in a line of its own what isn't proved of it: that it calls another that isn't proved doesn't count. A body of a constant, and one that isn't told
so, is tried alone: there the check has to fail by a proof, not by a name or a type. All crates share one scratch copy, so that each
library below them is built once; RT_JOBS gives the jobs of a check (1 if it isn't set)."""
import collections
import os
import pathlib
import re
import shutil
import subprocess
import sys
import tempfile
import time

TOP = pathlib.Path(__file__).resolve().parent.parent
BODIES = TOP / "tools/wrong_bodies"
FUNCTION = re.compile(r"\s*(?:pub(?:\(crate\))? )?(?:const )?fn (\w+)")
OUTSIDE_OF_FUNCTIONS = re.compile(r"(?:pub )?(?:const|static|enum|struct|macro_rules)\b(?! fn)")
TOLD = re.compile(r"^fn (\S+): (.*)$", re.M)
PROVED = "proved"
# in the second case the function's own goals were not tried
OF_A_CALLEE = ("no proof: it calls ", "not proved; it calls ")
ACCEPTED, UNPROVED, BROKEN = (re.compile(line, re.M) for line in (r"^logic=proved", r"^logic=not-proved", r"^error"))
WIDTH = 110

Body = collections.namedtuple("Body", "name file function changes")


def changes_of(path):
    """The file, the old and the new text of each change."""
    file = old = ""
    for line in path.read_text().splitlines():
        word, _, text = line.partition(": ")
        if word == "file":
            file = text
        elif word == "old":
            old = text
        elif line.startswith("new:"):
            yield file, old, line[len("new: "):]


def function_at(text, old):
    """The name of the function in which the text stands, or nothing where it stands in none."""
    name = ""
    for line in text[:text.index(old) + len(old)].splitlines():
        found = FUNCTION.match(line)
        if found:
            name = found[1]
        elif OUTSIDE_OF_FUNCTIONS.match(line):
            name = ""
    return name


def body_of(crate, path):
    changes = list(changes_of(path))
    for file, old, _ in changes:
        if (TOP / "crates" / crate / file).read_text().count(old) != 1:
            sys.exit(f"{crate}/{path.stem}: this doesn't stand once in {file}: {old}")
    file, old, _ = changes[-1]
    return Body(path.stem, file, function_at((TOP / "crates" / crate / file).read_text(), old), changes)


def groups_of(bodies):
    """The bodies in as few groups as functions allow, and each of no function alone."""
    alone = [[body] for body in bodies if not body.function]
    groups = []
    for body in bodies:
        if not body.function:
            continue
        touched = (body.file, body.function)
        group = next((it for it in groups if touched not in {(other.file, other.function) for other in it}), None)
        if group is None:
            groups.append([body])
        else:
            group.append(body)
    return groups + alone


def module_of(file):
    return file.removeprefix("src/").removesuffix(".rt").removesuffix("/mod").replace("/", "::")


def said_of(crate, body, text):
    """What the check says of the body's function where that isn't proved by a reason of its own, else nothing."""
    module = module_of(body.file)
    for path, said in TOLD.findall(text):
        parts = path.split("::")
        is_its = parts[0] == crate and parts[-1] == body.function and (module in ("lib", "main") or module in path)
        if is_its and said != PROVED and not said.startswith(OF_A_CALLEE):
            return said
    return ""


def check(room, crate, bodies):
    """What a check of the crate prints with these bodies in it."""
    folder = room / "crates" / crate
    was = {file: (folder / file).read_text() for body in bodies for file, _, _ in body.changes}
    for body in bodies:
        for file, old, new in body.changes:
            text = (folder / file).read_text()
            (folder / file).write_text(text.replace(old, new))
    run = subprocess.run(["rt", "check", "--jobs", os.environ.get("RT_JOBS", "1")], cwd=folder, capture_output=True, text=True, check=False)
    for file, text in was.items():
        (folder / file).write_text(text)
    return run.stdout + run.stderr


def tried_alone(room, crate, body):
    """Whether the prover refuses a body, and what is said of it: that it is refused or let through, or that there was no verdict."""
    text = check(room, crate, [body])
    if said_of(crate, body, text) or UNPROVED.search(text) and not BROKEN.search(text):
        return True, "refused: alone"
    return False, "LET THROUGH" if ACCEPTED.search(text) else "NO VERDICT"


def not_refused(room, crate):
    """Tries the crate's wrong bodies and gives the names of those that the prover doesn't refuse."""
    begun, wrong = time.time(), []
    bodies = [body_of(crate, path) for path in sorted((BODIES / crate).glob("*.edit"))]
    for group in groups_of(bodies):
        text = check(room, crate, group) if group[0].function else ""
        for body in group:
            said = said_of(crate, body, text)
            is_refused, verdict = (True, f"refused: {said[:WIDTH]}") if said else tried_alone(room, crate, body)
            if not is_refused:
                wrong.append(f"{crate}/{body.name}")
            print(f"{crate}/{body.name} in {module_of(body.file)}::{body.function}: {verdict}", flush=True)
    print(f"{crate}: {len(bodies)} bodies in {time.time() - begun:.0f} s", flush=True)
    return wrong


def main():
    crates = sys.argv[1:] or sorted(folder.name for folder in BODIES.iterdir() if folder.is_dir())
    with tempfile.TemporaryDirectory() as name:
        room = pathlib.Path(name)
        for part in ("crates.txt", "HANDLES"):
            shutil.copy(TOP / part, room)
        shutil.copytree(TOP / "crates", room / "crates", ignore=shutil.ignore_patterns("out", "must-fail"))
        wrong = [body for crate in crates for body in not_refused(room, crate)]
    for body in wrong:
        print(f"not refused: {body}")
    return 1 if wrong else 0


if __name__ == "__main__":
    sys.exit(main())
