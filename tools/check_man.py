#!/usr/bin/env python3
"""Asks that docs/man/vest.1 and docs/man/vximage.1 name the same commands, options, statuses and refusals as the tables of README.md and
docs/USING.md, and every word that the code reads, that groff has no warning, and, with the programs, that the examples of a page write what
the page says. Status 1 where anything differs.

tools/check_man.py [VEST [VXIMAGE]]"""
import os
import pathlib
import re
import subprocess
import sys
import tempfile

TOP = pathlib.Path(__file__).resolve().parent.parent
MADE = "\n## Images made and shown\n"


def section(text, title):
    """The lines of a section of a page."""
    return re.search(rf"^\.SH {title}\n(.*?)(?=^\.SH |\Z)", text, re.M | re.S)[1].replace("\\-", "-")


def rows(name, title, behind=""):
    """The rows of the first table behind a header's first cell, and behind a text, without the line below the header."""
    text = (TOP / name).read_text().partition(behind or "#")[2]
    return re.search(rf"^\| {title} .*\n\|[-|]+\n((?:\|.*\n)+)", text, re.M)[1].splitlines()


def refusals_of(found, numbers):
    """The names of refusals, and each with its numbers."""
    return {(name, number) for name, body in found for number in ["", *re.findall(numbers, body)]}


def of_page(program, options):
    """What a page names: commands, options, statuses, and the numbers of each refusal."""
    text = page_of(program).read_text()
    heads = [re.findall(r"^\.TP\n(.*)", section(text, title), re.M) for title in options]
    refusals = re.findall(r'^\.BI "(refused \w+)(?: 1)? " N\n(.*?)(?=^\.TP|\Z)', section(text, "REFUSALS"), re.M | re.S)
    return {
        "commands": set(re.findall(r'^\.BI (\w+) "', section(text, "COMMANDS"), re.M)),
        "options": {option for lines in heads for line in lines for option in re.findall(r"--\w+", line)},
        "statuses": set(re.findall(r"^\.BR? (\d)\b", section(text, "EXIT STATUS"), re.M)),
        "refusals": refusals_of(refusals, r"(?:^|, |,\n|\n)(\d+) [a-z]"),
    }


def of_tables(options, status, refusals, behind=""):
    """The same of the tables: in which file and behind which text they stand, and the options of the rows of theirs."""
    lines = [row.split("|") for row in rows("docs/USING.md", "Line", refusals)]
    names = [(re.search(r"refused \w+", cells[1])[0], cells[2]) for cells in lines]
    return {
        "commands": {re.match(r"\| `(\w+)", row)[1] for row in rows(status, "Command", behind)},
        "options": {option for row in options for option in row},
        "statuses": {re.match(r"\| (\d) ", row)[1] for row in rows(status, "Status", behind)},
        "refusals": refusals_of(names, r"(?:^ |, )(\d+) [a-z]"),
    }


def of_vest():
    options = [re.findall(r"^\| `(--\w+)", row) for row in rows("README.md", "Option of `run`, `translate` or `replay`")]
    return of_tables(options, "README.md", "\n## Refusals\n")


def of_vximage():
    options = [re.findall(r"`(--\w+)", row.split("|")[2]) + re.findall(r"(--elf)", row) for row in rows("docs/USING.md", "Command", MADE)]
    return of_tables(options, "docs/USING.md", MADE, MADE)


# Of each program the sections of its page that have options, its tables, and the words that its code reads.
PROGRAMS = {
    "vest": (["OPTIONS OF RUN"], of_vest, "crates/command_words/specs/Commands.antt", r'codes "([a-z]+)"'),
    "vximage": (["OPTIONS OF MAKE", "OPTIONS OF DIS"], of_vximage, "crates/vximage_words/src/app.rt", r'(?:label: |alloc, |ELF: &str = )"([a-z]+)"'),
}


def page_of(program):
    return TOP / "docs/man" / f"{program}.1"


def blocks_of(program):
    """The examples of a page, and what they write together."""
    blocks = re.findall(r"\.nf\n(.*?)\.fi\n", section(page_of(program).read_text(), "EXAMPLES"), re.S)
    return [block.replace("\\(rs", "\\") for block in blocks]


def examples(program, paths):
    """How what the page's examples write together differs from what it says, or which of them ends with another status than 0."""
    lines, wanted = blocks_of(program)
    written = ""
    with tempfile.TemporaryDirectory() as room:
        os.symlink(TOP / "examples", pathlib.Path(room, "examples"))
        for name, path in paths.items():
            os.symlink(path, pathlib.Path(room, name))
        for line in lines.splitlines():
            run = subprocess.run(line, shell=True, cwd=room, capture_output=True, check=False, stdin=subprocess.DEVNULL, text=True,
                                 env={**os.environ, "PATH": f"{room}:{os.environ['PATH']}"})
            written += run.stdout
            if run.returncode != 0:
                yield f"{line}: status {run.returncode}"
    if written != wanted:
        yield f"{program}: the examples write\n{written}"


def differences(program):
    """How a page, the tables and the code differ, and how many names the page has."""
    options, tables_of, code, word = PROGRAMS[program]
    page, tables, text = of_page(program, options), tables_of(), page_of(program).read_text()
    found = [f"{program}: {kind}: the page alone has {sorted(page[kind] - tables[kind])}, the tables alone {sorted(tables[kind] - page[kind])}"
             for kind in page if page[kind] != tables[kind] or not page[kind]]
    words = set(re.findall(word, (TOP / code).read_text()))
    found += [f"{program}: no {word}" for word in sorted(words) if not re.search(rf"\b{word}\b", text)]
    found += [] if words else [f"{code}: no word"]
    warned = subprocess.run(["man", "--warnings", "-l", "-Tutf8", page_of(program)], capture_output=True, text=True, check=False).stderr
    return found + warned.splitlines(), sum(map(len, page.values())) + len(words)


def main():
    if len(sys.argv) > 1 + len(PROGRAMS):
        sys.exit(__doc__)
    paths = {name: pathlib.Path(path).resolve() for name, path in zip(PROGRAMS, sys.argv[1:])}
    found, names = [], 0
    for program in PROGRAMS:
        more, count = differences(program)
        found, names = found + more, names + count
    for program in paths:
        found += examples(program, paths)
    print("\n".join([*found, f"{names} names, {len(found)} differences"]))
    sys.exit(1 if found else 0)


if __name__ == "__main__":
    main()
