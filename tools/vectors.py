#!/usr/bin/env python3
"""Makes of each table of data/ of the crates of answers from outside the lemmas of proofs/ that say that the definitions answer
as it does.

tools/vectors.py [--check]

What the lemmas of a table are says tools/vector_tables/. A row that has no place for a definition is an error. With --check
nothing is written, and the status is 1 where a file of lemmas is not the one that its table makes."""
import re
import sys

sys.dont_write_bytecode = True

from vector_tables import blocks, machine, micro, opcodes, reading, simulator, texts
from vector_tables.common import CRATES, lines_of

TABLES = {**blocks.TABLES, **machine.TABLES, **opcodes.TABLES, **micro.TABLES, **reading.TABLES, **simulator.TABLES, **texts.TABLES}


def occurs(name, text):
    """Whether a text has a name; of an operator its signs, in their order."""
    signs = [sign for sign in name.split("◌") if sign]
    if "◌" in name:
        return all(sign in text for sign in signs)
    return re.search(rf"(?<![\w'-]){re.escape(name)}(?![\w'-])", text) is not None


def with_used_names(text):
    """The text, whose lines `use` bring only names that it has."""
    lines = text.split("\n")
    rest = "\n".join(line for line in lines if not line.startswith("use "))
    kept = []
    for line in lines:
        found = re.fullmatch(r"(use \S+\.)\{(.*)\}", line)
        names = [name for name in found[2].split(", ") if occurs(name.split(" as ")[-1], rest)] if found else []
        if not found or names:
            kept.append(f"{found[1]}{{{', '.join(names)}}}" if found else line)
    return "\n".join(kept)


def main():
    checks, wrong = sys.argv[1:] == ["--check"], []
    for name, (crate, table, head, make) in TABLES.items():
        made = (make(place, line) for place, line in enumerate(lines_of(crate, table), 1))
        text = with_used_names("\n".join([head, *(text for text in made if text is not None)]))
        file = CRATES / crate / "proofs" / f"{name}.antt"
        if checks and file.read_text() != text:
            wrong.append(f"{crate}/proofs/{name}.antt")
        elif not checks:
            file.write_text(text)
    for name in wrong:
        print(f"not what its table makes: {name}")
    return 1 if wrong else 0


if __name__ == "__main__":
    sys.exit(main())
