#!/usr/bin/env python3
"""Says what the documents leave out, and what they name that isn't there: crates of crates.txt without crates/NAME/README.md, or without
a line in docs/MAP.md; public functions that no table of their crate's README names; and files and names that a README has and its crate
has not. The status is 1 where anything is found.

tools/check_docs.py

A function is public where src/lib.rt gives it out: it is `pub`, and stands there, in a public module, or in a `pub use`; or in an impl
block of a type that is given out. A program, whose root is src/main.rt, gives out none. A table names what stands in backticks in its
lines; of `Type::name` the last part counts. A README without a table that links to the README of another crate says that its crate
stands there. Files are those in backticks under specs/, proofs/, src/ and data/, of the crates that stand in the README or of the one
that is named just before. The names of a table's first column have to be items or clauses of contracts of these crates, or parts of
a record or data type of their definitions, or of those of a crate on which they stand."""
import pathlib
import re
import sys

TOP = pathlib.Path(__file__).resolve().parent.parent
FUNCTION = re.compile(r"^ *pub (?:const |unsafe )*fn (\w+)")
TYPE = re.compile(r"^ *pub (?:struct|enum|trait|type) (\w+)")
IMPL = re.compile(r"^impl(?:<[^{]*?>)? (\w+)")
USED = re.compile(r"^pub use (?:crate::)?([\w:]*?)(?:::)?(\w+|\{[^}]*\});", re.M)
NAME = re.compile(r"\w+(?:::\w+)*$")
TICKED = re.compile(r"`([^`]+)`")
FILE = re.compile(r"`((?:specs|proofs|src|data)/[\w/-]+\.\w+)`")
NAMED_BEFORE = re.compile(r"(\w+)(?:'s)?\s+\(?$")
LINK = re.compile(r"\]\(\.\./(\w+)/README\.md\)")
PART = re.compile(r"^ +(?:pub )?(\w+) :", re.M)
DEFINED = re.compile(r"\b(?:fn|struct|enum|trait|type|const|mod|ensures|requires) (\w+)")


def crates():
    """The crates of crates.txt, in its order, each with those on which it stands."""
    lines = [line.split("#")[0].partition(":") for line in (TOP / "crates.txt").read_text().splitlines()]
    below = {head.split()[0]: libraries.split() for head, _, libraries in lines if head.strip()}
    return {name: [library for library in libraries if library in below] for name, libraries in below.items()}


def folder(crate):
    return TOP / "crates" / crate


def readme(crate):
    path = folder(crate) / "README.md"
    return path.read_text() if path.exists() else ""


def rows(text):
    """The lines of the tables of a README."""
    return [line for line in text.splitlines() if line.startswith("|")]


def home(crate):
    """The crate in whose README a crate stands: its own, or the one to which that only links."""
    links = LINK.findall(readme(crate))
    return links[0] if links and not rows(readme(crate)) else crate


def sources(crate):
    """The lines of each file of a crate's code, by its module."""
    top = folder(crate) / "src"
    return {path.relative_to(top).with_suffix("").parts: path.read_text().splitlines() for path in sorted(top.rglob("*.rt"))}


def given_by_use(root):
    """The items that the `pub use` lines of a root give out, each as its module and its name."""
    found = set()
    for module, names in USED.findall(root):
        found |= {(tuple(filter(None, module.split("::"))), name) for name in re.findall(r"\w+", names)}
    return found


def is_open(module, code):
    """Whether each module on the way from the root to one is public."""
    above = [("lib",), *(module[:n] for n in range(1, len(module)))]
    return module == ("lib",) or all(f"pub mod {name};" in code.get(parent, []) for name, parent in zip(module, above))


def types_of(code, used):
    """The types that a crate gives out."""
    found = set()
    for module, lines in code.items():
        heads = [head.group(1) for line in lines if (head := TYPE.match(line))]
        found |= {name for name in heads if is_open(module, code) or (module, name) in used}
    return found


def functions_of(code, used, types):
    """The public functions that a crate gives out: of each its module, its type or None, and its name."""
    for module, lines in code.items():
        owner = None
        for line in lines:
            if head := IMPL.match(line):
                owner = head.group(1)
            elif line.startswith("}"):
                owner = None
            elif head := FUNCTION.match(line):
                name = head.group(1)
                if owner in types or (not owner and (is_open(module, code) or (module, name) in used)):
                    yield module, owner, name


def missing_functions(crate):
    """A line for each public function of a crate that no table names."""
    code = sources(crate)
    if ("lib",) not in code:
        return []
    used = given_by_use("\n".join(code["lib",]))
    named = {name.split("::")[-1] for row in rows(readme(home(crate))) for name in TICKED.findall(row)}
    found = functions_of(code, used, types_of(code, used))
    return [f"{crate}: src/{'/'.join(module)}.rt: {f'{owner}::' if owner else ''}{name} stands in no table"
            for module, owner, name in found if name not in named]


def missing_files(crate, housed):
    """A line for each file that a README names and that isn't there."""
    text = readme(crate)
    found = []
    for file in FILE.finditer(text):
        before = NAMED_BEFORE.search(text[:file.start()])
        owners = [before.group(1)] if before and folder(before.group(1)).is_dir() else housed
        if not any((folder(owner) / file.group(1)).exists() for owner in owners):
            found.append(f"{crate}: README.md: no file {file.group(1)}")
    return found


def known_names(housed, below):
    """The names of the items and of the clauses of some crates, and of the parts of types of definitions, also of the crates below."""
    lines = [line for crate in housed for module in sources(crate).values() for line in module]
    specs = [path.read_text() for crate in {*housed, *below} for path in (folder(crate) / "specs").rglob("*.antt")]
    return {name for line in lines for name in DEFINED.findall(line)} | {name for spec in specs for name in PART.findall(spec)}


def missing_names(crate, known):
    """A line for each name of a table's first column that isn't known."""
    firsts = [name for row in rows(readme(crate)) for name in TICKED.findall(row.split("|")[1])]
    return [f"{crate}: README.md: nothing has the name {name}" for name in firsts
            if "/" not in name and not (NAME.match(name) and known.issuperset(name.split("::")))]


def missing_papers(names):
    """A line for each crate without a README, or without a line in the map."""
    text = (TOP / "docs" / "MAP.md").read_text()
    found = [f"{crate}: no README.md" for crate in names if not readme(crate)]
    return found + [f"{crate}: no line in docs/MAP.md" for crate in names if f"\n- [{crate}](../crates/{crate}/README.md): " not in text]


def main():
    below = crates()
    found = missing_papers(below)
    for crate in below:
        housed = [other for other in below if home(other) == crate]
        known = known_names(housed, {library for other in housed for library in below[other]})
        found += missing_functions(crate) + missing_files(crate, housed) + missing_names(crate, known)
    print("\n".join([*found, f"{len(found)} things are missing"]))
    return 1 if found else 0


if __name__ == "__main__":
    sys.exit(main())
