#!/usr/bin/env python3
"""Lists the definitions and lemmas that nothing cites, and the items that a crate gives out and no other crate names, but for laws, and
for what another item that is given out speaks of: a type of its signature, of a definition or of the head of its impl, or a table of its
contract."""
import collections
import pathlib
import re
import sys

ROOT = pathlib.Path(__file__).resolve().parent.parent
NAME = re.compile(r"[A-Za-z_][A-Za-z0-9_'-]*")
# A definition or lemma of specs/ or proofs/, with its type; a record or a data type.
DEFINED = re.compile(r"^(?:(?:abbrev|unfoldable|opaque) +)*(?:pub +)?(?:record +|data +)?([A-Za-z_][A-Za-z0-9_'-]*) +(?::|\(|\{)")
ITEM = re.compile(r"^ *pub (?:const fn|fn|struct|enum|const|trait|type) ([A-Za-z_][A-Za-z0-9_]*)")
USE = re.compile(r"^\s*(ghost )?(pub )?use ")
TYPE = re.compile(r"\b[A-Z][a-z][A-Za-z0-9]*\b")
FUNCTION = re.compile(r"^ *pub (?:const )?fn ")
TRAIT = re.compile(r"^ *pub trait ")
# The type of an impl that is no trait's, and what stands in its place for a parameter.
IMPL = re.compile(r"^impl(?:<[^>]*>)? ([A-Z]\w*)<(.*)> \{$")
# Files whose names the toolchain gives; and files of lemmas that stand for themselves: worked rows, and what is refused.
GOALS = {"Answers.antt", "Invariants.antt", "Proof.antt"}
ROWS = ("Refused.antt", "Rows.antt", "Sizes.antt", "Worked.antt")
# The crates whose lemmas are answers from outside, and stand for themselves too: their names end so.
OUTSIDE = "vectors"


def text_of(path):
    lines = path.read_text().splitlines()
    return [re.sub(r"(--|//).*$", "", line) for line in lines]


def files(crate, suffix):
    return [p for p in sorted(crate.rglob(f"*.{suffix}")) if "out" not in p.relative_to(crate).parts]


def given_out(crate, path, name):
    """Whether lib.rt gives the item out: in a public module, or by a `pub use`. Laws stand for themselves."""
    if path.name == "laws.rt" or name.endswith(("_law", "_laws")) or name.startswith("laws_"):
        return False
    root = crate / "src" / "lib.rt"
    text = "\n".join(text_of(root))
    module = path.relative_to(crate / "src").with_suffix("").parts[0]
    used = NAME.findall(re.sub(r"\w+::", "", " ".join(re.findall(r"pub use [^;]*;", text))))
    return path == root or f"pub mod {module};" in text or name in used


def items_of(text):
    """Each public item of a file: the number of its line, its name, and the words of its signature with the contract, of its fields or
    of its variants; and whether it is a law, which has no body."""
    found = []
    for number, line in enumerate(text):
        item = ITEM.match(line)
        if not item:
            continue
        if FUNCTION.match(line):
            ends = re.compile(r"^ *\{\}?$|^(?! *(?:ensures|requires)\b).*\{$")
        else:
            ends = re.compile(r"^\}" if TRAIT.match(line) else r"^ *\}|;$")
        end = next((n for n in range(number, len(text)) if ends.search(text[n])), number)
        words = set(NAME.findall(" ".join(text[number:end + 1]))) - {item.group(1)}
        found.append((number + 1, item.group(1), words, text[end].strip() == "{}"))
    return found


def main():
    crates = sorted(p for p in (ROOT / "crates").iterdir() if (p / "src").is_dir())
    lines = {p: text_of(p) for c in crates for s in ("antt", "rt") for p in files(c, s)}
    cited = collections.Counter()
    for path, text in lines.items():
        for line in text:
            if USE.match(line):
                continue
            cited.update(set(NAME.findall(line)))
    dead = []
    for path, text in lines.items():
        if path.suffix != ".antt" or path.name in GOALS or path.name.endswith(ROWS) or any(part.endswith(OUTSIDE) for part in path.parts):
            continue
        own = collections.Counter()
        heads = {}
        for number, line in enumerate(text, 1):
            found = DEFINED.match(line)
            if found and " : " in line + " ":
                heads.setdefault(found.group(1), number)
        for line in text:
            first = NAME.match(line)
            if first and first.group(0) in heads:
                own[first.group(0)] += 1
                continue
            found = DEFINED.match(line)
            if found and found.group(1) in heads:
                own[found.group(1)] += 1
        for name, number in heads.items():
            if cited[name] <= own[name]:
                dead.append(f"{path.relative_to(ROOT)}:{number}: {name}")
    unused = []
    for crate in crates:
        if (crate / "src" / "main.rt").exists() or crate.name.endswith((OUTSIDE, "_rows")):
            continue
        others = "\n".join("\n".join(t) for p, t in lines.items() if crate not in p.parents)
        words = set(NAME.findall(others))
        public = [(path, *head) for path in files(crate, "rt") for head in items_of(lines[path]) if given_out(crate, path, head[1])]
        types = {name for path in files(crate / "specs", "antt") for line in lines[path] if not USE.match(line) for name in TYPE.findall(line)}
        heads = [head for path in files(crate, "rt") for line in lines[path] if (head := IMPL.match(line))]
        given = {name for _, _, name, _, _ in public}
        types |= {name for head in heads if head[1] in given for name in TYPE.findall(head[2])}
        for path, number, name, _, is_law in public:
            spoken_of = name in types or any(name in said for other, at, _, said, _ in public if (other, at) != (path, number))
            if not (name in words or is_law or spoken_of):
                unused.append(f"{path.relative_to(ROOT)}:{number}: {name}")
    print(f"cited by nothing: {len(dead)}")
    print("\n".join(dead))
    print(f"given out, and named by no other crate: {len(unused)}")
    print("\n".join(unused))
    return 1 if dead or unused else 0


if __name__ == "__main__":
    sys.exit(main())
