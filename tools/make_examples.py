#!/usr/bin/env python3
"""Assembles the instructions of examples/*.hex by SIMH, and asks for the bytes that stand there. Status 1 where one is another.

tools/make_examples.py [--write]

A line of an instruction has its bytes, and behind # its address and its text in the syntax of MACRO. With --write the bytes that SIMH makes take
the place of those that stand there, as many of them. Instructions with a mark for a longer form than the shortest (W^, L^, I^) are left
out, since SIMH takes the shortest. It needs `vax` (SIMH 3.8.1)."""
import pathlib
import re
import subprocess
import sys
import tempfile

EXAMPLES = pathlib.Path(__file__).resolve().parent.parent / "examples"
LINE = re.compile(r"((?:[0-9A-F]{2} ?)+) *# ([0-9A-F]{8})  ([A-Z](?!.*[WLI]\^).*)$")
SIMULATORS_NAMES = {"BCC": "BGEQU", "BCS": "BLSSU"}


def assembled(instructions):
    """The bytes that SIMH makes of each address, count of bytes and text."""
    lines = []
    for address, count, text in instructions:
        name, _, operands = text.replace("B^", "").partition(" ")
        lines += [f"d -m {address:x} {SIMULATORS_NAMES.get(name, name)} {operands}", f"ex -b {address:x}-{address + count - 1:x}", "echo =E"]
    with tempfile.NamedTemporaryFile("w", suffix=".sim") as script:
        script.write("\n".join([*lines, "quit", ""]))
        script.flush()
        said = subprocess.run(["vax", script.name], stdin=subprocess.DEVNULL, capture_output=True, check=True).stdout.decode("latin-1")
    return [" ".join(re.findall(r":\t([0-9A-F]{2})$", part, re.M)) for part in said.split("=E\n")[:-1]]


def checked(path, writes):
    """How many instructions of a file have other bytes."""
    lines = path.read_text().splitlines()
    found = [(place, LINE.match(line)) for place, line in enumerate(lines) if LINE.match(line)]
    made = assembled([(int(line[2], 16), len(line[1].split()), line[3]) for _, line in found])
    wrong = 0
    for (place, line), code in zip(found, made, strict=True):
        if code != line[1].strip():
            print(f"{path.name}: {line[3]}: {line[1].strip()}, and SIMH makes {code}")
            wrong += 1
            lines[place] = f"{code:40}# {line[2]}  {line[3]}"
    if writes:
        path.write_text("\n".join(lines) + "\n")
    return wrong


def main():
    writes = sys.argv[1:] == ["--write"]
    if sys.argv[1:] and not writes:
        sys.exit(__doc__)
    paths = sorted(EXAMPLES.glob("*.hex"))
    wrong = sum(checked(path, writes) for path in paths)
    print(f"{len(paths)} examples, {wrong} instructions differ")
    sys.exit(1 if wrong or not paths else 0)


if __name__ == "__main__":
    main()
