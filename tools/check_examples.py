#!/usr/bin/env python3
"""Makes an image of each file of examples/, runs it by the built program, and asks for the output, the report and the status that stand
beside it. Status 1 where one is another.

tools/check_examples.py VEST [VXIMAGE]

NAME.hex has two hexadecimal digits a byte; from # on a line is a comment. NAME.out and NAME.err are what it writes, and NAME.in is its
input, where there is one; NAME.hints, in digits too, is a hint file with which it is translated as well. NAME.elf, in digits, is an executable:
with VXIMAGE its image is asked for that of NAME.hex."""
import pathlib
import subprocess
import sys
import tempfile

TOP = pathlib.Path(__file__).resolve().parent.parent
EXAMPLES = TOP / "examples"
WORDS = (["run", "x.img"], ["run", "x.vxt"], ["run", "x.img", "--interpret", "0:0-FFFFFFFF", "--interpret", "1:0-FFFFFFFF"])


def image_of(path):
    """The bytes that a file of digits and comments has."""
    return bytes.fromhex("".join(line.partition("#")[0] for line in path.read_text().splitlines()))


def beside(path, ending):
    """The bytes of the file beside it with another ending; none where there is none."""
    other = path.with_suffix(ending)
    return other.read_bytes() if other.exists() else b""


def differences(program, path):
    """How the program's runs of an example differ from what stands beside it."""
    with tempfile.TemporaryDirectory() as room:
        pathlib.Path(room, "x.img").write_bytes(image_of(path))
        subprocess.run([program, "translate", "x.img", "x.vxt"], cwd=room, check=True)
        forms = list(WORDS)
        if path.with_suffix(".hints").exists():
            pathlib.Path(room, "x.hints").write_bytes(image_of(path.with_suffix(".hints")))
            subprocess.run([program, "translate", "x.img", "hinted.vxt", "--hints", "x.hints"], cwd=room, check=True)
            forms.append(["run", "hinted.vxt"])
        wanted = (0, beside(path, ".out"), beside(path, ".err"))
        for words in forms:
            run = subprocess.run([program, *words], cwd=room, input=beside(path, ".in"), capture_output=True, check=False)
            found = (run.returncode, run.stdout, run.stderr)
            if found != wanted:
                yield f"{path.name}, {' '.join(words)}: {found}, not {wanted}"


def executable_differences(program, path):
    """Whether the image that is made of an executable is another than that of the example."""
    with tempfile.TemporaryDirectory() as room:
        pathlib.Path(room, "x").write_bytes(image_of(path))
        subprocess.run([program, "make", "x.img", "--elf", "x"], cwd=room, check=True)
        if pathlib.Path(room, "x.img").read_bytes() != image_of(path.with_suffix(".hex")):
            yield f"{path.name}: another image"


def main():
    if len(sys.argv) not in (2, 3):
        sys.exit(__doc__)
    vest, *vximage = (pathlib.Path(word).resolve() for word in sys.argv[1:])
    paths = sorted(EXAMPLES.glob("*.hex"))
    lines = [line for path in paths for line in differences(vest, path)]
    lines += [line for program in vximage for path in sorted(EXAMPLES.glob("*.elf")) for line in executable_differences(program, path)]
    print("\n".join([*lines, f"{len(paths)} examples, {len(lines)} differences"]))
    sys.exit(1 if lines or not paths else 0)


if __name__ == "__main__":
    main()
