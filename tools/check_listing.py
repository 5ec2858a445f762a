#!/usr/bin/env python3
"""Asks of each image of examples/ that `vximage dis --alpha` has, of each instruction that has a block, the words that `vest list` prints,
and that the GNU assembler makes of the words' texts the words again. Status 1 where one differs.

tools/check_listing.py VEST VXIMAGE        wants alpha-linux-gnu-as and alpha-linux-gnu-objcopy (Debian: binutils-alpha-linux-gnu)"""
import pathlib
import re
import struct
import subprocess
import sys
import tempfile

TOP = pathlib.Path(__file__).resolve().parent.parent
WORD = re.compile(r"^  ([0-9A-F]{8})  ([0-9A-F]{8})  (.*?)(?: ; .*)?$")
INSTRUCTION = re.compile(r"^([0-9A-F]{8})  [0-9A-F]{2} ")
HEAD = "\t.set noat\n\t.set noreorder\n\t.set nomacro\n"


def image_of(path):
    """The bytes of a file of hexadecimal digits, in which # begins a comment."""
    return bytes.fromhex("".join(line.partition("#")[0] for line in path.read_text().splitlines()))


def printed(words, room):
    return subprocess.run(words, cwd=room, capture_output=True, text=True, check=True).stdout.splitlines()


def listed(vest, room):
    """The address of each instruction that has a block, with the number of its first word and the words."""
    lines = [line.split() for line in printed([vest, "list", "image"], room)]
    return [(int(line[0], 16), int(line[1], 16), [int(word, 16) for word in line[2:]]) for line in lines]


def disassembled(vximage, room):
    """The same of `dis --alpha`, and the text of each word."""
    found, texts, address = [], [], 0
    for line in printed([vximage, "dis", "--alpha", "image"], room):
        word, instruction = WORD.match(line), INSTRUCTION.match(line)
        if instruction:
            address = int(instruction[1], 16)
        elif word:
            if not found or found[-1][0] != address:
                found.append((address, int(word[1], 16), []))
            found[-1][2].append(int(word[2], 16))
            texts.append(word[3])
    return found, texts


def assembled(texts, room):
    """The words that the assembler makes of texts."""
    pathlib.Path(room, "words.s").write_text(HEAD + "".join(f"\t{text}\n" for text in texts))
    printed(["alpha-linux-gnu-as", "-o", "words.o", "words.s"], room)
    printed(["alpha-linux-gnu-objcopy", "-O", "binary", "-j", ".text", "words.o", "words"], room)
    return list(struct.unpack(f"<{len(texts)}I", pathlib.Path(room, "words").read_bytes()[: 4 * len(texts)]))


def main():
    if len(sys.argv) != 3:
        sys.exit(__doc__)
    vest, vximage = (pathlib.Path(word).resolve() for word in sys.argv[1:])
    words = wrong = 0
    for path in sorted((TOP / "examples").glob("*.hex")):
        with tempfile.TemporaryDirectory() as room:
            pathlib.Path(room, "image").write_bytes(image_of(path))
            wanted = listed(vest, room)
            found, texts = disassembled(vximage, room)
            same = found == wanted and assembled(texts, room) == [word for _, _, block in wanted for word in block]
        words += len(texts)
        if not same:
            print(f"{path.name} differs")
            wrong += 1
    print(f"{words} words, {wrong} images differ")
    sys.exit(1 if wrong or not words else 0)


if __name__ == "__main__":
    main()
