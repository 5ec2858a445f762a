#!/usr/bin/env python3
"""Writes crates/vectors/data/instruction_texts.txt and word_texts.txt: bytes of VAX instructions and Alpha words, each with its text, as the
VAX simulator SIMH and the GNU assembler for Alpha have it.

tools/text_rows.py [--check] [--objdump OBJDUMP] [SPELLINGS [SEED]]

It writes as many spellings of each opcode (8 if it isn't said) with that seed (1), and four words of each row of the Alpha table. With --check it
writes nothing. It needs `vax` (SIMH 3.8.1) and `alpha-linux-gnu-as` with its `objcopy`. SIMH prints each spelling (`examine -m`): there the marks
B^, W^, L^ and I^ have to be left out, and BCC and BCS are BGEQU and BLSSU. It assembles each text (`deposit -m`) to the same bytes, but for two
kinds that it assembles otherwise: the deferred relative ones, and displacements of just 80 or 8000. The GNU assembler makes each word of its text.
OBJDUMP is GNU's for the VAX, which no package has (`tools/make_elf_rows.sh ROOM` builds ROOM/build/binutils/objdump). It ends each spelling where
the text does, and its text in MACRO's syntax is the same but for the marks; CLRL, CLRQ and BCS are clrf, clrd and blssu there.
Where one of these isn't so, nothing is written, and the status is 1."""
import argparse
import pathlib
import random
import re
import struct
import subprocess
import sys
import tempfile

TOP = pathlib.Path(__file__).resolve().parent.parent
OPCODES = TOP / "crates/vectors/data/opcodes.txt"
ROWS = TOP / "crates/alpha_encode/src/instr.rt"
DATA = TOP / "crates/vectors/data"

ADDRESS = 0x200
ROOM = 64
LENGTHS = {"b": 1, "w": 2, "l": 4, "q": 8}
REGISTERS = [f"R{n}" for n in range(12)] + ["AP", "FP", "SP"]
MARKS = {1: "B^", 2: "W^", 4: "L^"}
SIMULATORS_NAMES = {"BCC": "BGEQU", "BCS": "BLSSU"}
OBJDUMPS_NAMES = {"CLRL": "CLRF", "CLRQ": "CLRD", "BCS": "BLSSU"}
VALUES = [0, 1, 5, 0x3F, 0x40, 0x7F, 0x80, 0xFF, 0x1234, 0x7FFF, 0x8000]
DISPLACEMENTS = [0, 1, -1, 0x7F, -0x80, 0x80, -0x81, 0x7FFF, -0x8000, 0x8000, -0x8001, 0x7FFF_FFFF, -0x8000_0000]
WORKED = ["90 8F 05 52", "D0 50 A4 80", "D0 50 D4 0A 00", "9E AF 0C 51", "9A 81 50", "13 04", "BC 02", "11 F7", "BC 01"]


# ---- VAX instructions

def opcodes():
    """Each opcode that is no reserved one, with its name and the types of its operands."""
    rows = [line.split() for line in OPCODES.read_text().splitlines() if line and not line.startswith("#")]
    return {int(row[0], 16): (row[1], row[6:]) for row in rows if row[1] != "reserved"}


def signed(value, size):
    return value - (1 << 8 * size) if value >> (8 * size - 1) else value


def shown(value):
    return f"-{-value:X}" if value < 0 else f"{value:X}"


class Reader:
    """The text of the instruction that bytes at an address spell."""

    def __init__(self, code, first=ADDRESS):
        self.code, self.first, self.place = code, first, 0

    def number(self, size):
        self.place += size
        return int.from_bytes(self.code[self.place - size:self.place], "little")

    def address(self, distance):
        return f"{(self.first + self.place + distance) & 0xFFFF_FFFF:X}"

    def displaced(self, high, register):
        size, deferred = {5: 1, 6: 2, 7: 4}[high // 2], "@" if high % 2 else ""
        value = signed(self.number(size), size)
        if register == 15:
            return f"{deferred}{MARKS[size]}{self.address(value)}"
        shortest = 1 if -0x80 <= value < 0x80 else 2 if -0x8000 <= value < 0x8000 else 4
        return f"{deferred}{'' if shortest == size else MARKS[size]}{shown(value)}({REGISTERS[register]})"

    def specifier(self, size):
        first = self.number(1)
        high, register = first // 16, first % 16
        if high < 4:
            return f"#{first:X}"
        if high == 4:
            return f"{self.specifier(size)}[{REGISTERS[register]}]"
        if high == 8 and register == 15:
            value = self.number(size)
            return f"{'I^' if value < 0x40 else ''}#{value:X}"
        if high == 9 and register == 15:
            return f"@#{self.number(4):X}"
        if high >= 10:
            return self.displaced(high, register)
        name = REGISTERS[register]
        return {5: name, 6: f"({name})", 7: f"-({name})", 8: f"({name})+", 9: f"@({name})+"}[high]

    def operand(self, kind):
        size = LENGTHS[kind[1]]
        if kind[0] == "b":
            return self.address(signed(self.number(size), size))
        return self.specifier(size)

    def text(self, table):
        name, kinds = table[self.number(1)]
        operands = [self.operand(kind) for kind in kinds]
        return name + (" " + ",".join(operands) if operands else "")


def little(value, size):
    return list((value % (1 << 8 * size)).to_bytes(size, "little"))


def place_of(rng, index):
    """A specifier of an operand in memory, which may stand behind that index."""
    while True:
        high, register = rng.choice([6, 7, 8, 9, 10, 11, 12, 13, 14, 15, 10, 12, 14]), rng.randrange(16)
        if register == 15 and high < 9 or high in (7, 8, 9) and register == index:
            continue
        if high == 9 and register == 15:
            return [0x9F, *little(rng.choice([0x10, 0x200, 0x1234, rng.getrandbits(32)]), 4)]
        if high < 10:
            return [16 * high + register]
        size = {5: 1, 6: 2, 7: 4}[high // 2]
        return [16 * high + register, *little(rng.choice([*DISPLACEMENTS, rng.getrandbits(32)]), size)]


def operand_of(rng, kind):
    access, size = kind[0], LENGTHS[kind[1]]
    value = little(rng.choice([*VALUES, rng.getrandbits(8 * size)]), size)
    if access == "b":
        return value
    form = rng.randrange(6)
    if form == 0 and access == "r":
        return [rng.randrange(0x40)]
    if form == 1 and access != "a":
        return [0x50 + rng.randrange(14 if size == 8 else 15)]
    if form == 2 and access in "rav":
        return [0x8F, *value]
    index = rng.randrange(15) if form == 3 else None
    return ([0x40 + index] if form == 3 else []) + place_of(rng, index)


def spelling(rng, opcode, kinds):
    return bytes([opcode, *(byte for kind in kinds for byte in operand_of(rng, kind))])


def asked(rows):
    """What SIMH prints of the bytes, and the bytes that it makes of the text."""
    lines = []
    for code, text in rows:
        filled = code + b"\x01" * (ROOM - len(code))
        for place in range(0, ROOM, 4):
            lines.append(f"d -l {ADDRESS + place:x} {int.from_bytes(filled[place:place + 4], 'little'):x}")
        lines += [f"ex -m {ADDRESS:x}", f"d -l {ADDRESS:x} 0", f"d -m {ADDRESS:x} {text}", "echo =B",
                  f"ex -b {ADDRESS:x}-{ADDRESS + len(code) - 1:x}", "echo =E"]
    with tempfile.NamedTemporaryFile("w", suffix=".sim") as script:
        script.write("\n".join([*lines, "quit", ""]))
        script.flush()
        said = subprocess.run(["vax", script.name], stdin=subprocess.DEVNULL, capture_output=True).stdout.decode("latin-1")
    for part in said.split("=E\n")[:-1]:
        printed, _, made = part.partition("=B\n")
        found = re.search(r"^[0-9A-F]+:\t(.*)$", printed, re.M)
        yield found[1].strip() if found else printed, bytes.fromhex("".join(re.findall(r":\t([0-9A-F]{2})$", made, re.M)))


def is_assembled_otherwise(text):
    return re.search(r"@[BWL]\^[0-9A-F]+(\[|,|$)|(?<![0-9A-F#-])80(00)?\(", text)


def unmarked(text, names):
    """The text without its marks, with another's name of the opcode."""
    name, _, operands = re.sub(r"[BWLI]\^", "", text).partition(" ")
    return " ".join([names.get(name, name), *([operands] if operands else [])])


def wrong_of_simulator(rows):
    """How many rows SIMH prints or assembles otherwise."""
    answers = list(asked(rows))
    if len(answers) != len(rows):
        sys.exit("SIMH did not answer each question")
    wrong = 0
    for (code, text), (printed, made) in zip(rows, answers):
        if printed != unmarked(text, SIMULATORS_NAMES) or made != code and not is_assembled_otherwise(text):
            print(f"{code.hex().upper()} {text}: SIMH prints {printed} and makes {made.hex().upper()}", file=sys.stderr)
            wrong += 1
    return wrong


# ---- GNU's objdump for the VAX

def rewritten(text):
    """Its text in MACRO's syntax. What it prints as *0x1000 is @#1000 or @1000; neither mark stands here."""
    name, _, operands = text.partition(" ")
    operands = re.sub(r"0x([0-9a-f]+)(\()?", lambda found: shown(signed(int(found[1], 16), 4)) + "(" if found[2] else f"{int(found[1], 16):X}", operands)
    return f"{name} {operands.replace('$', '#').replace('*', '@')}".strip().upper()


def dumped(objdump, code):
    """By address the length and the text of what it reads at each ROOM bytes."""
    with tempfile.NamedTemporaryFile(suffix=".bin") as file:
        file.write(code)
        file.flush()
        words = [objdump, "-D", "-z", "-w", "-b", "binary", "-m", "vax", file.name]
        said = subprocess.run(words, capture_output=True, text=True, check=True).stdout
    for line in said.splitlines():
        found = re.match(r"\s*([0-9a-f]+):\t([0-9a-f ]+)\t(.*)$", line)
        if found and int(found[1], 16) % ROOM == 0:
            yield int(found[1], 16), (len(found[2].split()), found[3].strip())


def wrong_of_objdump(objdump, table, codes):
    """How many spellings objdump ends elsewhere, or prints otherwise. Behind each NOPs fill ROOM bytes, so that it begins anew."""
    answers, wrong = dict(dumped(objdump, b"".join(code.ljust(ROOM, b"\1") for code in codes))), 0
    for number, code in enumerate(codes):
        text = Reader(code, ROOM * number).text(table)
        length, printed = answers.get(ROOM * number, (0, ""))
        if (length, rewritten(printed)) != (len(code), unmarked(text, OBJDUMPS_NAMES).replace("@#", "@")):
            print(f"{code.hex().upper()} {text}: objdump prints {printed} of {length} bytes", file=sys.stderr)
            wrong += 1
    return wrong


def instruction_rows(count, seed, objdump):
    """How many rows differ, and the rows."""
    table, rng = opcodes(), random.Random(seed)
    codes = [bytes.fromhex(code) for code in WORKED]
    codes += [spelling(rng, opcode, kinds) for opcode, (_, kinds) in sorted(table.items()) for _ in range(count)]
    rows = [(code, Reader(code).text(table)) for code in codes]
    wrong = wrong_of_simulator(rows) + (wrong_of_objdump(objdump, table, codes) if objdump else 0)
    return wrong, [f"{code.hex().upper()} {text}" for code, text in rows]


# ---- Alpha words

UNDERSCORED = {"LdqU": "ldq_u", "LdlL": "ldl_l", "LdqL": "ldq_l", "StlC": "stl_c", "StqC": "stq_c"}


def alpha_table(name):
    """The rows of that format with their codes."""
    rows = re.search(rf"pub enum {name} {{(.*?)}}", ROWS.read_text(), re.S)[1]
    return [(UNDERSCORED.get(row, row.lower()), int(code, 16)) for row, code in re.findall(r"(\w+) = 0x(\w+),", rows)]


def memory_word(rng, name, code):
    ra, rb, low = rng.randrange(32), rng.randrange(32), rng.choice([0, 1, 0x7FFF, 0x8000, 0xFFFF, rng.getrandbits(16)])
    return code << 26 | ra << 21 | rb << 16 | low, f"{name} ${ra},{signed(low, 2)}(${rb})"


def branch_word(rng, name, code):
    ra, low = rng.randrange(32), rng.choice([0, 1, 0xF_FFFF, 0x10_0000, 0x1F_FFFF, 0x1F_FFFE, rng.getrandbits(21)])
    words = low - (1 << 21) if low >> 20 else low
    return code << 26 | ra << 21 | low, f"{name} ${ra},.{4 * words + 4:+d}"


def operate_word(rng, name, code):
    is_single = name in ("sextb", "sextw")
    ra, rb, rc = 31 if is_single else rng.randrange(32), rng.randrange(32), rng.randrange(32)
    literal = rng.choice([0, 1, 255, rng.getrandbits(8)])
    is_literal = rng.randrange(2) and not is_single
    second = literal << 13 | 1 << 12 if is_literal else rb << 16
    first = "" if is_single else f"${ra},"
    text = f"{name} {first}{literal if is_literal else f'${rb}'},${rc}"
    return code >> 8 << 26 | ra << 21 | second | (code & 0x7F) << 5 | rc, text


def jump_word(rng):
    ra, rb = rng.randrange(32), rng.randrange(32)
    return 0x1A << 26 | ra << 21 | rb << 16, f"jmp ${ra},(${rb}),0"


def word_rows(count, seed):
    rng, rows = random.Random(seed), []
    for table, make in (("MemoryOp", memory_word), ("BranchOp", branch_word), ("OperateOp", operate_word)):
        rows += [make(rng, name, code) for name, code in alpha_table(table) for _ in range(count)]
    rows += [jump_word(rng) for _ in range(count)]
    rows += [(number, f"call_pal 0x{number:x}") for number in range(0x80, 0x87)]
    rows += [(number, f".long 0x{number:X}") for number in (0, 0x7F, 0x87, 0xFFFF_FFFF >> 6, 0x73E0_0000 & ~(31 << 21) | 5 << 21)]
    return rows


def assembled(rows):
    """The words that the GNU assembler makes of the texts."""
    source = "\t.set noat\n\t.set noreorder\n\t.set nomacro\n\t.arch ev6\n" + "".join(f"\t{text}\n" for _, text in rows)
    with tempfile.TemporaryDirectory() as folder:
        text, made, out = (pathlib.Path(folder) / name for name in ("a.s", "a.o", "a.bin"))
        text.write_text(source)
        subprocess.run(["alpha-linux-gnu-as", "-o", made, text], check=True)
        subprocess.run(["alpha-linux-gnu-objcopy", "-O", "binary", "-j", ".text", made, out], check=True)
        code = out.read_bytes()
    return struct.unpack(f"<{len(code) // 4}I", code)[:len(rows)]


def checked_words(count, seed):
    rows, wrong = word_rows(count, seed), 0
    for (word, text), made in zip(rows, assembled(rows), strict=True):
        if word != made:
            print(f"{word:08X} {text}: the GNU assembler makes {made:08X}", file=sys.stderr)
            wrong += 1
    return wrong, [f"{word:08X} {text}" for word, text in rows]


INSTRUCTIONS_HEAD = """\
# VAX instructions at 200, with their texts.
#
# A line is the bytes, from the lowest address up, and the text of the instruction that they spell. tools/text_rows.py made it:
# the first are worked by hand, and behind them are random spellings of each opcode. The VAX simulator SIMH prints each text, without
# its marks, and makes the bytes of it, but for deferred relative operands and displacements of just 80 and 8000.
"""
WORDS_HEAD = """\
# Alpha words with their texts.
#
# A line is the word, and the text of which the GNU assembler makes it. tools/text_rows.py made it: random words of each row of the
# table, the PALcode calls, and words that spell no instruction.
"""


def words_of_the_line():
    parser = argparse.ArgumentParser()
    parser.add_argument("--check", action="store_true")
    parser.add_argument("--objdump")
    parser.add_argument("count", nargs="?", type=int, default=8)
    parser.add_argument("seed", nargs="?", type=int, default=1)
    return parser.parse_args()


def main():
    asked_for = words_of_the_line()
    wrong, instructions = instruction_rows(asked_for.count, asked_for.seed, asked_for.objdump)
    others, words = checked_words(4, asked_for.seed)
    print(f"{len(instructions)} instructions, {wrong} differ; {len(words)} words, {others} differ")
    if wrong or others:
        return 1
    if asked_for.check:
        return 0
    DATA.mkdir(parents=True, exist_ok=True)
    (DATA / "instruction_texts.txt").write_text(INSTRUCTIONS_HEAD + "\n" + "\n".join(instructions) + "\n")
    (DATA / "word_texts.txt").write_text(WORDS_HEAD + "\n" + "\n".join(words) + "\n")
    return 0


if __name__ == "__main__":
    sys.exit(main())
