#!/usr/bin/env python3
"""Counts the words of the blocks of single instructions, and the Alpha steps that each takes from its first word to its exit, from stated
registers, and prints a table. Each instruction stands before CMPL R5,R5, so that none of its codes is live. The listing is run word by
word: checks hold and stores succeed.

tools/measure/steps.py PROGRAM
tools/measure/steps.py --image FILE      writes the image alone
tools/measure/steps.py --listing FILE    counts in what `list` wrote of that image"""
import pathlib
import struct
import subprocess
import sys
import tempfile

CODE, DATA, ROOM = 0x200, 0x1000, 0x200
SPACE = 32
# CMPL R5,R5; CHMK #1
BEHIND = "D15555 BC01"
# a form: its text, its bytes, and the registers that it begins with, besides R3, which points to data
FORMS = [
    ("BBS #0,R4", "E0005400", {4: 1}),
    ("BBC #0,R4", "E1005400", {4: 1}),
    ("BBSS #3,R4", "E2035400", {4: 1}),
    ("BBCC #3,R4", "E5035400", {4: 1}),
    ("BBS #20,R4", "E0145400", {4: 1}),
    ("BBS #0,(R3)", "E0006300", {}),
    ("BBSS #9,(R3)", "E2096300", {}),
    ("BBSSI #1,(R3)", "E6016300", {}),
    ("BBS R0,R4", "E0505400", {0: 2, 4: 1}),
    ("ASHL #2,R0,R1", "78025051", {0: 5}),
    ("ASHL #-1,R0,R1", "788FFF5051", {0: 5}),
    ("ASHL R2,R0,R1", "78525051", {0: 5, 2: 2}),
    ("ASHL #2,(R3),(R3)", "78026363", {}),
    ("ROTL #8,R0,R1", "9C085051", {0: 5}),
    ("ROTL R2,R0,R1", "9C525051", {0: 5, 2: 8}),
    ("SOBGTR R2", "F55200", {2: 5}),
    ("SOBGEQ R2", "F45200", {2: 5}),
    ("AOBLSS R3,R2", "F2535200", {2: 5}),
    ("AOBLEQ R3,R2", "F3535200", {2: 5}),
    ("MOVB R0,R1", "905051", {0: 5}),
    ("MOVW R0,R1", "B05051", {0: 5}),
    ("MOVB (R3)+,R1", "908351", {}),
    ("ADDB2 R0,R1", "805051", {0: 5}),
    ("INCW R1", "B651", {1: 5}),
    ("ADDL2 R2,R0", "C05250", {0: 5, 2: 1}),
    ("ADDL2 #1000,R0", "C08FE803000050", {0: 5}),
    ("INCL R0", "D650", {0: 5}),
    ("MNEGL R0,R1", "CE5051", {0: 5}),
    ("CMPL R0,#5", "D15005", {0: 5}),
    ("MOVL -4(R3),R0", "D0A3FC50", {}),
    ("ADDL2 (R3),R0", "C06350", {}),
    ("MOVL (R3)[R2],R0", "D0426350", {2: 1}),
    ("MOVL @(R3)+,R0", "D09350", {}),
    ("MOVQ (R3),R0", "7D6350", {}),
    ("BISL2 R2,R0", "C85250", {0: 5, 2: 1}),
    ("BICW2 R2,R0", "AA5250", {0: 5, 2: 1}),
    ("BLBC R4", "E95400", {4: 1}),
    ("BBC R0,R4", "E1505400", {0: 2, 4: 1}),
    ("PUSHL R0", "DD50", {0: 5, 14: DATA + 8}),
    ("BNEQ", "1200", {}),
    ("BEQL", "1300", {}),
    ("BGTRU", "1A00", {}),
]

LONG, QUAD = (1 << 32) - 1, (1 << 64) - 1
LOOK_UP, SWITCH, PROBE = 0x81, 0x86, 0x80


def place_of(number):
    return CODE + SPACE * number


def image():
    """Each form at an entry of its own."""
    code = bytearray()
    for number, (_, bytes_of, _) in enumerate(FORMS):
        code += b"\0" * (SPACE * number - len(code)) + bytes.fromhex(bytes_of + BEHIND)
    head = b"VXIM" + struct.pack("<HHHH", 1, 1, 2, len(FORMS)) + struct.pack("<II", CODE, DATA + ROOM)
    rows = struct.pack("<IIII", CODE, len(code), len(code), 0) + struct.pack("<IIII", DATA, ROOM, 0, 1)
    return head + rows + b"".join(struct.pack("<I", place_of(number)) for number in range(len(FORMS))) + bytes(code)


def signed(value, bits):
    value &= (1 << bits) - 1
    return value - (1 << bits) if value >> (bits - 1) else value


def spread(bits):
    """The bytes of a mask with a bit for each."""
    return sum(0xFF << (8 * byte) for byte in range(8) if bits >> byte & 1)


def operate(opcode, function, a, b, old):
    """What an operate instruction leaves; None for one that no block has."""
    shift, count = b & 63, 8 * (b & 7)
    width = {0: 0x01, 1: 0x03, 2: 0x0F, 3: 0xFF}[function >> 4 & 3]
    sums = {0x00: lambda: signed(a + b, 32), 0x09: lambda: signed(a - b, 32), 0x20: lambda: a + b, 0x29: lambda: a - b,
            0x1D: lambda: a < b, 0x2D: lambda: a == b, 0x3D: lambda: a <= b,
            0x4D: lambda: signed(a, 64) < signed(b, 64), 0x6D: lambda: signed(a, 64) <= signed(b, 64)}
    logic = {0x00: lambda: a & b, 0x08: lambda: a & ~b, 0x20: lambda: a | b, 0x28: lambda: a | ~b, 0x40: lambda: a ^ b, 0x48: lambda: a ^ ~b,
             0x14: lambda: b if a & 1 else old, 0x16: lambda: old if a & 1 else b, 0x24: lambda: b if a == 0 else old, 0x26: lambda: b if a else old,
             0x44: lambda: b if signed(a, 64) < 0 else old, 0x46: lambda: b if signed(a, 64) >= 0 else old}
    shifts = {0x30: lambda: a & ~spread(b), 0x31: lambda: a & spread(b), 0x34: lambda: a >> shift, 0x39: lambda: a << shift, 0x3C: lambda: signed(a, 64) >> shift}
    bytes_of = {0x2: lambda: a & ~(spread(width) << count), 0x6: lambda: a >> count & spread(width), 0xB: lambda: (a & spread(width)) << count}
    upper = {0x2: lambda: a & ~(spread(width) << count >> 64), 0xA: lambda: a << (64 - count) & spread(width) if count else a & spread(width),
             0x7: lambda: (a & spread(width)) >> (64 - count) if count else 0}
    if opcode == 0x10:
        return sums[function]()
    if opcode == 0x11:
        return logic[function]()
    if opcode == 0x12 and function in shifts:
        return shifts[function]()
    if opcode == 0x12:
        return (upper if function & 0x40 else bytes_of)[function & 0xF]()
    return {0x00: lambda: signed(a * b, 32), 0x20: lambda: a * b, 0x30: lambda: a * b >> 64}[function]()


class Block:
    """The words of one block, with the registers and the memory that they run over."""

    def __init__(self, words, registers):
        self.words, self.memory = words, {}
        self.registers = [0] * 32
        self.registers[3] = DATA
        for number, value in registers.items():
            self.registers[number] = value

    def put(self, number, value):
        if number != 31:
            self.registers[number] = value & QUAD

    def refer(self, opcode, ra, address):
        quad = address & ~7
        if opcode in (0x08, 0x09):
            self.put(ra, address)
        elif opcode in (0x0B, 0x29, 0x2B):
            self.put(ra, self.memory.get(quad, 0))
        elif opcode in (0x28, 0x2A):
            self.put(ra, signed(self.memory.get(quad, 0) >> (8 * (address & 4)), 32))
        elif opcode in (0x0F, 0x2D, 0x2F):
            self.memory[quad] = self.registers[ra]
            if opcode == 0x2F:
                self.put(ra, 1)
        elif opcode == 0x2C:
            shift = 8 * (address & 4)
            self.memory[quad] = self.memory.get(quad, 0) & ~(LONG << shift) | (self.registers[ra] & LONG) << shift
        else:
            sys.exit(f"no block has the opcode {opcode:02X}")

    def goes(self, opcode, value):
        s = signed(value, 64)
        return {0x30: True, 0x34: True, 0x38: value & 1 == 0, 0x39: value == 0, 0x3A: s < 0, 0x3B: s <= 0, 0x3C: value & 1 == 1, 0x3D: value != 0,
                0x3E: s >= 0, 0x3F: s > 0}[opcode]

    def step(self, at):
        """The word that comes behind this one; None where the block is left."""
        word = self.words[at]
        opcode, ra, rb = word >> 26, word >> 21 & 31, word >> 16 & 31
        if opcode == 0:
            return at + 1 if word & 0xFFFFFF == PROBE else None
        if opcode >= 0x30:
            return at + 1 + (signed(word, 21) if self.goes(opcode, self.registers[ra]) else 0)
        if opcode in (0x10, 0x11, 0x12, 0x13):
            b = word >> 13 & 0xFF if word >> 12 & 1 else self.registers[rb]
            self.put(word & 31, int(operate(opcode, word >> 5 & 0x7F, self.registers[ra], b, self.registers[word & 31])))
            return at + 1
        displacement = signed(word, 16) << (16 if opcode == 0x09 else 0)
        self.refer(opcode, ra, self.registers[rb] + displacement & QUAD)
        return at + 1

    def steps(self):
        at, count = 0, 0
        while at is not None and 0 <= at < len(self.words):
            at, count = self.step(at), count + 1
        return count


def blocks_of(listing):
    """The words of each block, by its VAX address."""
    lines = [line.split() for line in listing.splitlines()]
    return {int(line[0], 16): [int(word, 16) for word in line[2:]] for line in lines}


def listed(path):
    with tempfile.TemporaryDirectory() as room:
        name = pathlib.Path(room, "image")
        name.write_bytes(image())
        return subprocess.run([path, "list", name], capture_output=True, text=True, check=True).stdout


def main():
    if sys.argv[1] == "--image":
        pathlib.Path(sys.argv[2]).write_bytes(image())
        return
    blocks = blocks_of(pathlib.Path(sys.argv[2]).read_text() if sys.argv[1] == "--listing" else listed(sys.argv[1]))
    print("| Instruction | Steps | Words |\n|---|---|---|")
    for number, (text, _, registers) in enumerate(FORMS):
        words = blocks[place_of(number)]
        print(f"| {text} | {Block(words, registers).steps()} | {len(words)} |")


if __name__ == "__main__":
    main()
