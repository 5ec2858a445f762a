#!/usr/bin/env python3
"""Writes the end of crates/vest_rows/data/calls.txt: runs of small images that are interpreted, each as tools/vax_model.py has it, which is
written from the manual and agrees with the VAX simulator's cases.

tools/interpreted_rows.py [--check]

What stands in the file before a line of its own stays. With --check nothing is written, and the status is 1 where the end is another one."""
import pathlib
import re
import sys
import textwrap

sys.dont_write_bytecode = True

from vax_model import ACCESS, ARITHMETIC, PAGE, PSL, TABLE, Thread, assembled

FILE = pathlib.Path(__file__).resolve().parent.parent / "crates/vest_rows/data/calls.txt"
BEGIN = "# What stands behind this line is written by tools/interpreted_rows.py, by a model of its own: tools/vax_model.py is written from the VAX\n"
HEAD = BEGIN + """\
# Architecture Reference Manual (addressing modes, instructions, exceptions), shares nothing with the crates, and leaves behind each of the VAX
# simulator's cases what the simulator leaves. All is interpreted. A step is one reference, or the end of an instruction: a thread that is spent
# stands where its last instruction ended, whatever was written since. Bytes that may be written stand from 1000 on, but where it is said. A
# string or a call stands in a loop of two turns: budgets end in the first, where it is met anew, and histories in the second.

"""
CODE, DATA, ROOM = 0x200, 0x1000, 0x1000
ALL = "--interpret 0:0-FFFFFFFF"
COLD, WARM, MOST = 0x400, 0x800, 0x400
WIDTH = 148


# ---- Images and rows

class Image:
    """The code of lines, behind `start`, and bytes that may be written."""

    def __init__(self, lines, data="", start=CODE, sp=DATA + ROOM, at=DATA):
        self.lines, self.start, self.sp = lines, start, sp
        code, self.labels = assembled(lines, start)
        self.sections = [(start // PAGE * PAGE, code.rjust(start % PAGE + len(code), b"\1"), 0), (at, bytes.fromhex(data), 1)]

    def sizes(self):
        return len(self.sections[0][1]), ROOM

    def file(self):
        """The row that puts it."""
        numbers = [self.start, self.sp]
        for (address, data, writable), size in zip(self.sections, self.sizes()):
            numbers += [address, size, len(data), writable]
        words = [number.to_bytes(4, "little").hex().upper() for number in numbers]
        stored = " ".join(data.hex().upper() for _, data, _ in self.sections)
        return f"file x 5658494D 01000100 02000000 {''.join(words[:2])} {''.join(words[2:6])} {''.join(words[6:])} {stored}".rstrip()

    def thread(self, budget=None, events=None):
        sections = [(address, size, data, writable) for (address, data, writable), size in zip(self.sections, self.sizes())]
        return Thread(self.start, self.sp, sections, budget, events)

    def run(self, budget=None, events=None):
        return self.thread(budget, events).run()

    def starts(self):
        """Where its instructions begin that are made."""
        t, found = self.thread(), set()
        while t.end is None:
            found.add(t.pc)
            t.turn()
        return found

    def first_turn(self):
        """How many steps and references the first turn of its loop makes, which R11 counts."""
        t = self.thread()
        while not t.r[11]:
            t.turn()
        return t.steps, t.entries

    def rows(self, said):
        text = f"{said}: {'; '.join(self.lines)}" if said else "; ".join(self.lines)
        return [f"# {line}" for line in textwrap.wrap(text, WIDTH, break_long_words=False)] + [self.file()]


def bytes_at(t, address, count):
    return bytes(t.memory.get(address + place, 0) for place in range(count)).hex().upper()


def ending(t):
    """The status, what was put, and the report."""
    (r, pc, psw), kind = t.shown, t.end[0]
    where = f"pc {pc:08X} psl {PSL | psw:08X}|registers {' '.join(f'{each:08X}' for each in r)}|"
    if kind == "exit":
        status, report = 0, f"exit {t.end[1]:08X}|"
    elif kind == "spent":
        status, report = 5, f"spent retired {t.retired} {where}"
    elif kind == "trap":
        status, report = 4, f"exception {ARITHMETIC} type {t.end[1]} {where}"
    else:
        more = f" address {t.end[2]:08X} intent {t.end[3]}" if t.end[1] == ACCESS else ""
        status, report = 4, f"exception {t.end[1]:02X}{more} {where}"
    return f"{status} {t.out.hex().upper() or '-'} thread 0 {report}"


def call(t, options=""):
    return f"call run x {ALL}{options}: {ending(t)}"


def budgets(image, first=0, last=None):
    """A row for each number of steps behind the first ones, up to the last one, or to all that there are."""
    last = last or image.run().steps
    return [call(image.run(budget=count), f" --budget {count}") for count in range(first + 1, last + 1)]


def histories(image, first=0, area=None):
    """A row for each length of the history behind the first entries, up to all that there are, and what stands in an area then."""
    rows = []
    for count in range(first, image.run().entries + 1):
        t = image.run(events=count)
        rows += [call(t, f" --events {count}"), *([f"memory {area[0]:X} {bytes_at(t, *area)}"] if area else [])]
    return rows


# ---- Ends at each step

BEFORE = ["loop: MOVL #11,R0", "MOVL #12,R2", "MOVL #14,R4", "MOVL #15,R5", "CMPL #1,#2"]
BEHIND = ["AOBLSS #2,R11,loop", "CHMK #1"]
STRINGS = {
    "MOVC3 #3,@#1000,(R6)+": "414243",
    "MOVC3 #3,@#1006,@#1007": "0000000000004142434445",
    "MOVC5 #2,@#1000,#2A,#4,(R6)+": "4142",
    "CMPC3 #3,@#1000,@#1006": "4142434445464142442A",
    "LOCC #2A,#3,@#1000": "41422A",
    "SKPC #20,#3,@#1000": "202041",
}


def strings():
    rows = ["family strings that end at each step"]
    for text, data in STRINGS.items():
        image = Image(["MOVAB @#1006,R6", *BEFORE, text, *BEHIND], data)
        steps, entries = image.first_turn()
        rows += [*image.rows("twice"), *budgets(image, 1 + len(BEFORE), steps)]
        rows += histories(image, entries, (DATA, 12) if text.startswith("MOVC") else None)
    return rows


def calls():
    rows = ["", "family calls that end at each step"]
    first, area = ["loop: SUBL2 #4,SP", "MOVL #2,R2", "MOVL #3,R3"], (DATA + 0x10, 0x30)
    by_stack = [*first, "PUSHL #7", "CALLS #1,@#p", *BEHIND, "p: .word 000C", "MOVL (AP),R0", "CLRL R2", "RET"]
    by_list = [*first, "BISPSW #40", "CMPL #1,#2", "CALLG @#1080,@#p", *BEHIND, "p: .word 800C", "CLRL R3", "RET"]
    for lines, sp, done in ((by_stack, DATA + 0x40, 3), (by_list, DATA + 0x42, 5)):
        image = Image(lines, sp=sp)
        steps, entries = image.first_turn()
        rows += [*image.rows(f"twice, the stack at {sp:X}"), *budgets(image, done, steps), *histories(image, entries, area)]
    return rows


CASE = ["CASEL @#{0:X},#2,@#{1:X}", ".word a,b", "CHMK #1", "a: MOVL #A,R0", "CHMK #1", "b: MOVL #B,R0", "CHMK #1"]


def cases():
    rows = ["", "family CASE that ends at each step"]
    for selector in ("03", "04"):
        image = Image([line.format(DATA, DATA + 4) for line in CASE], f"{selector}00000001000000")
        rows += [*image.rows(""), *budgets(image), *histories(image)]
    for selector in ("03", "04"):
        behind = 2 * PAGE
        start = behind - len(assembled([CASE[0].format(0, 0)], 0)[0])
        table = assembled([line.format(0, 0) for line in CASE], start)[0][behind - start:].hex().ljust(0x40, "0")
        image = Image([CASE[0].format(behind + 0x20, behind + 0x24)], f"{table}{selector}00000001000000", start, ROOM, behind)
        rows += [*image.rows(f"at {start:X}, with its table behind it in a page that may be written"), *budgets(image), *histories(image)]
    return rows


# ---- Jumps to what was decoded

MIDDLE = ["whole: .byte D08F", "mid: .byte D653C00250"]
SWAP = ["back: MOVL R1,R5", "MOVL R2,R1", "MOVL R5,R2", "JMP (R1)"]
TURNS = 0x44C


def jumps():
    said = "whole has MOVL #2C053D6,R0, which has INCL R3 and ADDL2 #2,R0 in it, from mid on"
    rows = ["", "family jumps into the middle of what was decoded"]
    cold = Image(["MOVAB @#mid,R1", "MOVAB @#whole,R2", "JMP (R1)", *MIDDLE, "AOBLSS #3,R4,back", "CHMK #1", *SWAP])
    rows += [*cold.rows(said), *budgets(cold)]
    warm = Image(["MOVAB @#whole,R1", "MOVAB @#mid,R2", f"MOVZWL #{TURNS:X},R6", *MIDDLE, "SOBGTR R6,whole", "AOBLSS #3,R4,back", "CHMK #1", *SWAP])
    rows += [*warm.rows(f"behind {TURNS} turns of the whole"), *budgets(warm, 3 + 2 * TURNS - 2)]
    outside = Image(["MOVAB @#1000,R1", f"MOVZWL #{TURNS:X},R6", "loop: SOBGTR R6,loop", "JMP (R1)"], "D650BC01")
    rows += [*outside.rows("to INCL R0; CHMK #1 in a page that may be written"), *budgets(outside, 2 + TURNS)]
    return rows + places()


def places():
    """Instructions 400 apart, where the low bits of their addresses are the same: a row for each end of an instruction."""
    low = ["BRB begin", "p: .word 0", "RET", "begin: CALLS #0,@#p", "INCL R3", "LOCC #41,#3,@#1000", "MOVL @#1000,R7", "BRW far",
           "near: AOBLSS #2,R4,begin", "CHMK #1"]
    padding = ".byte " + "01" * (0x404 - len(assembled(low, CODE)[0]))
    high = ["far: INCL @#1008", "NOP", "NOP", "INCL R5", "SKPC #42,#3,@#1002", "MOVL @#1004,R8", "BRW near"]
    image = Image([*low, padding, *high], "2041424344454647")
    at = {place for place in image.starts() if place ^ 0x400 in image.starts()}
    assert len(at) == 10, at
    t, rows = image.thread(), []
    while t.end is None:
        t.turn()
        rows.append(call(image.run(budget=t.steps), f" --budget {t.steps}"))
    said = f"# {'; '.join(low)}; at 604, where the same low bits are, {'; '.join(high)}"
    return [*textwrap.wrap(said, WIDTH, subsequent_indent="# "), image.file(), *rows]


# ---- Each kind, known and unknown

FIRST, SCRATCH = 0x1000, 0x1080
STORED = "05000080 03000000 F7FFFF7F 09000000 02000000 FFFFFFFF 80800000 07010000 00100000 08100000 41424344 45464748"
REGISTERS = ["R1", "R2", "R3", "R4", "R5"]


class Body:
    """Lines of a loop, with labels of their own."""

    def __init__(self):
        self.lines, self.count = [], 0

    def label(self, stem):
        self.count += 1
        return f"{stem}{self.count}"

    def add(self, *lines):
        self.lines += lines

    def keep(self, *operands):
        """The status, and operands of a longword or with another letter."""
        self.add("MOVPSL (R10)+", *(f"MOV{each[0]} {each[2:]},(R10)+" if each[1] == ":" else f"MOVL {each},(R10)+" for each in operands))

    def counts(self, test):
        """A test that may branch, and whether it did."""
        label = self.label("l")
        self.add(test + label, "INCL R9", f"{label}: MOVB R9,(R10)+")


def in_registers(body, name, kinds):
    operands = REGISTERS[:len(kinds)]
    body.add("MOVQ (R6),R1", "MOVQ 8(R6),R3", f"{name} {','.join(operands)}")
    body.keep(*([("Q:" if kinds[-1][1] == "q" else "L:") + operands[-1]] if kinds[-1][0] in "mw" else []))


def in_memory(body, name, kinds, index=""):
    if kinds[-1][0] == "m":
        body.add(f"MOVQ (R6),@#{SCRATCH:X}")
    texts = {"m": f"@#{SCRATCH:X}", "w": "(R10)+"}
    operands = [texts.get(kind[0], f"{8 * place:X}(R6){index}") for place, kind in enumerate(kinds)]
    body.add(f"{name} {','.join(operands)}")
    if name.startswith("PUSH"):
        body.keep("(SP)+")
    else:
        body.keep(*([kinds[-1][1].upper() + f":@#{SCRATCH:X}"] if kinds[-1][0] == "m" else []))


def plain(pattern):
    """Each such opcode, over registers and over memory, and addresses with an index."""
    def make(body):
        for name, kinds in TABLE.values():
            if re.fullmatch(pattern, name):
                addresses = kinds[0][0] == "a"
                if not addresses and not name.startswith("PUSH"):
                    in_registers(body, name, kinds)
                in_memory(body, name, kinds)
                if addresses:
                    in_memory(body, name, kinds, "[R7]")
    return make


def modes(body):
    body.add(f"MOVAB @#{SCRATCH:X},R8", f"MOVL #{FIRST:X},(R8)", f"MOVL #{FIRST + 8:X},4(R8)", "MOVL #3,R1", "MOVAB -100(R6),R2",
             "MOVAB -10000(R6),R3")
    for text in ("#3F", "#12345678", "R1", "(R6)", "(R8)+", "-(R8)", "@(R8)+", "@(R8)+", "@#1008", "4(R6)", "108(R2)", "10008(R3)", "@20(R6)",
                 "@120(R2)", "@10020(R3)"):
        body.add(f"MOVL {text},(R10)+")
    for text in ("(R6)[R7]", "4(R6)[R7]", "@#1000[R7]", "@20(R6)[R7]", "@24(R6)[R7]"):
        body.add(f"MOVL {text},(R10)+")
    body.add(f"MOVAB @#{SCRATCH:X},R8", "MOVL (R8)+[R7],(R10)+", "MOVL -(R8)[R7],(R10)+", "MOVL @(R8)+[R7],(R10)+", "MOVL R8,(R10)+")


def fields(body):
    for name in ("EXTV", "EXTZV"):
        body.add("MOVQ (R6),R1")
        for base in ("R1", "(R6)", "8(R6)"):
            body.add(f"{name} #1D,#7,{base},R3")
            body.keep("R3")
        body.add(f"{name} #3,#20,(R6),(R10)+", f"{name} #3,#0,(R6),(R10)+")
    for base in ("R1", f"@#{SCRATCH:X}"):
        body.add("MOVQ (R6),R1", f"MOVQ (R6),@#{SCRATCH:X}", f"INSV #15,#1E,#6,{base}")
        body.keep("Q:" + base)


def branches(body):
    for name, kinds in TABLE.values():
        if name.startswith("B") and [kind[0] for kind in kinds] == ["b"] and not name.startswith("BSB"):
            for codes in (0, 1, 2, 4, 8):
                body.add("CLRL R9", "BICPSW #F", f"BISPSW #{codes}")
                body.counts(f"{name} ")


def bits(body):
    for name in ("BBS", "BBC", "BBSS", "BBCS", "BBSC", "BBCC", "BBSSI", "BBCCI"):
        for base in ("R1", f"@#{SCRATCH:X}"):
            for position in ("#2", "#3"):
                body.add("MOVQ (R6),R1", f"MOVQ (R6),@#{SCRATCH:X}", "CLRL R9")
                body.counts(f"{name} {position},{base},")
                body.add(f"MOVB {base},(R10)+")
    for name in ("BLBS", "BLBC"):
        for operand in ("R7", "(R6)"):
            body.add("CLRL R9")
            body.counts(f"{name} {operand},")


LOOPS = [("2", "SOBGEQ {},"), ("3", "SOBGTR {},"), ("0", "AOBLSS #3,{},"), ("0", "AOBLEQ #3,{},"), ("0", "ACBB #6,#2,{},"), ("0", "ACBW #6,#2,{},"),
         ("9", "ACBL #2,#-3,{},")]


def loops(body):
    for index in ("R1", f"@#{SCRATCH:X}"):
        for first, text in LOOPS:
            label = body.label("l")
            body.add("CLRL R9", f"MOVL #{first},{index}", f"{label}: INCL R9", text.format(index) + label)
            body.keep("B:R9", index)


def selections(body):
    for name in ("CASEB", "CASEW", "CASEL"):
        for selector in ("R1", f"@#{SCRATCH:X}"):
            for value in (1, 2, 3):
                one, two, end = (body.label(stem) for stem in "abe")
                body.add(f"MOVL #{value},{selector}", f"{name} {selector},#1,#1", f".word {one},{two}", "CLRL R9", f"BRB {end}", f"{one}: MOVL #1,R9",
                         f"BRB {end}", f"{two}: MOVL #2,R9", f"{end}: MOVPSL (R10)+", "MOVL R9,(R10)+")


def subroutines(body):
    for name in ("BSBB {}", "BSBW {}", "JSB @#{}", "JSB (R1)"):
        under, behind = body.label("s"), body.label("e")
        body.add(f"MOVAB @#{under},R1", name.format(under), f"BRB {behind}", f"{under}: MOVL (SP),(R10)+", "RSB", f"{behind}: MOVL SP,(R10)+")
    for name in ("JMP @#{}", "JMP (R1)"):
        behind = body.label("j")
        body.add(f"MOVAB @#{behind},R1", name.format(behind), "BPT", f"{behind}: MOVL R1,(R10)+")


def procedures(body):
    for name in ("CALLS #2,@#{}", "CALLS (R6)+,(R1)", "CALLG (R6),@#{}", "CALLG @#1010,(R1)"):
        procedure, behind = body.label("p"), body.label("e")
        pushed = ["PUSHL #7", "PUSHL #8"] if name.startswith("CALLS #") else []
        body.add("MOVQ 8(R6),R2", f"MOVAB @#{procedure},R1", *(["MOVL #1010,R6"] if "+" in name else []), *pushed, "CMPL #1,#2",
                 name.format(procedure), f"BRB {behind}", f"{procedure}: .word 400C", "MOVPSL (R10)+", "MOVL AP,(R10)+", "MOVL (AP),(R10)+",
                 "CLRQ R2", "RET", f"{behind}: MOVPSL (R10)+", "MOVQ R2,(R10)+", "MOVL SP,(R10)+", "MOVAB @#1000,R6", f"MOVAB @#{DATA + ROOM:X},SP")


def lists(body):
    for mask, popped in (("#3E", "#3E"), ("#3E", "#1F"), ("18(R6)", "18(R6)"), ("#0", "#0")):
        body.add("MOVQ (R6),R1", "MOVQ 8(R6),R3", "MOVL #5,R5", f"PUSHR {mask}", "MOVL SP,(R10)+", "CLRL R2", f"POPR {popped}")
        body.keep("Q:R0", "Q:R2", "Q:R4", "SP")


def status(body):
    body.add("BISPSW #5", "MOVPSL (R10)+", "BICPSW #1", "MOVPSL R1", "MOVL R1,(R10)+", "BISPSW 10(R6)", "MOVPSL (R10)+",
             "BICPSW 10(R6)", "MOVPSL (R10)+", "NOP", "MOVPSL (R10)+")


def indexes(body):
    for operands in ("#3,#0,#9,#4,#2,R1", "C(R6),#0,#9,10(R6),4(R6),R1", "R7,#2,#2,R7,(R6),R1"):
        body.add(f"INDEX {operands}")
        body.keep("R1")


def runs_of_bytes(body):
    for text in ("MOVC3 #5,(R6),@#1080", "MOVC3 #4,@#1080,@#1081", "MOVC5 #2,28(R6),#2A,#5,@#1080", "MOVC5 #5,28(R6),#2A,#2,@#1083",
                 "CMPC3 #4,28(R6),28(R6)", "CMPC3 #4,28(R6),29(R6)", "CMPC3 #0,(R6),(R6)", "LOCC #44,#8,28(R6)", "LOCC #1,#4,28(R6)",
                 "SKPC #41,#8,28(R6)", "SKPC #0,10(R6),30(R6)"):
        body.add("MOVQ 8(R6),R2", "MOVQ 8(R6),R4", text)
        body.keep("Q:R0", "Q:R2", "Q:R4", *(["Q:@#1080"] if text.startswith("MOVC") else []))


def services(body):
    for code in ("#4", "#3", "#2", "10(R6)"):
        body.add("MOVL 28(R6),R0", f"CHMK {code}")
        body.keep("R0")


KINDS = {
    "addressing modes": modes, "moves": plain(r"MOV[BWLQ]|MOVZ..|MCOM.|MNEG.|CLR.|PUSHL"), "conversions": plain(r"CVT.."),
    "addresses": plain(r"(MOV|PUSH)A."), "comparisons": plain(r"CMP[BWL]|TST.|BIT."), "additions": plain(r"ADD..|INC.|ADWC|ADAWI"),
    "subtractions": plain(r"SUB..|DEC.|SBWC"), "multiplications": plain(r"MUL..|EMUL"), "divisions": plain(r"DIV.."),
    "logical operations": plain(r"(BIS|BIC|XOR)[BWL]."), "shifts": plain(r"ASHL|ROTL"), "bit fields": fields, "branches": branches,
    "branches on bits": bits, "loops": loops, "cases": selections, "subroutines and jumps": subroutines, "procedures": procedures,
    "register lists": lists, "processor status": status, "index": indexes, "character strings": runs_of_bytes, "services": services,
}


def twice():
    """Each kind in a loop of two turns: nothing is known in the first, and all in the second, which stores the same."""
    rows = ["", "family each kind when nothing of it is known, and when all is"]
    for said, make in KINDS.items():
        body = Body()
        make(body)
        lines = [f"MOVAB @#{FIRST:X},R6", f"MOVAB @#{DATA + COLD:X},R10", "loop: CLRQ R0", "CLRQ R2", "CLRQ R4", "MOVL #2,R7", "BICPSW #F",
                 *body.lines, "MOVL R10,R8", f"MOVAB @#{DATA + WARM:X},R10", "ACBL #1,#1,R11,loop", "CHMK #1"]
        image = Image(lines, STORED)
        t = image.run()
        count = t.r[8] - DATA - WARM
        stored = [bytes_at(t, DATA + place, count) for place in (COLD, WARM)]
        assert t.end[0] == "exit" and 0 < count <= MOST and stored[0] == stored[1] and t.r[11] == 2, (said, t.end, hex(t.pc), count, t.r)
        rows += [f"# {said}", image.file(), call(t), f"left interpreted 0: {t.steps:X}", f"left entries: {t.entries:X}",
                 *(f"memory {DATA + place:X} {each}" for place, each in zip((COLD, WARM), stored))]
    return rows


def main():
    before, mark, _ = (whole := FILE.read_text()).partition(BEGIN)
    assert mark, "the line behind which they stand"
    text = before + HEAD + "\n".join([*strings(), *calls(), *cases(), *jumps(), *twice()]) + "\n"
    if sys.argv[1:] == ["--check"]:
        return int(text != whole)
    FILE.write_text(text)
    return 0


if __name__ == "__main__":
    sys.exit(main())
