#!/usr/bin/env python3
"""A model of one VAX thread, a reference at a time, and an assembler of its instructions.

tools/vax_model.py ANSWERS.jsonl

It is written from the VAX Architecture Reference Manual (addressing modes, integer, address, field, control, procedure call and character
string instructions, exceptions) and from docs/DECISIONS.md where the manual leaves room, and shares nothing with the code of the crates. Names
and operands of the opcodes come from crates/vectors/data/opcodes.txt. A step is one reference, that is the part of an operand in an
aligned quadword, or the end of an instruction, which is one step more. Nothing asks it for reserved addressing modes, handlers or the trace bit.

With ANSWERS, the VAX simulator's cases as tools/instruction_rows.py reads them, it goes through each, and the status is 1 where it differs."""
import json
import pathlib
import re
import sys

TOP = pathlib.Path(__file__).resolve().parent.parent
OPCODES = TOP / "crates/vectors/data/opcodes.txt"
SIZES = {"b": 1, "w": 2, "l": 4, "q": 8}
PAGE, QUAD, SPACE = 0x200, 8, 1 << 32
N, Z, V, C, IV, FU, DV = 8, 4, 2, 1, 0x20, 0x40, 0x80
PSL = 0x03C00000
AP, FP, SP = 12, 13, 14
NAMED = {**{f"R{n}": n for n in range(12)}, "AP": AP, "FP": FP, "SP": SP}
RESERVED_OPCODE, RESERVED_OPERAND, ACCESS, BREAKPOINT, ARITHMETIC = 0x10, 0x18, 0x20, 0x2C, 0x34
OVERFLOW, DIVIDE, RANGE = 1, 2, 7
EXIT, PUT, GET = 1, 2, 3


def table():
    rows = [line.split() for line in OPCODES.read_text().splitlines() if line and not line.startswith("#")]
    return {int(row[0], 16): (row[1], row[6:]) for row in rows if row[1] != "reserved"}


TABLE = table()
CODES = {name: code for code, (name, _) in TABLE.items()}


def low(value, size):
    return value & ((1 << 8 * size) - 1)


def signed(value, size):
    value = low(value, size)
    return value - (1 << 8 * size) if value >> (8 * size - 1) else value


# ---- The assembler

def number(text, labels):
    sign, text = (-1, text[1:]) if text.startswith("-") else (1, text)
    return labels.get(text, 0) if re.fullmatch(r"[a-z]\w*", text) else sign * int(text, 16)


def specifier(text, size, labels):
    """The bytes of an operand's text: numbers are hexadecimal, and labels are in small letters."""
    if text.endswith("]"):
        base, _, index = text[:-1].rpartition("[")
        return bytes([0x40 | NAMED[index]]) + specifier(base, size, labels)
    if text.startswith("#"):
        value = number(text[1:], labels)
        return bytes([value]) if 0 <= value < 64 else b"\x8F" + low(value, size).to_bytes(size, "little")
    if text.startswith("@#"):
        return b"\x9F" + number(text[2:], labels).to_bytes(4, "little")
    deferred = text.startswith("@")
    before, register, behind = re.fullmatch(r"@?([-0-9A-F]*)\(?(\w+)\)?(\+?)$", text).groups() if "(" in text else ("R", text, "")
    place = NAMED[register]
    if before == "R":
        return bytes([0x50 | place])
    if behind:
        return bytes([(0x90 if deferred else 0x80) | place])
    if before in ("", "-"):
        return bytes([(0x70 if before else 0x60) | place])
    value = number(before, labels)
    kind, count = next(pair for pair in ((0xA0, 1), (0xC0, 2), (0xE0, 4)) if signed(value, pair[1]) == value)
    return bytes([kind | (0x10 if deferred else 0) | place]) + low(value, count).to_bytes(count, "little")


def instruction(text, here, labels):
    """The bytes of one line: an instruction, `.word` with words or labels, which are then counted from here, or `.byte`."""
    name, _, rest = text.partition(" ")
    operands = rest.split(",") if rest else []
    if name == ".byte":
        return bytes.fromhex(rest)
    if name == ".word":
        words = (labels.get(each, here) - here if re.fullmatch(r"[a-z]\w*", each) else int(each, 16) for each in operands)
        return b"".join(low(word, 2).to_bytes(2, "little") for word in words)
    kinds, code = TABLE[CODES[name]][1], bytes([CODES[name]])
    assert len(kinds) == len(operands), text
    for kind, operand in zip(kinds, operands):
        size = SIZES[kind[1]]
        if kind[0] == "b":
            away = labels.get(operand, here) - (here + len(code) + size) if labels else 0
            assert signed(away, size) == away, text
            code += low(away, size).to_bytes(size, "little")
        else:
            code += specifier(operand, size, labels)
    return code


def assembled(lines, start):
    """The code of lines, in which a text with a colon before it has that label, and the labels."""
    labels = {}
    for _ in range(2):
        code, found = b"", {}
        for line in lines:
            label, colon, text = line.rpartition(": ")
            if colon:
                found[label] = start + len(code)
            code += instruction(text, start + len(code), labels)
        labels = found
    return code, labels


# ---- The thread

class Fault(Exception):
    """An exception before whose instruction the thread stands."""


class Spent(Exception):
    """No step is left, or the history is full."""


class Operand:
    """An operand whose specifier was evaluated: its value, and where it stands, in a register or at an address."""

    def __init__(self, size, value=None, register=None, address=None):
        self.size, self.value, self.register, self.address = size, value, register, address


class Thread:
    """R0 to R14, the PC, the PSW, and memory by bytes, whose pages may be read alone or be written too."""

    def __init__(self, pc, sp, sections, budget=None, events=None):
        self.r, self.pc, self.psw = [0] * SP + [sp], pc, 0
        self.memory, self.pages = {}, {}
        for address, size, data, writable in sections:
            for place in range(address // PAGE, (address + size - 1) // PAGE + 1):
                self.pages[place] = writable
            self.memory.update(enumerate(data, address))
        self.budget, self.events = budget, events
        self.steps = self.entries = self.retired = 0
        self.out, self.end, self.trap, self.exits, self.any_code = b"", None, None, False, False
        self.show()

    def show(self):
        self.shown = list(self.r), self.pc, self.psw

    def step(self, asks):
        if self.steps == self.budget or asks and self.entries == self.events:
            raise Spent
        self.steps += 1
        self.entries += asks

    # -- Memory

    def parts(self, address, size):
        while size:
            count = min(size, QUAD - address % QUAD)
            yield address, count
            address, size = (address + count) % SPACE, size - count

    def check(self, address, size, writes):
        for part, count in self.parts(address % SPACE, size):
            may = self.pages.get(part // PAGE)
            if may is None or writes and not may:
                raise Fault(ACCESS, part, int(writes))

    def read(self, address, size):
        self.check(address, size, False)
        data = b""
        for part, count in self.parts(address % SPACE, size):
            self.step(True)
            data += bytes(self.memory.get(part + place, 0) for place in range(count))
        return int.from_bytes(data, "little")

    def write(self, address, size, value):
        data = low(value, size).to_bytes(size, "little")
        for part, count in self.parts(address % SPACE, size):
            self.step(True)
            self.memory.update(enumerate(data[:count], part))
            data = data[count:]

    def code(self, address, size):
        """Bytes of the code, from pages that may be read alone."""
        for place in range(size):
            page = self.pages.get((address + place) % SPACE // PAGE)
            if page is None or page and not self.any_code:
                raise Fault(ACCESS, (address + place) % SPACE, 0)
        return int.from_bytes(bytes(self.memory.get(address + place, 0) for place in range(size)), "little")

    def fetch(self, size):
        value = self.code(self.pc, size)
        self.pc = (self.pc + size) % SPACE
        return value

    def push(self, value):
        self.check(self.r[SP] - 4, 4, True)
        self.r[SP] = (self.r[SP] - 4) % SPACE
        self.write(self.r[SP], 4, value)

    def pop(self):
        value = self.read(self.r[SP], 4)
        self.r[SP] = (self.r[SP] + 4) % SPACE
        return value

    # -- Operands

    def decoded(self, size):
        """A specifier: its mode, its register, and the number behind it."""
        mode, register = divmod(self.fetch(1), 16)
        if mode < 4:
            return "value", 0, 16 * mode + register, None
        if mode == 4:
            kind, base, extra, _ = self.decoded(size)
            return kind, base, extra, register
        if mode in (8, 9) and register == 15:
            place = self.pc
            return ("value", place, self.fetch(size), None) if mode == 8 else ("address", 0, self.fetch(4), None)
        if mode < 10:
            return ["register", "deferred", "decrement", "increment", "increment deferred"][mode - 5], register, 0, None
        count = [1, 2, 4][(mode - 10) // 2]
        away = signed(self.fetch(count), count)
        if register == 15:
            kind, register, away = "relative", 0, away + self.pc
        else:
            kind = "displacement"
        return kind + (" deferred" if mode % 2 else ""), register, away, None

    def address(self, kind, register, extra, index, size):
        """The address of an operand in memory; registers are stepped, and a pointer is read."""
        if kind == "decrement":
            self.r[register] = (self.r[register] - size) % SPACE
        found = extra if kind in ("address", "relative", "relative deferred") else self.r[register] + extra
        if kind.startswith("increment"):
            self.r[register] = (self.r[register] + (4 if kind.endswith(" deferred") else size)) % SPACE
        if kind.endswith(" deferred"):
            found = self.read(found, 4)
        return (found + (self.r[index] * size if index is not None else 0)) % SPACE

    def operand(self, access, size, found):
        kind, register, extra, index = found
        if kind == "value":
            return Operand(size, register if access == "a" else low(extra, size), address=register)
        if kind == "register":
            count = -(-size // 4)
            value = low(sum(self.r[register + place] << 32 * place for place in range(count)), size) if access in "rm" else None
            return Operand(size, value, register=register)
        address = self.address(*found, size)
        if access == "m":
            self.check(address, size, True)
        value = self.read(address, size) if access in "rm" else address if access == "a" else None
        return Operand(size, value, address=address)

    def store(self, operand, value):
        size, register = operand.size, operand.register
        if register is None:
            self.check(operand.address, size, True)
            self.write(operand.address, size, value)
        elif size == 8:
            self.r[register:register + 2] = low(value, 4), low(value >> 32, 4)
        else:
            self.r[register] = low(value, size) | self.r[register] >> 8 * size << 8 * size

    # -- Codes and instructions

    def codes(self, value, size, v=0, c=None):
        """N and Z by a value, V, and C unless it is kept."""
        kept = self.psw & ~(N | Z | V) & (~0 if c is None else ~C)
        self.psw = kept | (N if signed(value, size) < 0 else 0) | (0 if low(value, size) else Z) | (V if v else 0) | (C if c else 0)

    def compared(self, a, b, size):
        """The codes of a comparison."""
        self.codes(signed(a, size) - signed(b, size), size + 1, 0, low(a, size) < low(b, size))

    def overflows(self):
        if self.psw & V and self.psw & IV:
            self.trap = self.trap or OVERFLOW

    def instruction(self):
        """One instruction, up to its end."""
        code = self.fetch(1)
        if code not in TABLE:
            raise Fault(RESERVED_OPCODE)
        name, kinds = TABLE[code]
        found = []
        for kind in kinds:
            size = SIZES[kind[1]]
            if kind[0] == "b":
                away = signed(self.fetch(size), size)
                found.append(Operand(size, (self.pc + away) % SPACE))
            else:
                access = "w" if name == "ADAWI" and kind[0] == "m" else kind[0]
                found.append((access, size, self.decoded(size)))
        operands = [each if isinstance(each, Operand) else self.operand(*each) for each in found]
        body = next(body for pattern, body in BODIES if re.fullmatch(pattern, name))
        body(self, name, operands)

    def retire(self):
        self.step(False)
        self.retired += 1
        self.show()
        if self.trap or self.exits:
            self.end = ("trap", self.trap) if self.trap else ("exit", self.r[0])

    def turn(self):
        try:
            self.instruction()
            self.retire()
        except Fault as fault:
            self.step(False)
            self.end = ("fault", *fault.args)

    def run(self):
        try:
            while self.end is None:
                self.turn()
        except Spent:
            self.end = ("spent",)
        return self


# ---- What each instruction does

def moves(t, name, ops):
    value = ops[0].value
    if name.startswith("MCOM"):
        value = ~value
    t.store(ops[-1], low(value, ops[-1].size))
    t.codes(value, ops[-1].size)


def clears(t, _, ops):
    t.store(ops[0], 0)
    t.codes(0, ops[0].size)


def converts(t, _, ops):
    value, size = signed(ops[0].value, ops[0].size), ops[1].size
    t.store(ops[1], value)
    t.codes(value, size, signed(value, size) != value, 0)
    t.overflows()


def move_address(t, name, ops):
    if name.startswith("PUSH"):
        t.push(ops[0].value)
    else:
        t.store(ops[-1], ops[0].value)
    t.codes(ops[0].value, 4)


def tests(t, name, ops):
    if name.startswith("BIT"):
        t.codes(ops[0].value & ops[1].value, ops[0].size)
    else:
        t.compared(ops[0].value, ops[1].value if len(ops) > 1 else 0, ops[0].size)


def sums(t, name, ops):
    """Sums and differences: the first operand is added to the second, or taken from it."""
    size, carry = ops[-1].size, t.psw & C if name in ("ADWC", "SBWC") else 0
    second = 0 if name.startswith("MNEG") else ops[1].value if len(ops) > 1 else ops[0].value
    first = 1 if name[:3] in ("INC", "DEC") else ops[0].value
    if name[:2] in ("AD", "IN"):
        whole, true = first + second + carry, signed(first, size) + signed(second, size) + carry
    else:
        whole, true = second - first - carry, signed(second, size) - signed(first, size) - carry
    t.store(ops[-1], low(whole, size))
    t.codes(whole, size, signed(whole, size) != true, low(whole, size) != whole)
    t.overflows()


def adds_interlocked(t, name, ops):
    """One reference reads and writes, behind all specifiers."""
    if ops[1].register is None:
        if ops[1].address % 2:
            raise Fault(RESERVED_OPERAND)
        t.check(ops[1].address, 2, True)
        t.step(True)
        ops[1].value = int.from_bytes(bytes(t.memory.get(ops[1].address + place, 0) for place in range(2)), "little")
        data = low(ops[0].value + ops[1].value, 2).to_bytes(2, "little")
        t.memory.update(enumerate(data, ops[1].address))
    else:
        ops[1].value = low(t.r[ops[1].register], 2)
        t.store(ops[1], ops[0].value + ops[1].value)
    whole, true = ops[0].value + ops[1].value, signed(ops[0].value, 2) + signed(ops[1].value, 2)
    t.codes(whole, 2, signed(whole, 2) != true, whole >> 16)
    t.overflows()


def products(t, name, ops):
    size = ops[-1].size
    first, second = signed(ops[0].value, size), signed(ops[1].value, size)
    true = first * second
    if name.startswith("DIV"):
        true = abs(second) // abs(first) * (-1 if (first < 0) != (second < 0) else 1) if first else second
        t.trap = None if first else DIVIDE
    t.store(ops[-1], low(true, size))
    t.codes(true, size, signed(true, size) != true or name.startswith("DIV") and not first, 0)
    t.overflows()


def logic(t, name, ops):
    first, second = ops[0].value, ops[1].value
    value = {"BIS": first | second, "BIC": second & ~first, "XOR": first ^ second}[name[:3]]
    t.store(ops[-1], value)
    t.codes(value, ops[-1].size)


def shifts(t, name, ops):
    count, source = signed(ops[0].value, 1), ops[1].value
    if name == "ROTL":
        value = low(source << count % 32 | source >> (32 - count % 32) % 33, 4)
        t.codes(value, 4)
    else:
        true = signed(source, 4) << count if count >= 0 else signed(source, 4) >> min(-count, 31)
        value = low(true, 4)
        t.codes(value, 4, signed(value, 4) != true, 0)
    t.store(ops[2], value)
    t.overflows()


def multiplies_long(t, _, ops):
    value = low(signed(ops[0].value, 4) * signed(ops[1].value, 4) + signed(ops[2].value, 4), 8)
    t.store(ops[3], value)
    t.codes(value, 8, 0, 0)


def indexes(t, _, ops):
    subscript, least, most = (signed(each.value, 4) for each in ops[:3])
    value = low((ops[4].value + ops[0].value) * ops[3].value, 4)
    t.store(ops[5], value)
    t.codes(value, 4, 0, 0)
    t.trap = None if least <= subscript <= most else RANGE


def status(t, name, ops):
    if name == "MOVPSL":
        t.store(ops[0], PSL | t.psw)
        return
    if ops[0].value >> 8:
        raise Fault(RESERVED_OPERAND)
    t.psw = t.psw | ops[0].value if name == "BISPSW" else t.psw & ~ops[0].value


def pushes(t, name, ops):
    t.push(ops[0].value)
    t.codes(ops[0].value, 4)


def push_list(t, _, ops):
    values = [t.r[place] for place in range(14, -1, -1) if ops[0].value >> place & 1]
    for place in range(len(values)):
        t.check(t.r[SP] - 4 * (place + 1), 4, True)
    for value in values:
        t.push(value)


def pop_list(t, _, ops):
    last = None
    for place in range(15):
        if ops[0].value >> place & 1:
            value = t.pop()
            if place == SP:
                last = value
            else:
                t.r[place] = value
    t.r[SP] = t.r[SP] if last is None else last


def is_met(name, psw):
    n, z, v, c = psw & N, psw & Z, psw & V, psw & C
    return bool({"BRB": 1, "BRW": 1, "BNEQ": not z, "BEQL": z, "BGTR": not (n or z), "BLEQ": n or z, "BGEQ": not n, "BLSS": n,
                 "BGTRU": not (c or z), "BLEQU": c or z, "BVC": not v, "BVS": v, "BCC": not c, "BCS": c}[name])


def branches(t, name, ops):
    if is_met(name, t.psw):
        t.pc = ops[0].value


def low_bits(t, name, ops):
    if ops[0].value & 1 == (name == "BLBS"):
        t.pc = ops[1].value


def bits(t, name, ops):
    position, base = ops[0].value, ops[1]
    wanted, left = name[2] == "S", {"S": 1, "C": 0}.get(name[3:4])
    if base.register is not None:
        if position > 31:
            raise Fault(RESERVED_OPERAND)
        bit, place = t.r[base.register] >> position & 1, base.register
        if left is not None:
            t.r[place] = t.r[place] & ~(1 << position) | left << position
    else:
        address, bit = (base.address + (signed(position, 4) >> 3)) % SPACE, position & 7
        if left is None:
            byte = t.read(address, 1)
        else:
            t.check(address, 1, True)
            byte = t.memory.get(address, 0) if name.endswith("I") else t.read(address, 1)
            t.write(address, 1, byte & ~(1 << bit) | left << bit)
        bit = byte >> bit & 1
    if bit == wanted:
        t.pc = ops[2].value


def field(t, position, size, base):
    """A bit field: a register's number and the bit in it, or the address of its first byte, the bytes, and the bit in them."""
    if size > 32:
        raise Fault(RESERVED_OPERAND)
    if base.register is not None:
        if size and position > 31:
            raise Fault(RESERVED_OPERAND)
        return None
    first, last = signed(position, 4) >> 3, (signed(position, 4) + size - 1) >> 3
    return (base.address + first) % SPACE, last - first + 1, position & 7


def registers_of(t, base):
    following = t.r[base.register + 1] if base.register < SP else 0
    return t.r[base.register] | following << 32


def extracts(t, name, ops):
    position, size, base = ops[0].value, ops[1].value, ops[2]
    where, value = field(t, position, size, base), 0
    if size:
        value = registers_of(t, base) >> position if where is None else t.read(*where[:2]) >> where[2]
        value &= (1 << size) - 1
        if name == "EXTV" and value >> (size - 1):
            value -= 1 << size
    t.store(ops[3], low(value, 4))
    t.codes(value, 4)


def inserts(t, _, ops):
    source, position, size, base = ops[0].value, ops[1].value, ops[2].value, ops[3]
    where, mask = field(t, position, size, base), (1 << size) - 1
    if size and where is None:
        value = registers_of(t, base) & ~(mask << position) | (source & mask) << position
        t.r[base.register] = low(value, 4)
        if position + size > 32:
            t.r[base.register + 1] = low(value >> 32, 4)
    elif size:
        address, count, bit = where
        t.check(address, count, True)
        t.write(address, count, t.read(address, count) & ~(mask << bit) | (source & mask) << bit)


def loops(t, name, ops):
    """SOB, AOB and ACB: what is added to the index, and whether it branches."""
    index, size = ops[-2], ops[-2].size
    added = -1 if name.startswith("SOB") else 1 if name.startswith("AOB") else signed(ops[1].value, size)
    true = signed(index.value, size) + added
    value = signed(true, size)
    limit = 0 if name.startswith("SOB") else signed(ops[0].value, size)
    goes = {"SOBGEQ": value >= 0, "SOBGTR": value > 0, "AOBLSS": value < limit, "AOBLEQ": value <= limit}
    t.store(index, low(true, size))
    t.codes(true, size, value != true)
    t.overflows()
    if goes.get(name, value <= limit if added >= 0 else value >= limit):
        t.pc = ops[-1].value


def cases(t, _, ops):
    size, start = ops[0].size, t.pc
    difference, limit = low(ops[0].value - ops[1].value, size), ops[2].value
    t.compared(difference, limit, size)
    away = signed(t.code(start + 2 * difference, 2), 2) if difference <= limit else 2 * (limit + 1)
    t.pc = (start + away) % SPACE


def jumps(t, name, ops):
    target = t.pop() if name == "RSB" else ops[0].value
    if name in ("BSBB", "BSBW", "JSB"):
        t.push(t.pc)
    t.pc = target


def calls(t, name, ops):
    destination, by_stack = ops[1].value, name == "CALLS"
    mask = t.code(destination, 2)
    if mask >> 12 & 3:
        raise Fault(RESERVED_OPERAND)
    top = t.r[SP] - 4 if by_stack else t.r[SP]
    spare = top & 3
    state = spare << 30 | by_stack << 29 | (mask & 0xFFF) << 16 | t.psw & 0xFFE0
    values = [t.r[place] for place in range(11, -1, -1) if mask >> place & 1] + [t.pc, t.r[FP], t.r[AP], state, 0]
    addresses = [t.r[SP] - 4] * by_stack + [top - spare - 4 * (place + 1) for place in range(len(values))]
    for address in addresses:
        t.check(address, 4, True)
    for address, value in zip(addresses, [ops[0].value] * by_stack + values):
        t.write(address % SPACE, 4, value)
    t.r[SP] = t.r[FP] = addresses[-1] % SPACE
    t.r[AP] = top % SPACE if by_stack else ops[0].value
    t.psw = t.psw & ~(N | Z | V | C | FU | DV | IV) | (DV if mask >> 15 else 0) | (IV if mask >> 14 & 1 else 0)
    t.pc = (destination + 2) % SPACE


def returns(t, _, ops):
    state = t.read(t.r[FP] + 4, 4)
    if state >> 8 & 0xFF:
        raise Fault(RESERVED_OPERAND)
    t.r[SP] = (t.r[FP] + 8) % SPACE
    t.r[AP], t.r[FP], t.pc = t.pop(), t.pop(), t.pop()
    for place in range(12):
        if state >> 16 + place & 1:
            t.r[place] = t.pop()
    t.r[SP] = (t.r[SP] + (state >> 30)) % SPACE
    t.psw = state & 0xFFFF
    if state >> 29 & 1:
        count = t.pop()
        t.r[SP] = (t.r[SP] + 4 * (count & 0xFF)) % SPACE


def move_strings(t, name, ops):
    whole, source, destination = ops[0].value, ops[1].value, ops[-1].value
    length, fill = (whole, 0) if name == "MOVC3" else (ops[3].value, ops[2].value)
    moved = min(whole, length)
    for place in range(moved):
        t.check(source + place, 1, False)
    for place in range(length):
        t.check(destination + place, 1, True)
    for place in range(moved) if destination <= source else reversed(range(moved)):
        t.write((destination + place) % SPACE, 1, t.read(source + place, 1))
    for place in range(moved, length):
        t.write((destination + place) % SPACE, 1, fill)
    t.r[:6] = [whole - moved, (source + moved) % SPACE, 0, (destination + length) % SPACE, 0, 0]
    t.compared(whole, length, 2)


def compare_strings(t, _, ops):
    left, first, second = (each.value for each in ops)
    a = b = 0
    while left:
        a, b = t.read(first, 1), t.read(second, 1)
        if a != b:
            break
        left, first, second = left - 1, (first + 1) % SPACE, (second + 1) % SPACE
    t.r[:4] = [left, first, left, second]
    t.compared(a, b, 1)


def find_bytes(t, name, ops):
    wanted, left, address = (each.value for each in ops)
    while left and (t.read(address, 1) == wanted) != (name == "LOCC"):
        left, address = left - 1, (address + 1) % SPACE
    t.r[:2] = [left, address]
    t.codes(left, 4, 0, 0)
    t.psw &= ~N


def services(t, _, ops):
    """CHMK is this system's own."""
    if ops[0].value == EXIT:
        t.exits = True
    elif ops[0].value == PUT:
        t.step(True)
        t.out += bytes([t.r[0] & 0xFF])
    elif ops[0].value == GET:
        t.step(True)
        t.r[0] = SPACE - 1
    else:
        t.r[0] = 0


def nothing(t, name, _):
    if name == "BPT":
        raise Fault(BREAKPOINT)


BODIES = [
    (r"NOP|BPT", nothing), (r"MOVPSL|BI[SC]PSW", status), (r"MOVC[35]", move_strings), (r"CMPC3", compare_strings), (r"LOCC|SKPC", find_bytes),
    (r"(MOV|PUSH)A.", move_address), (r"MOV[BWLQ]|MOVZ..|MCOM.", moves), (r"CLR.", clears), (r"CVT..", converts), (r"CMP.|TST.|BIT.", tests),
    (r"ADAWI", adds_interlocked), (r"(ADD|SUB)..|INC.|DEC.|ADWC|SBWC|MNEG.", sums), (r"(MUL|DIV)..", products), (r"(BIS|BIC|XOR)..", logic),
    (r"ASHL|ROTL", shifts), (r"EMUL", multiplies_long), (r"INDEX", indexes), (r"PUSHL", pushes), (r"PUSHR", push_list), (r"POPR", pop_list),
    (r"BLB.", low_bits), (r"BB[SC]([SC]I?)?", bits), (r"BSB.|JSB|JMP|RSB", jumps), (r"EXTZ?V", extracts), (r"INSV", inserts),
    (r"SOB...|AOB...|ACB.", loops), (r"CASE.", cases), (r"CALL.", calls), (r"RET", returns), (r"CHMK", services),
    (r"B(RB|RW|NEQ|EQL|GTRU?|LEQU?|GEQ|LSS|VC|VS|CC|CS)", branches),
]


# ---- The simulator's cases

class Everywhere(dict):
    """Pages: each may be written."""

    def get(self, _place, _default=None):
        return True


def differs(case):
    """Whether the model leaves something else behind an instruction than the simulator, all of whose memory may be read and written."""
    t = Thread(int(case["pc"], 16), 0, [])
    t.r, t.psw, t.any_code = [int(each, 16) for each in case["regs"]], int(case["psw"], 16), True
    t.pages = Everywhere()
    for start, data in case["memory"].items():
        t.memory.update(enumerate(bytes.fromhex(data), int(start, 16)))
    wanted = dict(t.memory)
    t.turn()
    for start, data in case["memory2"].items():
        wanted.update(enumerate(bytes.fromhex(data), int(start, 16)))
    end = {"step": lambda: t.end is None, "trap": lambda: t.end == ("trap", case["stop"][1]),
           "fault": lambda: t.end and t.end[:2] == ("fault", case["stop"][1])}[case["stop"][0]]()
    if case["stop"][0] == "fault":
        return not end
    return not (end and t.pc == int(case["pc2"], 16) and t.psw == int(case["psw2"], 16) and t.r == [int(each, 16) for each in case["regs2"]]
                and all(byte == wanted.get(place, 0) for place, byte in t.memory.items()))


def main():
    cases_of = [json.loads(line) for line in open(sys.argv[1])]
    wrong = [case for case in cases_of if differs(case)]
    for case in wrong:
        print(f"{case['name']} at {case['pc']}: the model leaves something else")
    print(f"{len(cases_of) - len(wrong)} of {len(cases_of)} agree")
    return 1 if wrong else 0


if __name__ == "__main__":
    sys.exit(main())
