"""Lemmas on micro programs: what operations compute, their arguments, constants and overflows, codes, and which programs fit."""
import re
import sys

from .common import COMMON, DECLARED, VAX, lemma, list_of, number, truth
from .opcodes import CONDITIONS, NAMES, operation_of

CRATE = "vectors"
MICRO = "Rattle.micro_ops.specs"
PROGRAM = f"{MICRO}.declared.program"
OPERATIONS = ["Move", "Add", "Sub", "Mul", "And", "Or", "Xor", "AndNot", "ShiftLeft", "ShiftRight", "ShiftSigned", "SignExtend",
              "ZeroExtend", "Equal", "Less", "LessUnsigned", "SelectNonzero", "MulHigh"]
VALUES_HEAD = f"""use {DECLARED}.instr.Size.TheVariants.{{Byte, Word, Long, Quad}}
use {PROGRAM}.MicroOp.TheVariants as op
use {MICRO}.Values.{{computed, value_from}}"""

# ---- results
COMPUTATIONS_HEAD = f"""-- What each micro operation computes, by whole numbers.
{COMMON}
{VALUES_HEAD}
"""


def known_operation(name):
    if name not in OPERATIONS:
        sys.exit(f"no operation: {name}")
    return f"op.{name}"


def computations_lemma(place, line):
    name, size, a, b, held, wanted = line.split()
    return lemma(f"row{place}", f"computed {known_operation(name)} {size} {number(a)} {number(b)} {number(held)}", number(wanted), "value_from")


# ---- arguments
PLACES_HEAD = f"""-- Micro operations whose arguments stand in registers and flags.
{COMMON}
use Rattle.std.specs.Prelude.{{◌+◌}}
use {DECLARED}.state.VaxState.{{VaxState}}
use {DECLARED}.state.Pending.TheVariants.{{Nothing}}
use {PROGRAM}.Arg.{{Arg}}
use {PROGRAM}.Arg.TheVariants.{{Temp, Register, Flag, Const}}
use {PROGRAM}.MicroOp.{{MicroOp}}
use {DECLARED}.instr.Size.{{Size}}
{VALUES_HEAD}
use {MICRO}.Meaning.{{Found, Temps, value_of_arg}}

-- each register holds its number in each digit; of the flags N, V, IV and DV are set
abbrev found : Found
found = record {{
  state = record {{
    r = {list_of(f"0x{digit * 8}" for digit in "0123456789ABCDE")};
    pc = 0x200;
    psw = 0xAA;
    handler = 0;
    pending = Nothing;
  }};
  after = 0x204;
}}

-- each temporary holds its number and 1
abbrev temps : Temps
temps temp = temp + 1

abbrev result : MicroOp → Size → (a b : Arg) → (to : ℕ) → ℕ
result op size a b to = computed op size (value_of_arg found temps a) (value_of_arg found temps b) (temps to)
"""
ARGUMENTS = {"t": "Temp", "r": "Register", "f": "Flag", "c": "Const"}


def places_lemma(place, line):
    name, size, a, b, to, wanted = line.split()
    a, b = (f"({ARGUMENTS[argument[0]]} {number(argument[1:])})" for argument in (a, b))
    return lemma(f"row{place}", f"result {known_operation(name)} {size} {a} {b} {number(to)}", number(wanted), "value_from")


# ---- constants
CONSTANTS_HEAD = f"""-- What a register holds behind the words of a constant.
{COMMON}
use Rattle.std.specs.Prelude.{{◌==◌, if◌then◌else◌}}
use {DECLARED}.instr.Size.TheVariants.{{Byte, Word, Long, Quad}}
use Rattle.vt_words.specs.Quad.{{spread}}
use Rattle.alpha_encode.specs.declared.instr.AlphaInstr.{{AlphaInstr}}
use Rattle.alpha_encode.specs.declared.instr.AlphaInstr.TheVariants.{{Memory, Operate}}
use Rattle.alpha_encode.specs.declared.instr.Second.TheVariants.{{Literal}}
use Rattle.alpha_encode.specs.Registers.{{ZERO}}
use Rattle.alpha_meaning.specs.Memory.{{address_of}}
use Rattle.alpha_meaning.specs.Result.{{result_of}}
use Rattle.compute_sequences.specs.Constants.{{constant_code}}

-- what the one register that the words write holds behind them
abbrev behind : List AlphaInstr → (held : ℕ) → ℕ
behind [] held = held
behind (Memory op to from displacement ∷ words) held = behind words (address_of op (if from == ZERO then 0 else held) displacement)
behind (Operate op from (Literal literal) to ∷ words) held = behind words (result_of op held literal held)
behind (word ∷ words) held = held
"""


def constants_lemma(place, line):
    value, size, wanted = line.split()
    return lemma(f"row{place}", f"behind (constant_code {number(value)} {size} 22) 0xFFFFFFFFFFFFFFFF", number(wanted), "spread")


# ---- overflow
OVERFLOWS_HEAD = f"""-- V of sums and differences.
{COMMON}
use {VAX}.Size.{{size_of}}
use {DECLARED}.instr.Width.{{Width}}
use {DECLARED}.instr.Width.TheVariants.{{Byte, Word, Long}}
use Rattle.vt_words.specs.Arithmetic.{{sum_of, difference_of}}
use {MICRO}.Values.{{low}}
use Rattle.compute_sequences.specs.declared.overflow.Arithmetic.{{Arithmetic}}
use Rattle.compute_sequences.specs.declared.overflow.Arithmetic.TheVariants.{{Sum, Difference}}
use Rattle.compute_sequences.specs.Overflow.{{overflows}}

-- for what two registers hold
abbrev overflow : Arithmetic → Width → (a b : ℕ) → Bool
overflow arithmetic width a b = overflows arithmetic width (low (size_of width) a) (low (size_of width) b)
"""


def overflows_lemma(place, line):
    name, width, a, b, wanted = line.split()
    return lemma(f"row{place}", f"overflow {name} {width} {number(a)} {number(b)}", truth(wanted == "1"), "sum_of difference_of")


# ---- condition codes
CODES_HEAD = f"""-- The condition codes that an instruction leaves, by what the temporaries of its micro program hold.
{COMMON}
use Rattle.std.proofs.Common.{{ltb-true}}
use Rattle.std.specs.Prelude.{{◌==◌, if◌then◌else◌}}
use {DECLARED}.operation.BinaryOperation.TheVariants.{{Add, Subtract, Multiply, Divide, BitSet, BitClear, ExclusiveOr}}
use {DECLARED}.instr.Size.TheVariants as sizes
use {DECLARED}.instr.Width.TheVariants.{{Byte, Word, Long}}
use {DECLARED}.operation.Operation.TheVariants as op
use Rattle.vt_words.specs.Arithmetic.{{sum_of, difference_of}}
use {MICRO}.declared.codes.CodeSources.{{CodeSources}}
use {MICRO}.Leaving.{{SignsComeFrom, CarryComesFrom}}
use {MICRO}.Meaning.{{Temps}}
use {MICRO}.Sources.{{sources_of}}

abbrev temps : (t0 t1 t2 t3 t4 : ℕ) → Temps
temps t0 t1 t2 t3 t4 temp = if temp == 0 then t0 else if temp == 1 then t1 else if temp == 2 then t2 else if temp == 3 then t3 else t4

-- before the instruction all codes are set
abbrev Leaves : CodeSources → (left : ℕ) → Temps → Type 0
Leaves codes left temps = SignsComeFrom codes.nzv 0xF left temps × CarryComesFrom codes.c 0xF left temps
"""
LIMITS = {"B": 8, "W": 16, "L": 32, "Q": 64}
SIGNS = {"Kept": "(refl, refl, refl)", "Result": "({2}, (refl, refl, refl))", "Sum": "(({0}, {1}), refl, (refl, refl, refl))",
         "Compare": "(({0}, {1}), (refl, refl, refl))", "Computed": "({2}, refl, refl, refl)", "Psw": "refl"}
CARRIES = {"Sum": "(({0}, {1}), refl)", "Compare": "(({0}, {1}), refl)"}
# instructions by the form of their sources, and the length of their result where their name does not end with it
FORMS = {"Kept": ["NOP", "BRB", "MOVPSL"], "Psw": ["BISPSW", "BICPSW"], "Compare": ["CMP"], "Result": ["MOV", "TST", "EMUL"],
         "Sum": ["ADD", "SUB", "INC", "DEC", "MNEG", "ADAWI"], "Computed": ["MUL", "DIV", "ADWC", "SBWC", "CVT", "ACB", "SOB", "AOB", "ASH"]}
LENGTHS = {"ADAWI": "W", "EMUL": "Q", "ADWC": "L", "SBWC": "L", "SOBGTR": "L"}


def form_of(name):
    """The form of the sources of N, Z and V."""
    if name == "MOVPSL":
        return "Kept"
    for form, names in FORMS.items():
        if any(name.startswith(begin) for begin in names):
            return form
    sys.exit(f"no form: {name}")


def codes_lemma(place, line):
    _, name, *held, codes = line.split()
    held = [int(value, 16) for value in held]
    left = sum(unit for unit, code in zip((8, 4, 2, 1), codes) if code != "0")
    form = form_of(name)
    if form == "Psw":
        left += held[2] // 16 * 16
    length = LENGTHS.get(name) or name.rstrip("23")[-1]
    below = [f"ltb-true {value} {2 ** LIMITS.get(length, 32)} refl" for value in held]
    carry = CARRIES.get(form, "refl")
    lines = [f"row{place} : Leaves (sources_of {operation_of(name)}) {left} (temps {' '.join(map(str, held))})",
             "unfolding sources_of sum_of difference_of",
             f"row{place} = ({SIGNS[form].format(*below)}, {carry.format(*below)})", ""]
    return "\n".join(lines)


# ---- programs
PROGRAMS_HEAD = f"""{COMMON}
use {DECLARED}.instr.Size.TheVariants as sizes
use {PROGRAM}.Arg.TheVariants.{{Temp, Register, Flag, Const}}
use {PROGRAM}.Exit.TheVariants.{{Next, Fixed, Computed, Choice, Service, Breakpoint}}
use {PROGRAM}.LockedOp.TheVariants.{{AddWord, SetBit, ClearBit}}
use {PROGRAM}.Micro.{{Micro}}
use {PROGRAM}.Micro.TheVariants.{{Compute, Probe, Refuse, Read, Write, Locked, Commit, Codes, SetPsw, Leave}}
use {PROGRAM}.MicroOp.TheVariants as compute
use {MICRO}.declared.codes.CodeSource.TheVariants as source
use {MICRO}.declared.codes.CodeSources.{{CodeSources}}
use {MICRO}.Fits.{{fits, step}}
use {MICRO}.Sources.{{from, sources_of}}
use {MICRO}.WordCounts.{{program_words}}"""
FORMS_HEAD = f"""-- The longest forms of instructions as micro programs: how many words they are counted as, that they fit, and where codes come
-- from.
{PROGRAMS_HEAD}
use {DECLARED}.instr.Width.TheVariants.{{Byte, Word, Long}}
use {DECLARED}.operation.BinaryOperation.TheVariants.{{Add, Subtract, Multiply, Divide, BitSet, BitClear, ExclusiveOr}}
use {DECLARED}.operation.BitStore.TheVariants.{{Nothing, Plain, Interlocked}}
use {DECLARED}.operation.Condition.TheVariants.{{{', '.join(CONDITIONS.values())}}}
use {DECLARED}.operation.Operation.TheVariants as op
"""
MISFITS_HEAD = f"""-- Micro programs with one thing wrong: they don't fit.
{PROGRAMS_HEAD}
"""
SIZES = {"b": "sizes.Byte", "w": "sizes.Word", "l": "sizes.Long", "q": "sizes.Quad"}
FLAGS = {"N": 0, "Z": 1, "V": 2, "C": 3, "T": 4, "IV": 5, "FU": 6, "DV": 7, "F8": 8}
# a sign that begins as another stands before it
SIGNED = {"&~": "AndNot", "<<": "ShiftLeft", ">>s": "ShiftSigned", ">>": "ShiftRight", "==": "Equal", "<u": "LessUnsigned", "<": "Less",
          "+": "Add", "-": "Sub", "*": "Mul", "&": "And", "|": "Or", "^": "Xor"}
TAKEN, OTHER = 0x208, 0x204


def temp(text):
    return re.fullmatch(r"t(\d+)", text)[1]


def register(text):
    return "14" if text == "SP" else re.fullmatch(r"R(\d+)", text)[1]


def argument(text):
    if text[0] == "t":
        return f"(Temp {temp(text)})"
    if text[0] == "#":
        return f"(Const {number(text[1:])})"
    return f"(Flag {FLAGS[text]})" if text in FLAGS else f"(Register {register(text)})"


def computing(to, op, letter, a, b):
    return f"Compute {temp(to)} compute.{op} {SIZES[letter]} {argument(a)} {argument(b)}"


def assignment(text):
    to, value = text.split("=", 1)
    if value.startswith("sx."):
        letter, a = value[3:].split(" ")
        return computing(to, "SignExtend", letter, a, "#0")
    value, letter = value.split(".")
    for sign, op in SIGNED.items():
        if sign in value:
            return computing(to, op, letter, *value.split(sign, 1))
    return computing(to, "Move", letter, value, "#0")


def exit_of(text):
    name, *by = text.split(" ")
    if name in ("Next", "Breakpoint"):
        return name
    if name == "Fixed":
        return f"(Fixed {TAKEN})"
    return f"({name} {temp(by[0])}{f' {TAKEN} {OTHER}' if name == 'Choice' else ''})"


OPERATION_FORMS = [
    (r"PROBE([rw]) (t\d+),(\d+)", lambda way, place, count: f"Probe {temp(place)} {count} {truth(way == 'w')}"),
    (r"READ (t\d+)<-\[(t\d+)\],(\d+)", lambda to, place, count: f"Read {temp(to)} {temp(place)} {count}"),
    (r"WRITE \[(t\d+)\],(\d+)<-(t\d+)", lambda place, count, value: f"Write {temp(place)} {count} {temp(value)}"),
    (r"LOCKED (t\d+)<-\[(t\d+)\] (\w+) (t\d+)", lambda to, place, kind, value: f"Locked {temp(to)} {temp(place)} {kind} {temp(value)}"),
    (r"COMMIT (\w+)<-(t\d+)", lambda number, value: f"Commit {register(number)} {temp(value)}"),
    (r"CODES (t\d+),(t\d+),(t\d+),(t\d+|-)",
     lambda n, z, v, c: f"Codes {temp(n)} {temp(z)} {temp(v)} {'None' if c == '-' else f'(Some {temp(c)})'}"),
    (r"REFUSE (t\d+)", lambda when: f"Refuse {temp(when)}"),
    (r"SETPSW (t\d+)", lambda value: f"SetPsw {temp(value)}"),
    (r"LEAVE (.*)", lambda leaves: f"Leave {exit_of(leaves)}"),
    (r"if (\S+) (t\d+)=(\S+)\.(\w)", lambda when, to, value, letter: computing(to, "SelectNonzero", letter, when, value)),
]


def micro(text):
    """A micro operation as a term."""
    for form, term in OPERATION_FORMS:
        found = re.fullmatch(form, text)
        if found:
            return f"({term(*found.groups())})"
    return f"({assignment(text)})"


def source(text):
    name, _, letter = text.partition(".")
    return f"(source.{name} {SIZES[letter]})" if letter else f"source.{name}"


def program_of(line):
    """The opcode, where the codes come from, how many words are counted, and the operations of a row."""
    opcode, nzv, c, words, rest = line.split(" ", 4)
    operations = [] if rest == "-" else rest.split("; ")
    return opcode, f"(from {source(nzv)} {source(c)})", words, f"({list_of(map(micro, operations))})"


def forms_lemma(place, line):
    opcode, sources, words, program = program_of(line)
    lemmas = [lemma(f"fits{place}", f"fits {sources} {program}", "true", "step"),
              lemma(f"words{place}", f"program_words {sources} {program}", number(words))]
    if opcode != "-":
        operation = operation_of(NAMES[int(opcode, 16)])
        lemmas.append(lemma(f"sources{place}", f"sources_of {operation}", sources[1:-1], "sources_of"))
    return "\n".join(lemmas)


def misfits_lemma(place, line):
    _, sources, words, program = program_of(line)
    lemmas = [lemma(f"misfit{place}", f"fits {sources} {program}", "false", "step")]
    if words != "-":
        lemmas.append(lemma(f"words{place}", f"program_words {sources} {program}", number(words)))
    return "\n".join(lemmas)


TABLES = {
    "Computations": (CRATE, "computations", COMPUTATIONS_HEAD, computations_lemma),
    "Places": (CRATE, "places", PLACES_HEAD, places_lemma),
    "Constants": (CRATE, "constants", CONSTANTS_HEAD, constants_lemma),
    "Overflows": (CRATE, "overflows", OVERFLOWS_HEAD, overflows_lemma),
    "Codes": (CRATE, "codes", CODES_HEAD, codes_lemma),
    "Forms": (CRATE, "forms", FORMS_HEAD, forms_lemma),
    "Misfits": (CRATE, "misfits", MISFITS_HEAD, misfits_lemma),
}
