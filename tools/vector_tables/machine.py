"""Lemmas on whole-number arithmetic, and on the operations and words of Alpha."""
import re
import sys

from .common import COMMON, lemma, number, signed, truth

# ---- whole-number arithmetic of the VAX
ARITHMETIC = {"ADD": "sum_of", "SUB": "difference_of", "MUL": "product_of", "DIV": "quotient_of", "MNEG": "negation_of"}
ARITHMETIC_HEAD = f"""-- What the VAX simulator SIMH answers to whole-number arithmetic.
{COMMON}
use Rattle.vt_words.specs.declared.arithmetic.Coded.{{Coded}}
use Rattle.vt_words.specs.Arithmetic.{{sum_of, difference_of, negation_of, product_of, quotient_of}}

abbrev coded : (value : ℕ) (n z v c : Bool) → Coded
coded value n z v c = record {{ value = value; n = n; z = z; v = v; c = c }}
"""


def arithmetic_lemma(place, line):
    name, size, a, b, carry, value, codes = line.split()
    a, b = number(a), number(b)
    carries = f" {truth(carry == '1')}" if name in ("ADD", "SUB") else ""
    operands = a if name == "MNEG" else f"{a} {b}"
    flags = " ".join(truth(code == "1") for code in codes)
    return lemma(f"row{place}", f"{ARITHMETIC[name]} {size} {operands}{carries}", f"coded {number(value)} {flags}",
                 "sum_of difference_of product_of quotient_of")


# ---- operations on registers of Alpha
OPERATES_HEAD = f"""-- What the emulator QEMU answers to Alpha's operations on registers.
{COMMON}
use Rattle.alpha_encode.specs.declared.instr.OperateOp.TheVariants as row
use Rattle.alpha_meaning.specs.Result.{{result_of}}
use Rattle.vt_words.specs.Quad.{{spread}}
"""


def operates_lemma(place, line):
    name, a, b, held, wanted = line.split()
    return lemma(f"row{place}", f"result_of row.{name} {number(a)} {number(b)} {number(held)}", number(wanted), "spread")


# ---- words of Alpha instructions
WORDS_HEAD = f"""-- Words of the GNU assembler for Alpha, with the instructions that they spell.
{COMMON}
use Rattle.std.specs.Prelude.{{ℤ, pos, negsuc}}
use Rattle.alpha_encode.specs.declared.instr.AlphaInstr.{{AlphaInstr}}
use Rattle.alpha_encode.specs.declared.instr.AlphaInstr.TheVariants.{{Memory, Branch, Operate, Jump, Pal}}
use Rattle.alpha_encode.specs.declared.instr.Second.TheVariants.{{Register, Literal}}
use Rattle.alpha_encode.specs.declared.instr.MemoryOp.TheVariants as memory
use Rattle.alpha_encode.specs.declared.instr.BranchOp.TheVariants as branches
use Rattle.alpha_encode.specs.declared.instr.OperateOp.TheVariants as row
use Rattle.alpha_encode.specs.Words.{{instr_at, word_of}}
"""
FORMS = [
    (re.compile(r"(\w+) R(\d+),(-?\d+)\(R(\d+)\)$"), lambda op, ra, disp, rb: f"Memory memory.{op} {ra} {rb} {signed(int(disp))}"),
    (re.compile(r"(\w+) R(\d+),([+-]\d+) words$"), lambda op, ra, disp: f"Branch branches.{op} {ra} {signed(int(disp))}"),
    (re.compile(r"(\w+) R(\d+),R(\d+),R(\d+)$"), lambda op, ra, rb, rc: f"Operate row.{op} {ra} (Register {rb}) {rc}"),
    (re.compile(r"(\w+) R(\d+),#(\w+),R(\d+)$"), lambda op, ra, rb, rc: f"Operate row.{op} {ra} (Literal {number(rb)}) {rc}"),
    (re.compile(r"Jmp R(\d+),\(R(\d+)\)$"), lambda ra, rb: f"Jump {ra} {rb}"),
    (re.compile(r"Pal (\w+)$"), lambda pal: f"Pal {number(pal)}"),
]


def instruction_of(text):
    for form, term in FORMS:
        found = form.match(text)
        if found:
            return term(*found.groups())
    sys.exit(f"no instruction: {text}")


def words_lemma(place, line):
    row = line.split()
    word, text = number(row[0]), " ".join(row[1:])
    if row[1] == "none":
        return lemma(f"row{place}", f"instr_at {word}", "None")
    instr = instruction_of(text)
    return lemma(f"row{place}", f"instr_at {word}", f"Some ({instr})") + "\n" + lemma(f"back{place}", f"word_of ({instr})", word)


TABLES = {
    "Arithmetic": ("vectors", "arithmetic", ARITHMETIC_HEAD, arithmetic_lemma),
    "Operates": ("vectors", "operates", OPERATES_HEAD, operates_lemma),
    "Words": ("vectors", "words", WORDS_HEAD, words_lemma),
}
