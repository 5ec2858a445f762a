"""Lemmas on VAX instructions: state and memory before one, and how it ends."""
import re

from .common import COMMON, CRATES, DECLARED, VAX, list_of, truth

CRATE = "vectors"
REGISTERS = 15
# the longest instruction of the tables has fewer bytes
INSTRUCTION_BYTES = 48
# pages that have code and may not be written, where an instruction reads more of the code than itself
CODE_PAGES, CODE_BYTES, ALL_PAGES = 10, 5120, 4194304
READS_CODE = re.compile(r"CASE|CALL")
# crates whose definitions a row computes with
COMPUTED = ["vt_words", "vax_form", "vax_meaning", "vax_long"]


def definitions():
    """The lines that bring the definitions which unfold only where they are named, and their names."""
    lines, names = [], []
    for crate in COMPUTED:
        for file in sorted((CRATES / crate / "specs").glob("*.antt")):
            found = re.findall(r"^unfoldable pub (\S+)(?: \{\S+\})? :", file.read_text(), re.M)
            terms = []
            for name in found:
                other = name
                while other in names:
                    other += "'"
                names.append(other)
                terms.append(name if other == name else f"{name} as {other}")
            if terms:
                lines.append(f"use Rattle.{crate}.specs.{file.stem}.{{{', '.join(terms)}}}")
    return lines, names


def head():
    uses, names = definitions()
    return f"""-- What stands behind one instruction: registers, PC, PSW, exception, and each byte that was written.
{COMMON}
use Rattle.std.proofs.Common.{{◌+◌, ◌-◌, ◌++◌}}
use Rattle.std.specs.Prelude.{{◌*◌, ◌/◌, ◌%◌, ◌^◌, ◌==◌, ◌&&◌, zero, suc, map, nat_le, nat_lt, if◌then◌else◌}}
use Rattle.std.specs.List.{{list_all, range_with_len}}
use {VAX}.Tree.{{Tree, Check, Ask, Fault, Ends, ending_outcome, instruction_tree, unless_bad}}
use {VAX}.Pages.{{first_bad}}
use {VAX}.References.{{byte_count, reply_of, changed, with_byte}}
use {DECLARED}.pages.Pages.{{Pages}}
use {DECLARED}.pages.PageRange.{{PageRange}}
use {DECLARED}.state.Reference.{{Reference}}
use {DECLARED}.state.VaxState.{{VaxState}}
use {DECLARED}.state.Outcome.{{Outcome}}
use {DECLARED}.state.Outcome.TheVariants.{{Done, Raises}}
use {DECLARED}.state.Exception.TheVariants.{{AccessViolation, Arithmetic, Breakpoint, ReservedOperand}}
use {DECLARED}.state.Pending.TheVariants as pending
use Rattle.vax_long.specs.Instructions.{{script_found}}
{chr(10).join(uses)}

-- a byte for each address
abbrev Bytes : Type 0
Bytes = ℕ → ℕ

-- so many bytes from an address on are those of a number, the lowest first
abbrev area : (first count number : ℕ) → Bytes → Bytes
area first count number other at = if nat_le first at && nat_lt at (first + count) then number / 256 ^ (at - first) % 256 else other at

abbrev empty : Bytes
empty at = 0

abbrev state_of : (r : List ℕ) → (pc psw : ℕ) → VaxState
state_of r pc psw = record {{ r = r; pc = pc; psw = psw; handler = 0; pending = pending.Nothing }}

-- ---- pages
abbrev writable_pages : Bytes → Pages
writable_pages bytes = record {{ ranges = record {{ first = 0; count = {ALL_PAGES}; writable = true; place = 0 }} ∷ []; code = [] }}

-- the code from address 0 on
abbrev code_pages : Bytes → Pages
code_pages bytes = record {{
  ranges = record {{ first = 0; count = {CODE_PAGES}; writable = false; place = 0 }}
      ∷ record {{ first = {CODE_PAGES}; count = {ALL_PAGES - CODE_PAGES}; writable = true; place = 0 }} ∷ [];
  code = map bytes (range_with_len 0 {CODE_BYTES});
}}

-- ---- runs
-- what is seen of an end, the bytes that are left, and the addresses of those that references named
abbrev Left : Type 0
Left = Outcome × Bytes × List ℕ

abbrev named : Reference → List ℕ
named reference = range_with_len reference.address (byte_count reference)

-- goes down a tree from a state and a memory
walk : Pages → (before : VaxState) → Tree → Bytes → List ℕ → Left
walk pages before (Check address count write tree) bytes seen =
    unless_bad (first_bad pages write address count) (λ exception. (Raises exception before, bytes, seen)) write (walk pages before tree bytes seen)
walk pages before (Ask reference on) bytes seen =
    walk pages before (on (reply_of reference bytes 0)) (changed reference bytes) (named reference ++ seen)
walk pages before (Fault exception) bytes seen = (Raises exception before, bytes, seen)
walk pages before (Ends end) bytes seen = (ending_outcome end, bytes, seen)

-- what stands at the PC
tree_in : Pages → VaxState → Bytes → Tree
tree_in pages state bytes =
    instruction_tree pages (script_found (found_in state.pc (map bytes (range_with_len state.pc {INSTRUCTION_BYTES}))) 0) state

abbrev agree : Bytes → Bytes → List ℕ → Bool
agree some others at = list_all (λ a. some a == others a) at

-- the end of what stands at the PC, and whether each byte that was named, or is one of these, is left as it is wanted
abbrev compared : (wanted : Bytes) → List ℕ → Left → Outcome × Bool
compared wanted at (end, left, seen) = (end, agree left wanted (at ++ seen))

ended : (Bytes → Pages) → VaxState → Bytes → (wanted : Bytes) → List ℕ → Outcome × Bool
unfolding walk tree_in {' '.join(names)}
ended pages_of state bytes wanted at = compared wanted at (walk (pages_of bytes) state (tree_in (pages_of bytes) state bytes) bytes [])
"""


def bytes_of(text):
    """Areas as (first, count, number), of ADDRESS=BYTES with commas between."""
    areas = []
    for part in [] if text == "-" else text.split(","):
        first, digits = part.split("=")
        spelled = bytes.fromhex(digits)
        areas.append((int(first, 16), len(spelled), int.from_bytes(spelled, "little")))
    return areas


def memory_of(areas, other):
    for first, count, value in reversed(areas):
        other = f"(area 0x{first:X} {count} 0x{value:X} {other})"
    return other


def exception_of(ending):
    kind, _, at = ending.partition("=")
    if kind == "trap":
        return f"(Arithmetic {int(at, 16)})"
    if kind == "fault":
        return {"18": "ReservedOperand", "2C": "Breakpoint"}[at]
    return f"(AccessViolation 0x{at} {truth(kind == 'write')})"


def registers_of(values):
    return f"({list_of(f'0x{value:X}' for value in values)})"


def outcome_of(ending, state):
    return f"Done ({state})" if ending == "done" else f"Raises {exception_of(ending)} ({state})"


def instructions_lemma(place, line):
    if line.startswith("family "):
        return f"-- ---- {line[7:]}"
    name, pc, psw, registers, ending, pc_behind, psw_behind, changes, stored, areas = line.split(" ")
    before = [int(value, 16) for value in registers.split(",")]
    behind = before[:]
    for change in [] if changes == "-" else changes.split(","):
        number, value = change.split("=")
        behind[int(number, 16)] = int(value, 16)
    written = bytes_of(stored)
    at = list_of(f"0x{first + place:X}" for first, count, _ in written for place in range(count))
    pages = "code_pages" if READS_CODE.match(name) else "writable_pages"
    state = f"(state_of {registers_of(before)} 0x{pc} 0x{psw})"
    end = outcome_of(ending, f"state_of {registers_of(behind)} 0x{pc_behind} 0x{psw_behind}")
    return "\n".join([f"abbrev memory{place} : Bytes", f"memory{place} = {memory_of(bytes_of(areas), 'empty')}", "", f"-- {name}",
                      f"row{place} : ended {pages} {state} memory{place} {memory_of(written, f'memory{place}')} ({at}) ≡ ({end}, true)",
                      "unfolding ended", f"row{place} = refl", ""])


TABLES = {"Simulator": (CRATE, "simulator", head(), instructions_lemma)}
