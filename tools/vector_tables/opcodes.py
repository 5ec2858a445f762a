"""Lemmas on the opcodes of the VAX."""
import re
import sys

from .common import COMMON, DECLARED, VAX, lemma, lines_of, list_of, truth

# ---- opcodes of the VAX
WIDTHS = {"B": "Byte", "W": "Word", "L": "Long"}
SIZES = {**WIDTHS, "Q": "Quad"}
BINARY = {"ADD": "Add", "SUB": "Subtract", "MUL": "Multiply", "DIV": "Divide", "BIS": "BitSet", "BIC": "BitClear", "XOR": "ExclusiveOr"}
CONDITIONS = {"NEQ": "NotEqual", "EQL": "Equal", "GTR": "Greater", "LEQ": "LessOrEqual", "GEQ": "GreaterOrEqual", "LSS": "Less",
              "GTRU": "GreaterUnsigned", "LEQU": "LessOrEqualUnsigned", "VC": "OverflowClear", "VS": "OverflowSet", "CC": "CarryClear",
              "CS": "CarrySet"}
PLAIN = {"NOP": "NoOperation", "BPT": "Breakpoint", "CHMK": "ChangeMode", "PUSHL": "PushLong", "MOVPSL": "MovePsl",
         "BISPSW": "BitSetPsw", "BICPSW": "BitClearPsw", "ADWC": "AddWithCarry", "SBWC": "SubtractWithCarry", "ADAWI": "AddAlignedWord",
         "EMUL": "ExtendedMultiply", "ASHL": "ArithmeticShift", "ROTL": "Rotate", "INSV": "InsertField", "JMP": "Jump",
         "JSB": "JumpToSubroutine", "RSB": "ReturnFromSubroutine"}
LONG = {"INDEX": "Index", "CALLG": "CallGeneral", "CALLS": "CallStack", "RET": "Return", "PUSHR": "PushRegisters",
        "POPR": "PopRegisters", "MOVC3": "MoveCharacters", "MOVC5": "MoveCharactersFilled", "CMPC3": "CompareCharacters",
        "LOCC": "LocateCharacter", "SKPC": "SkipCharacter"}
OF_SIZE = {"MOV": "Move", "CLR": "Clear", "MOVA": "MoveAddress", "PUSHA": "PushAddress"}
OF_WIDTH = {"MCOM": "MoveComplemented", "MNEG": "MoveNegated", "CMP": "Compare", "TST": "Test", "BIT": "BitTest", "INC": "Increment",
            "DEC": "Decrement", "BR": "Branch", "BSB": "BranchToSubroutine", "ACB": "AddCompareBranch", "CASE": "Case"}
SIGNED = {"EXTV": "ExtractField true", "EXTZV": "ExtractField false", "AOBLEQ": "AddOneBranch true", "AOBLSS": "AddOneBranch false",
          "SOBGEQ": "SubtractOneBranch true", "SOBGTR": "SubtractOneBranch false", "BLBS": "BranchOnLowBit true",
          "BLBC": "BranchOnLowBit false"}
STORES = {"": "Nothing", "S": "(Plain true)", "C": "(Plain false)", "SI": "(Interlocked true)", "CI": "(Interlocked false)"}
ACCESSES = {"r": "Read", "w": "Write", "m": "Modify", "a": "Address", "v": "Field", "b": "accesses.Branch"}
CLASSES = {"translated": "Translated", "tie": "Tie", "long": "Tie"}
OPCODES_HEAD = f"""-- The opcodes of the VAX: the operation of each, its class, whether it is a long one, its operands, and its condition codes.
-- VAX Architecture Reference Manual, "Instruction Set Summary"; "Instruction Descriptions".
{COMMON}
use Rattle.std.specs.Option.{{option_map}}
use {VAX}.Codes.{{codes}}
use {VAX}.Operation.{{integer_opcodes, control_opcodes, mixed_opcodes, move_opcodes, bit_opcodes, operation_at}}
use {VAX}.Row.{{operands_of, operands_of_long, class_of_operation, class_at, is_long_operation, is_long_at, row_at, row_with}}
use {DECLARED}.instr.Access.TheVariants.{{Read, Write, Modify, Address, Field}}
use {DECLARED}.instr.Access.TheVariants as accesses
use {DECLARED}.instr.Size.TheVariants as sizes
use {DECLARED}.instr.Width.TheVariants.{{Byte, Word, Long}}
use {DECLARED}.operation.Condition.TheVariants.{{{', '.join(CONDITIONS.values())}}}
use {DECLARED}.operation.BinaryOperation.TheVariants.{{{', '.join(BINARY.values())}}}
use {DECLARED}.operation.BitStore.TheVariants.{{Nothing, Plain, Interlocked}}
use {DECLARED}.operation.LongOperation.TheVariants as long
use {DECLARED}.operation.Operation.TheVariants as op
use {DECLARED}.row.Class.TheVariants.{{Translated, Tie, Reserved}}
use {DECLARED}.instr.Access.{{Access}}
use {DECLARED}.instr.Size.{{Size}}
use {DECLARED}.operation.Operation.{{Operation}}
use {DECLARED}.row.Class.{{Class}}
use {DECLARED}.row.Row.{{Row}}
use Rattle.cc_liveness.specs.declared.uses.CodeUse.{{CodeUse}}
use Rattle.cc_liveness.specs.Uses.{{code_use_of, tested_by, written_by_binary, written_by_long, goes_on, may_jump}}

-- what the definitions say of an opcode
record Form : Type 0 where
  operation : Option Operation
  class : Class
  is_long : Bool
  row : Option Row
  uses : Option CodeUse

abbrev form_of : (opcode : ℕ) → Form
form_of opcode = record {{
  operation = operation_at opcode;
  class = class_at opcode;
  is_long = is_long_at opcode;
  row = row_at opcode;
  uses = option_map code_use_of (operation_at opcode);
}}

abbrev reserved : Form
reserved = record {{ operation = None; class = Reserved; is_long = false; row = None; uses = None }}

abbrev form : Operation → Class → (is_long : Bool) → List (Access × Size) → CodeUse → Form
form operation class is_long operands uses = record {{ operation = Some operation; class = class; is_long = is_long; row = Some (row_with operands); uses = Some uses }}
"""
UNFOLDED = "integer_opcodes control_opcodes mixed_opcodes move_opcodes bit_opcodes operands_of operands_of_long operation_at class_of_operation is_long_operation code_use_of tested_by written_by_binary written_by_long"


def operation_of(name):
    """The operation with the manual's name."""
    if name in PLAIN:
        return f"op.{PLAIN[name]}"
    if name in LONG:
        return f"(op.Long long.{LONG[name]})"
    if name in SIGNED:
        return f"(op.{SIGNED[name]})"
    found = re.match(r"BB([SC])([SC]?I?)$", name)
    if found:
        return f"(op.BranchOnBit (record {{ state = {truth(found[1] == 'S')}; store = {STORES[found[2]]} }}))"
    found = re.match(r"(\w{3})([BWL])([23])$", name)
    if found and found[1] in BINARY:
        return f"(op.{'TwoOperands' if found[3] == '2' else 'ThreeOperands'} {BINARY[found[1]]} {WIDTHS[found[2]]})"
    if name[0] == "B" and name[1:] in CONDITIONS:
        return f"(op.BranchIf {CONDITIONS[name[1:]]})"
    found = re.match(r"(MOVZ|CVT)([BWL])([BWL])$", name)
    if found:
        return f"(op.{'MoveZeroExtended' if found[1] == 'MOVZ' else 'Convert'} {WIDTHS[found[2]]} {WIDTHS[found[3]]})"
    if name[:-1] in OF_SIZE:
        return f"(op.{OF_SIZE[name[:-1]]} sizes.{SIZES[name[-1]]})"
    return f"(op.{OF_WIDTH[name[:-1]]} {WIDTHS[name[-1]]})"


def codes_of(letters):
    return "(codes " + " ".join(truth(code in letters) for code in "NZVC") + ")"


def opcodes_lemma(place, line):
    row = line.split()
    opcode = place - 1
    if int(row[0], 16) != opcode:
        sys.exit(f"not the next opcode: {row[0]}")
    name = f"opcode_{row[0]}"
    if row[1] == "reserved":
        return lemma(name, f"form_of {opcode}", "reserved", UNFOLDED)
    operation = operation_of(row[1])
    operands = list_of(f"({ACCESSES[word[0]]}, sizes.{SIZES[word[1].upper()]})" for word in row[6:])
    uses = f"({'may_jump' if row[5] == 'jumps' else 'goes_on'} {codes_of(row[3])} {codes_of(row[4])})"
    return lemma(name, f"form_of {opcode}", f"form {operation} {CLASSES[row[2]]} {truth(row[2] == 'long')} ({operands}) {uses}", UNFOLDED)


# ---- live codes along a run
LIVENESS_HEAD = f"""-- The condition codes that are live behind each instruction of a run.
{COMMON}
use Rattle.std.specs.Prelude.{{map}}
use {VAX}.Codes.{{codes}}
use {DECLARED}.instr.Size.TheVariants as sizes
use {DECLARED}.instr.Width.TheVariants.{{Byte, Word, Long}}
use {DECLARED}.operation.Condition.TheVariants.{{{', '.join(CONDITIONS.values())}}}
use {DECLARED}.operation.BinaryOperation.TheVariants.{{{', '.join(BINARY.values())}}}
use {DECLARED}.operation.Operation.TheVariants as op
use Rattle.cc_liveness.specs.Liveness.{{live_codes}}
use Rattle.cc_liveness.specs.Uses.{{code_use_of, tested_by, written_by_binary}}
"""


def liveness_lemma(place, line):
    run, live = line.split()
    operations = list_of(operation_of(NAMES[opcode]) for opcode in bytes.fromhex(run))
    wanted = list_of(codes_of(letters) for letters in live.split(","))
    return lemma(f"row{place}", f"live_codes (map code_use_of ({operations}))", wanted, "code_use_of tested_by written_by_binary")


NAMES = [line.split()[1] for line in lines_of("vectors", "opcodes")]
TABLES = {
    "Opcodes": ("vectors", "opcodes", OPCODES_HEAD, opcodes_lemma),
    "Liveness": ("vectors", "liveness", LIVENESS_HEAD, liveness_lemma),
}
