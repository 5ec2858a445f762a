"""Lemmas on the blocks of micro programs: their words, exits and points, and how long they are."""
from .common import COMMON, DECLARED, VAX, lemma, list_of, truth
from .micro import MICRO, PROGRAM, micro
from .opcodes import CONDITIONS, NAMES, operation_of

CRATE = "vectors"
HEAD = f"""{COMMON}
use Rattle.std.specs.Prelude.{{map, length, fold, max}}
use {VAX}.Codes.{{codes}}
use {DECLARED}.instr.Instr.{{Instr}}
use {DECLARED}.instr.Size.TheVariants as sizes
use {DECLARED}.instr.Width.TheVariants.{{Byte, Word, Long}}
use {DECLARED}.operation.BinaryOperation.TheVariants.{{Add, Subtract, Multiply, Divide, BitSet, BitClear, ExclusiveOr}}
use {DECLARED}.operation.BitStore.TheVariants.{{Nothing, Plain, Interlocked}}
use {DECLARED}.operation.Condition.TheVariants.{{{', '.join(CONDITIONS.values())}}}
use {DECLARED}.operation.Operation.TheVariants as op
use {DECLARED}.state.Flags.{{Flags}}
use {PROGRAM}.Arg.TheVariants.{{Temp, Register, Flag, Const}}
use {PROGRAM}.Exit.TheVariants.{{Next, Fixed, Computed, Choice, Service, Breakpoint}}
use {PROGRAM}.LockedOp.TheVariants.{{AddWord, SetBit, ClearBit}}
use {PROGRAM}.Micro.{{Micro}}
use {PROGRAM}.Micro.TheVariants.{{Compute, Probe, Refuse, Read, Write, Locked, Commit, Codes, SetPsw, Leave}}
use {PROGRAM}.MicroOp.TheVariants as compute
use {MICRO}.declared.codes.CodeSources.{{CodeSources}}
use {MICRO}.Sources.{{sources_of}}
use Rattle.alpha_encode.specs.Words.{{word_of}}
use Rattle.exception_records.specs.Blocks.{{BlockValue}}
use Rattle.exception_records.specs.Codes.{{all_ready}}
use Rattle.exception_records.specs.Points.{{Entry}}
use Rattle.exception_records.specs.declared.points.Point.{{Point}}
use Rattle.exception_records.specs.declared.rules.Rules.{{Rules}}
use Rattle.code_runs.specs.Rules.{{rules_behind}}
use Rattle.flag_codegen.specs.Words.{{code_words}}
use Rattle.program_codegen.specs.Blocks.{{program_block}}

-- an instruction at 200, behind which stands 204
abbrev instr : Instr
instr = record {{ at = 0x200; opcode = 0; count = 0; operands = []; after = 0x204 }}

-- the block of a program behind which these codes are live; before it all are ready
abbrev block : (byte_word : Bool) → CodeSources → List Micro → (live : Flags) → BlockValue
block byte_word sources program live = program_block instr sources program (code_words sources live) all_ready (rules_behind sources live all_ready) byte_word
"""
LENGTHS_HEAD = f"""-- How many words the longest block of a micro program has, whichever codes are live behind its instruction.
{HEAD}
abbrev sets : List Flags
sets = {list_of("codes " + " ".join(truth(number >> bit & 1) for bit in (3, 2, 1, 0)) for number in range(16))}

longest : CodeSources → List Micro → ℕ
unfolding sources_of
longest sources program = fold max 0 (map (λ live. length (block false sources program live).words) sets)
"""
BLOCKS_HEAD = f"""-- Blocks that were worked out by hand, word by word.
{HEAD}
-- words, exits and points
abbrev spelled : BlockValue → List ℕ × List (ℕ × ℕ) × List Entry
spelled block = (map word_of block.words, block.exits, block.points)

abbrev point : (word done count : ℕ) (write : Bool) (raises : ℕ) → Rules → Entry
point word done count write raises rules = (word, record {{ vax_pc = 0x200; done = done; count = count; write = write; raises = raises; rules = rules }})
"""


def program_of(text):
    return f"({list_of(map(micro, text.split('; ')))})"


def lengths_lemma(place, line):
    opcode, words, program = line.split(" ", 2)
    sources = f"(sources_of {operation_of(NAMES[int(opcode, 16)])})"
    return lemma(f"row{place}", f"longest {sources} {program_of(program)}", f"0x{words}", "longest")


def point_of(text, behind):
    word, _, rest = text.partition("=")
    done, count, raises, rules = rest.split("/")
    rules = {"before": "all_ready", "behind": behind}[rules]
    return f"point 0x{word} {done} {count[:-1]} {truth(count[-1] == 'w')} 0x{raises} {rules}"


def blocks_lemma(place, line):
    target, opcode, live, words, exits, points, program = line.split(" ", 6)
    byte_word = truth({"original": 0, "byteword": 1}[target])
    sources = f"(sources_of {operation_of(NAMES[int(opcode, 16)])})"
    live = "(codes " + " ".join(truth(code in live) for code in "NZVC") + ")"
    behind = f"(rules_behind {sources} {live} all_ready)"
    wanted = [list_of(f"0x{word}" for word in words.split(",")),
              list_of("(0x{}, 0x{})".format(*pair.split("=")) for pair in exits.split(",")),
              list_of(point_of(point, behind) for point in points.split(","))]
    return lemma(f"row{place}", f"spelled (block {byte_word} {sources} {program_of(program)} {live})", f"({', '.join(wanted)})", "sources_of")


TABLES = {
    "Lengths": (CRATE, "lengths", LENGTHS_HEAD, lengths_lemma),
    "Blocks": (CRATE, "blocks", BLOCKS_HEAD, blocks_lemma),
}
