"""Lemmas on images, translated files, flows, operands and instructions from bytes, maps, points and rules of codes."""
import re
import sys

from .common import COMMON, DECLARED, VAX, lemma, list_of, number, some, truth

CRATE = "vectors"
STD = "Rattle.std.specs.Prelude"
BYTES_HEAD = """-- so many bytes of a number, the lowest first
abbrev bytes : (count number : ℕ) → List ℕ
bytes zero number = []
bytes (suc count) number = number % 256 ∷ bytes count (number / 256)
"""


def bytes_term(spelled):
    """A list of bytes as a term."""
    if len(spelled) <= 12:
        return f"({list_of(f'0x{byte:X}' for byte in spelled)})"
    return f"(bytes {len(spelled)} 0x{int.from_bytes(spelled, 'little'):X})"


def pieces(sample, text):
    """The bytes of pieces with commas between: bytes, bytes*COUNT, or @FROM-TO of the sample."""
    found = b""
    for piece in text.split(","):
        if piece.startswith("@"):
            first, _, end = piece[1:].partition("-")
            found += sample[int(first, 16):int(end, 16)] if end else sample
        else:
            digits, _, count = piece.partition("*")
            found += bytes.fromhex(digits) * int(count or "1", 16)
    return found


class Rows:
    """Makes the lemmas of a table whose rows belong to families and may give a sample."""

    def __init__(self, answer):
        self.answer, self.sample, self.beside = answer, b"", ("[]", "[]")

    def __call__(self, place, line):
        if line.startswith("family "):
            return f"-- ---- {line[7:]}"
        if line.startswith("sample "):
            self.sample = bytes.fromhex(line[7:])
            return None
        if line.startswith("beside "):
            words, pairs = line[7:].split(" ")
            self.beside = (f"({hex_list(words)})", f"({pairs_of(pairs)})")
            return None
        question, wanted = line.split(": ", 1)
        return self.answer(self, place, question, wanted)


def hex_list(text):
    return list_of([] if text == "-" else [f"0x{word}" for word in text.split(",")])


def pairs_of(text):
    return list_of([] if text == "-" else ["(0x{}, 0x{})".format(*pair.split("=")) for pair in text.split(",")])


def optional(text):
    return "None" if text == "none" else f"Some 0x{text}"


# ---- operands
OPERAND_USES = f"""use {DECLARED}.instr.Base.TheVariants.{{Deferred, Decrement, Increment, IncrementDeferred, Offset, Fixed}}
use {DECLARED}.instr.Operand.{{Operand}}
use {DECLARED}.instr.Operand.TheVariants.{{Unused, Value, Register, Place, Target}}
use {VAX}.GrammarModes.{{mode_of, is_reserved_mode, is_reserved_base, extension_size, base_of, operand_of}}
use {VAX}.GrammarReading.{{read_number, read_extension, read_base, read_plain, read_by_mode, read_general, read_displacement, read_specifier}}"""
UNFOLDED_OPERANDS = "mode_of is_reserved_mode is_reserved_base extension_size base_of operand_of read_number read_extension read_base read_plain read_by_mode read_general read_displacement read_specifier"
OPERANDS_HEAD = f"""-- What bytes specify as one operand. Fewer bytes are too few, and bytes behind them change nothing.
{COMMON}
use Rattle.std.proofs.Common.{{◌++◌}}
use {STD}.{{take, length, is_none}}
use Rattle.std.specs.List.{{list_all, range_with_len}}
use {DECLARED}.instr.Access.{{Access}}
use {DECLARED}.instr.Access.TheVariants.{{Read, Write, Modify, Address, Field, Branch}}
use {DECLARED}.instr.Size.{{Size}}
use {DECLARED}.instr.Size.TheVariants.{{Byte, Word, Long, Quad}}
{OPERAND_USES}
use {VAX}.GrammarReading.{{Shown, complete, reserved}}

-- what the bytes specify at the address 1000, the same with more bytes behind them, and whether each beginning is too short
specified : Access → Size → List ℕ → Option (Shown Operand × ℕ) × Option (Shown Operand × ℕ) × Bool
unfolding {UNFOLDED_OPERANDS}
specified access size bytes = (
  read_specifier access size 0x1000 bytes,
  read_specifier access size 0x1000 (bytes ++ 0x81 ∷ 0xFF ∷ 0 ∷ 0x5F ∷ 0x4F ∷ []),
  list_all (λ count. is_none (read_specifier access size 0x1000 (take count bytes))) (range_with_len 0 (length bytes)),
)
"""
SIZES = {"byte": "Byte", "word": "Word", "longword": "Long", "quadword": "Quad"}
OPERAND_FORMS = [
    (r"#(\w+)", lambda value: f"Value 0x{value}"),
    (r"R(\d+)", lambda register: f"Register {register}"),
    (r"to (\w+)", lambda address: f"Target 0x{address}"),
]
BASE_FORMS = [
    (r"\(R(\d+)\)", lambda register: f"Deferred {register}"),
    (r"-\(R(\d+)\)", lambda register: f"Decrement {register}"),
    (r"\(R(\d+)\)\+", lambda register: f"Increment {register}"),
    (r"@\(R(\d+)\)\+", lambda register: f"IncrementDeferred {register}"),
    (r"(@?)(\w+)\(R(\d+)\)", lambda deferred, offset, register: f"Offset {register} 0x{offset} {truth(deferred)}"),
    (r"(@?)(\w+)", lambda deferred, address: f"Fixed 0x{address} {truth(deferred)}"),
]


def matched(forms, text):
    for form, term in forms:
        found = re.fullmatch(form, text)
        if found:
            return f"({term(*found.groups())})"
    return None


def operand_of(text):
    """An operand as a term."""
    operand = matched(OPERAND_FORMS, text)
    if operand:
        return operand
    base, _, index = text.partition("[R")
    return f"(Place {matched(BASE_FORMS, base)} {f'(Some {index[:-1]})' if index else 'None'})"


def operands_answer(rows, place, question, wanted):
    spelled, access, size = question.split(" ")
    spelled = bytes.fromhex(spelled)
    if wanted == "reserved":
        answer = f"Some (reserved, {len(spelled)})"
    else:
        operand, count = re.fullmatch(r"(.*) by (\d+)", wanted).groups()
        answer = f"Some (complete {operand_of(operand)}, {count})"
    return lemma(f"row{place}", f"specified {access.capitalize()} {SIZES[size]} {bytes_term(spelled)}", f"({answer}, {answer}, true)", "specified")


# ---- instructions
INSTRUCTIONS_HEAD = f"""-- What stands at an address of the code.
{COMMON}
use Rattle.std.proofs.Common.{{◌++◌, ◌-◌, zero, suc}}
use {STD}.{{◌+◌, ◌/◌, ◌%◌, length, replicate}}
use {DECLARED}.pages.Pages.{{Pages}}
{OPERAND_USES}
use {VAX}.Grammar.{{Found, instruction, past, reserved_instruction, reserved_mode, padded}}
use {VAX}.GrammarFound.{{fetched, found_in, found}}
use {VAX}.GrammarReading.{{read_specifiers, instruction_of, read_operands, read_instruction}}
use {VAX}.Operation.{{integer_opcodes, control_opcodes, mixed_opcodes, move_opcodes, bit_opcodes, operation_at}}
use {VAX}.Row.{{operands_of_long, operands_of, class_of_operation, is_long_operation}}

{BYTES_HEAD}
-- two read-only sections that touch, at 200 and at 400, whose bytes from a place on are these, and a writable one at 1000
abbrev pages : (place : ℕ) → List ℕ → Pages
pages place code = record {{
  ranges = record {{ first = 1; count = 1; writable = false; place = 0 }} ∷ record {{ first = 2; count = 1; writable = false; place = 512 }}
      ∷ record {{ first = 8; count = 1; writable = true; place = 0 }} ∷ [];
  code = replicate (place - 0x200) 0 ++ code ++ replicate (0x600 - (place + length code)) 0;
}}

stands : (place : ℕ) → List ℕ → (address : ℕ) → Found
unfolding {UNFOLDED_OPERANDS} read_specifiers instruction_of read_operands read_instruction fetched found_in found integer_opcodes control_opcodes mixed_opcodes move_opcodes bit_opcodes operation_at operands_of_long operands_of class_of_operation is_long_operation
stands place code address = found (pages place code) address

abbrev instr : (at opcode count : ℕ) → List Operand → (after : ℕ) → Found
instr at opcode count operands after = instruction (record {{ at = at; opcode = opcode; count = count; operands = padded operands; after = after }})
"""


def instructions_answer(rows, place, question, wanted):
    at, spelled, address = question.split(" ")
    found = re.fullmatch(r"(\w+) (\w+) (\d+) (.*) (\w+)", wanted)
    if wanted.startswith("past "):
        answer = f"past 0x{wanted[5:]}"
    elif wanted.startswith("reserved "):
        answer = {"opcode": "reserved_instruction", "mode": "reserved_mode"}[wanted[9:]]
    else:
        start, opcode, count, operands, after = found.groups()
        operands = [] if operands == "-" else operands.split(",")
        answer = f"instr 0x{start} 0x{opcode} {count} ({list_of(map(operand_of, operands))}) 0x{after}"
    return lemma(f"row{place}", f"stands 0x{at} {bytes_term(pieces(rows.sample, spelled))} 0x{address}", answer, "stands")


# ---- maps
MAPS_HEAD = f"""-- What stands beside a number in a list of pairs of addresses and words, and the tables of its pages.
{COMMON}
use {STD}.{{◌+◌, ◌*◌}}
use Rattle.address_map.specs.Pairs.{{address_at, word_at}}
use Rattle.address_map.specs.Tables.{{count_below, end_page, first_page, has_page, lower_place, page_size, page_span, upper_word}}
use Rattle.address_map.specs.Pairs.{{Pair}}

abbrev lower_places : List Pair → ℕ
lower_places pairs = page_size * count_below (has_page pairs) (end_page pairs)

-- the first page, how many there are from it to the last, and how many lower places
abbrev counts : List Pair → ℕ × ℕ × ℕ
counts pairs = (first_page pairs, page_span pairs, lower_places pairs)

-- the lower place of an address, and what stands beside it
abbrev placed : List Pair → (address : ℕ) → ℕ × Option ℕ
placed pairs address = (lower_place pairs address, word_at pairs address)
"""


def maps_answer(rows, place, question, wanted):
    kind, text, *value = question.split(" ")
    value, pairs = "".join(value), f"({pairs_of(text)})"
    if kind in ("word", "address"):
        return lemma(f"row{place}", f"{kind}_at {pairs} 0x{value}", optional(wanted))
    if kind == "pages":
        first, span, places = wanted.split(" ")
        return lemma(f"row{place}", f"counts {pairs}", f"(0x{first}, 0x{span}, 0x{places})")
    if wanted == "outside":
        found = f"nat_le ({'page_span' if kind == 'upper' else 'lower_places'} {pairs}) 0x{value}"
        return lemma(f"row{place}", found, "true")
    if kind == "upper":
        return lemma(f"row{place}", f"upper_word {pairs} (first_page {pairs} + 0x{value})", f"0x{wanted}")
    # the number whose place it is, by the pages that have an address
    pages = sorted({int(pair.split("=")[0], 16) // 512 for pair in text.split(",")})
    address = pages[int(value, 16) // 512] * 512 + int(value, 16) % 512
    return lemma(f"row{place}", f"placed {pairs} 0x{address:X}", f"(0x{value}, {optional(wanted)})")


MAPS_HEAD = MAPS_HEAD.replace("{◌+◌, ◌*◌}", "{◌+◌, ◌*◌, nat_le}")

# ---- points, rules of codes, and what registers show
WORKED = {0: 0xFFFFFFFF80000001, 14: 0x1200, 15: 0xFFFFFFFF, 16: 1, 19: 1, 20: 0x20, 30: 1}
POINTS_HEAD = f"""-- Points by their words, exceptions by their vectors, condition codes by rules, and the state that registers show.
{COMMON}
use {STD}.{{slice_index_or, option_map}}
use {VAX}.Codes.{{codes}}
use {DECLARED}.instr.Size.TheVariants.{{Byte, Word, Long, Quad}}
use {DECLARED}.state.Exception.TheVariants.{{ReservedInstruction, ReservedOperand, ReservedMode, Breakpoint}}
use {DECLARED}.state.Flags.{{Flags}}
use {DECLARED}.state.VaxState.{{VaxState}}
use {DECLARED}.state.Pending.TheVariants as pending
use Rattle.vt_words.specs.Arithmetic.{{sum_of, difference_of}}
use Rattle.exception_records.specs.Codes.{{all_ready, codes_by, is_ready}}
use Rattle.exception_records.specs.Points.{{Entry, point_at, raised_at}}
use Rattle.exception_records.specs.Shown.{{Regs, codes_shown, shown}}
use Rattle.exception_records.specs.declared.points.Point.{{Point}}
use Rattle.exception_records.specs.declared.rules.CodeRule.TheVariants as rule
use Rattle.exception_records.specs.declared.rules.Rules.{{Rules}}

-- an instruction's address beside a word
abbrev point : (word pc : ℕ) → Entry
point word pc = (word, record {{ vax_pc = pc; done = 0; count = 4; write = true; raises = 0; rules = all_ready }})

abbrev found : List Entry → (word : ℕ) → Option ℕ
found points word = option_map (λ p. p.vax_pc) (point_at points word)

-- the worked registers: N and C are in R16 and R19, and R15 and R30 are operands of the rules
abbrev registers : Regs
registers = slice_index_or' ({list_of(f"0x{WORKED.get(number, 0):X}" for number in range(32))})

abbrev worked : Rules
worked = record {{ n = rule.Result Long; z = rule.Result Long; v = rule.Zero; c = rule.Add Long }}

-- the codes, and the state at 207
abbrev shows : Rules → (held : Flags) → Flags × VaxState
shows rules held = (codes_shown registers rules held, shown registers 0x207 rules held 0)

abbrev state : (psw : ℕ) → VaxState
state psw = record {{
  r = {list_of(f"0x{WORKED.get(number, 0) % 2 ** 32:X}" for number in range(15))};
  pc = 0x207;
  psw = psw;
  handler = 0;
  pending = pending.Nothing;
}}
"""
POINTS_HEAD = POINTS_HEAD.replace("registers = slice_index_or' (", "registers number = slice_index_or (").replace("0x0 ∷ 0x1 ∷ 0x0 ∷ [])\n", "0x0 ∷ 0x1 ∷ 0x0 ∷ []) number 0\n")


def codes_of(letters):
    return "(codes " + " ".join(truth(code in letters) for code in "NZVC") + ")"


def rule_of(name, size):
    if name in ("ready", "zero"):
        return f"rule.{name.capitalize()}"
    return f"(rule.{name.capitalize()} {SIZES[size]})"


def points_answer(rows, place, question, wanted):
    kind, *words = question.split(" ")
    if kind == "find":
        points = [] if words[0] == "-" else [pair.split("=") for pair in words[0].split(",")]
        entries = list_of(f"point 0x{word} 0x{pc}" for word, pc in points)
        return lemma(f"row{place}", f"found ({entries}) 0x{words[1]}", optional(wanted))
    if kind == "raises":
        return lemma(f"row{place}", f"raised_at 0x{words[0]}", "None" if wanted == "none" else f"Some {wanted}")
    if kind == "codes":
        rule, size, first, second = words
        return lemma(f"row{place}", f"codes_by {rule_of(rule, size)} 0x{first} 0x{second}", codes_of(wanted), "sum_of difference_of")
    if kind == "ready":
        return lemma(f"row{place}", f"is_ready {rule_of(words[0], 'longword')}", truth(wanted == "yes"))
    codes, psw = wanted.split(" ")
    rules = {"ready": "all_ready", "worked": "worked"}[words[0]]
    return lemma(f"row{place}", f"shows {rules} {codes_of(words[1])}", f"({codes_of(codes)}, state 0x{psw})", "sum_of difference_of")


# ---- images
IMAGES_HEAD = f"""-- The files of VAX images: what they mean, or why they mean none.
{COMMON}
use Rattle.std.proofs.Common.{{zero, suc}}
use {STD}.{{◌/◌, ◌%◌, Result, Ok, Err, map, length, option_map, slice_get}}
use {VAX}.Pages.{{code_byte_at, is_allowed}}
use {DECLARED}.pages.Pages.{{Pages}}
use {DECLARED}.state.VaxState.{{VaxState}}
use {DECLARED}.state.Pending.TheVariants as pending
use Rattle.image_file.specs.Memory.{{byte_of_image}}
use Rattle.image_file.specs.Pages.{{pages_of}}
use Rattle.image_file.specs.Reading.{{counts_allowed, counts_of, first_in, layout_of, image_of}}
use Rattle.image_file.specs.Refusal.{{number_of}}
use Rattle.image_file.specs.Spelling.{{spelling}}
use Rattle.image_file.specs.Start.{{start_state}}
use Rattle.image_file.specs.Values.{{ImageValue, SectionValue}}
use Rattle.image_file.specs.declared.image.Start.{{Start}}
use Rattle.image_file.specs.declared.refusal.ImageRefusal.{{ImageRefusal}}
use Rattle.image_file.specs.declared.refusal.ImageRefusal.TheVariants.{{Truncated, BadMagic, BadVersion, NoThread, TooManyThreads, TooManySections, BadSection, Overlap, TooLarge, BadEntry, Trailing, TooManyEntries, WantOfMemory}}

{BYTES_HEAD}
-- the number of a refusal, and what it tells
abbrev refusal_of : Result ImageValue ImageRefusal → Option (Option ℕ × ImageRefusal)
refusal_of (Ok image) = None
refusal_of (Err refusal) = Some (number_of refusal, refusal)

abbrev asked : {{X : Type 0}} → (ImageValue → X) → Result ImageValue ImageRefusal → Option X
asked question (Ok image) = Some (question image)
asked question (Err refusal) = None

abbrev pages : ImageValue → Pages
pages image = record {{ ranges = image.pages.ranges; code = image.pages.code }}

read : List ℕ → Result ImageValue ImageRefusal
unfolding image_of counts_allowed counts_of first_in layout_of pages_of spelling
read bytes = image_of bytes

-- where a thread starts, and its stack pointer
abbrev beginning : Start → ℕ × ℕ
beginning start = (start.pc, start.sp)

abbrev section : (start size : ℕ) (writable : Bool) → (stored : List ℕ) → SectionValue
section start size writable stored = record {{ start = start; size = size; writable = writable; stored = stored }}

abbrev state : (r : List ℕ) → (pc psw : ℕ) → VaxState
state r pc psw = record {{ r = r; pc = pc; psw = psw; handler = 0; pending = pending.Nothing }}
"""
REFUSAL = r"refusal (\d+), (\w+)(?: \{ (.*) \})?"


def refusal_term(text):
    """The number of a refusal, and the refusal as a term."""
    count, name, parts = re.fullmatch(REFUSAL, text).groups()
    values = [part.split(": ")[1] for part in parts.split(", ")] if parts else []
    return count, f"({' '.join([name, *values])})"


def state_of(text):
    values = dict(part.split("=") for part in text.split(" "))
    registers = list_of(f"0x{values.get(f'R{number}', '0')}" for number in range(15))
    return f"state ({registers}) 0x{values['PC']} 0x{values['PSW']}"


def sections_of(text):
    found = re.findall(r" (\w+)\+(\w+) (\S+) \{(\w*)\}", text)
    return list_of(f"section 0x{start} 0x{size} {truth(usage == 'writable')} {bytes_term(bytes.fromhex(stored))}" for start, size, usage, stored in found)


def image_answer(question, wanted, spelled):
    """The function of a question about an image, and its answer."""
    kind, _, at = question.partition(" ")
    if kind == "threads":
        threads = ["(0x{}, 0x{})".format(*thread.split("/")) for thread in wanted.split(" ")[1:]]
        return "λ image. map beginning image.threads", list_of(threads)
    if kind == "entries":
        return "λ image. image.entries", list_of(f"0x{entry}" for entry in wanted.split(" ")[1:])
    if kind == "sections":
        return "λ image. image.sections", sections_of(wanted)
    if kind == "state":
        return f"λ image. option_map start_state (slice_get image.threads 0x{at})", f"Some ({state_of(wanted)})"
    if kind == "byte":
        return f"λ image. byte_of_image image 0x{at}", optional(wanted)
    if kind == "code":
        return f"λ image. code_byte_at (pages image) 0x{at}", optional(wanted)
    if kind == "writable":
        return f"λ image. is_allowed (pages image) 0x{at} true", truth(wanted == "yes")
    if kind == "code-bytes":
        return "λ image. length image.pages.code", f"0x{wanted}"
    if kind == "written" and wanted == "yes":
        return "λ image. spelling image", bytes_term(spelled)
    sys.exit(f"no question: {question}")


def images_answer(rows, place, question, wanted):
    if question == "want of memory":
        return lemma(f"row{place}", "number_of WantOfMemory", "None")
    text, question = question.split(" ", 1)
    spelled = pieces(rows.sample, text)
    if question == "read":
        count, refusal = refusal_term(wanted)
        return lemma(f"row{place}", f"refusal_of (read {bytes_term(spelled)})", f"Some (Some {count}, {refusal})", "read")
    function, answer = image_answer(question, wanted, spelled)
    return lemma(f"row{place}", f"asked ({function}) (read {bytes_term(spelled)})", f"Some ({answer})", "read")


# ---- translated files
TRANSLATED_HEAD = f"""-- Translated files: their parts, and whether they hold a translation.
{COMMON}
use Rattle.std.proofs.Common.{{zero, suc}}
use {STD}.{{◌/◌, ◌%◌, Result, Ok, Err}}
use Rattle.address_map.specs.Pairs.{{Pair}}
use Rattle.image_file.specs.Pages.{{pages_of}}
use Rattle.image_file.specs.Reading.{{counts_allowed, counts_of, first_in, layout_of, image_of}}
use Rattle.image_file.specs.Spelling as images
use Rattle.translated_file.specs.Comparing.{{accepted, tail_compared}}
use Rattle.translated_file.specs.Reading.{{header_of, parts_of}}
use Rattle.translated_file.specs.Refusal.{{numbers_of}}
use Rattle.translated_file.specs.Spelling.{{front_bytes, spelling}}
use Rattle.translated_file.specs.Values.{{PartsValue}}
use Rattle.translated_file.specs.declared.refusal.TranslatedRefusal.{{TranslatedRefusal}}
use Rattle.translated_file.specs.declared.refusal.TranslatedRefusal.TheVariants.{{WantOfMemory}}

{BYTES_HEAD}
abbrev told : {{A : Type 0}} → Result A TranslatedRefusal → List ℕ
told (Ok x) = []
told (Err refusal) = numbers_of refusal

abbrev asked : {{A B : Type 0}} → (A → B) → Result A TranslatedRefusal → Option B
asked question (Ok x) = Some (question x)
asked question (Err refusal) = None

read : List ℕ → Result PartsValue TranslatedRefusal
unfolding parts_of header_of image_of counts_allowed counts_of first_in layout_of pages_of images.spelling
read bytes = parts_of bytes

-- what a refusal tells; nothing of what is accepted
compared : List ℕ → (words : List ℕ) → List Pair → List ℕ
unfolding read tail_compared front_bytes
compared bytes words pairs = told (accepted bytes words pairs)

-- version, image, hints and tail
abbrev parts : PartsValue → ℕ × List ℕ × List ℕ × List ℕ
parts p = (p.version, images.spelling p.image, p.hints, p.tail)

abbrev written : (words : List ℕ) → List Pair → PartsValue → List ℕ
written words pairs p = spelling p.version p.image p.hints words pairs
"""


def translated_answer(rows, place, question, wanted):
    if question == "want of memory":
        return lemma(f"row{place}", "numbers_of WantOfMemory", "[]")
    kind, *words = question.split(" ")
    sample = rows.sample
    if kind == "parts":
        found = re.fullmatch(r"version (\d+), image \{(\w*)\}, hints(.*), tail \{(\w*)\}", wanted)
        version, image, hints, tail = found.groups()
        answer = f"({version}, {bytes_term(bytes.fromhex(image))}, {list_of(f'0x{hint}' for hint in hints.split())}, {bytes_term(bytes.fromhex(tail))})"
        return lemma(f"row{place}", f"asked parts (read {bytes_term(sample)})", some(answer), "read")
    if kind == "written":
        return lemma(f"row{place}", f"asked (written {' '.join(rows.beside)}) (read {bytes_term(sample)})", some(bytes_term(sample)), "read front_bytes")
    if kind == "first":
        spelled = sample[:int(words[0], 16)]
    elif kind == "behind":
        spelled = sample + bytes.fromhex(words[0])
    elif kind == "at":
        at, other = int(words[0], 16), bytes.fromhex(words[1])
        spelled = sample[:at] + other + sample[at + len(other):]
    else:
        spelled = sample
    answer = [] if wanted == "accepted" else wanted.split(" ")
    return lemma(f"row{place}", f"compared {bytes_term(spelled)} {' '.join(rows.beside)}", list_of(answer), "compared")


# ---- flows
FLOWS_HEAD = f"""-- Which instructions can be reached from the starts of a flow.
{COMMON}
use Rattle.std.proofs.Common.{{zero, suc, ◌++◌, ◌-◌}}
use {STD}.{{◌+◌, ◌/◌, ◌*◌, ◌%◌, ◌==◌, ◌&&◌, ◌||◌, not, fold, length, replicate, if◌then◌else◌}}
use Rattle.std.specs.List.{{flat_map, list_all}}
use {DECLARED}.pages.Pages.{{Pages}}
use {VAX}.GrammarModes.{{mode_of, is_reserved_mode, is_reserved_base, extension_size, base_of, operand_of}}
use {VAX}.GrammarFound.{{fetched, found_in, found}}
use {VAX}.GrammarReading.{{read_number, read_extension, read_base, read_plain, read_by_mode, read_general, read_displacement, read_specifier, read_specifiers, instruction_of, read_operands, read_instruction}}
use {VAX}.Operation.{{integer_opcodes, control_opcodes, mixed_opcodes, move_opcodes, bit_opcodes, operation_at}}
use {VAX}.Row.{{operands_of_long, operands_of, class_of_operation, is_long_operation}}
use {VAX}.Targets.{{has, jump_target, jump_of, call_target, call_of, fixed_targets}}
use Rattle.flow_discovery.specs.Flow.{{falls_through, goes_on, table_of}}
use Rattle.flow_discovery.specs.Reach.{{decodes, instruction_at, successors}}
use Rattle.flow_discovery.specs.Refusal.{{number_of}}
use Rattle.flow_discovery.specs.declared.FlowRefusal.TheVariants.{{WantOfMemory}}

{BYTES_HEAD}
-- one read-only section of so many bytes at 200, which begins with these
abbrev pages : (size : ℕ) → List ℕ → Pages
pages size code =
    let count = (size + 511) / 512 in
    record {{ ranges = record {{ first = 1; count = count; writable = false; place = 0 }} ∷ []; code = code ++ replicate (512 * count - length code) 0 }}

-- an address where an instruction stands, behind those that were found before
abbrev with_member : Pages → List ℕ → (address : ℕ) → List ℕ
with_member pages members address = if has members address || not (decodes pages address) then members else members ++ address ∷ []

abbrev with_successors : Pages → List ℕ → List ℕ
with_successors pages members = fold (with_member pages) members (flat_map (successors pages) members)

abbrev grown : (rounds : ℕ) → Pages → List ℕ → List ℕ
grown zero pages members = members
grown (suc rounds) pages members = grown rounds pages (with_successors pages members)

abbrev are_same : (some others : List ℕ) → Bool
are_same some others = list_all (has some) others && list_all (has others) some

-- these are the starts where an instruction stands, and what they come to in a few rounds; one more finds no others
reaches : Pages → (starts members : List ℕ) → Bool
unfolding {UNFOLDED_OPERANDS} read_specifiers instruction_of read_operands read_instruction fetched found_in found integer_opcodes control_opcodes mixed_opcodes move_opcodes bit_opcodes operation_at operands_of_long operands_of class_of_operation is_long_operation jump_target jump_of call_target call_of fixed_targets falls_through goes_on table_of instruction_at
reaches pages starts members =
    let found = grown 6 pages (fold (with_member pages) [] starts) in
    are_same found members && are_same (with_successors pages found) members
"""


def flows_answer(rows, place, question, wanted):
    if question == "want of memory":
        return lemma(f"row{place}", "number_of WantOfMemory", "None")
    _, pc, size, entries, hints, code = question.split(" ")
    starts = ",".join(part for part in (pc, entries, hints) if part != "-")
    members = hex_list(",".join(wanted.split(" ")[1:]) or "-")
    return lemma(f"row{place}", f"reaches (pages 0x{size} {bytes_term(pieces(b'', code))}) ({hex_list(starts)}) ({members})", "true", "reaches")


TABLES = {
    "Flows": (CRATE, "flows", FLOWS_HEAD, Rows(flows_answer)),
    "Operands": (CRATE, "operands", OPERANDS_HEAD, Rows(operands_answer)),
    "Instructions": (CRATE, "instructions", INSTRUCTIONS_HEAD, Rows(instructions_answer)),
    "Maps": (CRATE, "maps", MAPS_HEAD, Rows(maps_answer)),
    "Points": (CRATE, "points", POINTS_HEAD, Rows(points_answer)),
    "Images": (CRATE, "images", IMAGES_HEAD, Rows(images_answer)),
    "Translated": (CRATE, "translated", TRANSLATED_HEAD, Rows(translated_answer)),
}
