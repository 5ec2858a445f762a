"""Lemmas on the texts of VAX instructions and of Alpha words."""
from .common import list_of, number

# ---- VAX instructions
INSTRUCTIONS_HEAD = """-- Bytes of VAX instructions at 200, and their texts.
use Rattle.std.proofs.Common.{◌≡◌, ℕ, List, [], ◌∷◌, refl}
use Rattle.std.specs.Prelude.{codes}
use Rattle.std.specs.Fmt.{digits}
use Rattle.vax_form.specs.GrammarModes.{mode_of, extension_size}
use Rattle.vax_form.specs.Operation.{integer_opcodes, control_opcodes, mixed_opcodes, move_opcodes, bit_opcodes, operation_at}
use Rattle.vax_form.specs.Row.{operands_of_long, operands_of}
use Rattle.array_text.specs.Hexadecimal.{digits_within, hexadecimal}
use Rattle.vax_text.specs.Names.{low_names, byte_names, word_names, long_names, high_names, name_of}
use Rattle.vax_text.specs.Operands.{mode_text, plain, base, by_mode, general, target, specifier}
use Rattle.vax_text.specs.Text.{operands_text, walk, text_of}

says : List ℕ → List ℕ
unfolding mode_of extension_size integer_opcodes control_opcodes mixed_opcodes move_opcodes bit_opcodes operation_at operands_of_long operands_of digits_within hexadecimal low_names byte_names word_names long_names high_names name_of mode_text plain base by_mode general target specifier operands_text walk
says bytes = text_of 0x200 bytes
"""


def instructions_lemma(place, line):
    code, _, text = line.partition(" ")
    return f'row{place} : says ({list_of(bytes.fromhex(code))}) ≡ codes "{text}"\nunfolding says\nrow{place} = refl\n'


# ---- Alpha words
WORDS_HEAD = """-- Alpha words, and their texts.
use Rattle.std.proofs.Common.{◌≡◌, ℕ, List, refl}
use Rattle.std.specs.Prelude.{codes}
use Rattle.std.specs.Fmt.{digits}
use Rattle.array_text.specs.Hexadecimal.{digits_within, hexadecimal}
use Rattle.alpha_text.specs.Names.{branch_name, memory_name, operate_name}
use Rattle.alpha_text.specs.Text.{is_single, word_text}

says : ℕ → List ℕ
unfolding digits digits_within hexadecimal branch_name memory_name operate_name is_single word_text
says word = word_text word
"""


def words_lemma(place, line):
    word, _, text = line.partition(" ")
    return f'row{place} : says {number(word)} ≡ codes "{text}"\nunfolding says\nrow{place} = refl\n'


TABLES = {
    "InstructionTexts": ("vectors", "instruction_texts", INSTRUCTIONS_HEAD, instructions_lemma),
    "WordTexts": ("vectors", "word_texts", WORDS_HEAD, words_lemma),
}
