"""What the makers of lemmas share: rows of tables, terms, and lemmas that hold by computation."""
import pathlib

CRATES = pathlib.Path(__file__).resolve().parent.parent.parent / "crates"
COMMON = "use Rattle.std.proofs.Common.{◌≡◌, ℕ, List, [], ◌∷◌, Bool, true, false, Option, Some, None, refl}"
VAX = "Rattle.vax_form.specs"
DECLARED = f"{VAX}.declared"


def lines_of(crate, table):
    """The rows of a table, without its comments."""
    lines = (CRATES / crate / "data" / f"{table}.txt").read_text().splitlines()
    return [line for line in lines if line and not line.startswith("#")]


def truth(holds):
    return "true" if holds else "false"


def number(digits):
    return str(int(digits, 16))


def signed(value):
    """A whole number as a term."""
    return f"(pos {value})" if value >= 0 else f"(negsuc {-value - 1})"


def list_of(terms):
    return "".join(f"{term} ∷ " for term in terms) + "[]"


def some(term):
    return f"(Some {term})"


def lemma(name, left, right, unfolding=""):
    """A lemma that two terms are the same by computation."""
    return "\n".join([f"{name} : {left} ≡ {right}", *([f"unfolding {unfolding}"] if unfolding else []), f"{name} = refl", ""])
