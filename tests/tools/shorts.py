"""tools/make/shorter without the prover: small lemmas in, which copies it would try, what of them is chosen, and what goes when nobody cites it."""

from __future__ import annotations

import tempfile
from contextlib import redirect_stdout
from io import StringIO
from pathlib import Path
from typing import Protocol
from unittest.mock import patch

from tests.helper import limited

ROOT = Path(__file__).resolve().parent.parent.parent
from make.shorten.bodies import bodies, merged, whole_left
from make.shorten.checks import KINDS, Asked, Said, copies
from make.shorten.inside import Cited, inlined
from make.shorten.proofs import Proofs
from make.shorten.reading import Lemma, given_names, lemmas_in, own_terms, patterns_of, side_of, sides_of
from make.shorten.rounds import Rounds, choose, put
from make.shorten.tactics import Made, Means, laid

SMALL = """-- what is brought in
use Rattle.a_crate.proofs.Names.{ℕ, small}
abbrev no-lemma : ℕ
no-lemma = 3

-- a lemma of three clauses
pub three : {a : ℕ} (n m : ℕ) → Kind → n ≡ m
three n m One = small n (λ k.
    other k)
three n m Two =
    let a = small n in
    rw (a) at n
    refl
three n m (Three it) = record {
    first = small
        n;
    second = refl;
    }

pub split : (n : ℕ) → n ≡ n
split n = at n
  where
    at : (k : ℕ) → k ≡ k
    at zero = refl
    at (suc k) =
        ap suc (at k)

small : (n : ℕ) → n ≡ n
small n = refl
"""
MODULES = """module _ (n : ℕ)
    (m : ℕ) where
  -- the first one
  pub outer : n ≡ m
  outer =
      ap suc
      (small n)

  module _ (k : ℕ) where
    inner : k ≡ n
    inner = refl

    twice : k ≡ n
    twice = refl

  behind : m ≡ n
  behind = refl

twice : (n : ℕ) → n ≡ n
twice n = refl
"""
LOWER = """use Rattle.a_crate.proofs.Names.{ℕ}

-- ---- a heading

-- nobody cites it
idle-one : ℕ
idle-one = kept-one

-- that one alone cites it
kept-one : ℕ
kept-one = 1

pub asked : ℕ
asked = 2
"""
NAMES = "pub use Rattle.a_crate.proofs.Lower.{idle-one, kept-one, asked}\npub use Rattle.other.proofs.Lower.{idle-one}\n"
UPPER = "use Rattle.a_crate.proofs.Names.{idle-one}\nuse Rattle.a_crate.proofs.Names.{asked as wanted, kept-one}\npub last : ℕ\nlast = wanted\n"


class Tries(Protocol):
    """What counts the tries (tests/tools/run)."""

    def check(self, what: str, holds: bool, why: object = "") -> None:
        ...


def lemma(name: str) -> Lemma:
    return next(it for it in lemmas_in(Path("Small.antt"), SMALL) if it.name == name)


def means() -> Means:
    return Means({"small", "other", "three"}, 9)


def bodies_of(made: list[Made], kind: str) -> list[str]:
    return ["\n".join(it.lines[len(it.lemma.head) :]) for it in made if it.kind == kind]


def try_reading(tries: Tries) -> None:
    """Where lemmas begin and end, and their parts."""
    found = lemmas_in(Path("Small.antt"), SMALL)
    lines = SMALL.split("\n")
    tries.check("shorter, the lemmas of a file", [(it.name, len(it.clauses)) for it in found] == [("three", 3), ("split", 1), ("small", 1)], found)
    tries.check("shorter, where they stand", all(tuple(lines[it.first : it.end]) == it.lines for it in found), found)
    found = lemmas_in(Path("Modules.antt"), MODULES)
    lines = MODULES.split("\n")
    rooms = [(it.name, len(it.room)) for it in found]
    tries.check("shorter, the lemmas of modules", rooms == [("outer", 2), ("inner", 4), ("behind", 2), ("twice", 0)], rooms)
    tries.check("shorter, where those stand", all(lines[it.first : it.end] == it.laid_in(it.lines) for it in found), found)
    side = side_of(("f {a} (x , y) (b = c) =", "    right"))
    tries.check("shorter, the sides of a clause", side is not None and (side.left, side.right) == ("f {a} (x , y) (b = c)", "\n    right"), side)
    tries.check("shorter, patterns", patterns_of("f {a} (x , y) z") == ["{a}", "(x , y)", "z"], patterns_of("f {a} (x , y) z"))
    names = given_names(("f : {a : ℕ} (n m : ℕ) → Kind → (x : T) → n ≡ m",))
    tries.check("shorter, names of a signature", names == ["n", "m", None, "x"], names)
    terms = own_terms("f", "g (f x y) (f z ∙ h) ; f-one q")
    tries.check("shorter, a lemma's own terms", terms == ["(f x y)", "(f z)"], terms)
    long = laid("f x", f"grind ({', '.join(['a_long_name_of_a_lemma'] * 20)})")
    tries.check("shorter, long lines are broken", len(long) > 2 and all(len(it) <= 150 for it in long), long)


def try_copies(tries: Tries) -> None:
    """Which copies are made of each kind."""
    three = lemma("three")
    made = copies(three, {}, means(), KINDS)
    tries.check("shorter, one left side for all clauses", whole_left(three, sides_of(three)) == "three n m e2", whole_left(three, sides_of(three)))
    tries.check("shorter, the whole body", "three n m e2 = grind (arith, small, other) steps 9" in bodies_of(made, "whole"), bodies_of(made, "whole"))
    tries.check("shorter, a clause", any("three n m One = cc (small, other)\nthree n m Two =\n" in it for it in bodies_of(made, "clause")), made)
    wanted = "three n m Two =\n    let a = small n in\n    assumption\n"
    tries.check("shorter, what follows lets", any(wanted in it for it in bodies_of(made, "let")), bodies_of(made, "let"))
    tries.check("shorter, a field", any("{\n    first = cc small;\n    second" in it for it in bodies_of(made, "field")), bodies_of(made, "field"))
    inner = bodies_of(made, "inner")
    tries.check("shorter, what a function gives", any("small n (λ k. search other)\n" in it for it in inner), inner)
    local = bodies_of(copies(lemma("split"), {}, means(), KINDS), "local")
    tries.check("shorter, a function in where", any(it.endswith("\n    at k = grind arith steps 9") for it in local), local)
    one = lemmas_in(Path("Small.antt"), "uses : ℕ\nuses = both (small 1) (grind (arith, small))\n")[0]
    without = [it.lines[-1] for it in inlined(one, {"small": Cited(lemma("small"), 2)}, means())]
    tries.check("shorter, a lemma that goes", without == ["uses = both (grind arith) (grind (arith))"], without)


def try_choice(tries: Tries) -> None:
    """What is chosen among those that pass, and what is written."""
    three = lemma("three")
    merges = [it for it in bodies(three, means(), ["merge"]) if it.call == "assumption" and it.behind in (0, 1)]
    one = merged(three, merges)
    tries.check("shorter, clauses that become one", one is not None and one.lines[-1] == "three n m each = assumption" and len(one.lines) == 7, one)
    tries.check("shorter, one clause alone isn't moved", merged(three, merges[:1]) is None)
    made = copies(three, {}, means(), KINDS)
    best = choose(made, set())
    tries.check("shorter, the shortest and cheapest", [it.lines[-1] for it in best] == ["three n m e2 = assumption"], best)
    passed = [it for it in made if "steps 9" in it.call and it.kind == "whole"]
    with tempfile.TemporaryDirectory() as folder:
        path = Path(folder) / "Small.antt"
        path.write_text(SMALL, encoding="utf-8")
        here = lemmas_in(path, SMALL)[0]
        put({path: SMALL}, [Made(here, "whole", passed[0].lines, 0)])
        text = path.read_text(encoding="utf-8")
        put({path: SMALL}, [Made(here, "whole", (*here.head, "three n m e2 =", "    grind arith steps", "    9"), 0)])
        broken = path.read_text(encoding="utf-8")
    tries.check("shorter, a bound on a line of its own", "three n m e2 =\n    grind arith\n\npub split" in broken, broken)
    tries.check("shorter, what is written", "three n m e2 = grind arith\n\npub split" in text, text)


def try_drop(tries: Tries) -> None:
    """What nobody cites goes, where it is passed on too."""
    with tempfile.TemporaryDirectory() as folder:
        proofs = Path(folder) / "crates" / "a_crate" / "proofs"
        proofs.mkdir(parents=True)
        for name, text in (("Lower", LOWER), ("Names", NAMES), ("Upper", UPPER)):
            (proofs / f"{name}.antt").write_text(text, encoding="utf-8")
        other = Path(folder) / "crates" / "b_crate" / "proofs"
        other.mkdir(parents=True)
        (other / "Other.antt").write_text("use Rattle.a_crate.proofs.Upper.{last}\n", encoding="utf-8")
        gone = Proofs(Path(folder), "a_crate").drop()
        lower, names, upper = ((proofs / f"{it}.antt").read_text(encoding="utf-8") for it in ("Lower", "Names", "Upper"))
    tries.check("shorter, what nobody cites", gone == ["idle-one", "kept-one"], gone)
    tries.check("shorter, it goes with its comment", "nobody" not in lower and "kept" not in lower and "-- ---- a heading" in lower, lower)
    tries.check("shorter, what passes it on", "idle-one" not in names.split("\n")[0] and "other.proofs.Lower.{idle-one}" in names, names)
    tries.check("shorter, what brings it in", "idle-one" not in upper and "kept-one" not in upper, upper)


def stand_in(asked: Asked, folder: Path, kept: str) -> Said:
    """A check that lets copies by `assumption` alone pass, and refuses what is written of `second`."""
    errors = []
    for path in (folder / "proofs").glob("*.antt"):
        for at, line in enumerate(path.read_text(encoding="utf-8").split("\n"), 1):
            copied, ends = "_try" in line and " = " in line, line.endswith("= assumption")
            if copied and not ends or line == "second n = assumption":
                errors.append(f"./proofs/{path.name}:{at}:1: error: `it`: no proof")
    return Said(1 if errors else 0, "\n".join(errors), 0.0)


def try_rounds(tries: Tries) -> None:
    """A round over a stand-in for the check: what passes is written, and put back where it is refused there."""
    lemmas = "".join(f"pub {it} : (n : ℕ) → n ≡ n\n{it} n =\n    refl\n\n" for it in ("first", "second")).rstrip("\n") + "\n"
    with tempfile.TemporaryDirectory() as folder, redirect_stdout(StringIO()) as said, patch("make.shorten.checks.check", stand_in), patch(
        "make.shorten.rounds.check", stand_in
    ):
        root = Path(folder)
        path = root / "crates" / "a_crate" / "proofs" / "Upper.antt"
        path.parent.mkdir(parents=True)
        path.write_text(lemmas, encoding="utf-8")
        other = root / "crates" / "b_crate" / "proofs" / "Other.antt"
        other.parent.mkdir(parents=True)
        other.write_text("use Rattle.a_crate.proofs.Upper.{first, second}\n", encoding="utf-8")
        asked = Asked(root, "a_crate", 1, 9, (), KINDS)
        Rounds(asked, False).run(1, True)
        tries.check("shorter, --dry writes nothing", path.read_text(encoding="utf-8") == lemmas, said.getvalue())
        Rounds(asked, True).run(2, False)
        text = path.read_text(encoding="utf-8")
    wanted = lemmas.replace("first n =\n    refl", "first n = assumption")
    tries.check("shorter, a round", text == wanted and "put back: second (whole)" in said.getvalue(), f"{text} {said.getvalue()}")


def try_shorter(tries: Tries) -> None:
    for part in (try_reading, try_copies, try_choice, try_drop, try_rounds):
        part(tries)
    for words in (["no_crate"], ["--kinds", "no", "uv_heap"], ["--files", "No", "uv_heap"], ["--jobs", "0", "uv_heap"]):
        ended = limited([str(ROOT / "tools" / "make" / "shorter"), *words], capture_output=True, text=True, check=False)
        tries.check(f"shorter, bad words {words}", ended.returncode == 2 and ended.stderr.startswith("shorter: "), ended.stderr)
