"""What tools/unused must list, and what it must leave alone: a small repository that has one of each."""
import tempfile
from pathlib import Path

from . import unused
from .repository import Repository

FILES = {
    "crates.txt": "a:\n",
    "docs/PROMISES.md": "The rule is carried by `a/proofs/Laws.promised`, and by all of `a/proofs/Shown`.\n",
    "crates/a/src/lib.rt": """\
mod m;

ghost use Rattle.std.specs.Prelude.{◌≡◌, ◌+◌, ◌<◌};
ghost use Rattle.a.specs.Words.{answer, place};

use crate::m::{Held, place};
use std::env::Env;

// The sum, which isn't below anything; `stated_so` says why.
#[tactic(auto, using(crate::proofs::Laws::by_attribute))]
fn f(x: u64) -> u64
    ensures { result ≡ answer x + 1 }
{
    place(x)
}
""",
    "crates/a/src/m.rt": f"""\
ghost use Rattle.std.specs.Prelude.{{◌≤◌}};
ghost use Rattle.a.specs.Words.{{answer}};

pub struct Held {{
    x: u64,
    pub ghost small: {{ x ≤ 9 }},
}}

pub fn place(x: u64) -> u64
    ensures {{ answer {' '.join(['x'] * 80)}
        }}
{{
    x
}}
""",
    "crates/a/specs/Words.antt": """\
-- Words.
use Rattle.std.specs.Prelude.{ℕ, Bool, true, false}

abbrev pub answer : ℕ → ℕ
answer x = shape (some x)

pub data Shape : Type 0 where
  some : ℕ → Shape
  other : Shape

abbrev shape : Shape → ℕ
shape (some x) = x
shape other = 0

abbrev pub place : Bool
place = true

-- by an edit alone
abbrev pub edited : ℕ
edited = 1
""",
    "crates/a/proofs/Laws.antt": f"""\
-- Laws.
use Prim.Native.Nat.{{ℕ, ◌+◌, ◌*◌}}
use mathlib.Core.Path.{{◌≡◌, refl as same, sym}}
use Rattle.a.specs.Words.{{Shape}}
use Rattle.a.specs.Words as words
use Rattle.a.proofs.Shown as shown
-- sym and ◌*◌ stand in a comment

pub promised : (x : ℕ) → x + 0 ≡ x
promised x = helper x

helper : (x : ℕ) → x + 0 ≡ x
helper x = same

pub stated_so : ℕ → ℕ
stated_so x = x.sym.before.before.before.before.before.before.args

pub by_attribute : (n : ℕ) → n ≡ n
by_attribute n = same

pub by_answer : (n : ℕ) → n ≡ n
by_answer n = same

module _ (x : ℕ) where
  pub idle : Shape.other ≡ words.answer
  idle = idle_helper x

idle_helper : (n : ℕ) → n ≡ n
idle_helper n = same

long : {'x' * unused.LONG_TEXT}
long = idle
""",
    "crates/a/proofs/Shown.antt": """\
use Prim.Native.Nat.{ℕ}

pub whole : ℕ
whole = 0

hidden : ℕ
hidden = 1
""",
    "crates/a/proofs/f/Proof.antt": """\
use borrow.Author.Rules.{rules}
use Rattle.a.proofs.f.Tie as tie

returns : tie.Need-returns
returns c κs =
    search rules

pub f_spec : {M : Type 1} → statement M
f_spec = tie.close (tie.spec returns)
""",
    "crates/a/proofs/m/place/Answers.antt": """\
-- Answers.
use borrow.Author.Rules.{rules}
use Rattle.a.proofs.Laws.{by_answer}
use Rattle.a.proofs.m.place.Goals as goal

pub returns-then-x : goal.returns-then-x
returns-then-x c = by_answer c.x

unasked : (n : Shape) → goal.returns
unasked n = search rules
""",
    "crates/a/proofs/m/place/Invariants.antt": """\
use Prim.Native.Nat.{ℕ}
use Rattle.a.proofs.m.place.Given as goal

abbrev pub invariant-loop : goal.invariant-loop
invariant-loop l = l.x

abbrev pub decreases-loop : goal.decreases-loop
decreases-loop l = search rules
""",
    "edits/a/one.edit": "file: specs/Words.antt\nold: answer x = shape (some x)\nnew: answer x = edited\n",
}

MUST = {
    "crates/a/specs/Words.antt: law: place",
    "crates/a/proofs/Laws.antt: law: idle",
    "crates/a/proofs/Laws.antt: law: idle_helper",
    "crates/a/proofs/m/place/Answers.antt: law: unasked",
    "crates/a/proofs/m/place/Invariants.antt: import: ℕ",
    "crates/a/proofs/m/place/Invariants.antt: sentence",
    "crates/a/proofs/Laws.antt: law: long",
    "crates/a/proofs/Shown.antt: law: hidden",
    "crates/a/specs/Words.antt: import: false",
    "crates/a/proofs/Laws.antt: import: ◌*◌",
    "crates/a/proofs/Laws.antt: import: sym",
    "crates/a/proofs/Laws.antt: import: shown",
    "crates/a/src/lib.rt: import: ghost use ◌<◌",
    "crates/a/src/lib.rt: import: ghost use place",
    "crates/a/src/lib.rt: import: use Held",
    "crates/a/proofs/Laws.antt: long",
    "crates/a/src/m.rt: long",
    "crates/a/proofs/Laws.antt: chain",
    "crates/a/proofs/Shown.antt: sentence",
}


def found_in(root):
    said = set()
    for one in unused.all_found(Repository(root)):
        words = f": {one.words.split(':')[0]}" if one.kind in ("law", "import") else ""
        said.add(f"{one.path}: {one.kind}{words}")
    return said


def trial():
    """Whether what must be listed is, and nothing else; whether each kind by itself makes the status 1, and nothing listed 0; and whether
    mended `use` lines leave no import to list."""
    with tempfile.TemporaryDirectory() as folder:
        root = Path(folder)
        for path, text in FILES.items():
            (root / path).parent.mkdir(parents=True, exist_ok=True)
            (root / path).write_text(text)
        said = found_in(root)
        unused.fix_imports(Repository(root))
        left = {line for line in found_in(root) if ": import" in line}
        brought = (root / "crates/a/proofs/Laws.antt").read_text().splitlines()[1:5]
    wrong = [f"not listed: {line}" for line in sorted(MUST - said)] + [f"listed: {line}" for line in sorted(said - MUST)]
    wrong += [f"left by --fix-imports: {line}" for line in sorted(left)]
    kept = ["use Prim.Native.Nat.{ℕ, ◌+◌}", "use mathlib.Core.Path.{◌≡◌, refl as same}"]
    if brought[:2] != kept or len([line for line in brought if line.startswith("use ")]) != 4:
        wrong.append("--fix-imports wrote other lines than those that are left")
    kinds = {line.split(": ")[1] for line in MUST}
    wrong += [f"the status is 0 where there is one {kind}" for kind in sorted(kinds) if unused.status({kind: 1}) != 1]
    if unused.status(dict.fromkeys(kinds, 0)) != 0:
        wrong.append("the status is 1 where nothing is listed")
    for line in wrong:
        print(f"unused: {line}")
    print(f"unused: {len(MUST)} things to list in a trial, {len(wrong)} wrong")
    return 1 if wrong else 0
