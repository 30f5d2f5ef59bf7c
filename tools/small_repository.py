"""The small repository of `tools/believe --selftest`, what is reached in it, and what is tried."""
import tempfile
from pathlib import Path

from definitions import NotUnderstood

FILES = {
    "crates/low/specs/Lib.antt": "pub mod Words\npub mod Shapes\n",
    "crates/low/specs/Words.antt": """-- Words, which unused may say.
use Rattle.std.specs.Prelude.{ℕ, List}

abbrev pub Words : Type 0
Words = List ℕ

abbrev pub unseen : ℕ
unseen = 1
""",
    "crates/low/specs/Shapes.antt": """use Rattle.std.specs.Prelude.{ℕ, suc, zero, ◌+◌}
use Rattle.std.specs.Prelude.{Option, Some, None}
use Rattle.std.specs.Option.{option_map}

-- the name of another one in nit_top
abbrev pub size : ℕ → ℕ
size n = n

abbrev pub hidden : ℕ
hidden = 7

abbrev pub double : ℕ → ℕ
double n = n + twice_of n
  where
    twice_of : ℕ → ℕ
    twice_of hidden = added hidden n

abbrev pub added : ℕ → ℕ → ℕ
added n m = n + m

infixr 10 ◌beside◌
abbrev pub ◌beside◌ : ℕ → ℕ → ℕ
n beside zero = n
n beside (suc m) = m

infixl 10 ◌>>=◌
abbrev pub ◌>>=◌ : Option ℕ → (ℕ → Option ℕ) → Option ℕ
(Some n) >>= f = f n
None >>= f = None

pub record Angle : Type 0 where
  pub degrees : ℕ
""",
    "crates/low/src/kind.rt": """ghost use Rattle.low.specs.Shapes.{hidden};

use crate::note::Note;

/// A kind, which is hidden.
#[derive(Clone)]
pub enum Kind {
    /// No `Unnamed` one.
    Round,
    Noted { note: Note, more: Vec<Sort> },
}

pub struct Sort(pub u32);

pub struct Unnamed {
    pub kind: Kind,
}
""",
    "crates/low/src/note.rt": """use crate::letters::Letters;
use std::marker::Model;

pub struct Note {
    letters: Letters,
}

impl Model for Note {
    ghost use Rattle.low.specs.Words.{Words, unseen};

    ghost Value = { Words };

    ghost view = { λ n. unseen };
}
""",
    "crates/low/src/letters.rt": "pub struct Letters(u32);\n",
    "crates/low/src/store.rt": """ghost use Rattle.std.specs.Prelude.{◌≡◌};
ghost use Rattle.low.specs.Shapes.{added, hidden};

pub trait Store {
    ghost shown: { Self → Angle };

    ghost use Rattle.low.specs.Shapes.{Angle};

    fn look(&self) -> [u8; Letters];

    fn put(&mut self, hidden: &[u8]) -> Answered
        requires { hidden ≡ 1 }
        ensures answer { added hidden 1 ≡ result };
}

pub struct Answered {
    pub kept: bool,
}
""",
    "crates/nit_top/specs/Lib.antt": "pub use Rattle.low.specs.Words\n",
    "crates/nit_top/specs/Below.antt": """pub use Rattle.low.specs.Shapes.{Angle, double, hidden}
pub use Rattle.low.specs.Shapes.{◌>>=◌, ◌beside◌}
unfoldable pub use Rattle.low.specs.declared.kind.Kind.{Kind}
pub use Rattle.nit_top.specs.Words.{Words}
pub use Rattle.std.specs.Prelude.{ℕ, Option, Some, false}
""",
    "crates/nit_top/specs/Answer.antt": """use Rattle.std.specs.Prelude.{◌≡◌, ◌+◌}
use Rattle.nit_top.specs.Below.{Angle, Kind, Option, Some, Words, double,
    false, hidden, ℕ, ◌>>=◌, ◌beside◌}
use Rattle.low.specs.declared.kind.Kind.TheVariants as kind

pub data Way : Type 0 where
  Straight : Way
  Bent : (hidden : Angle) → Way

abbrev pub size : Kind → ℕ
size kind.Round = 0
size other = 1

abbrev pub first : Option ℕ → Option ℕ
first given = do
  hidden ← given
  Some (hidden + 1)

abbrev pub is_bent : (way : ℕ) → Type 0
is_bent way = (hidden : ℕ) × (λ hidden. hidden ≡ way) hidden
    × (let hidden = 1 beside way in hidden ≡ 1)

-- hidden stands here only as a bound name
pub record Answer (w : Words) (hidden : ℕ) : Type 0 where
  pub zero_is : hidden ≡ double 0
  pub unread : Some (Bent (record { degrees = 3 })) ≡ Some Straight
  pub read : size unread ≡ 0 → is_bent 1 × (first (Some 1) ≡ Some hidden)

abbrev pub unread : Angle → ℕ
unread a = a.degrees

abbrev pub apart : ℕ → ℕ
apart n = hidden
""",
    "crates/nit_top/src/top.rt": """ghost use Rattle.nit_top.specs.Answer.{Answer, apart, unread};

use low::Store;
use std::alloc::Global;

pub fn nitpicker<S: Store>(alloc: Global, words: &[String], store: &mut S) -> Done
    ensures { Answer words.now result.status }
{
    apart(words)
}

pub fn nitpicker_alone(words: &[String]) -> Done
    requires short { Answer words.now 1 }
{
    unread(words)
}

pub struct Done {
    pub status: u8,
}
""",
}

REACHED = {
    "crates/low/specs/Words.antt": {"Words"},
    "crates/low/specs/Shapes.antt": {"double", "added", "◌beside◌", "◌>>=◌", "Angle"},
    "crates/low/src/kind.rt": {"Kind", "Sort"},
    "crates/low/src/note.rt": {"Note"},
    "crates/low/src/store.rt": {"Store", "Answered"},
    "crates/nit_top/specs/Answer.antt": {"Answer", "Way", "size", "first", "is_bent"},
    "crates/nit_top/src/top.rt": {"Done"},
}
MORE = [
    ("crates/low/specs/Shapes.antt", "size"),
    ("crates/low/specs/Shapes.antt", "hidden"),
    ("crates/nit_top/specs/Answer.antt", "apart"),
    ("crates/low/src/letters.rt", "Letters"),
    ("crates/low/specs/Gone.antt", "gone"),
    ("crates/low/specs/Words.antt", "unseen"),
]
LIBRARY = {"ℕ", "List", "≡", "+", "Option", "Some", "None", "suc", "zero"}


def page_of(files, words):
    """A page that names these: the first file in the text of a link, the others in a table."""
    (first, names), *rest = files.items()
    rows = [f"| [A file](../{file}) | {quoted(names)} | `apart` |" for file, names in rest]
    return "\n".join(["# `hidden`", f"See [{quoted(names)}](../{first}), and `hidden`.", "", *rows,
                      f"| library, all | {quoted(words)} | words |", ""])


def quoted(names):
    return ", ".join(f"`{name}`" for name in sorted(names))


def without(files, file, name):
    return {**files, file: files[file] - {name}}


def tried(complaints):
    """Pairs of what is said of a page, and of what is to be said."""
    yield complaints(page_of(REACHED, LIBRARY)), []
    for file, names in REACHED.items():
        for name in names:
            page = page_of(without(REACHED, file, name), LIBRARY)
            yield complaints(page), [f"{file}: not named: {name}"]
    for file, name in MORE:
        page = page_of({**REACHED, file: REACHED.get(file, set()) | {name}}, LIBRARY)
        yield complaints(page), [f"{file}: named, and not reached: {name}"]
    for word in LIBRARY:
        page = page_of(REACHED, LIBRARY - {word})
        yield complaints(page), [f"the library: not named: {word}"]
    page = page_of(REACHED, LIBRARY | {"false"})
    yield complaints(page), ["the library: named, and not reached: false"]


def failures(complaints_in):
    """What goes wrong on the small repository, in lines; `complaints_in` is what is tried."""
    with tempfile.TemporaryDirectory() as folder:
        for file, text in FILES.items():
            path = Path(folder, file)
            path.parent.mkdir(parents=True, exist_ok=True)
            path.write_text(text, encoding="utf8")
        pairs = list(tried(lambda page: complaints_in(folder, page)))
        wrong = [f"said {said}, and not {wanted}" for said, wanted in pairs if said != wanted]
        unknown = FILES["crates/low/specs/Words.antt"].replace("List ℕ", "Lists ℕ")
        Path(folder, "crates/low/specs/Words.antt").write_text(unknown, encoding="utf8")
        try:
            complaints_in(folder, "")
            wrong.append("a word that stands nowhere was passed over")
        except NotUnderstood:
            pass
        return wrong, len(pairs) + 1
