"""Tries the comparison on a small repository: each case edits it, and says all that must then differ."""

import os
import shutil
import subprocess
import tempfile
from collections import Counter

from .match import CHANGED, GONE, MOVED, NEW, RENAMED, SAME, Matching
from .report import Report, title
from .snapshot import Snapshot

SIZES = "crates/low/specs/Sizes.antt"
BASE = {
    "crates.txt": "low:\nhigh: low\n",
    SIZES: """-- Sizes.
use Rattle.std.specs.Prelude.{ℕ, ◌<◌, ◌≤◌, ◌+◌}
use Rattle.low.specs.declared.boxes.Box.{Box}

-- a size and its limit
pub record Sized (b : Box) : Type 0 where
  pub size : ℕ
  pub limit : ℕ

abbrev pub fits : ℕ → ℕ → Type 0
fits n limit = n < limit

abbrev pub both : ℕ → ℕ → ℕ → Type 0
both n m limit = fits n limit × fits m limit

abbrev pub room : {b : Box} → Sized b → ℕ
room s = s.limit + s.size
""",
    "crates/low/specs/Other.antt": """use Rattle.std.specs.Prelude.{ℕ, ◌<◌}

pub record Counted : Type 0 where
  pub limit : ℕ

abbrev pub fits : ℕ → ℕ → Type 0
fits n limit = limit < n
""",
    "crates/low/proofs/Sums.antt": """use Rattle.std.proofs.Common.{ℕ, arith}
use Rattle.low.specs.Sizes.{fits, both}

pub split : (n m limit : ℕ) → both n m limit → fits m limit
split n m limit h = h.1
""",
    "crates/low/proofs/boxes/Box/grow/Answers.antt": """use Rattle.low.proofs.Sums.{split}
use Rattle.low.proofs.boxes.Box.grow.Goals as goal

pub returns-clause-fits : goal.returns-clause-fits
returns-clause-fits c = split c.args.by 0 c.args.self.size c.ensures.fits
""",
    "crates/low/src/lib.rt": "//! Boxes.\n\npub mod boxes;\n",
    "crates/low/src/boxes.rt": """//! A box.

ghost use Rattle.std.specs.Prelude.{◌≡◌};
ghost use Rattle.low.specs.Sizes.{fits};

pub struct Box {
    pub size: u32,
}

impl Box {
    /// A larger one.
    pub fn grow(self, by: u32) -> Box
        requires { fits by self.size }
        ensures fits { fits by result.size }
        ensures size { result.size ≡ self.size }
    {
        Box { size: self.size + by - by }
    }
}
""",
    "crates/low/must-fail/smaller.edit": "file: src/boxes.rt\nold: self.size + by\nnew: self.size - by\n",
    "crates/high/specs/Uses.antt": """use Rattle.low.specs.Sizes.{fits as small}

abbrev pub alone : (n : Rattle) → Type 0
alone n = small n n
""",
    "crates/high/src/lib.rt": "//! Uses.\n",
}
DEFINITIONS, LOW, BOXES, SUMS = "definitions", "crates/low/specs/", "crates/low/src/boxes.rt", "crates/low/proofs/Sums.antt"


def everywhere(*pairs):
    """Replaces words in all files, and in their names."""

    def edit(files):
        for path, text in list(files.items()):
            for old, new in pairs:
                text = text.replace(old, new)
            files[path] = text

    return edit


def within(path, old, new):
    def edit(files):
        assert files[path].count(old) == 1, (path, old)
        files[path] = files[path].replace(old, new)

    return edit


def in_turn(*edits):
    def edit(files):
        for it in edits:
            it(files)

    return edit


def moved(files):
    files["crates/high/specs/Sizes.antt"] = files.pop(SIZES)
    everywhere(("low.specs.Sizes", "high.specs.Sizes"))(files)


def renamed_and_moved(files):
    within(SIZES, "\nabbrev pub both : ℕ → ℕ → ℕ → Type 0\nboth n m limit = fits n limit × fits m limit\n", "")(files)
    files["crates/high/specs/Pairs.antt"] = """use Rattle.std.specs.Prelude.{ℕ}
use Rattle.low.specs.Sizes.{fits as is_room}

abbrev pub pair : ℕ → ℕ → ℕ → Type 0
pair n m limit = is_room n limit × is_room m limit
"""
    everywhere(("Sizes.{fits, both}", "Sizes.{fits}\nuse Rattle.high.specs.Pairs.{pair}"), ("→ both", "→ pair"))(files)


def box_renamed(files):
    everywhere(("Box", "Crate"))(files)
    files["crates/low/proofs/boxes/Crate/grow/Answers.antt"] = files.pop("crates/low/proofs/boxes/Box/grow/Answers.antt")


# what is done, and every difference that must then be found: (state, kind, title of the later item, or of the gone one)
CASES = [
    ("nothing", everywhere(), []),
    ("a definition renamed everywhere", everywhere(("both", "pair")), [(RENAMED, DEFINITIONS, "Sizes.pair")]),
    ("a field renamed everywhere", everywhere(("limit", "most")), [(RENAMED, DEFINITIONS, "Sizes.Sized"), (RENAMED, DEFINITIONS, "Other.Counted")]),
    ("a field renamed that another record has too", in_turn(within(SIZES, "pub limit", "pub most"), within(SIZES, "s.limit", "s.most")), [(RENAMED, DEFINITIONS, "Sizes.Sized")]),
    ("a file moved to another crate", moved, [(MOVED, DEFINITIONS, f"Sizes.{it}") for it in ("Sized", "both", "fits", "room")]),
    ("a definition renamed, and moved", renamed_and_moved, [(RENAMED, DEFINITIONS, "Pairs.pair")]),
    ("< turned into ≤", within(SIZES, "n < limit", "n ≤ limit"), [(CHANGED, DEFINITIONS, "Sizes.fits")]),
    ("two names swapped in one place", within(SIZES, "s.limit + s.size", "s.size + s.limit"), [(CHANGED, DEFINITIONS, "Sizes.room")]),
    ("bound names swapped in one place", within(SIZES, "fits n limit × fits m limit", "fits m limit × fits n limit"), [(CHANGED, DEFINITIONS, "Sizes.both")]),
    ("a clause dropped", within(BOXES, "        ensures size { result.size ≡ self.size }\n", ""), [(CHANGED, "public contracts", "boxes.Box.grow")]),
    ("a clause about something else", within(BOXES, "fits by result.size", "fits by by"), [(CHANGED, "public contracts", "boxes.Box.grow")]),
    ("an edit deleted", lambda files: files.pop("crates/low/must-fail/smaller.edit"), [(GONE, "edits", "must-fail/smaller.edit")]),
    ("a theorem added", within(SUMS, "split n m limit h = h.1", "split n m limit h = h.1\n\none : ℕ\none = 1"), [(NEW, "theorems", "Sums.one"), (CHANGED, "files of lemmas", "proofs/Sums.antt")]),
    ("a comment and a line break", within(SIZES, "both n m limit = fits", "-- both of them\nboth n m limit =\n    fits"), []),
    ("bound variables renamed", within(SIZES, "both n m limit = fits n limit × fits m limit", "both a b c = fits a c × fits b c"), []),
    ("a proof written anew", within(SUMS, "= h.1", "= omega arith"), [(CHANGED, "proofs of theorems", "Sums.split"), (CHANGED, "files of lemmas", "proofs/Sums.antt")]),
    ("an import that leads elsewhere", within("crates/high/specs/Uses.antt", "Sizes.{fits as", "Other.{fits as"), [(CHANGED, DEFINITIONS, "Uses.alone")]),
    ("another type", within(BOXES, "by: u32", "by: u64"), [(CHANGED, "public contracts", "boxes.Box.grow")]),
    ("code written anew", within(BOXES, "self.size + by - by", "self.size"), [(CHANGED, "code of functions", "boxes.Box.grow")]),
    ("a type renamed everywhere", box_renamed, [(RENAMED, "types, constants", "boxes.Crate"), (MOVED, "answers", "proofs/boxes/Crate/grow/Answers.antt")]),
    ("a parameter renamed", everywhere(("by: u32", "step: u32"), ("fits by", "fits step"), ("size + by - by", "size + step - step"), ("args.by", "args.step")), []),
    ("a contract made private", within(BOXES, "pub fn grow", "fn grow"), [(CHANGED, "private contracts", "boxes.Box.grow")]),
]
# a case of which the report also says this
SAID = {"a field renamed that another record has too": "keep that name of a field: `Sizes.room` (.limit → .most)"}


def commit(files):
    """Makes these files a commit of the repository in this folder, and returns its name."""
    for name in os.listdir("."):
        if name != ".git":
            shutil.rmtree(name) if os.path.isdir(name) else os.remove(name)
    for path, text in files.items():
        os.makedirs(os.path.dirname(path) or ".", exist_ok=True)
        with open(path, "w", encoding="utf-8") as it:
            it.write(text)
    who = ["-c", "user.name=selftest", "-c", "user.email=selftest@localhost", "-c", "commit.gpgsign=false"]
    subprocess.run(["git", "add", "-A"], check=True)
    subprocess.run(["git", *who, "commit", "-q", "--allow-empty", "--no-verify", "-m", "case"], check=True)
    return subprocess.run(["git", "rev-parse", "HEAD"], check=True, stdout=subprocess.PIPE).stdout.decode().strip()


def differing(old, new):
    """All differences between two commits, and the report."""
    old, new = Snapshot(old), Snapshot(new)
    report = Report(old, new, Matching(old, new))
    found = [(state, kind, title(after or before)) for _, kind, state, before, after in report.found if state != SAME]
    return sorted(found), report.text(full=True)


def selftest():
    """Returns 0 where each case is judged as it must be."""
    failed, home = 0, os.getcwd()
    with tempfile.TemporaryDirectory(prefix="changes-") as folder:
        os.chdir(folder)
        try:
            subprocess.run(["git", "init", "-q"], check=True)
            base = commit(BASE)
            for name, edit, wanted in CASES:
                files = dict(BASE)
                edit(files)
                found, text = differing(base, commit(files))
                counts = Counter(it[:2] for it in wanted)
                is_told = all(it[2] in text and f"{counts[it[:2]]} {it[0]}" in text for it in wanted) and SAID.get(name, "") in text
                is_right = found == sorted(wanted) and is_told
                failed += not is_right
                print(f"{'ok    ' if is_right else 'FAILED'} {name}" + ("" if is_right else f": {found}"))
        finally:
            os.chdir(home)
    return 1 if failed else 0
