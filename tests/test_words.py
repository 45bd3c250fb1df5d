#!/usr/bin/env python3
"""Compares what words.py says of a small tree of specs/ with what it has to say.

usage: test_words.py
The last line is 'N passed, M failed', and the status is 0 where nothing failed.
"""
import sys
import tempfile
from pathlib import Path

import words

# low and high both define `count` and `Spans`. The two counts are the same, and so are `size` and `rows_in`. high gives
# all of low.Spans again. `marks` is public once: one stands in inside/, and high's is its own.
TREE = {
    "low/specs/Lib.antt": "pub mod Spans\npub mod Rows\npub mod inside\n",
    "low/specs/Rows.antt": """-- Rows of anything.
use Rattle.std.specs.Prelude.{ℕ, ◌+◌, List, [], ◌∷◌}

module _ {T : Type 0} where

  abbrev pub rows_in : List T → ℕ
  rows_in [] = 0
  rows_in (row ∷ rows) = 1 + rows_in rows
""",
    "low/specs/Spans.antt": """-- The spans.
use Rattle.std.specs.Prelude.{ℕ, ◌+◌, List, [], ◌∷◌}

abbrev pub Spans : Type 0
Spans = List ℕ

-- how many there are
abbrev pub count : Spans → ℕ
count [] = 0
count (e ∷ es) = 1 + count es

abbrev pub marks : ℕ
marks = 1
""",
    "low/specs/inside.antt": "pub mod Marks\n",
    "low/specs/inside/Marks.antt": "-- What the proofs need.\nabbrev pub marks : ℕ\nmarks = 2\n",
    "high/specs/Lib.antt": "-- The words of low, again.\npub use Rattle.low.specs.Spans\npub mod Table\n",
    "high/specs/Table.antt": """-- The table.
use Rattle.std.specs.Prelude.{ℕ, ◌+◌, List, [], ◌∷◌}
use Rattle.low.specs.Spans.{Spans as LowSpans, count as low_count}

pub record Spans (most : ℕ) : Type 0 where
  pub count : ℕ

-- how many there are
abbrev pub count : LowSpans → ℕ
count [] = 0
count (first ∷ others) = 1 + count others

abbrev pub size : LowSpans → ℕ
size [] = 0
size (x ∷ xs) = 1 + size xs

abbrev pub twice_as_many : LowSpans → ℕ
twice_as_many spans = low_count spans + low_count spans

abbrev pub doubled : LowSpans → ℕ
doubled these = size these + count these

abbrev marks : ℕ
marks = 3
""",
    "low/proofs/Counted.antt": """use Rattle.low.specs.Spans.{count}

one : count (1 ∷ []) ≡ 1
unfolding count
one = refl
""",
    "no_specs/src/lib.rt": "#[tactic(auto, unfolding(low::specs::Rows::rows_in))]\n",
}
# What has to be said of the words in their order: of the five others, each defined once, nothing.
SAID = ["Spans has 2 definitions: high.Table low.Spans", "count has 2 definitions: high.Table low.Spans", *[None] * 5]
# A word, the file that alone may open it, and what has to be said.
COUNTED, UNSPECIFIED = "crates/low/proofs/Counted.antt", "crates/no_specs/src/lib.rt"
OPENED = [
    ("count", COUNTED, f"count is opened in crates/high/specs/Table.antt {COUNTED}, and {COUNTED} alone may"),
    ("rows_in", UNSPECIFIED, None),
    ("rows_in", COUNTED, f"rows_in is opened in {UNSPECIFIED}, and {COUNTED} alone may"),
    ("size", COUNTED, f"size is opened in no file, and {COUNTED} alone may"),
]
SAME = [["high.Table.count", "high.Table.size", "low.Rows.rows_in", "low.Spans.count"],
        ["high.Table.doubled", "high.Table.twice_as_many"]]


def looks(top):
    """What words.py says, and what it has to say."""
    where = words.public_words(top)
    yield where.get("marks"), ["low.Spans"]
    yield where.get("Spans"), ["high.Table", "low.Spans"]
    yield list(words.defined_again(where)), SAID
    for word, home, wanted in OPENED:
        yield list(words.opened(top, {word: home})), [wanted]
    yield sorted(words.same_words(top, where)), SAME


def main():
    passed = failed = 0
    with tempfile.TemporaryDirectory() as room:
        for name, text in TREE.items():
            path = Path(room, "crates", name)
            path.parent.mkdir(parents=True, exist_ok=True)
            path.write_text(text, encoding="utf-8")
        for said, wanted in looks(Path(room)):
            passed, failed = passed + (said == wanted), failed + (said != wanted)
            if said != wanted:
                print(f"FAILED: said {said}, wanted {wanted}")
    print(f"{passed} passed, {failed} failed")
    return 1 if failed else 0


if __name__ == "__main__":
    sys.exit(main())
