#!/usr/bin/env python3
"""Makes docs/THEOREM.md from the clauses and the definitions, or says whether it is what they say today.

    theorem.py [--write]

Without --write nothing is changed; the last line is 'N passed, M failed', and the status is 0 where nothing failed.
"""
import os
import sys
import textwrap

from clauses import Clause, Repository, definitions_of

TOP = os.path.dirname(os.path.dirname(os.path.abspath(__file__)))
PAGE = os.path.join(TOP, "docs", "THEOREM.md")
MOST_DEFINITIONS, MOST_LINES = 50, 195

# The headline, a sentence at a time, and the clauses that say it.
HEADLINE = [
    ("Whenever the registry's lock is free, each open span's count is its ledgered handles and worker entries plus its "
     "open children, is positive, and its parent is open;",
     ["span_registry::laws::promises::the_promise:found,counted,bounded,ledgered"]),
    ("closed ids find nothing;", ["span_registry::laws::promises::the_promise:absent,closed"]),
    ("a release closes exactly the spans that nothing holds any longer, child first, each announced once to every layer "
     "that wants it;",
     ["span_registry::under_lock::handles::try_close:released", "span_registry::under_lock::entries::exit:released"]),
    ("and when all shares come back with nothing outstanding, the registry is empty.",
     ["span_registry::under_lock::reports::finish:emptied", "span_registry::under_lock::reports::finish_kept:emptied"]),
]

# What is promised beside it, and the clauses that say it; their definitions are in MODEL.md.
BESIDE = [
    ("What was announced is one legal history of the calls.",
     ["span_registry::laws::promises::whenever_the_lock_is_free:legal"]),
    ("Each call proves that it happened: what its worker has then seen of that history ends with this call.",
     ["span_registry::Registry::try_close:seen,happened,released"]),
    ("A handle proves that its span is open.",
     ["span_registry::laws::promises::a_handles_span_is_open:open,held,slot"]),
    ("A span closes with the last of the holders that are listed, and not before.",
     ["span_forest::forest::laws::a_span_closes_with_the_last_that_keeps_it"]),
]

HOW_TO_READ = (
    "A `Locked` is what lies under the lock while that is free. In a clause `result` is what the function answers "
    "(`result.0` its first part), `x.now` what is lent to it, `x.old` and `x.new` what it may change, before and after. "
    "`IfSome`, `IfNone` and `OnOk` say what holds of such an answer, `IsTrue` that a test succeeds. `S` is the setup "
    "that a registry's type names, `H` and `C` are its ledgers of handles and of calls.\n")

END = """## What it does not say
- That a call returns, that a lock is got, which worker comes first, or that a thread runs. The printing thread takes no
  lock: no function that may wait is called there, which the counts in `crates.txt` show.
- That memory or a place in the ring was there: a call may be refused for want of either, and changes no span then.
- *Announced* means put into the batch that the call sends. A note of a batch may have no line: where its layer has no
  form, where its number is past the range, or where memory for its text is refused. Such notes are counted.
- Anything of the lock that a C or Rust program puts round the core, or of the store under `tracing`.
- Anything of the toolchain's logic and compiler, the C library and the hardware, which are trusted.
"""


def where(path):
    return os.path.relpath(path, TOP)


def quoted(text):
    return "```\n%s\n```\n" % text


def shown(clause):
    signature = textwrap.dedent(clause.signature()).rstrip()
    return "`%s` (%s)\n\n%s" % (clause.name, where(clause.path), quoted(signature + "\n" + clause.text()))


def page():
    """The page, and how many definitions and lines the headline cites."""
    repository = Repository(TOP)
    said = [(sentence, [Clause(repository, it) for it in names]) for sentence, names in HEADLINE]
    definitions, unread, lost = definitions_of(repository, [it for _, clauses in said for it in clauses])
    words = [it for it in definitions if it.kind not in ("view", "code")]
    lines = sum(it.size() for it in words)
    text = ["# The theorem\n", "<!-- tests/theorem.py --write makes this page. -->\n",
            "What the registry promises, sentence by sentence, each beside the clauses that say it. A check proves that "
            "the function meets them; the functions of `under_lock` are what the calls of their names run under the "
            "lock.\n", HOW_TO_READ,
            "The %d definitions of `specs/` that the clauses cite, %d lines without comments, follow in the order to "
            "read them in, with %d types of the code. Words of the toolchain's library aren't followed, nor "
            "what fields are that nothing reads: %s.\n" % (
                len(words), lines, len(definitions) - len(words),
                ", ".join("`%s` (%s)" % (it.name, where(it.path)) for it in unread))]
    for sentence, clauses in said:
        text += ["> %s\n" % sentence] + [shown(it) for it in clauses]
    text.append("## The definitions\n")
    for number, it in enumerate(definitions, 1):
        text.append("%d. `%s` (%s)\n\n%s" % (number, it.name, where(it.path), quoted("\n".join(it.comment + it.lines).rstrip())))
    text.append("## Beside it\n")
    for sentence, names in BESIDE:
        text += ["> %s\n" % sentence] + [shown(Clause(repository, it)) for it in names]
    text.append(END)
    return "\n".join(text), len(words), lines, lost


def main(arguments):
    if arguments not in ([], ["--write"]):
        sys.exit(__doc__)
    text, definitions, lines, lost = page()
    if arguments:
        with open(PAGE, "w", encoding="utf-8") as file:
            file.write(text)
    with open(PAGE, encoding="utf-8") as file:
        current = file.read() == text
    failed = ["not found: " + name for name in lost]
    failed += [] if current else ["docs/THEOREM.md isn't what the clauses say: python3 tests/theorem.py --write"]
    if definitions > MOST_DEFINITIONS or lines > MOST_LINES:
        failed.append("the headline cites %d definitions and %d lines, at most %d and %d are wanted"
                      % (definitions, lines, MOST_DEFINITIONS, MOST_LINES))
    for it in failed:
        print(it)
    print("%d passed, %d failed" % (3 - min(3, len(failed)), len(failed)))
    return 1 if failed else 0


if __name__ == "__main__":
    sys.exit(main(sys.argv[1:]))
