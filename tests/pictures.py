#!/usr/bin/env python3
"""Draws the pictures of the pages as SVG, for light and dark pages, each with a text for who can't see it.

usage: pictures.py [--write]
They stand in docs/pictures. Without --write it says whether they are what it draws. The last line is
'N passed, M failed'.
"""
import math
import re
import sys
from xml.sax.saxutils import escape

from figures import read_figures, said_of
from pages import TOP

HERE = TOP / "docs/pictures"

STYLE = """
text { font-family: system-ui, 'Segoe UI', Helvetica, Arial, sans-serif; font-size: 14px; fill: #24292f }
.name { font-weight: 600 } .small { font-size: 12px; fill: #57606a } .page { fill: #ffffff }
.box { fill: #eef3fa; stroke: #5b7aa8 } .lock { fill: #fdf3e3; stroke: #b7791f }
.free { fill: #e9f6ec; stroke: #3d8b54 } .line { stroke: #6e7781; stroke-width: 1.5; fill: none }
.count { fill: #2563a8; font-weight: 600 } .gone { fill: #b42318 }
.value { font-size: 11px } .grid { fill: #d0d7de }
@media (prefers-color-scheme: dark) {
  text { fill: #e6edf3 } .small { fill: #9da7b3 } .page { fill: #0d1117 }
  .box { fill: #1b2637; stroke: #6f93c9 } .lock { fill: #33270f; stroke: #d29922 }
  .free { fill: #12291a; stroke: #56b870 } .line { stroke: #8b949e } .count { fill: #58a6ff } .gone { fill: #ff7b72 }
  .grid { fill: #3d444d }
}
"""
CURVES = """
.grid { stroke: #d8dee4; fill: none } .curve { stroke-width: 2; fill: none } .dashed { stroke-dasharray: 5 4 }
.one { stroke: #2563a8 } .four { stroke: #1a7f4b } .two { stroke: #b7791f } .three { stroke: #8250df }
.five { stroke: #b42318 }
@media (prefers-color-scheme: dark) {
  .grid { stroke: #30363d } .one { stroke: #58a6ff } .four { stroke: #56b870 } .two { stroke: #d29922 }
  .three { stroke: #bc8cff } .five { stroke: #ff7b72 }
}
"""
ARROW = ('<defs><marker id="arrow" viewBox="0 0 8 8" refX="7" refY="4" markerWidth="8" markerHeight="8" orient="auto">'
         '<path class="line" d="M1 1L7 4L1 7"/></marker></defs>\n')


class Picture:
    """A picture of so many points, with its title, and what is told to who can't see it."""

    def __init__(self, width, height, title, told, style=STYLE):
        self.width, self.height, self.title, self.told, self.style = width, height, title, told, style
        self.parts = []

    def box(self, x, y, width, height, lines, kind="box"):
        """A box with lines in its middle, of which the first is its name."""
        self.bar(x, y, width, height, kind, 6)
        top = y + height / 2 - 8 * (len(lines) - 1) + 5
        for number, line in enumerate(lines):
            self.text(x + width / 2, top + 17 * number, line, "small" if number else "name", "middle")

    def text(self, x, y, line, kind="small", anchor="start"):
        self.parts.append(f'<text class="{kind}" x="{x:g}" y="{y:g}" text-anchor="{anchor}">{escape(line)}</text>')

    def line(self, *points, arrow=True):
        path = "L".join(f"{x:g} {y:g}" for x, y in points)
        end = ' marker-end="url(#arrow)"' if arrow else ""
        self.parts.append(f'<path class="line" d="M{path}"{end}/>')

    def curve(self, points, kind):
        path = "L".join(f"{x:.1f} {y:.1f}" for x, y in points)
        self.parts.append(f'<path class="{kind}" d="M{path}"/>')

    def bar(self, x, y, width, height, kind, round_by=0):
        size = f'x="{x:g}" y="{y:g}" width="{width:g}" height="{height:g}"'
        self.parts.append(f'<rect class="{kind}" {size} rx="{round_by}"/>')

    def svg(self):
        size = f"{self.width:g} {self.height:g}"
        head = f'<svg xmlns="http://www.w3.org/2000/svg" viewBox="0 0 {size}" role="img">\n'
        told = f"<title>{escape(self.title)}</title>\n<desc>{escape(self.told)}</desc>\n<style>{self.style}</style>\n"
        page = f'<rect class="page" width="{self.width:g}" height="{self.height:g}"/>\n'
        return head + told + ARROW + page + "\n".join(self.parts) + "\n</svg>\n"


# ---- the crates

# What each crate is for, and where the middle of its box stands, in boxes from the left. The crates of tests, the
# example and the programs of tests and benchmarks are left out.
CRATES = {
    "span_id": ("ids, levels, limits", 3), "span_json": ("a line's value", 0),
    "span_layers": ("who is told, and how", 1), "span_known": ("known, in no bytes", 2),
    "span_seats": ("a handle's proof", 3), "span_stack": ("who is inside", 4),
    "span_recent": ("copied lately", 5), "span_slots": ("no id twice", 6), "span_border": ("what C holds", 7.5),
    "span_script": ("a line, read", 0.5),
    "span_outlet": ("what leaves the core", 2), "span_forest": ("what holds a span", 5.5),
    "span_store": ("closes in two steps", 6.5), "span_run": ("counted devices", 0.5),
    "span_history": ("what a worker saw", 2.7), "span_core": ("a call, a lawful step", 4.2),
    "span_store_ffi": ("the store for C", 7.3), "span_replay": ("a script run", 1.55),
    "span_why": ("why spans are open", 2.47),
    "span_registry": ("the lock, handles", 3.45), "span_ffi": ("the core for C", 6.2),
    "span_storm": ("many workers, a drain", 2.6), "tracerun_command_line": ("words to an order", 0.25),
    "tracerun": ("the program", 1.8),
}


def read_crates():
    """The crates of the picture, lowest first, each with those of them on which it stands."""
    graph = {}
    for line in (TOP / "crates.txt").read_text(encoding="utf-8").splitlines():
        found = re.match(r"(\w+)[^:#]*:([^#]*)", line)
        if found and found[1] in CRATES:
            graph[found[1]] = [it for it in found[2].split() if it in CRATES]
    return graph


def all_below(graph, name):
    return set(graph[name]).union(*(all_below(graph, it) for it in graph[name]))


def rows_of(graph):
    """Each crate stands above those that it stands on; one that stands on none just below the lowest above it."""
    row = {}
    for name in sorted(graph, key=lambda it: len(all_below(graph, it))):
        row[name] = 1 + max((row[it] for it in graph[name]), default=-1)
    for name in (it for it in graph if not graph[it]):
        row[name] = min(row[it] for it in graph if name in graph[it]) - 1
    return row


def architecture():
    graph = read_crates()
    row, wide, high, across, down = rows_of(graph), 150, 48, 165, 92
    told = "; ".join(f"{name} ({CRATES[name][0]}) stands on {', '.join(graph[name]) or 'no other'}" for name in graph)
    rows = max(row.values()) + 1
    picture = Picture(8.5 * across + 10, down * rows - 24, "The crates, each above those that it stands on", told + ".")
    middle = {it: (90 + across * CRATES[it][1], 10 + down * (rows - 1 - row[it])) for it in graph}
    for name, stands_on in graph.items():
        for it in stands_on:
            if not any(it in all_below(graph, other) for other in stands_on):
                picture.line((middle[name][0], middle[name][1] + high), middle[it], arrow=False)
    for name, (x, y) in middle.items():
        width = 204 if len(name) > 16 else wide
        picture.box(x - width / 2, y, width, high, [name, CRATES[name][0]])
    return picture


# ---- the life of a span

# What is called, and the span's handles, workers inside and open children after it.
LIFE = [
    ("new_span", 1, 0, 0), ("clone_span", 2, 0, 0), ("enter", 2, 1, 0), ("a child opens", 2, 1, 1),
    ("try_close", 1, 1, 1), ("exit", 1, 0, 1), ("try_close", 0, 0, 1), ("the child closes", 0, 0, 0),
]


def life():
    after = (f"after {call} {handles} handles, {entries} entries and {children} open children"
             for call, handles, entries, children in LIFE)
    told = "; ".join(after) + ". Then nothing holds it: it closes, and each layer that wants it is told once."
    picture = Picture(860, 268, "The life of a span: its count is its handles, its entries and its open children", told)
    for number, (call, handles, entries, children) in enumerate(LIFE):
        x, base = 24 + 104 * number, 200
        for kind in ["box"] * handles + ["lock"] * entries + ["free"] * children:
            base -= 32
            picture.bar(x + 12, base, 60, 29, kind, 3)
        count = handles + entries + children
        picture.text(x + 42, base - 9, str(count or "closed"), "count" if count else "gone", "middle")
        picture.text(x + 42, 220, call, "small", "middle")
    for x, kind, name in ((36, "box", "a handle"), (150, "lock", "a worker inside"), (310, "free", "an open child")):
        picture.bar(x, 238, 15, 15, kind, 3)
        picture.text(x + 23, 250, name)
    return picture


# ---- a call's way

STEPS = [
    ("judge", "the first fault"), ("ask", "for a place"), ("notes", "and copies"),
    ("change", "spans and stacks"), ("put", "which can't fail"),
]
WAY = (
    "A thread's call takes the lock. Under it the core judges the call, asks for a place in the ring, makes the notes "
    "and copies, changes spans and stacks, and puts the batch into the ring. The lock is given back, and the call "
    "answers; the worker has then seen the history up to this call. In another thread, which takes no lock, the batch "
    "is taken out of the ring and its lines are written.")


def call():
    picture = Picture(1010, 262, "A call's way, from a thread to a line", WAY)
    picture.box(16, 62, 128, 50, ["a thread", "enter"])
    picture.line((144, 87), (172, 87))
    picture.bar(174, 22, 640, 118, "lock", 6)
    picture.text(186, 42, "under the lock")
    for number, (name, why) in enumerate(STEPS):
        x = 186 + 126 * number
        picture.box(x, 62, 112, 50, [name], "page")
        picture.bar(x, 62, 112, 50, "line", 6)
        picture.text(x + 56, 130, why, "small", "middle")
        if number:
            picture.line((x - 14, 87), (x - 1, 87))
    picture.line((814, 87), (854, 87))
    picture.box(856, 62, 130, 50, ["the ring", "batches"])
    picture.line((921, 112), (921, 184))
    picture.box(838, 186, 166, 50, ["another thread", "takes no lock"], "free")
    picture.line((838, 211), (700, 211))
    picture.text(690, 216, "L0 enter 1 w0 request", "count", "end")
    picture.line((494, 140), (494, 211), (192, 211))
    picture.text(16, 206, "the answer, and what the")
    picture.text(16, 222, "worker has then seen")
    return picture


# ---- the ring

# How many places a ring has, how many batches were sent, and how many of them were taken.
PLACES, SENT, TAKEN = 8, 9, 5
BETWEEN = (
    "On one side the core, under the lock: before a call changes anything it asks for a place. Where none is free the "
    "call is refused as Backlog; else its notes are put, which can't fail. Between them "
    f"{PLACES} places: {SENT} batches were sent, {TAKEN} of them taken, so {SENT - TAKEN} wait and "
    f"{PLACES - SENT + TAKEN} places are free. On the other side another thread, which takes no lock, takes the "
    "batches out in order and writes their lines. What was sent is what was taken, and then what waits.")


def ring():
    picture = Picture(920, 210, "What the ring is between", BETWEEN)
    picture.box(16, 54, 190, 84, ["the core", "one call at a time", "under the lock"], "lock")
    picture.line((206, 96), (247, 96))
    free = PLACES - SENT + TAKEN
    for place in range(PLACES):
        x = 250 + 48 * place
        picture.bar(x, 74, 44, 44, "box" if place >= free else "line", 3)
        if place >= free:
            picture.text(x + 22, 101, str(SENT - place + free), "count", "middle")
    picture.text(250 + 24 * free - 2, 62, "free places", "small", "middle")
    picture.text(250 + 24 * (PLACES + free) - 2, 62, "batches that wait", "small", "middle")
    end = 250 + 48 * PLACES - 4
    picture.line((end, 96), (673, 96))
    picture.box(676, 54, 228, 84, ["another thread", "Drain or LineReader", "takes no lock"], "free")
    picture.text(16, 28, "asks for a place, before anything changes;")
    picture.text(16, 44, "then puts the notes, which can't fail")
    picture.text(904, 44, "takes batches in order, writes their lines", "small", "end")
    picture.text(111, 166, "no place is free: Backlog,", "gone", "middle")
    picture.text(111, 184, "and nothing has changed", "gone", "middle")
    picture.text(790, 166, f"the lines of 1 to {TAKEN}", "count", "middle")
    picture.line((250, 166), (250, 174), (end, 174), (end, 166), arrow=False)
    picture.text((250 + end) / 2, 158, f"the ring: {PLACES} places", "name", "middle")
    sent = f"1 to {SENT} were sent: 1 to {TAKEN} are taken, {TAKEN + 1} to {SENT} wait"
    picture.text((250 + end) / 2, 196, sent, "small", "middle")
    return picture


# ---- beside the peer

# What is compared, in which name its ratio stands in the rows of a file, and how it's drawn.
COMPARED = {"CPU": ("cpu_ratio", "box"), "peak memory": ("peak_ratio", "free"), "time by the clock": ("ratio", "lock")}


def peer():
    """Of each kind of script and each storm how much tracerun takes by what the peer takes."""
    files = {name: read_figures()[name] for name in ("scripts", "storms")}
    rows = [(row["kind"], row) for row in files["scripts"]["rows"]]
    rows += [(f"storm, workers: {row['workers']}", row) for row in files["storms"]["rows"]]
    bars = [(name, [(what, row[key], kind) for what, (key, kind) in COMPARED.items() if key in row])
            for name, row in rows]
    told = "; ".join(f"{name}: " + ", ".join(f"{what} {ratio:.2f}" for what, ratio, _ in of) for name, of in bars)
    sources = list(dict.fromkeys(line for data in files.values() for line in said_of(data).split("; ")))
    most = math.ceil(max(ratio for _, of in bars for _, ratio, _ in of))
    left, top, down, wide = 200, 96, 29, 600 / most
    bottom = top + down * len(bars)
    picture = Picture(860, bottom + 22 + 17 * len(sources), "What tracerun takes by what the peer takes",
                      f"{told}. {'; '.join(sources)}.")
    title = "What tracerun takes, by what the peer takes, a program that does the same and has no proof"
    picture.text(16, 26, title, "name")
    for number, (what, (_, kind)) in enumerate(COMPARED.items()):
        picture.bar(16 + 150 * number, 42, 13, 13, kind, 2)
        picture.text(36 + 150 * number, 53, what)
    for mark in range(most + 1):
        x = left + wide * mark
        picture.bar(x - 0.5, top - 6, 1, bottom - top + 6, "grid")
        picture.text(x, top - 11, "1, the peer" if mark == 1 else f"{mark}", "small", "middle")
    for number, (name, of) in enumerate(bars):
        y = top + down * number
        picture.text(left - 10, y + 18, name, "small", "end")
        for place, (_, ratio, kind) in enumerate(of):
            picture.bar(left, y + 2 + 12 * place, wide * ratio, 11, kind, 1)
            picture.text(left + wide * ratio + 5, y + 11 + 12 * place, f"{ratio:.2f}", "value")
    for number, source in enumerate(sources):
        picture.text(16, bottom + 24 + 17 * number, source)
    return picture


# ---- calls a second, by threads

# How each of the registries in the file is told and drawn.
WHOSE = {
    "package": ("one lock", "curve one"), "parts": ("four parts", "curve four"),
    "plain": ("plain Rust, one Mutex", "curve two dashed"), "plains": ("plain Rust, a lock a thread", "curve three dashed"),
    "real": ("tracing-subscriber's Registry", "curve five dashed"),
}


def by_layers(rows):
    """By layers, of each registry its threads and million calls a second."""
    figures = {}
    for row in rows:
        for name in (it for it in WHOSE if it in row):
            figures.setdefault(row["layers"], {}).setdefault(name, []).append((row["threads"], row[name]))
    return figures


def told_figures(layers, of):
    rows = "; ".join(f"{WHOSE[name][0]} " + ", ".join(f"{calls:.2f}" for _, calls in of[name]) for name in of)
    return f"With {layers or 'no'} layer{'s' if layers > 1 else ''}, by threads from 1 on: {rows}."


def parts():
    data = read_figures()["parts"]
    figures, source = by_layers(data["rows"]), said_of(data)
    told = " ".join(["Million calls a second.", *(told_figures(*it) for it in figures.items()), f"{source}."])
    picture = Picture(900, 392, "Calls a second of several threads", told, STYLE + CURVES)
    picture.text(16, 382, source)
    for number, (name, kind) in enumerate(WHOSE.values()):
        x, y = 30 + 290 * (number % 3), 20 + 22 * (number // 3)
        picture.curve([(x, y), (x + 34, y)], kind)
        picture.text(x + 42, y + 5, name)
    bottom, top, wide = 320, 90, 380
    for panel, (layers, of) in enumerate(figures.items()):
        left = 46 + 446 * panel
        most = max(calls for points in of.values() for _, calls in points)
        mark = next(step for step in (0.2, 0.5, 1, 2, 5, 10, 20, 50) if 6 * step >= most)
        high = (bottom - top) / most
        last = max(threads for points in of.values() for threads, _ in points)
        across = wide / (last - 1)
        for step in range(int(most / mark) + 1):
            y = bottom - high * step * mark
            picture.curve([(left, y), (left + wide, y)], "grid")
            picture.text(left - 8, y + 4, f"{step * mark:g}", "small", "end")
        for threads in range(1, last + 1):
            picture.text(left + across * (threads - 1), bottom + 18, str(threads), "small", "middle")
        picture.text(left, top - 14, f"{layers or 'no'} layer: million calls a second")
        picture.text(left + wide, bottom + 38, "threads", "small", "end")
        for name, points in of.items():
            places = [(left + across * (threads - 1), bottom - high * calls) for threads, calls in points]
            picture.curve(places, WHOSE[name][1])
    return picture


PICTURES = {"architecture": architecture, "life": life, "call": call, "ring": ring, "peer": peer, "parts": parts}


def main():
    if sys.argv[1:] not in ([], ["--write"]):
        sys.exit(__doc__)
    failed = 0
    for name, draw in PICTURES.items():
        path, text = HERE / f"{name}.svg", draw().svg()
        if sys.argv[1:]:
            path.write_text(text, encoding="utf-8")
        if not path.exists() or path.read_text(encoding="utf-8") != text:
            print(f"FAILED docs/pictures/{name}.svg isn't what is drawn of it today: python3 tests/pictures.py --write")
            failed += 1
    print(f"{len(PICTURES) - failed} passed, {failed} failed")
    return 1 if failed else 0


if __name__ == "__main__":
    sys.exit(main())
