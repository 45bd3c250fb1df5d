#!/usr/bin/env python3
"""Runs ./view on the examples and on random scripts, and compares the pages with the model.

usage: view.py [--program FILE] [--scripts N]
A page has to be one file that loads nothing, with each entry of a worker and each span that the model knows: its name and
parent, the calls that made and closed it, its counts, and what keeps it open where it is open. Where there is Chromium,
it shows the pages with no error, and tells a span's life when it is clicked. The last line is 'N passed, M failed'; the
status is 0 where nothing failed.
"""
import argparse
import html.parser
import json
import os
import shutil
import subprocess
import sys
import tempfile

import model
import script_maker
from model_registry import HANDLE, MOST_LAYERS, entry_of
from random_scripts import is_built
from run_cases import PROGRAM, TOP

EXAMPLES = os.path.join(TOP, "examples")
LOADING = {"src", "href", "srcset", "data", "action", "poster"}  # attributes by which a page loads something
DATA = '<script id="run" type="application/json">'
BROWSERS = ["chromium", "chromium-browser", "google-chrome"]
CLICK = '<script>document.querySelector("button.span").click()</script>'  # on the first span that is open
VOID = {"meta", "br", "hr", "img", "link", "input"}  # elements without an end


class Page(html.parser.HTMLParser):
    """What a page holds: the run, and what is wrong with it."""

    def __init__(self, text):
        super().__init__()
        self.open, self.wrong, self.run, self.holds_run = [], [], None, False
        if "http" in text.split(DATA)[0] + text.split(DATA)[1].split("</script>", 1)[1]:  # the script may speak of one
            self.wrong.append("it has a link")
        self.feed(text)
        self.close()
        if self.run is None or self.open not in ([], ["html"]):
            self.wrong.append(f"its elements: {self.open}")

    def handle_starttag(self, tag, attributes):
        if LOADING & {name for name, _ in attributes} or tag in ("link", "iframe", "img"):
            self.wrong.append(f"an element {tag} loads something")
        if tag not in VOID:
            self.open.append(tag)
        self.holds_run = ("id", "run") in attributes

    def handle_endtag(self, tag):
        if self.open.pop() != tag:
            self.wrong.append(f"an end of {tag}")

    def handle_data(self, data):
        if self.holds_run and data.strip():
            self.run = json.loads(data)
        self.holds_run = False


def viewed(program, script):
    """What ./view says of a script: the text, standard error, and the status."""
    with tempfile.NamedTemporaryFile(suffix=".jsonl") as file:
        file.write(script)
        file.flush()
        words = [os.path.join(TOP, "view"), "--program", program, file.name]
        run = subprocess.run(words, capture_output=True, timeout=60)
    return run.stdout.decode("utf-8"), run.stderr.decode("utf-8", "replace"), run.returncode


class Known:
    """What the model knows of each span of a script, call by call."""

    def __init__(self, script):
        replay = model.Replay()
        self.spans, self.entries, self.fault, calls = {}, [], "", 0
        self.stacks = {}  # from worker to the entries that stand in its stack
        for number, line in enumerate(model.lines_of(script), 1):
            if model.is_skipped(line):
                continue
            try:
                replay.line(line)
            except model.Fault as fault:
                self.fault = f"line {number}: {fault}"
                break
            self.look(replay.registry.world, calls)
            calls += 1
        self.calls = calls
        self.world, self.layers = replay.registry.world, len(replay.registry.layers)

    def look(self, world, call):
        for number, span in world.spans.items():
            if number not in self.spans:
                self.spans[number] = {"name": span.name, "parent": span.parent or 0, "made": call, "closed": None, "steps": []}
        for number, known in self.spans.items():
            if number not in world.spans and known["closed"] is None:
                known["closed"] = call
            count = world.reference_count(number) if number in world.spans else 0
            if not known["steps"] or known["steps"][-1][1] != count:
                known["steps"].append([call, count])
        for worker, stack in enumerate(world.stacks):
            self.look_at_stack(call, worker, stack.ids)

    def look_at_stack(self, call, worker, ids):
        """One entry more at the end, or one less at the last place from which it may have gone."""
        entries = self.stacks.setdefault(worker, [])
        before = [it[1] for it in entries]
        if len(ids) > len(before):
            entries.append([worker, ids[-1], call, None, len(before), ids[-1] in before])
            self.entries.append(entries[-1])
        elif len(ids) < len(before):
            place = max(it for it in range(len(before)) if before[:it] + before[it + 1 :] == ids)
            entries.pop(place)[3] = call

    def kept(self, number):
        """What keeps a span open, but for what is below it."""
        world = self.world
        handles = world.holders[number, HANDLE]
        texts = [f"handles {handles}: close x {handles}"] if handles else []
        for worker, stack in enumerate(world.stacks):
            if world.holders[number, entry_of(worker)]:
                texts.append(f"worker {worker}: entry 1, exit x {stack.ids.count(number)}")
        children = sum(1 for it in world.spans.values() if it.parent == number)
        return texts + ([f"children {children}"] if children else [])


def last_of_each_call(steps):
    """A call that changes a count twice is one step."""
    return [step for place, step in enumerate(steps) if place + 1 == len(steps) or steps[place + 1][0] != step[0]]


def without_stays(steps):
    return [step for place, step in enumerate(steps) if place == 0 or steps[place - 1][1] != step[1]]


def difference(program, script):
    """Says what is wrong with the page of a script, or nothing."""
    text, error, status = viewed(program, script)
    if status != 0:
        return f"status {status}: {error}"
    page, known = Page(text), Known(script)
    if page.wrong:
        return page.wrong[0]
    run = page.run
    if (run["fault"], len(run["calls"])) != (known.fault, known.calls):
        return f"fault {run['fault']!r}, {len(run['calls'])} calls; wanted {known.fault!r}, {known.calls}"
    if len({it["id"] for it in run["spans"]}) < len(run["spans"]):
        return "a span stands twice"
    if run["entries"] != known.entries:
        return f"entries {run['entries']}, wanted {known.entries}"
    shown = {it["id"]: it for it in run["spans"]}
    if set(shown) != set(known.spans):
        return f"spans {sorted(shown)}, wanted {sorted(known.spans)}"
    for number, wanted in known.spans.items():
        span = {**shown[number], "steps": without_stays(last_of_each_call(shown[number]["steps"]))}
        if {key: span[key] for key in wanted} != wanted:
            return f"span {number}: {span}, wanted {wanted}"
        if span["kept"] != (known.kept(number) if wanted["closed"] is None else []):
            return f"span {number} is kept by {span['kept']}, wanted {known.kept(number)}"
    return None


def too_many_layers(program):
    """A script with as many layers as there may be has no place for the layer that tells."""
    text, error, status = viewed(program, b'{"op":"layer"}\n' * 64)
    return None if (text, status) == ("", 1) and "so many layers" in error else f"status {status}: {error}"


def long_script(program):
    """Of more than 10,000 calls the last ones are shown, and the page says what is left out."""
    lines = ['{"op":"new","name":"kept"}', *['{"op":"new","name":"a"}', '{"op":"close","span":"a"}'] * 5001]
    run = Page(viewed(program, "\n".join(lines).encode())[0]).run
    shown = {it["name"] for it in run["spans"]}
    if (run["first"], len(run["calls"]), run["made"], run["open"]) != (3, 10000, 5002, 1) or "kept" not in shown:
        return f"first {run['first']}, {len(run['calls'])} calls, {run['made']} made, {run['open']} open"
    wanted = ["the calls before number 3", "1 spans that closed in them"]
    return None if run["left_out"] == wanted else f"left out: {run['left_out']}"


def browsed(browser, program, name):
    """What is wrong with the page of an example, which leaves spans open, in a browser: before a click, or after it."""
    with open(os.path.join(EXAMPLES, name), "rb") as file:
        page, *_ = viewed(program, file.read())
    for text, wanted in ((page, "Open at the end"), (page + CLICK, "Its calls")):
        with tempfile.TemporaryDirectory() as folder:
            path = os.path.join(folder, "page.html")
            with open(path, "w", encoding="utf-8") as file:
                file.write(text)
            words = ["--headless", "--no-sandbox", "--disable-gpu", f"--user-data-dir={folder}/profile",
                     "--enable-logging=stderr", "--virtual-time-budget=1000", "--dump-dom", f"file://{path}"]
            run = subprocess.run([browser, *words], capture_output=True, text=True, errors="replace", timeout=120)
        said = [line for line in run.stderr.splitlines() if "CONSOLE" in line]
        if said or wanted not in run.stdout:
            return said[0] if said else f"it doesn't say {wanted!r}"
    return None


def in_a_browser(program):
    browser = next(filter(None, map(shutil.which, BROWSERS)), None)
    if browser is None:
        print("not run: no browser of " + ", ".join(BROWSERS) + " is on the PATH")
        return
    for name in ("request.jsonl", "leak.jsonl"):
        yield f"{name} in a browser", browsed(browser, program, name)


def rows(given):
    for name in sorted(os.listdir(EXAMPLES)):
        if name.endswith(".jsonl"):
            with open(os.path.join(EXAMPLES, name), "rb") as file:
                yield name, difference(given.program, file.read())
    yield "64 layers", too_many_layers(given.program)
    yield "10003 calls", long_script(given.program)
    for number in range(given.scripts):
        script = script_maker.make("view", number, model.OPS)
        if Known(script).layers < MOST_LAYERS:
            yield f"random script {number}", difference(given.program, script)
    yield from in_a_browser(given.program)


def main():
    parser = argparse.ArgumentParser(description="Compares the pages that ./view makes with the model.")
    parser.add_argument("--program", default=PROGRAM)
    parser.add_argument("--scripts", type=int, default=40)
    given = parser.parse_args()
    if not is_built(given.program):
        print("the program is not built")
        print("0 passed, 1 failed")
        return 1
    passed = failed = 0
    for name, found in rows(given):
        if found is None:
            passed += 1
        else:
            failed += 1
            print(f"FAILED {name}: {found}")
    print(f"{passed} passed, {failed} failed")
    return 1 if failed else 0


if __name__ == "__main__":
    sys.exit(main())
