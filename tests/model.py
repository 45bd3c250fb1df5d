"""A model of `tracerun replay`: `run` says what it writes for a script, what fault it tells and its status.

Written from the rules alone and from no code. The rules of a script's lines and answers stand here, those of the
registry in `model_registry`, those of JSON in `strict_json`.
"""
import strict_json
from model_registry import ALL_BITS, HANDLE, LAST_ID, LAST_OLDER_ID, LEVELS, MOST_LAYERS
from model_registry import Layer, Limits, Refusal, Registry, id_of_older

# A script may have this many bytes and no more.
MOST_BYTES = 16_777_216

OPS = frozenset(["limits", "layer", "new", "clone", "close", "enter", "exit", "record", "event", "find"])


class Fault(Exception):
    """A fault of the script, with its reason: it ends the run."""


class Wrong(Exception):
    """A value isn't of its key's type or range."""


# What the value of a key may be.


def text(value):
    if type(value) is not str:
        raise Wrong()
    return value


def whole(least, greatest):
    """A whole number of a range. It is written in digits alone, so nothing but an int."""

    def read(value):
        if type(value) is not int or not least <= value <= greatest:
            raise Wrong()
        return value

    return read


def one_of(texts):
    def read(value):
        if type(value) is not str or value not in texts:
            raise Wrong()
        return value

    return read


def pairs(first, second):
    """A list of lists of two values each."""

    def read(value):
        if type(value) is not list or any(type(it) is not list or len(it) != 2 for it in value):
            raise Wrong()
        return [(first(it[0]), second(it[1])) for it in value]

    return read


def span(value):
    """A label or an id."""
    return value if type(value) is str else whole(1, LAST_ID)(value)


def span_or_root(value):
    return None if value is None else span(value)


REQUIRED = object()  # the key has no default
CURRENT = object()  # the parent is the worker's current span

LEVEL = one_of(LEVELS)
FIELDS = pairs(text, text)
ANY_LIMIT = whole(0, 4294967295)


def keys_of(op, workers):
    """The keys of an op in the order of checking: key, what its value may be, default."""
    worker = ("w", whole(0, workers - 1), 0)
    meta = [("target", text, "app"), ("level", LEVEL, "INFO")]
    fields = ("fields", FIELDS, [])
    if op == "limits":
        return [(key, ANY_LIMIT, None) for key in ("slots", "last_generation", "max_count", "workers")]
    if op == "layer":
        rule = ("rule", pairs(text, LEVEL), [("", "TRACE")])
        return [("form", one_of(["compact", "json"]), "compact"), ("spans", whole(0, ALL_BITS), ALL_BITS), rule]
    if op == "new":
        parent = ("parent", span_or_root, CURRENT)
        return [("name", text, REQUIRED), *meta, parent, fields, ("label", text, None), worker]
    if op == "record":
        return [("span", span, REQUIRED), fields, worker]
    if op == "event":
        return [("message", text, REQUIRED), *meta, fields, worker]
    return [("span", span, REQUIRED), worker]


def read_keys(line, keys):
    """The values of the keys. Other keys of the line are ignored."""
    found = {}
    for key, read, default in keys:
        if key not in line and default is not REQUIRED:
            found[key] = default
            continue
        try:
            found[key] = read(line[key])
        except (KeyError, Wrong):
            raise Fault(f"bad key {key}") from None
    return found


def read_keys_of_find(line):
    """`span`, or in its place `old`. Both missing is the fault of `span`, both there that of `old`."""
    if "span" in line or "old" not in line:
        found = read_keys(line, [("span", span, REQUIRED)])
        if "old" in line:
            raise Fault("bad key old")
        return found
    return read_keys(line, [("old", whole(1, LAST_OLDER_ID), REQUIRED)])


# The texts of notes.


def json_text(value):
    """A text as `serde_json` writes it: `"`, `\\` and control characters escaped, all else as it is."""
    short = {'"': '\\"', "\\": "\\\\", "\b": "\\b", "\f": "\\f", "\n": "\\n", "\r": "\\r", "\t": "\\t"}
    return '"' + "".join(short.get(it, f"\\u{ord(it):04x}" if it < " " else it) for it in value) + '"'


def path_of(note):
    return ":".join(note.path) or "-"


def json_form(note):
    """An object without blanks; its keys come in byte order."""
    fields = ",".join(f"[{json_text(key)},{json_text(value)}]" for key, value in note.fields)
    event = "" if note.level is None else f'"level":{json_text(note.level)},"message":{json_text(note.message)},'
    path = json_text(path_of(note))
    return f'{{"fields":[{fields}],"id":{note.id},"kind":"{note.kind}",{event}"path":{path},"worker":{note.worker}}}'


def in_one_line(value):
    """A message or a value in the compact form."""
    return value.replace("\\", "\\\\").replace("\n", "\\n").replace("\r", "\\r")


def compact_form(note):
    parts = [note.kind, str(note.id), f"w{note.worker}", path_of(note)]
    if note.level is not None:
        parts += [note.level, in_one_line(note.message)]
    parts += [f"{key}={in_one_line(value)}" for key, value in note.fields]
    return " ".join(parts)


# A script, line by line.


class Replay:
    """A run of a script. `hooks` is how many layers it can make at most, `ops` the ops that the program has."""

    def __init__(self, hooks=64, ops=OPS):
        self.hooks = hooks
        self.ops = ops
        self.registry = Registry(Limits(), [])
        self.labels = {}  # from label to the id that its last accepted `new` got
        self.seen = set()  # the ops of the lines before
        self.written = []  # lines of the output

    def output(self):
        return "".join(it + "\n" for it in self.written).encode()

    def line(self, data):
        """Runs one line that isn't skipped. A fault is raised before anything of the line is done."""
        line, op = self.object_and_op(data)
        late = {"limits": self.seen, "layer": self.seen - {"limits", "layer"}}
        if late.get(op):
            raise Fault("late line")
        self.seen.add(op)
        keys = read_keys_of_find(line) if op == "find" else read_keys(line, keys_of(op, self.registry.limits.workers))
        self.answer(lambda: getattr(self, op)(**keys))

    def object_and_op(self, data):
        try:
            line = strict_json.read(data)
        except strict_json.NotJson:
            raise Fault("not JSON") from None
        if type(line) is not dict:
            raise Fault("not an object")
        op = line.get("op")
        if type(op) is not str or op not in self.ops:
            raise Fault("no such op")
        return line, op

    def answer(self, call):
        """Writes the notes of a call and then its answer, or its refusal."""
        try:
            answer, notes = call()
        except Refusal as refusal:
            self.written.append(f"! {refusal}")
            return
        for place, note in notes:
            form = json_form if self.registry.layers[place].form == "json" else compact_form
            self.written.append(f"L{place} {form(note)}")
        self.written.append(f"= {answer}")

    def id_named(self, span):
        """The id that a label or an id names."""
        if type(span) is not str:
            return span
        if span not in self.labels:
            raise Fault("no such label")
        return self.labels[span]

    def handles_of(self, label):
        return self.registry.world.holders[self.labels[label], HANDLE]

    # One method for each op, with its keys. The answer is without its `= `.

    def limits(self, **given):
        limits = Limits(**{key: value for key, value in given.items() if value is not None})
        if not limits.are_in_range():
            raise Refusal("bad limits")
        self.registry = Registry(limits, [])
        return "limits", []

    def layer(self, form, spans, rule):
        layers = self.registry.layers
        if len(layers) == min(MOST_LAYERS, self.hooks):
            raise Refusal("too many layers")
        layers.append(Layer(form, spans, rule))
        return f"layer {len(layers) - 1}", []

    def new(self, name, target, level, parent, fields, label, w):
        label = name if label is None else label
        parent = self.registry.world.stacks[w].current() if parent is CURRENT else self.id_named(parent)
        if label in self.labels and self.handles_of(label) > 0:
            raise Fault("label taken")
        number, notes = self.registry.new(w, name, target, level, fields, parent)
        if number is None:
            return "not wanted", []
        self.labels[label] = number
        return number, notes

    def clone(self, span, w):
        return self.registry.clone(w, self.id_named(span))

    def close(self, span, w):
        return self.registry.close(w, self.id_named(span))

    def enter(self, span, w):
        return self.registry.enter(w, self.id_named(span))

    def exit(self, span, w):
        return self.registry.exit(w, self.id_named(span))

    def record(self, span, fields, w):
        return self.registry.record(w, self.id_named(span), fields)

    def event(self, message, target, level, fields, w):
        return self.registry.event(w, message, target, level, fields)

    def find(self, span=None, old=None):
        return self.registry.find(id_of_older(old) if span is None else self.id_named(span)), []

    def tidy(self):
        """The end of the input: exits by each worker, then closes by label in the order of their bytes."""
        world = self.registry.world
        for worker, stack in enumerate(world.stacks):
            while stack.ids:
                self.answer(lambda: self.registry.exit(worker, stack.ids[-1]))
        for label in sorted(self.labels, key=str.encode):
            while self.handles_of(label) > 0:
                self.answer(lambda: self.registry.close(0, self.labels[label]))
        self.written.append(f"left {len(world.spans)}")


def lines_of(script):
    """Lines end with a newline; a last line without one counts too if it isn't empty."""
    lines = script.split(b"\n")
    return lines if lines[-1] else lines[:-1]


def is_skipped(line):
    """A line of only blanks, tabs and carriage returns."""
    return not line.strip(b" \t\r")


def run(script, hooks=64, ops=OPS):
    """The output of the script, what stands on standard error, and the status."""
    if len(script) > MOST_BYTES:
        return b"", b"line 0: too long\n", 1
    replay = Replay(hooks, ops)
    for number, line in enumerate(lines_of(script), 1):
        try:
            if not is_skipped(line):
                replay.line(line)
        except Fault as fault:
            return replay.output(), f"line {number}: {fault}\n".encode(), 1
    replay.tidy()
    return replay.output(), b"", 0
