"""Makes random lines of a script that are no faults. Many of them are refused.

Each line is run on the model as it is put, so that it is known which labels are bound, which spans are open and who
has entered what, and lines can be made that mean something. What a line answers is no matter here.
"""
import model
from json_writing import Members, Odd, Plain
from model_registry import generation_of, id_of, slot_of
from script_texts import BAD_NAMES, DEEP_VALUES, GOOD_NAMES, KEYS, LABELS, LEVELS, ODD_VALUES, PREFIXES, TARGETS, TEXTS

# How often an op comes beside the others; each script multiplies these by numbers of its own.
WEIGHTS = {"new": 30, "clone": 10, "close": 20, "enter": 14, "exit": 12, "find": 8, "record": 6, "event": 8}


class Lines:
    def __init__(self, dice, ops, length):
        self.dice = dice
        self.ops = ops
        self.replay = model.Replay(ops=ops)
        self.over = False  # a fault came
        self.lines = []
        self.length = length  # about so many lines
        self.weights = {op: weight * dice.pick([0.4, 1, 1, 2]) for op, weight in WEIGHTS.items() if op in ops}
        self.parents = {it: dice.pick([1, 1, 3, 6]) for it in ("none", "null", "label", "id")}
        self.workers = dice.pick([1, 1, 2, 2, 3, 4])
        self.carriage_returns = dice.chance(0.08)
        self.oddness = dice.pick([0, 0.1, 0.1, 0.5, 1])
        self.tidiness = dice.pick([0.5, 0.9, 1])  # how often a good value is taken where a refused one could be

    @property
    def world(self):
        return self.replay.registry.world

    # Lines as bytes.

    def put(self, data):
        """Adds a line, and runs it on the model while no fault came."""
        self.lines.append(data + b"\r" if self.carriage_returns else data)
        try:
            if not self.over and not model.is_skipped(data):
                self.replay.line(data)
        except model.Fault:
            self.over = True

    def written(self, members):
        """A line with these members, in one of the ways to write it."""
        dice = self.dice
        odd = dice.chance(self.oddness)
        if dice.chance(0.08):
            members = self.with_unknown_keys(members)
        if dice.chance(0.06):
            members = self.with_a_key_twice(members)
        elif odd and dice.chance(0.5):
            members = dice.shuffled(members)
        data = (Odd(dice) if odd else Plain()).value(Members(members)).encode()
        return dice.pick([b" ", b"\t", b"\r", b" \r\t"]) + data if odd and dice.chance(0.2) else data

    def odd_value(self):
        return self.dice.pick(DEEP_VALUES if self.dice.chance(0.02) else ODD_VALUES)

    def with_unknown_keys(self, members):
        known = [key for key, _ in members]
        keys = ["x", "OP", "", "w ", "é", "name", "old", "w", "span", "parent", "fields", "label", "message", "spans", "slots"]
        taken = [*known, *KEYS[dict(members)["op"]]]
        more = [(key, self.odd_value()) for key in keys if key not in taken and self.dice.chance(0.1)]
        return self.dice.shuffled([*members, *more])

    def with_a_key_twice(self, members):
        """The value that stands first is some other; the last one counts."""
        key, _ = self.dice.pick(members)
        others = self.dice.shuffled([it for it in members if it[0] != key])
        again = [it for it in members if it[0] == key]
        return [(key, self.odd_value()), *others, *again]

    # Values.

    def worker(self):
        """The key `w`, which is often left out."""
        worker = self.dice.below(min(self.workers, self.replay.registry.limits.workers))
        if worker == 0 and self.dice.chance(0.8):
            return []
        return [("w", worker)]

    def worker_of(self, keys):
        return dict(keys).get("w", 0)

    def name(self):
        if self.dice.chance(self.tidiness):
            return self.dice.pick(GOOD_NAMES)
        return chr(self.dice.below(128)) if self.dice.chance(0.4) else self.dice.pick(BAD_NAMES)

    def text(self):
        return "".join(self.dice.pick(TEXTS) for _ in range(self.dice.pick([1, 1, 1, 2, 5])))

    def fields(self):
        count = self.dice.pick([0, 1, 1, 2, 4])
        return [[self.name() if self.dice.chance(0.3) else self.dice.pick(GOOD_NAMES), self.text()] for _ in range(count)]

    def label_of_open(self):
        labels = self.replay.labels
        open_ones = [it for it in labels if labels[it] in self.world.spans]
        return self.dice.pick(open_ones) if open_ones else None

    def free_label(self):
        """A label whose span has no handle: unbound, or bound before."""
        for _ in range(6):
            label = self.dice.pick(LABELS if self.dice.chance(0.5) else GOOD_NAMES)
            if label not in self.replay.labels or self.replay.handles_of(label) == 0:
                return label
        return f"l{len(self.lines)}"

    def id_near(self):
        """An id that was never given, or beside one that was."""
        near = self.dice.pick([*self.world.slots.given, 0])
        generation = self.dice.pick([0, 1, 2, self.world.slots.given.get(near, 0), 2**32 - 1])
        others = [1, 2**24, 2**24 + 1, 2**32 + 1, 2**56, self.dice.below(2**56) + 1]
        return self.dice.pick([id_of(near, generation), id_of(near + 1, 0), *others])

    def given_id(self):
        """An id that some span has or had."""
        given = self.world.slots.given
        if not given:
            return 1
        slot = self.dice.pick(list(given))
        return id_of(slot, self.dice.below(given[slot]))

    def span(self):
        """A label or an id: mostly of an open span, else of a closed one or of none."""
        kind = self.dice.weighted({"open": 60 * self.tidiness, "open id": 14, "label": 5, "given": 4, "near": 2})
        label = self.label_of_open()
        if kind == "open" and label is not None:
            return label
        if kind == "open id" and self.world.spans:
            return self.dice.pick(list(self.world.spans))
        if kind == "label" and self.replay.labels:
            return self.dice.pick(list(self.replay.labels))
        return self.id_near() if kind == "near" else self.given_id()

    def entered(self, worker):
        """A span that stands in the worker's stack, perhaps by its label; a span of any kind where none does."""
        # Limits that came since may have left fewer workers.
        stacks = self.world.stacks
        ids = stacks[worker].ids if worker < len(stacks) else []
        if not ids or self.dice.chance(0.1):
            return self.span()
        number = ids[-1] if self.dice.chance(0.6) else self.dice.pick(ids)
        labels = [it for it, bound in self.replay.labels.items() if bound == number]
        return labels[0] if labels and self.dice.chance(0.7) else number

    def parent(self):
        """The key `parent`, or none for the worker's current span."""
        kind = self.dice.weighted(self.parents)
        if kind == "null":
            return [("parent", None)]
        if kind == "none":
            return []
        label = self.label_of_open()
        if kind == "label" and label is not None and self.dice.chance(0.9):
            return [("parent", label)]
        return [("parent", self.span())]

    # Lines as lists of members.

    def meta(self):
        target = [("target", self.dice.pick(TARGETS))] if self.dice.chance(0.4) else []
        level = [("level", self.dice.pick(LEVELS))] if self.dice.chance(0.4) else []
        return target + level

    def maybe_fields(self, part):
        return [("fields", self.fields())] if self.dice.chance(part) else []

    def new(self):
        label, name = self.free_label(), self.name()
        given = [] if name == label else [("label", label)]
        fields = self.maybe_fields(0.3)
        return [("op", "new"), ("name", name), *self.meta(), *self.parent(), *fields, *given, *self.worker()]

    def enter(self):
        worker = self.worker()
        again = self.dice.chance(0.25)
        return [("op", "enter"), ("span", self.entered(self.worker_of(worker)) if again else self.span()), *worker]

    def exit(self):
        worker = self.worker()
        return [("op", "exit"), ("span", self.entered(self.worker_of(worker))), *worker]

    def find(self):
        if self.dice.chance(0.8):
            return [("op", "find"), ("span", self.span())]
        number = self.given_id()
        old = generation_of(number) * 2**16 + slot_of(number) % 2**16 + 1
        others = [1, 2**16, 2**16 + 1, 2**32, self.dice.below(2**32) + 1]
        return [("op", "find"), ("old", old if old <= 2**32 and self.dice.chance(0.8) else self.dice.pick(others))]

    def record(self):
        return [("op", "record"), ("span", self.span()), *self.maybe_fields(0.9), *self.worker()]

    def event(self):
        return [("op", "event"), ("message", self.text()), *self.meta(), *self.maybe_fields(0.4), *self.worker()]

    def call(self, op):
        """A line of an op of the body; one that isn't named by a method of its own takes a span."""
        if op in ("clone", "close"):
            return [("op", op), ("span", self.span()), *self.worker()]
        return getattr(self, op)()

    def limits(self):
        """Small limits, so that they are met."""
        dice = self.dice
        choices = {
            "slots": [1, 2, 3, 4, 4, dice.between(5, 20), 1024, 65537],
            "last_generation": [0, 0, 1, 2, 2, 3, 65535, 65536, 4294967295],
            "max_count": [1, 2, 2, 3, 4, dice.between(5, 9), 4294967295],
            "workers": [self.workers, self.workers, dice.between(1, 5), 256],
        }
        bad = {"slots": [0, 16777217], "last_generation": [0], "max_count": [0], "workers": [0, 257, 4294967295]}
        spoiled = dice.pick(list(bad)) if dice.chance(0.12) else None
        given = [(key, dice.pick(bad[key] if key == spoiled else them)) for key, them in choices.items() if dice.chance(0.6)]
        return [("op", "limits"), *given]

    def layer(self):
        dice = self.dice
        form = [("form", dice.pick(["compact", "json"]))] if dice.chance(0.6) else []
        spans = [("spans", dice.below(16))] if dice.chance(0.5) else []
        pairs = [[dice.pick(PREFIXES), dice.pick(LEVELS)] for _ in range(dice.pick([0, 1, 1, 2, 2, 3, 5]))]
        return [("op", "layer"), *form, *spans, *([("rule", pairs)] if dice.chance(0.6) else [])]
