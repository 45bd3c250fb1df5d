"""Makes random lines that are meant as faults of a script, each reason in many forms."""
from json_writing import Members, plain
from script_texts import BAD_NAMES, EDGES, KEYS, LABELS, NO_JSON, NO_OBJECT, NO_OPS, WRONG


class Faults:
    """Makes faulty lines out of the good ones that `lines` makes."""

    def __init__(self, lines):
        self.lines = lines
        self.dice = lines.dice
        self.ops = lines.ops
        self.replay = lines.replay


    def fault(self):
        """A line that is meant as a fault."""
        kinds = {
            "not JSON": self.no_json, "not an object": self.no_object, "no such op": self.no_op, "late line": self.late,
            "bad key": self.bad_key, "two bad keys": self.bad_keys, "key left out": self.key_left_out,
            "no such label": self.unbound, "label taken": self.taken, "both keys of find": self.both_keys_of_find,
        }  # fmt: skip
        weights = dict.fromkeys(kinds, 10)
        weights.update({"not JSON": 30, "bad key": 40, "two bad keys": 25})
        return kinds[self.dice.weighted(weights)]()

    def some_line(self):
        """A good line of any op, late ones too."""
        ops = [op for op in KEYS if op in self.ops]
        return self.lines.call(self.dice.pick(ops))

    def no_json(self):
        if self.dice.chance(0.2):
            line = self.lines.written(self.some_line())
            return line[: self.dice.below(len(line))]
        return self.dice.pick(NO_JSON).replace(b"{line}", self.lines.written(self.some_line()))

    def no_object(self):
        return self.dice.pick(NO_OBJECT).replace(b"{line}", self.lines.written(self.some_line()))

    def no_op(self):
        lacking = sorted(set(KEYS) - set(self.ops))
        line = self.lines.call(self.dice.pick(lacking)) if lacking and self.dice.chance(0.4) else self.some_line()
        if line[0][1] in lacking:
            return self.lines.written(line)
        wrong = [("op", self.dice.pick(NO_OPS))] if self.dice.chance(0.8) else []
        return plain(Members(line[1:] + wrong)).encode()

    def late(self):
        """A line of limits or a layer, which may have a bad key too."""
        line = self.lines.call(self.dice.pick([it for it in ("limits", "layer") if it in self.ops]))
        return self.lines.written(self.spoiled(line) if self.dice.chance(0.2) else line)

    def spoiled(self, line):
        """The line with a value of the wrong kind, or at the end of a range, under one of its op's keys."""
        key = self.dice.pick(KEYS[line[0][1]])
        value = self.dice.pick(EDGES[key] if key in EDGES and self.dice.chance(0.4) else WRONG[key])
        if key == "w" and self.dice.chance(0.3):
            value = self.replay.registry.limits.workers
        return [it for it in line if it[0] != key] + [(key, value)]

    def line_with_keys(self):
        """A good line, of an op that isn't late if need be. An op with more keys comes more often."""
        ops = [op for op in KEYS if op in self.ops]
        body = [op for op in ops if op not in ("limits", "layer")]
        ops = body if self.replay.seen and self.dice.chance(0.9) else ops
        return self.lines.call(self.dice.weighted({op: len(KEYS[op]) for op in ops}))

    def bad_key(self):
        return self.lines.written(self.spoiled(self.line_with_keys()))

    def bad_keys(self):
        """Some wrong values, or one beside a label that isn't bound."""
        line = self.line_with_keys()
        if self.dice.chance(0.3):
            line = self.spoiled(line)
            return self.lines.written([(key, "no label" if key in ("span", "parent") else value) for key, value in line])
        bad = self.dice.shuffled(KEYS[line[0][1]])[: self.dice.between(2, 3)]
        good = [it for it in line if it[0] not in bad]
        return self.lines.written([*good, *[(key, self.dice.pick(WRONG[key])) for key in bad]])

    def key_left_out(self):
        line = self.line_with_keys()
        return self.lines.written([line[0], *[it for it in line[1:] if it[0] not in ("span", "name", "message", "old")]])

    def unbound(self):
        line = dict(self.lines.new() if self.dice.chance(0.4) else self.line_with_keys())
        key = "parent" if line["op"] == "new" else "span"
        line.pop("old", None)
        line[key] = self.dice.pick(["no label", "L", "a\0", *LABELS])
        if line["op"] == "new" and self.dice.chance(0.4):
            line["label"] = self.lines.label_of_open() or "b"
        return self.lines.written(list(line.items()))

    def taken(self):
        """A `new` whose label may be taken, and that may be refused or unwanted beside that."""
        line = dict(self.lines.new())
        line["label"] = self.lines.label_of_open() or "a"
        if self.dice.chance(0.3):
            line["name"] = self.dice.pick(BAD_NAMES)
        if self.dice.chance(0.2):
            line["parent"] = "no label"
        return self.lines.written(list(line.items()))

    def both_keys_of_find(self):
        span = self.lines.span() if self.dice.chance(0.5) else self.dice.pick(["no label", *WRONG["span"]])
        old = self.dice.pick([1, None]) if self.dice.chance(0.5) else self.dice.pick(WRONG["old"])
        return self.lines.written([("op", "find"), ("span", span), ("old", old)])
