"""Makes random scripts: `make` gives one for a seed, a number and the ops that the program has.

One in four is short and has a line that is meant as a fault, so that many faults are tried at small cost. The
others are longer, and few of them get such a line: most run to their end. Refusals are common. A few scripts are cut
off somewhere, and a very few are no more than bytes.
"""
from dice import Dice
from script_faults import Faults
from script_lines import Lines
from script_texts import LABELS, NO_JSON

SHORT = 0.25  # so many scripts are short
FAULTY = 0.12  # so many of the others get a faulty line
CUT = 0.06  # so many are cut off
NO_SCRIPT = 0.003  # so many are bytes of any kind
LENGTHS = {(0, 4): 5, (5, 40): 58, (41, 150): 35, (151, 500): 2}


class Maker:
    def __init__(self, dice, ops):
        self.dice = dice
        self.short = dice.chance(SHORT)
        self.lines = Lines(dice, ops, dice.below(5) if self.short else dice.between(*dice.weighted(LENGTHS)))
        self.faults = Faults(self.lines)
        self.fault_at = dice.below(self.lines.length + 1) if self.short or dice.chance(FAULTY) else None

    def put_fault(self):
        self.fault_at = None
        self.lines.put(self.faults.fault())

    def put(self, members):
        """Adds a line; before it, perhaps, a blank one or the faulty one."""
        if self.fault_at is not None and len(self.lines.lines) >= self.fault_at:
            self.put_fault()
        if self.dice.chance(0.03):
            self.lines.put(self.dice.pick([b"", b" ", b"\t", b"\r", b" \t\r "]))
        self.lines.put(self.lines.written(members))

    def is_done(self):
        """After a fault nothing is run, so few lines follow it."""
        return len(self.lines.lines) >= self.lines.length or self.lines.over

    def script(self):
        self.head()
        while not self.is_done():
            if self.dice.chance(0.15):
                self.dice.pick([self.chain, self.wear, self.fill, self.stacked, self.counted, self.entered_alone])()
            else:
                self.put(self.lines.call(self.op()))
        if self.fault_at is not None:
            self.put_fault()
        elif not self.short and self.dice.chance(0.004):
            self.crowd()
        if self.lines.over:
            for _ in range(self.dice.below(3)):
                self.put(self.lines.call(self.op()))
        return self.joined()

    def op(self):
        """The op of the next line: mostly a new span where none is open."""
        if not self.lines.world.spans and self.dice.chance(0.6):
            return "new"
        return self.dice.weighted(self.lines.weights)

    def head(self):
        """The limits and the layers. Where there are layers, one of them mostly admits everything."""
        if self.dice.chance(0.4 if self.short else 0.75):
            self.put(self.lines.limits())
        if "layer" not in self.lines.ops:
            return
        kinds = {0: 20, self.dice.between(1, 3): 65, self.dice.between(4, 8): 14, self.dice.between(63, 66): 1}
        count = self.dice.below(3) if self.short else self.dice.weighted(kinds)
        whole = self.dice.below(count) if count and self.dice.chance(0.7) else None
        for place in range(count):
            layer = self.lines.layer()
            self.put([it for it in layer if it[0] != "rule"] if place == whole else layer)

    def joined(self):
        script = b"\n".join(self.lines.lines)
        if self.dice.chance(0.75):
            script += self.dice.pick([b"\n", b"\n", b"\n", b"\n\n", b"\n \n", b"\n\r\n\t", b"\r\n"])
        return script[: self.dice.below(len(script) + 1)] if self.dice.chance(CUT) else script

    # Some lines that belong together.

    def new_under(self, parent, label):
        """A new span with that label; whether it is open now."""
        line = [it for it in self.lines.new() if it[0] not in ("parent", "label")]
        self.put([*line, ("parent", parent), ("label", label)])
        return self.lines.replay.labels.get(label) in self.lines.world.spans

    def call(self, op, span, worker=0):
        """A call on a span, where it is known; else nothing."""
        if not isinstance(span, str) or span in self.lines.replay.labels:
            self.put([("op", op), ("span", span), *([("w", worker)] if worker else [])])

    def chain(self):
        """Each span under the one before; they are closed in any order, and the last release closes many."""
        parent, made = None, []
        for _ in range(self.dice.pick([2, 3, 4, 5, 30])):
            label = self.lines.free_label()
            if self.new_under(parent, label):
                made.append(label)
                if parent is not None and self.dice.chance(0.4):
                    self.call("close", parent)
                parent = label
        for label in self.dice.pick([made, made[::-1], self.dice.shuffled(made)]):
            if self.dice.chance(0.8):
                self.call("close", label)

    def wear(self):
        """A slot is given and freed again and again, until it is retired perhaps."""
        label = self.lines.free_label()
        for _ in range(self.dice.between(2, 5)):
            if self.new_under(None, label):
                self.call("close", label)
                self.call("find", self.lines.replay.labels.get(label, label))

    def fill(self):
        """New spans, mostly until no slot is free."""
        for _ in range(self.dice.between(3, 9)):
            self.put(self.lines.new())

    def crowd(self):
        """Very many spans, in some scripts more than there are slots where no limit is given."""
        for place in range(self.dice.pick([70, 300, 1030])):
            self.lines.put(b'{"op":"new","name":"crowd","parent":null,"label":"crowd %d"}' % place)

    def stacked(self):
        """One worker enters some spans, some of them again, and makes a span and an event between the exits."""
        worker = self.dice.below(min(self.lines.workers, len(self.lines.world.stacks)))
        spans = [self.lines.span() for _ in range(self.dice.between(1, 4))]
        for _ in range(self.dice.between(2, 6)):
            self.call("enter", self.dice.pick(spans), worker)
        for _ in range(self.dice.between(2, 6)):
            if "event" in self.lines.ops and self.dice.chance(0.5):
                self.put([*self.lines.event(), ("w", worker)])
            if self.dice.chance(0.4):
                line = [it for it in self.lines.new() if it[0] not in ("parent", "w")]
                self.put([*line, ("w", worker)])
            self.call("exit", self.lines.entered(worker), worker)

    def counted(self):
        """One span gets references of every kind, perhaps more than it may have."""
        span = self.lines.span()
        for _ in range(self.dice.between(2, 6)):
            kind = self.dice.pick(["clone", "clone", "enter", "child"])
            if kind == "child" and (not isinstance(span, str) or span in self.lines.replay.labels):
                self.new_under(span, self.lines.free_label())
            elif kind != "child":
                self.call(kind, span, self.dice.below(min(self.lines.workers, len(self.lines.world.stacks))))
        self.call("find", span)

    def entered_alone(self):
        """A span that has an entry and no handle: what it takes, and its label bound again."""
        label = self.lines.free_label()
        if not self.new_under(None, label):
            return
        number = self.lines.replay.labels.get(label)
        self.call("enter", label)
        self.call("close", label)
        ops = [op for op in ("enter", "clone", "close", "record", "find", "exit") if op in self.lines.ops]
        for _ in range(self.dice.between(1, 3)):
            self.call(self.dice.pick(ops), self.dice.pick([label, number]))
        if self.lines.replay.labels.get(label) == number and self.lines.replay.handles_of(label) == 0:
            self.new_under(self.dice.pick([None, number]), label)


def no_script(dice):
    """Bytes of any kind, or pieces of lines."""
    pieces = [bytes([dice.below(256)]), b"\n", b'{"op":', b'"', b"}", b"[", b"\r", *NO_JSON, *(it.encode() for it in LABELS)]
    return b"".join(dice.pick(pieces) for _ in range(dice.below(20)))


def make(seed, number, ops):
    dice = Dice(f"{seed} {number}")
    return no_script(dice) if dice.chance(NO_SCRIPT) else Maker(dice, ops).script()
