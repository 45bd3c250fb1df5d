"""A model of `tracerun why`: `why` says what it writes for a script, what fault it tells and its status.

Written from the rules alone and from no code. The lines run as in `model`. Here no tree is walked: a span's line stands
where the slots of its walk, root first, come in their order.
"""
import model
from model_registry import slot_of

DEEPEST = 32  # a line is indented by no more levels


class Why(model.Replay):
    """A run of a script's lines, which remembers for each span the line that made it, its target and its level."""

    def __init__(self):
        super().__init__()
        self.number = 0  # of the line that runs
        self.made = {}

    def new(self, name, target, level, parent, fields, label, w):
        before = set(self.registry.world.spans)
        answer = super().new(name, target, level, parent, fields, label, w)
        for it in set(self.registry.world.spans) - before:
            self.made[it] = (self.number, target, level)
        return answer

    def path(self, number):
        """The slots of the span's walk, root first."""
        return [slot_of(it) for it in reversed(list(self.registry.world.walk(number)))]

    def inside(self, number):
        """Each worker that has to exit the span, and how often."""
        for worker, stack in enumerate(self.registry.world.stacks):
            exits = stack.ids.count(number)
            if exits > 0:
                yield f" w{worker}" if exits == 1 else f" w{worker} (one entry, {exits} exits)"

    def span_line(self, number, depth):
        world = self.registry.world
        made, target, level = self.made[number]
        inside = "".join(self.inside(number)) or " -"
        blanks = "  " * min(depth, DEEPEST)
        return (
            f"{blanks}{number} {world.spans[number].name} {level} handles {world.handles(number)} inside{inside}"
            f" line {made} target {model.in_one_line(target)}"
        )

    def text(self, label):
        """The text about all open spans, or about the one that the label names."""
        world = self.registry.world
        lines = [f"open {len(world.spans)}"]
        shown, above = sorted(world.spans, key=self.path), 0
        if label is not None:
            root = self.labels.get(label)
            shown = [it for it in shown if root in world.walk(it)]
            above = len(self.path(root)) - 1 if shown else 0
            if not shown:
                lines.append("not open")
        lines += [self.span_line(it, len(self.path(it)) - 1 - above) for it in shown]
        return "".join(it + "\n" for it in lines).encode()


def why(script, label=None):
    """The output of the script, what stands on standard error, and the status."""
    if len(script) > model.MOST_BYTES:
        return b"", b"line 0: too long\n", 1
    run = Why()
    for run.number, line in enumerate(model.lines_of(script), 1):
        try:
            if not model.is_skipped(line):
                run.line(line)
        except model.Fault as fault:
            return run.text(label), f"line {run.number}: {fault}\n".encode(), 1
    return run.text(label), b"", 0
