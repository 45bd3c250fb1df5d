"""The model of the registry: spans, what holds them, stacks, layers, and the calls.

Written from the rules alone and from no code, plain and slow on purpose. Where a program would count references, it
has the holders themselves, as a multiset, and works out afresh which spans are live; a closing list is a difference
of two sets.
"""
from collections import Counter
from dataclasses import dataclass, field
from typing import Optional

LEVELS = ["ERROR", "WARN", "INFO", "DEBUG", "TRACE"]  # by verbosity

# The id of a slot and a generation is generation * 2^24 + slot + 1.
SLOTS_OF_THE_LAYOUT = 2**24
LAST_ID = 2**56

# In the older layout it was generation * 2^16 + slot + 1.
SLOTS_OF_THE_OLDER_LAYOUT = 2**16
LAST_OLDER_ID = 2**32

MOST_LAYERS = 64
NAME_BYTES = frozenset(b"ABCDEFGHIJKLMNOPQRSTUVWXYZabcdefghijklmnopqrstuvwxyz0123456789_.-")
LONGEST_NAME = 64

# The bits of a layer's `spans`: of which happenings of a span it wants to be told. It is always told of records
# and events.
BITS = {"new": 1, "enter": 2, "exit": 4, "close": 8}
ALL_BITS = sum(BITS.values())

HANDLE = "a handle"


class Refusal(Exception):
    """A call is refused: it changes nothing, and the run goes on."""


def id_of(slot, generation):
    return generation * SLOTS_OF_THE_LAYOUT + slot + 1


def slot_of(number):
    return (number - 1) % SLOTS_OF_THE_LAYOUT


def generation_of(number):
    return (number - 1) // SLOTS_OF_THE_LAYOUT


def id_of_older(number):
    """The id that has the slot and the generation which the number has in the older layout."""
    return id_of((number - 1) % SLOTS_OF_THE_OLDER_LAYOUT, (number - 1) // SLOTS_OF_THE_OLDER_LAYOUT)


def is_name(text):
    """1 to 64 bytes, each an ASCII letter, a digit, `_`, `.` or `-`."""
    data = text.encode()
    return 1 <= len(data) <= LONGEST_NAME and all(byte in NAME_BYTES for byte in data)


def entry_of(worker):
    return f"the entry of worker {worker}"


@dataclass
class Limits:
    slots: int = 1024
    last_generation: int = 4294967295
    max_count: int = 4294967295
    workers: int = 4

    def are_in_range(self):
        return (
            1 <= self.slots <= 16777216
            and 0 <= self.last_generation <= 4294967295
            and 1 <= self.max_count <= 4294967295
            and 1 <= self.workers <= 256
        )


@dataclass
class Layer:
    form: str  # compact or json
    spans: int  # bits
    rule: list  # pairs of a prefix and the greatest level

    def admits(self, target, level):
        """The longest prefix that begins the target decides; of equal ones the later. Without one: no."""
        target = target.encode()
        matching = [(len(it.encode()), greatest) for it, greatest in self.rule if target.startswith(it.encode())]
        if not matching:
            return False
        longest = max(length for length, _ in matching)
        greatest = [it for length, it in matching if length == longest][-1]
        return LEVELS.index(level) <= LEVELS.index(greatest)

    def wants(self, kind):
        return kind in ("record", "event") or self.spans & BITS[kind] != 0


@dataclass
class Span:
    name: str
    fields: list  # pairs of a key and a value
    admitted: frozenset  # the numbers of the layers that admit it
    parent: Optional[int]


@dataclass
class Note:
    kind: str
    id: int
    worker: int
    path: list  # names, root first
    fields: list
    level: Optional[str] = None  # of an event
    message: Optional[str] = None  # of an event


class Slots:
    """Which id comes next. A slot's ids have the generations 0, 1, 2 and so on."""

    def __init__(self, limits):
        self.limits = limits
        self.given = {}  # of each slot that was used: how many ids it gave
        self.freed = []  # slots that were freed and not retired, the one freed last at the end

    def next_id(self):
        """Of the slot that was freed last; if none is freed, of the lowest that was never used; else nothing."""
        if self.freed:
            slot = self.freed[-1]
        else:
            slot = next((it for it in range(self.limits.slots) if it not in self.given), None)
        return None if slot is None else id_of(slot, self.given.get(slot, 0))

    def give(self):
        number = self.next_id()
        if self.freed:
            self.freed.pop()
        self.given[slot_of(number)] = generation_of(number) + 1
        return number

    def take_back(self, number):
        """The slot is free again, but after its last generation it is retired."""
        if generation_of(number) < self.limits.last_generation:
            self.freed.append(slot_of(number))


class Stack:
    """The ids of the spans that a worker has entered, the topmost last."""

    def __init__(self):
        self.ids = []

    def has(self, number):
        return number in self.ids

    def without_duplicates(self):
        """The entries that stand at the first place of their id."""
        return list(dict.fromkeys(self.ids))

    def current(self):
        """The topmost entry that is no duplicate, or nothing."""
        ids = self.without_duplicates()
        return ids[-1] if ids else None

    def push(self, number):
        self.ids.append(number)

    def pop(self, number):
        """Takes out the last place of the id."""
        last = max(place for place, it in enumerate(self.ids) if it == number)
        del self.ids[last]


class World:
    """The open spans, what holds them, and one stack for each worker."""

    def __init__(self, limits):
        self.limits = limits
        self.slots = Slots(limits)
        self.spans = {}  # from id to span; open means: in here
        self.holders = Counter()  # a multiset of pairs (id, holder)
        self.stacks = [Stack() for _ in range(limits.workers)]

    def walk(self, number):
        """The span, its parent, that one's parent, and so on up to a root."""
        while number is not None:
            yield number
            number = self.spans[number].parent

    def live(self, holders):
        """The spans that stand on the walk of some span that has a holder."""
        found = set()
        for number, _ in holders:
            for it in self.walk(number):
                if it in found:  # then the rest of this walk was found too
                    break
                found.add(it)
        return found

    def handles(self, number):
        return self.holders[number, HANDLE]

    def entries(self, number):
        return sum(count for (it, holder), count in self.holders.items() if it == number and holder != HANDLE)

    def reference_count(self, number):
        """The holders of the span, and the open spans whose parent it is."""
        children = sum(1 for it in self.spans.values() if it.parent == number)
        return self.handles(number) + self.entries(number) + children

    def need_open(self, number):
        if number not in self.spans:
            raise Refusal("unknown")

    def need_handle(self, number):
        """The id is offered as a handle, so a handle of it has to be written down."""
        if self.handles(number) == 0:
            raise Refusal("unknown")

    def need_count(self, number):
        """One more reference is to be taken."""
        if self.reference_count(number) == self.limits.max_count:
            raise Refusal("count full")

    def closing(self, number, holder):
        """What goes when the holder is taken out once: what isn't live without it, in the order of the walk."""
        gone = set(self.spans) - self.live(self.holders - Counter([(number, holder)]))
        closing = [it for it in self.walk(number) if it in gone]
        assert len(closing) == len(gone), "a release closes nothing beside the walk"
        return closing

    def release(self, number, holder):
        closing = self.closing(number, holder)
        self.holders = self.holders - Counter([(number, holder)])
        for it in closing:
            del self.spans[it]
            self.slots.take_back(it)

    def path(self, layer, number):
        """The names on the walk of those spans that the layer admits, root first."""
        walk = list(self.walk(number))
        return [self.spans[it].name for it in reversed(walk) if layer in self.spans[it].admitted]


@dataclass
class Registry:
    """The calls. Each answers with its text and its notes, pairs of a layer's number and a note."""

    limits: Limits = field(default_factory=Limits)
    layers: list = field(default_factory=list)

    def __post_init__(self):
        self.world = World(self.limits)

    def admitted(self, target, level):
        return frozenset(place for place, layer in enumerate(self.layers) if layer.admits(target, level))

    def told(self, kind, number, worker, fields):
        """The notes of one happening of a span: one for each layer that admits it and wants the kind."""
        span = self.world.spans[number]
        return [
            (place, Note(kind, number, worker, self.world.path(place, number), list(fields)))
            for place, layer in enumerate(self.layers)
            if place in span.admitted and layer.wants(kind)
        ]

    def told_of_closing(self, closing, worker):
        return [note for it in closing for note in self.told("close", it, worker, self.world.spans[it].fields)]

    def new(self, worker, name, target, level, fields, parent):
        """The parent is an id or nothing. A span that no layer of some admits isn't made."""
        if not is_name(name) or not all(is_name(key) for key, _ in fields):
            raise Refusal("bad name")
        admitted = self.admitted(target, level)
        if self.layers and not admitted:
            return None, []
        if parent is not None:
            self.world.need_open(parent)
            self.world.need_count(parent)
        if self.world.slots.next_id() is None:
            raise Refusal("full")
        number = self.world.slots.give()
        self.world.spans[number] = Span(name, list(fields), admitted, parent)
        self.world.holders[number, HANDLE] += 1
        return number, self.told("new", number, worker, fields)

    def clone(self, worker, number):
        self.world.need_handle(number)
        self.world.need_count(number)
        self.world.holders[number, HANDLE] += 1
        return "cloned", []

    def enter(self, worker, number):
        """A duplicate entry takes no reference."""
        stack = self.world.stacks[worker]
        again = stack.has(number)
        self.world.need_handle(number)
        if not again:
            self.world.need_count(number)
        notes = self.told("enter", number, worker, [])
        stack.push(number)
        if not again:
            self.world.holders[number, entry_of(worker)] += 1
        return "again" if again else "entered", notes

    def exit(self, worker, number):
        """Only where no entry of the id is left in the stack is a reference given back."""
        stack = self.world.stacks[worker]
        self.world.need_open(number)
        if not stack.has(number):
            raise Refusal("not entered")
        notes = self.told("exit", number, worker, [])
        stack.pop(number)
        if stack.has(number):
            return "open", notes
        closing = self.world.closing(number, entry_of(worker))
        notes += self.told_of_closing(closing, worker)
        self.world.release(number, entry_of(worker))
        return "closed" if closing else "open", notes

    def close(self, worker, number):
        self.world.need_handle(number)
        closing = self.world.closing(number, HANDLE)
        notes = self.told_of_closing(closing, worker)
        self.world.release(number, HANDLE)
        return "closed" if closing else "open", notes

    def record(self, worker, number, fields):
        """The fields go to the end of the span's; a key that is there already stands twice."""
        if not all(is_name(key) for key, _ in fields):
            raise Refusal("bad name")
        self.world.need_handle(number)
        self.world.spans[number].fields += fields
        return "recorded", self.told("record", number, worker, fields)

    def event(self, worker, message, target, level, fields):
        if not all(is_name(key) for key, _ in fields):
            raise Refusal("bad name")
        notes = []
        for place in sorted(self.admitted(target, level)):
            number = self.contextual_span(worker, place)
            path = [] if number is None else self.world.path(place, number)
            notes.append((place, Note("event", number or 0, worker, path, fields, level, message)))
        return "told", notes

    def contextual_span(self, worker, place):
        """The topmost entry of the worker's stack, duplicates skipped, that the layer admits, or nothing."""
        ids = self.world.stacks[worker].without_duplicates()
        return next((it for it in reversed(ids) if place in self.world.spans[it].admitted), None)

    def find(self, number):
        self.world.need_open(number)
        span, world = self.world.spans[number], self.world
        return (
            f"{span.name} parent {span.parent or 0} handles {world.handles(number)} "
            f"entries {world.entries(number)} count {world.reference_count(number)}"
        )
