"""Worked cases of script faults: each op with a wrong value at each of its keys, and which fault comes first."""
from worked_case import Case

NO_WHOLE = ["null", "true", '"1"', "[]", "{}", "-1", "-0", "1.0", "1e0", "18446744073709551616"]
NO_TEXT = ["null", "false", "0", "[]", '["a"]', "{}"]
NO_ID = [*NO_WHOLE[1:2], *NO_WHOLE[3:], "0", "72057594037927937"]
NO_PAIRS = ["null", "0", '"a"', "{}", '["a"]', "[[]]", '[["a"]]', '[["a","INFO","c"]]', '[[null,"INFO"]]', '[["a",1]]']

# The values that each key may not have, as JSON.
WRONG = {
    "slots": [*NO_WHOLE, "4294967296"],
    "last_generation": [*NO_WHOLE, "4294967296"],
    "max_count": [*NO_WHOLE, "4294967296"],
    "workers": [*NO_WHOLE, "4294967296"],
    "form": [*NO_TEXT, '"JSON"', '""'],
    "spans": [*NO_WHOLE, "16"],
    "rule": [*NO_PAIRS, '[["a","INFO"],["b","info"]]'],
    "name": NO_TEXT,
    "target": NO_TEXT,
    "level": [*NO_TEXT, '"info"', '"FATAL"', '""'],
    "parent": NO_ID,
    "fields": [*NO_PAIRS, '[["k","v"],["k"]]'],
    "label": NO_TEXT,
    "w": [*NO_WHOLE, "4"],
    "span": ["null", *NO_ID],
    "message": NO_TEXT,
    "old": [*NO_WHOLE, "0", "4294967297"],
}

# The keys of each op in the order of checking, and the one without which the line is at fault, with a good value.
ON_SPAN = (["span", "w"], ("span", '"a"'))
KEYS = {
    "limits": (["slots", "last_generation", "max_count", "workers"], None),
    "layer": (["form", "spans", "rule"], None),
    "new": (["name", "target", "level", "parent", "fields", "label", "w"], ("name", '"b"')),
    "clone": ON_SPAN,
    "close": ON_SPAN,
    "enter": ON_SPAN,
    "exit": ON_SPAN,
    "record": (["span", "fields", "w"], ("span", '"a"')),
    "event": (["message", "target", "level", "fields", "w"], ("message", '"m"')),
}

# Lines that stand alone, each with its fault.
ALONE = [
    ("{", "not JSON"),
    ('{"op":"new","name":"a"', "not JSON"),
    ('{"op":"new","name":"a"} {}', "not JSON"),
    ('{"op":"new","name":"a",}', "not JSON"),
    ('{"op":"new","name":"\\ud800"}', "not JSON"),
    ('{"op":"new","name":"a\tb"}', "not JSON"),
    ('{"op":"close","span":01}', "not JSON"),
    ("\ufeff", "not JSON"),
    ("\ufeff{}", "not JSON"),
    ("\u00a0", "not JSON"),
    ("\x0b", "not JSON"),
    ("[]", "not an object"),
    ("null", "not an object"),
    ("7", "not an object"),
    ('"new"', "not an object"),
    ("{}", "no such op"),
    ('{"op":null}', "no such op"),
    ('{"op":7}', "no such op"),
    ('{"op":["new"]}', "no such op"),
    ('{"op":"NEW","name":"a"}', "no such op"),
    ('{"op":"new ","name":"a"}', "no such op"),
    ('{"op":"storm"}', "no such op"),
    ('{"op":"new","op":"jump","name":"a"}', "no such op"),
    ('{"op":"new","name":"a","level":"info"}', "bad key level"),
    ('{"op":"new","name":"a","fields":[["k"]]}', "bad key fields"),
    ('{"op":"new","name":"a","parent":false,"w":4}', "bad key parent"),
    ('{"op":"close","w":9}', "bad key span"),
    ('{"op":"close","span":-0}', "bad key span"),
    ('{"op":"close","span":1.0}', "bad key span"),
    ('{"op":"close","span":"a","w":99}', "bad key w"),
    ('{"op":"find"}', "bad key span"),
    ('{"op":"find","span":0,"old":0}', "bad key span"),
    ('{"op":"find","span":null,"old":1}', "bad key span"),
    ('{"op":"find","span":1,"old":1}', "bad key old"),
    ('{"op":"find","span":1,"old":null}', "bad key old"),
    ('{"op":"find","span":"b","old":1}', "bad key old"),
    ('{"op":"close","span":"b"}', "no such label"),
    ('{"op":"close","span":""}', "no such label"),
    ('{"op":"new","name":"a","parent":"a"}', "no such label"),
]

# Lines after one that binds the label a, each with its fault.
AFTER_NEW = [
    ('{"op":"limits"}', "late line"),
    ('{"op":"layer"}', "late line"),
    ('{"op":"limits","slots":-1}', "late line"),
    ('{"op":"layer","form":0}', "late line"),
    ('{"op":"close","span":"b","w":4}', "bad key w"),
    ('{"op":"record","span":"b","fields":0}', "bad key fields"),
    ('{"op":"new","name":"b","parent":"b","w":4}', "bad key w"),
    ('{"op":"new","name":"a","w":4}', "bad key w"),
    ('{"op":"new","name":"a","parent":"b"}', "no such label"),
    ('{"op":"new","name":"b","label":"a","parent":"x"}', "no such label"),
    ('{"op":"find","span":"A"}', "no such label"),
    ('{"op":"new","name":"a"}', "label taken"),
    ('{"op":"new","name":"a b","label":"a"}', "label taken"),
    ('{"op":"new","name":"a","parent":2}', "label taken"),
]


def after(before, answers, line, fault, name):
    """The line after those before and a blank one: its number counts the blank one."""
    number = len(before) + 2
    script = "".join(it + "\n" for it in [*before, " ", line])
    return Case(name, ["replay"], script.encode(), "".join(it + "\n" for it in answers).encode(), f"line {number}: {fault}\n".encode(), 1)


def line_of(op, members):
    return "{" + ",".join([f'"op":"{op}"', *(f'"{key}":{value}' for key, value in members)]) + "}"


def of_op(op):
    """The faults of an op at its keys."""
    keys, needed = KEYS[op]
    is_call = op not in ("limits", "layer")
    before, answers = (['{"op":"new","name":"a"}'], ["= 1"]) if is_call else ([], [])
    for key in keys:
        good = [needed] if needed and needed[0] != key else []
        for number, value in enumerate(WRONG[key]):
            yield after(before, answers, line_of(op, [*good, (key, value)]), f"bad key {key}", f"{op}_with_wrong_{key}_{number}")
    # Where several are wrong, the first in the order of the keys is told, however they stand in the line.
    for place, key in enumerate(keys):
        good = [needed] if needed and keys.index(needed[0]) < place else []
        wrong = [(it, WRONG[it][1]) for it in reversed(keys[place:])]
        yield after(before, answers, line_of(op, [*wrong, *good]), f"bad key {key}", f"{op}_with_all_wrong_from_{key}")
    if needed:
        yield after(before, answers, line_of(op, []), f"bad key {needed[0]}", f"{op}_without_{needed[0]}")


def cases():
    for op in KEYS:
        yield from of_op(op)
    for key in ("span", "old"):
        for number, value in enumerate(WRONG[key]):
            yield after([], [], line_of("find", [(key, value)]), f"bad key {key}", f"find_with_wrong_{key}_{number}")
    for number, (line, fault) in enumerate(ALONE):
        yield after([], [], line, fault, f"line_alone_at_fault_{number}")
    for number, (line, fault) in enumerate(AFTER_NEW):
        yield after(['{"op":"new","name":"a"}'], ["= 1"], line, fault, f"line_after_new_at_fault_{number}")
    yield Case("fault_after_two_empty_lines", ["replay"], b'\n\n{"op":"jump"}', b"", b"line 3: no such op\n", 1)
    # The limits and the layers come first, whatever they answer.
    refused, told = '{"op":"limits","slots":0}', "! bad limits"
    yield after([refused], [told], '{"op":"limits"}', "late line", "limits_after_refused_limits")
    yield after(['{"op":"layer"}'], ["= layer 0"], '{"op":"limits"}', "late line", "limits_after_a_layer")
    yield after(['{"op":"find","span":1}'], ["! unknown"], '{"op":"layer"}', "late line", "layer_after_a_refused_call")
    # A worker's number is below the limit that stands.
    yield after(['{"op":"limits","workers":2}'], ["= limits"], '{"op":"event","message":"m","w":2}', "bad key w", "worker_beyond_the_limit_that_was_set")
    yield after(['{"op":"limits","workers":257}'], [told], '{"op":"event","message":"m","w":4}', "bad key w", "worker_beyond_the_default_after_refused_limits")
