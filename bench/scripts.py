"""Scripts to measure `tracerun replay` with. Each is made for a size in bytes and is the same each time.

usage: scripts.py NAME BYTES      writes the script
"""
import sys

MANY_SLOTS = '{"op":"limits","slots":1048576}\n'


def filled(head, block_of, size, tail=""):
    """The head, then the blocks 0, 1, 2, .. as long as they fit in the size, then the tail."""
    parts = [head]
    left = size - len(head) - len(tail)
    number = 0
    while True:
        block = block_of(number)
        if len(block) > left:
            break
        parts.append(block)
        left -= len(block)
        number += 1
    parts.append(tail)
    return "".join(parts)


def short_spans(size):
    """Roots that are made and closed at once, one layer that wants all kinds of notes."""
    return filled('{"op":"layer"}\n', lambda n: '{"op":"new","name":"a"}\n{"op":"close","span":"a"}\n', size)


def spans_without_layers(size):
    """Roots that are made and closed at once, with no layer: no notes."""
    return filled("", lambda n: '{"op":"new","name":"a"}\n{"op":"close","span":"a"}\n', size)


def chain(depth):
    """A chain of spans, each handle given back at once but the last, which closes the whole chain."""
    lines = ['{"op":"new","name":"p","label":"0","parent":null}\n']
    for n in range(1, depth):
        lines.append(f'{{"op":"new","name":"p","label":"{n}","parent":"{n - 1}"}}\n{{"op":"close","span":"{n - 1}"}}\n')
    lines.append(f'{{"op":"close","span":"{depth - 1}"}}\n')
    return "".join(lines)


def deep_chain(size):
    """One chain, as deep as fits in the size, under a layer that wants no notes on spans. The tidying closes it whole."""
    head = MANY_SLOTS + '{"op":"layer","spans":0}\n{"op":"new","name":"p","label":"0","parent":null}\n'

    def block(n):
        return f'{{"op":"new","name":"p","label":"{n + 1}","parent":"{n}"}}\n{{"op":"close","span":"{n}"}}\n'

    return filled(head, block, size)


def told_chains(size):
    """Chains of 64 spans under a layer that wants closes: the path of each note is as long as the span is deep."""
    block = chain(64)
    return filled('{"op":"layer","spans":8}\n', lambda n: block, size)


RULES = (
    '[["","TRACE"]]',
    '[["app","INFO"]]',
    '[["app::db","TRACE"],["app","WARN"]]',
    '[["lib","DEBUG"]]',
    '[["app::http","DEBUG"],["app::db","DEBUG"]]',
    '[["","ERROR"]]',
    '[["other","TRACE"]]',
    '[["app","DEBUG"],["lib","WARN"]]',
)


def eight_layers(size):
    """Spans of several targets and levels under 8 layers with different rules and wanted kinds."""
    head = "".join(f'{{"op":"layer","rule":{rule},"spans":{15 - n}}}\n' for n, rule in enumerate(RULES))
    targets, levels = ("app::db", "app::http", "lib", "app"), ("ERROR", "INFO", "DEBUG", "WARN")

    def block(n):
        target, level = targets[n % 4], levels[n // 4 % 4]
        return (
            f'{{"op":"new","name":"job","target":"{target}","level":"{level}"}}\n'
            '{"op":"enter","span":"job"}\n{"op":"new","name":"step"}\n{"op":"close","span":"step"}\n'
            '{"op":"exit","span":"job"}\n{"op":"close","span":"job"}\n'
        )

    return filled(head, block, size)


def wide_fields(size):
    """Spans with 32 fields each, under one layer in each form."""
    fields = ",".join(f'["key{n}","value {n} of the field"]' for n in range(32))
    block = f'{{"op":"new","name":"wide","fields":[{fields}]}}\n{{"op":"close","span":"wide"}}\n'
    return filled('{"op":"layer"}\n{"op":"layer","form":"json"}\n', lambda n: block, size)


def events(size):
    """Events inside two entered spans, under one layer in each form."""
    head = (
        '{"op":"layer"}\n{"op":"layer","form":"json"}\n{"op":"new","name":"a"}\n{"op":"enter","span":"a"}\n'
        '{"op":"new","name":"b"}\n{"op":"enter","span":"b"}\n'
    )
    return filled(head, lambda n: '{"op":"event","message":"the cache is cold","fields":[["n","7"]]}\n', size)


def json_layer(size):
    """Spans with fields, records and events, under one layer in the JSON form."""
    fields = '[["user","ada"],["path","/a/b?c=\\"d\\""]]'
    block = (
        f'{{"op":"new","name":"request","fields":{fields}}}\n{{"op":"enter","span":"request"}}\n'
        '{"op":"record","span":"request","fields":[["status","200"]]}\n'
        '{"op":"event","message":"the cache is cold\\n","level":"WARN","fields":[["n","7"]]}\n'
        '{"op":"exit","span":"request"}\n{"op":"close","span":"request"}\n'
    )
    return filled('{"op":"layer","form":"json"}\n', lambda n: block, size)


def handles_without_layers(size):
    """Handles of one span that are given out and given back, with no layer: the shortest calls."""
    head = '{"op":"new","name":"a"}\n'
    return filled(head, lambda n: '{"op":"clone","span":1}\n{"op":"close","span":1}\n', size)


def records(size):
    """Fields that are recorded on one span, each told to one layer; the last close tells them all."""
    head = '{"op":"layer"}\n{"op":"new","name":"a"}\n'
    return filled(head, lambda n: f'{{"op":"record","span":"a","fields":[["key","{n}"]]}}\n', size)


def one_long_text(size):
    """One event whose message is nearly the whole script, under one layer in each form."""
    head = '{"op":"layer"}\n{"op":"layer","form":"json"}\n{"op":"event","message":"'
    return filled(head, lambda n: "the cache is cold, ", size, '"}\n')


def blank_lines(size):
    """Lines with nothing on them."""
    return "\n" * size


def workers(size):
    """Eight workers that enter and leave one span, each entry told to one layer."""
    head = '{"op":"limits","workers":8}\n{"op":"layer"}\n{"op":"new","name":"shared"}\n'

    def block(n):
        w = n % 8
        return f'{{"op":"enter","span":"shared","w":{w}}}\n{{"op":"exit","span":"shared","w":{w}}}\n'

    return filled(head, block, size)


def deep_stack(size):
    """Spans that one worker enters and doesn't leave."""
    head = MANY_SLOTS + '{"op":"layer","spans":0}\n'

    def block(n):
        return f'{{"op":"new","name":"p","label":"{n}","parent":null}}\n{{"op":"enter","span":"{n}"}}\n'

    return filled(head, block, size)


def two_deep_stacks(size):
    """Spans that two workers enter and don't leave: each enter of the second looks through that worker's stack."""
    head = '{"op":"limits","slots":1048576,"workers":2}\n{"op":"layer","spans":0}\n'

    def block(n):
        new = f'{{"op":"new","name":"p","label":"{n}","parent":null}}\n'
        return new + f'{{"op":"enter","span":"{n}"}}\n{{"op":"enter","span":"{n}","w":1}}\n'

    return filled(head, block, size)


def entered_again(size):
    """One span entered again and again, with an event each time, which looks below the duplicates."""
    head = '{"op":"layer","spans":0}\n{"op":"new","name":"p"}\n'
    return filled(head, lambda n: '{"op":"enter","span":"p"}\n{"op":"event","message":"m"}\n', size)


def events_far_from_the_root(size):
    """A chain in the first half; then events at its end, told to a layer that admits the last span alone."""
    links = deep_chain(size // 2).split("\n", 2)[2]
    last = links.count("\n") // 2
    head = (
        MANY_SLOTS + '{"op":"layer","spans":0,"rule":[["app","TRACE"]]}\n{"op":"layer","spans":0,"rule":[["end","TRACE"]]}\n'
        + links + f'{{"op":"new","name":"end","target":"end","parent":"{last}"}}\n{{"op":"enter","span":"end"}}\n'
    )
    return filled(head, lambda n: '{"op":"event","message":"m","target":"end"}\n', size)


def sixty_four_layers(size):
    """Events under 64 layers that admit them: an output of 53 times the script."""
    return filled('{"op":"layer"}\n' * 64, lambda n: '{"op":"event","message":"m"}\n', size)


def by_name(*made):
    return {it.__name__: it for it in made}


SCRIPTS = by_name(
    spans_without_layers, handles_without_layers, short_spans, deep_chain, told_chains, eight_layers, json_layer,
    wide_fields, records, events, one_long_text, workers, deep_stack, blank_lines
)

# Scripts whose time or memory grows faster than the script, or far beyond it: for small sizes.
COSTLY = by_name(two_deep_stacks, entered_again, events_far_from_the_root, sixty_four_layers)
ALL = {**SCRIPTS, **COSTLY}

if __name__ == "__main__":
    sys.stdout.write(ALL[sys.argv[1]](int(sys.argv[2])))
