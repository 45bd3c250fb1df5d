"""Worked cases that are too large, or too many, to be kept as files."""
from worked_case import Case

# A script may have this many bytes and no more.
MOST_BYTES = 16_777_216


def lines(texts):
    return "".join(text + "\n" for text in texts).encode()


def chain(length):
    """A chain of spans: each is made under the one before, which is closed at once; then the last is closed."""
    script = ['{"op":"limits","slots":65536}']
    answers = ["= limits"]
    for k in range(1, length + 1):
        parent = "null" if k == 1 else f'"{k - 1}"'
        script.append(f'{{"op":"new","name":"p","label":"{k}","parent":{parent}}}')
        answers.append(f"= {k}")
        if k > 1:
            script.append(f'{{"op":"close","span":"{k - 1}"}}')
            answers.append("= open")
    script.append(f'{{"op":"close","span":"{length}"}}')
    answers += ["= closed", "left 0"]
    return Case(f"chain_of_{length}", ["replay"], lines(script), lines(answers), b"", 0)


def newlines(count):
    if count > MOST_BYTES:
        return Case("one_newline_too_many", ["replay"], b"\n" * count, b"", b"line 0: too long\n", 1)
    return Case("as_many_newlines_as_a_script_may_have", ["replay"], b"\n" * count, b"left 0\n", b"", 0)


def cuts():
    """A script of three lines, cut after each byte. A cut inside a line leaves no JSON, except after its `}`."""
    script = ['{"op":"layer"}', '{"op":"new","name":"a"}', '{"op":"close","span":"a"}']
    answers = [["= layer 0"], ["L0 new 1 w0 a", "= 1"], ["L0 close 1 w0 a", "= closed"]]
    tidied = [[], [], ["L0 close 1 w0 a", "= closed"], []]
    whole = lines(script)
    for cut in range(len(whole) + 1):
        part = whole[:cut].decode()
        rows = part.split("\n")
        done = sum(1 for row, line in zip(rows, script) if row == line)
        told = [text for answer in answers[:done] for text in answer]
        broken = done < len(rows) and rows[done] != ""
        name = f"script_cut_after_{cut:02}_bytes"
        if broken:
            yield Case(name, ["replay"], part.encode(), lines(told), f"line {done + 1}: not JSON\n".encode(), 1)
        else:
            yield Case(name, ["replay"], part.encode(), lines(told + tidied[done] + ["left 0"]), b"", 0)


def cases():
    yield chain(65536)
    yield newlines(MOST_BYTES)
    yield newlines(MOST_BYTES + 1)
    yield from cuts()
