"""A strict JSON reader: reads what `serde_json` reads, and refuses what it refuses.

What a text is read as: null, true and false are None, True and False, a text is a str, a list a list and an object
a dict. A number written in digits alone is an int; every other number is a float, whatever its value, so that a
caller who wants a whole number looks at the type alone.
"""
import re

# Arrays and objects stand in one another at most this deep.
MOST_LEVELS = 127

BLANKS = re.compile(r"[ \t\r\n]*")
NUMBER = re.compile(r"-?(?:0|[1-9][0-9]*)(?:\.[0-9]+)?(?:[eE][+-]?[0-9]+)?")
DIGITS = re.compile(r"[0-9]+")
PLAIN = re.compile(r'[^"\\\x00-\x1f]*')
FOUR_HEX = re.compile(r"[0-9a-fA-F]{4}")
WORDS = {"null": None, "true": True, "false": False}
SHORT_ESCAPES = {'"': '"', "\\": "\\", "/": "/", "b": "\b", "f": "\f", "n": "\n", "r": "\r", "t": "\t"}


class NotJson(Exception):
    """The text is no JSON."""


def read(data):
    """What the bytes are read as. Bytes that aren't UTF-8 are no JSON, and a byte order mark isn't skipped."""
    try:
        text = data.decode("utf-8")
    except UnicodeDecodeError:
        raise NotJson() from None
    reader = Reader(text)
    value = reader.value(MOST_LEVELS)
    reader.skip_blanks()
    if reader.place < len(text):
        raise NotJson()
    return value


class Reader:
    def __init__(self, text):
        self.text = text
        self.place = 0

    def skip_blanks(self):
        self.place = BLANKS.match(self.text, self.place).end()

    def one(self):
        """The next character."""
        if self.place == len(self.text):
            raise NotJson()
        self.place += 1
        return self.text[self.place - 1]

    def mark(self):
        """The next character that is no blank."""
        self.skip_blanks()
        return self.one()

    def value(self, levels):
        """A value in which arrays and objects may be nested so many levels deep."""
        mark = self.mark()
        if mark == '"':
            return self.rest_of_text()
        if mark == "{":
            return self.members(levels - 1)
        if mark == "[":
            return self.items(levels - 1)
        self.place -= 1
        for word, meant in WORDS.items():
            if self.text.startswith(word, self.place):
                self.place += len(word)
                return meant
        return self.number()

    def members(self, levels):
        """The members of an object after its `{`. Of equal keys the last one counts."""
        if levels < 0:
            raise NotJson()
        found = {}
        mark = self.mark()
        if mark == "}":
            return found
        while mark == '"':
            key = self.rest_of_text()
            if self.mark() != ":":
                raise NotJson()
            found[key] = self.value(levels)
            mark = self.mark()
            if mark == "}":
                return found
            if mark != ",":
                raise NotJson()
            mark = self.mark()
        raise NotJson()

    def items(self, levels):
        """The items of an array after its `[`."""
        if levels < 0:
            raise NotJson()
        found = []
        if self.mark() == "]":
            return found
        self.place -= 1
        while True:
            found.append(self.value(levels))
            mark = self.mark()
            if mark == "]":
                return found
            if mark != ",":
                raise NotJson()

    def number(self):
        """A number. One that no finite 64-bit float holds is refused."""
        match = NUMBER.match(self.text, self.place)
        if match is None:
            raise NotJson()
        self.place = match.end()
        digits = match.group()
        if float(digits) in (float("inf"), float("-inf")):
            raise NotJson()
        return int(digits) if DIGITS.fullmatch(digits) else float(digits)

    def rest_of_text(self):
        """A text after its first quotation mark. Control characters don't stand in it as they are."""
        parts = []
        while True:
            match = PLAIN.match(self.text, self.place)
            parts.append(match.group())
            self.place = match.end()
            mark = self.one()
            if mark == '"':
                return "".join(parts)
            if mark != "\\":
                raise NotJson()
            parts.append(self.escape())

    def escape(self):
        """What an escape means, after its `\\`. Half of a surrogate pair alone is refused."""
        mark = self.one()
        if mark in SHORT_ESCAPES:
            return SHORT_ESCAPES[mark]
        if mark != "u":
            raise NotJson()
        code = self.four_hex()
        if 0xDC00 <= code <= 0xDFFF:
            raise NotJson()
        if 0xD800 <= code <= 0xDBFF:
            code = 0x10000 + (code - 0xD800) * 0x400 + self.second_half()
        return chr(code)

    def second_half(self):
        if self.one() != "\\" or self.one() != "u":
            raise NotJson()
        code = self.four_hex()
        if not 0xDC00 <= code <= 0xDFFF:
            raise NotJson()
        return code - 0xDC00

    def four_hex(self):
        match = FOUR_HEX.match(self.text, self.place)
        if match is None:
            raise NotJson()
        self.place = match.end()
        return int(match.group(), 16)
