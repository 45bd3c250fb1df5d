"""Writes values as JSON, plainly or in one of the many other ways that mean the same."""
SHORT = {'"': '\\"', "\\": "\\\\", "\b": "\\b", "\f": "\\f", "\n": "\\n", "\r": "\\r", "\t": "\\t"}


class Raw(str):
    """JSON that is written as it stands."""


class Members(list):
    """The members of an object as pairs, so that a key can stand twice."""


def units(character):
    """An escape of four hexadecimal digits, or of a surrogate pair."""
    data = character.encode("utf-16-be")
    return [data[place : place + 2].hex() for place in range(0, len(data), 2)]


class Plain:
    """Writes without blanks, and escapes what has to be escaped."""

    def blank(self):
        return ""

    def character(self, it):
        return SHORT.get(it) or ("\\u" + units(it)[0] if it < " " else it)

    def text(self, value):
        return '"' + "".join(self.character(it) for it in value) + '"'

    def value(self, value):
        if isinstance(value, Raw):
            return str(value)
        if value is None or isinstance(value, bool):
            return {None: "null", True: "true", False: "false"}[value]
        if isinstance(value, str):
            return self.text(value)
        if isinstance(value, Members):
            return self.listed("{", [self.text(key) + self.around(":") + self.value(it) for key, it in value], "}")
        if isinstance(value, dict):
            return self.value(Members(value.items()))
        if isinstance(value, (list, tuple)):
            return self.listed("[", [self.value(it) for it in value], "]")
        return str(value)

    def around(self, mark):
        return self.blank() + mark + self.blank()

    def listed(self, first, parts, last):
        return self.around(first) + self.around(",").join(parts) + self.around(last)


class Odd(Plain):
    """Writes with blanks where they may stand, and with escapes that needn't be, as the dice say."""

    def __init__(self, dice):
        self.dice = dice
        self.blanks = dice.pick([0, 0.05, 0.4])
        self.escapes = dice.pick([0, 0.1, 0.5, 1])

    def blank(self):
        return self.dice.pick([" ", " ", "  ", "\t", "\r"]) if self.dice.chance(self.blanks) else ""

    def character(self, it):
        if not self.dice.chance(self.escapes):
            return super().character(it)
        if it == "/" and self.dice.chance(0.5):
            return "\\/"
        digits = [unit.upper() if self.dice.chance(0.5) else unit for unit in units(it)]
        return "".join("\\u" + it for it in digits)


def plain(value):
    return Plain().value(value)
