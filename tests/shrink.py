"""Makes a script smaller while something that was found in it can still be found."""
import re

import strict_json
from json_writing import Members, plain


class Shrinking:
    """`holds` says of a script whether it still shows what was found. It is asked at most `tries` times."""

    def __init__(self, holds, tries):
        self.holds = holds
        self.tries = tries

    def still(self, script):
        self.tries -= 1
        return self.tries >= 0 and self.holds(script)

    def fewest(self, parts, whole):
        """Leaves parts out, many at once first, then single ones. `whole` makes a script of those that are left."""
        size = len(parts)
        while size > 0 and self.tries > 0:
            place = 0
            while place < len(parts):
                fewer = parts[:place] + parts[place + size :]
                if self.still(whole(fewer)):
                    parts = fewer
                else:
                    place += size
            size //= 2
        return parts

    def shorter_line(self, line, whole):
        """The line with fewer members, with short values, then with fewer bytes."""
        members = members_of(line)
        if members is not None and self.still(whole(written(members))):
            members = self.fewest(members, lambda left: whole(written(left)))
            for place, (key, value) in enumerate(members):
                for short in shorter_values(value):
                    other = [*members[:place], (key, short), *members[place + 1 :]]
                    if self.still(whole(written(other))):
                        members = other
                        break
            line = written(members)
        parts = [line[place : place + 1] for place in range(len(line))]
        return b"".join(self.fewest(parts, lambda left: whole(b"".join(left))))

    def smallest(self, script):
        """Drops lines, then shortens each line, as long as that helps."""
        while True:
            before = script
            lines = self.fewest(re.findall(rb"[^\n]*\n|[^\n]+", script), b"".join)
            for place in range(len(lines)):
                first, last = b"".join(lines[:place]), b"".join(lines[place + 1 :])
                line = lines[place].rstrip(b"\n")  # one at most
                end = lines[place][len(line) :]
                lines[place] = self.shorter_line(line, lambda it: first + it + end + last) + end
            script = b"".join(lines)
            if len(script) >= len(before) or self.tries <= 0:
                return script


def members_of(line):
    """The members of the line's object, or nothing."""
    try:
        value = strict_json.read(line)
    except strict_json.NotJson:
        return None
    return list(value.items()) if type(value) is dict else None


def written(members):
    return plain(Members(members)).encode()


def shorter_values(value):
    """What may stand in place of a value, the shortest first."""
    if type(value) is str and len(value) > 1:
        return ["", "a", value[:1]]
    if type(value) is list and value:
        return [[], value[:1], value[-1:]]
    if type(value) is int and value > 1:
        return [0, 1]
    return []


def smallest(script, holds, tries=3000):
    return Shrinking(holds, tries).smallest(script)
