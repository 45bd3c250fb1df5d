"""What random scripts are made of: names, labels, targets, texts, numbers, and values of the wrong kind."""
from json_writing import Raw

GOOD_NAMES = ["a", "b", "c", "d", "e", "f", "g", "h", "a", "b", "app", "Z", "0", "-", ".", "_", "x-1", "A.b_c", "n" * 64]
BAD_NAMES = ["", "a b", "n" * 65, "é", "a:b", "a=b", "a\n", "a\0", "ÿ", "é" * 33, "٣", "Ａ", "a\x7f", "n" * 64 + "é"]

# In the order of their bytes the last two stand as here, in that of UTF-16 the other way round.
LABELS = ["", "a", "A", "aa", "a ", "b", "\n", "\0", "é", "日本", "\uff5e", "😀"]

TARGETS = ["app", "app", "app", "app.db", "app::db", "apple", "ap", "lib", "", "é", "éa", "a\nb", "APP"]
PREFIXES = ["", "app", "app", "app.", "app::db", "ap", "lib", "l", "é", "web", "apple pie"]

TEXTS = [
    "", "v", "1", "a b", "x\ny", "\\", "\\n", "\r", "\r\n", "\t", '"q"', "é", "日本", "😀", "\0", "\x01", "\x1b", "\x7f",
    "\x80", "\u2028", "\ufeff", "\ufffe", "\U0010ffff", "k=v", "/", "\b\f", " ", "- w0", "x" * 70,
]  # fmt: skip

LEVELS = ["ERROR", "WARN", "INFO", "DEBUG", "TRACE"]

DEEP = 126  # so deep may a value of a line's object be
DEEP_VALUES = [Raw("[" * DEEP + "]" * DEEP), Raw('{"a":' * DEEP + "1" + "}" * DEEP), Raw('[{"":' * 63 + "0" + "}]" * 63)]

# Values that any unknown key may have.
ODD_VALUES = [
    None, True, False, 0, 1, "", "a", [], {}, [[]], {"op": "new"}, Raw("-0"), Raw("-1"), Raw("1.0"), Raw("1e2"),
    Raw("0e99999"), Raw("1E+2"), Raw("1e-400"), Raw("1.7976931348623157e308"), Raw("9" * 308), Raw("0." + "0" * 400 + "1"),
    Raw("18446744073709551615"), Raw("18446744073709551616"), Raw("-9223372036854775809"), Raw('"\\ud83d\\ude00"'),
    Raw('"\\u0000\\/\\b"'), [1, "a", None, {"k": [True]}],
]  # fmt: skip

# Values of the wrong kind for each kind of key. Some are right for some keys: the model says.
NO_TEXT = [None, True, False, 0, 1, Raw("1.5"), [], {}, ["a"], [["a", "b"]]]
NO_NUMBER = [
    None, True, False, "", "1", [], {}, [1], Raw("-0"), Raw("-1"), Raw("1.0"), Raw("1e0"), Raw("1E2"), Raw("0.5"), Raw("0.0"),
    2**32, 2**53 + 1, 2**63, 2**64 - 1, 2**64, 10**30,
]  # fmt: skip
NO_LEVEL = [*NO_TEXT, "info", "INFO ", "", "OFF", "TRACES", "Error", "WARNING", "3"]
NO_FORM = [*NO_TEXT, "Compact", "JSON", "", "pretty", "compact "]
NO_PAIRS = [
    None, True, {}, "a", 1, "", {"a": "b"}, [["k"]], [[]], [["k", "v", "w"]], ["k", "v"], [["k", 1]], [[1, "v"]],
    [["k", None]], [{"k": "v"}], [["k", "v"], ["k"]], [["k", "v"], None], [["k", "v"], "kv"], [["k", ["v"]]],
]  # fmt: skip
NO_RULE = [*NO_PAIRS, [["app", "info"]], [["", "TRACE"], ["app", ""]], [["TRACE", ""]], [[None, "INFO"]], [["app", "INFO", 1]]]
NO_SPAN = [it for it in NO_NUMBER if not isinstance(it, str) or isinstance(it, Raw)]

WRONG = {
    "slots": NO_NUMBER, "last_generation": NO_NUMBER, "max_count": NO_NUMBER, "workers": NO_NUMBER,
    "form": NO_FORM, "spans": NO_NUMBER, "rule": NO_RULE,
    "name": NO_TEXT, "target": NO_TEXT, "level": NO_LEVEL, "parent": NO_SPAN, "fields": NO_PAIRS, "label": NO_TEXT,
    "message": NO_TEXT, "span": NO_SPAN, "old": NO_NUMBER, "w": NO_NUMBER,
}  # fmt: skip

# The numbers at the ends of a key's range, good and bad.
EDGES = {
    **dict.fromkeys(["slots", "last_generation", "max_count", "workers"], [0, 1, 2**32 - 1, 2**32]), "spans": [0, 15, 16],
    **dict.fromkeys(["span", "parent"], [0, 1, 2**56, 2**56 + 1]), "old": [0, 1, 2**32, 2**32 + 1], "w": [1, 3, 4, 5, 255, 256],
}  # fmt: skip

KEYS = {
    "limits": ["slots", "last_generation", "max_count", "workers"],
    "layer": ["form", "spans", "rule"],
    "new": ["name", "target", "level", "parent", "fields", "label", "w"],
    "clone": ["span", "w"], "close": ["span", "w"], "enter": ["span", "w"], "exit": ["span", "w"],
    "record": ["span", "fields", "w"],
    "event": ["message", "target", "level", "fields", "w"],
    "find": ["span", "old"],
}  # fmt: skip

# Lines that are no JSON. `{line}` stands for a line that would be good.
NO_JSON = [
    b"{", b"}", b"[", b'{"op":', b'{"op"', b'{"op":"new"', b"nul", b"True", b"NaN", b"Infinity", b"-", b"'a'", b"{op:1}", b"//",
    b"{'op':'limits'}", b'{"op":"find",}', b'{"a":1 "b":2}', b'{"a" 1}', b'{,"a":1}', b"[1,]", b"[,1]", b"[1 2]", b'{"a":}',
    b'{"a":01}', b'{"a":-01}', b'{"a":+1}', b'{"a":.5}', b'{"a":1.}', b'{"a":1e}', b'{"a":1e+}', b'{"a":-}', b'{"a":0x1}',
    b'{"a":1e400}', b'{"a":-1e400}', b'{"a":1.7976931348623159e308}', b'{"a":1e400,"a":1}', b'{"a":[[1e999]]}', b'{"a":1_0}',
    b'{"a":"\\ud800"}', b'{"a":"\\udc00"}', b'{"a":"\\ud800\\ud800"}', b'{"a":"\\ud83d\\n"}', b'{"\\udfff":1}',
    b'{"a":"\\ude00\\ud83d"}', b'{"a":"\\u12"}', b'{"a":"\\u12g4"}', b'{"a":"\\u+123"}', b'{"a":"\\x41"}', b'{"a":"\\U0041"}',
    b'{"a":"\t"}', b'{"a":"\x00"}', b'{"a":"\x1f"}', b'{"a":"\\\n"}', b'{"a":"', b'{"a":"\\', b'{"a":"\\"}', b"\xff", b"\x00",
    b"\x0c", b"\x0b", b"\xc2\xa0", b"\xef\xbb\xbf", b"\xe2\x80\xa8", b'{"a":"\xff"}', b'{"a":"\xc0\x80"}',
    b'{"a":"\xed\xa0\x80"}', b'{"a":"\xf4\x90\x80\x80"}', b'{"a":"\xe6\x97"}', b'{"a":"\xc3"}', b'{"\x80":1}', b"9" * 309,
    b"1e309",
    b"[" * 128 + b"]" * 128, b"[" * 300, b'{"a":' * 127 + b"[]" + b"}" * 127, b'{"a":' + b"[" * 127 + b"]" * 127 + b"}",
    b"{line}x", b"{line}{line}", b"{line},", b"\xef\xbb\xbf{line}", b"{line}\x00", b"\x0c{line}", b"{line}\xc2\xa0", b"[{line}",
    b"{line}]", b"{line}//", b"{line} null",
]  # fmt: skip

NO_OBJECT = [
    b"null", b"true", b"false", b"0", b"-1", b"1e2", b'"new"', b"[]", b"[1]", b'[{"op":"find"}]', b"[" * 127 + b"]" * 127, b'""',
    b"[{line}]", b" 1 ", b"\t[ ]\r", b"9" * 308, b"-0", b'"\\ud83d\\ude00"',
]  # fmt: skip

NO_OPS = [
    None, True, 1, [], {}, ["new"], "", "New", "NEW", "new ", " new", "news", "ne", "op", "drop", "storm", "limit", "try_close",
    "new\0",
]  # fmt: skip
