"""Rows of names: modified UTF-8, kinds, escaped text (docs/FORMATS.md, 'Names')."""
import itertools
import re

from notation import joined, repeated, word

FINE, N1, N2 = "fine", "N1 NotModifiedUtf8", "N2 BadName"
LIMIT = 65535
# Code units at the borders of the table of spellings, and of the surrogates.
BORDERS = [0, 1, 0x7F, 0x80, 0x7FF, 0x800, 0xD7FF, 0xD800, 0xDBFF, 0xDC00, 0xDFFF, 0xE000, 0xFFFF]

UNIT = rb"(?:[\x01-\x7f]|\xc0\x80|[\xc2-\xdf][\x80-\xbf]|\xe0[\xa0-\xbf][\x80-\xbf]|[\xe1-\xef][\x80-\xbf][\x80-\xbf])"
TEXT = re.compile(UNIT + rb"*")
PART = rb"[^.;\[/]+"
KINDS = [
    re.compile(rb".*", re.DOTALL),
    re.compile(PART + rb"(?:/" + PART + rb")*"),
    re.compile(PART),
    re.compile(rb"<init>|<clinit>|[^.;\[/<>]+"),
]


def spelled(unit):
    """The bytes of a code unit."""
    if 1 <= unit <= 0x7F:
        return bytes([unit])
    if unit <= 0x7FF:
        return bytes([0xC0 | unit >> 6, 0x80 | unit & 0x3F])
    return bytes([0xE0 | unit >> 12, 0x80 | unit >> 6 & 0x3F, 0x80 | unit & 0x3F])


def is_text(data):
    return TEXT.fullmatch(data) is not None


def kinds(data):
    """The fault of the bytes as a name of any kind, of a class, unqualified, of a method."""
    if not is_text(data):
        return [N1] * 4
    return [FINE if len(data) <= LIMIT and kind.fullmatch(data) else N2 for kind in KINDS]


def yes(answer):
    return "yes" if answer else "no"


def is_class(data):
    return kinds(data)[1] == FINE


def units_of(data):
    """The code units that bytes spell."""
    units = []
    for found in re.finditer(UNIT, data):
        b = found.group()
        if len(b) == 1:
            units.append(b[0])
        elif len(b) == 2:
            units.append((b[0] & 0x1F) << 6 | b[1] & 0x3F)
        else:
            units.append((b[0] & 0x0F) << 12 | (b[1] & 0x3F) << 6 | b[2] & 0x3F)
    return units


def escaped(data):
    """The printed text of a name."""
    return "".join(
        chr(u) if 0x21 <= u <= 0x7E and u != 0x5C else "\\u%04x" % u for u in units_of(data)
    )


def ask_kinds(rows, data, text=None):
    """What bytes are, by the calls that make a name and by the tests."""
    text = text or word(data)
    faults = kinds(data)
    rows.ask("kinds", text, " | ".join(faults))
    rows.ask("tests", text, " ".join([yes(is_text(data))] + [yes(f == FINE) for f in faults[1:]]))


def spellings(rows):
    rows.about("Modified UTF-8: each code unit at a border, alone and between others.")
    for unit in BORDERS:
        ask_kinds(rows, spelled(unit))
        ask_kinds(rows, b"a" + spelled(unit) + b"b")
    for first, second in itertools.product(BORDERS, BORDERS):
        rows.ask("kinds", word(spelled(first) + spelled(second)), " | ".join(kinds(spelled(first) + spelled(second))))
    rows.about("Each byte alone, two bytes, three and four: whole, cut, longer than they may be.")
    for first in range(256):
        ask_kinds(rows, bytes([first]))
    for first in range(128, 256):
        for second in (0x00, 0x7F, 0x80, 0x81, 0x9F, 0xA0, 0xBF, 0xC0, 0xFF):
            data = bytes([first, second])
            rows.ask("kinds", word(data), " | ".join(kinds(data)))
    for first in range(0xE0, 0xF1):
        for second, third in itertools.product((0x7F, 0x80, 0x9F, 0xA0, 0xBF, 0xC0), (0x7F, 0x80, 0xBF, 0xC0)):
            data = bytes([first, second, third])
            rows.ask("kinds", word(data), " | ".join(kinds(data)))
    for data in (b"\xf0\x90\x80\x80", b"/\xff", b".\xff", b"\xe2\x82", b"a\xe2\x82", b"\xe2\x82a"):
        ask_kinds(rows, data)


def forms(rows):
    rows.about("Kinds: each character alone, first, within and last; each short text of some characters.")
    for byte in range(1, 128):
        for data in (b"a" + bytes([byte]), bytes([byte]) + b"a", b"a" + bytes([byte]) + b"b"):
            ask_kinds(rows, data)
    for count in range(5):
        for letters in itertools.product(b"a/<.", repeat=count):
            ask_kinds(rows, bytes(letters))
    rows.about("The special methods' names, and each text that differs in one character.")
    for special in (b"<init>", b"<clinit>"):
        ask_kinds(rows, special)
        for i in range(len(special) + 1):
            ask_kinds(rows, special[:i] + special[i + 1 :] if i < len(special) else special * 2)
            ask_kinds(rows, special[:i] + b"x" + special[i:])
            ask_kinds(rows, special[:i] + b"/" + special[i:])
            ask_kinds(rows, special[:i] + special[i : i + 1].swapcase() + special[i + 1 :])
    for data in (b"", b"p.A", b"a/b", b"a//b", b"/a", b"a/", b"[I", b"A;", b"<x>", b"<clinit>x", b"java/lang/Object"):
        ask_kinds(rows, data)


def limits(rows):
    rows.about("65,535 bytes and one more, of each width; what is no modified UTF-8 is told before that.")
    pieces = [
        [(b"a", 65535)],
        [(b"a", 65536)],
        [(b"\xc3\xa9", 32767), b"a"],
        [(b"\xc3\xa9", 32768)],
        [(b"\xe0\xa0\x80", 21845)],
        [(b"\xe0\xa0\x80", 21845), b"a"],
        [(b"a/", 32767), b"a"],
        [(b"a/", 32768)],
        [(b"a/", 32767), b"aa"],
        [(b"a", 65534), b"."],
        [(b"a", 65534), b"<"],
        [(b"a", 65535), b"."],
        [(b"a", 65535), b"\xff"],
        [(b"a", 65535), b"\x00"],
    ]
    for piece in pieces:
        ask_kinds(rows, joined(*piece), repeated(*piece))


def names(rows):
    rows.about("A name's text, its package, what it is; a copy is the same.")
    samples = [b"", b"A", b"p/A", b"java/lang/Object", b"/", b"/a", b"a/", b"a//b", b"<init>", b"<clinit>", b"[I",
        b"(I)V"]
    samples += [b"a/b/c/d", b" ", b"\\", b"p/\xc3\xa9", b"\xed\xa0\x80\xed\xb0\x80", b"p/\xc0\x80/x", b"p.q/r"]
    samples += [spelled(u) for u in BORDERS]
    for data in samples:
        package = data[: max(data.rfind(b"/"), 0)]
        told = [yes(k == FINE) for k in kinds(data)[1:]]
        rows.ask("name", word(data), "%s package '%s' %s" % (escaped(data), escaped(package), " ".join(told)))
    rows.ask("name", "00", N1)
    rows.ask("name", "61*65536", N2)
    rows.ask("name", "61*65535", "65535 bytes package '' yes yes yes")
    rows.about("Whether the bytes of a name begin with another's; how two names are ordered and whether they are equal.")
    orders = [b"", b"a", b"b", b"java/", b"java/lang", b"java/lang/Object", b"javax", b"\xc0\x80", b"\xc3\xa9",
        b"\xef\xbf\xbf"]
    for one, other in itertools.product(orders, orders):
        rows.ask("prefix", [word(one), word(other)], yes(one.startswith(other)))
        order = "less" if one < other else "greater" if one > other else "equal"
        rows.ask("same", [word(one), word(other)], "%s %s" % (order, yes(one == other)))


def ask_written(rows, text, data):
    """The name that a text writes, or none."""
    text = word(text.encode("utf-8"))
    rows.ask("class", text, escaped(data) if data is not None and is_class(data) else "none")
    if data is None:
        rows.ask("written", text, N2)
    else:
        rows.ask("written", text, "'%s' %s" % (escaped(data), data.hex()))


def texts(rows):
    rows.about("Escaped text: each ASCII character as it stands, each code unit below 0x100 and at a border as an escape.")
    ask_written(rows, "", b"")
    for code in range(128):
        plain = 0x21 <= code <= 0x7E and code != 0x5C
        ask_written(rows, chr(code), bytes([code]) if plain else None)
    for unit in list(range(256)) + BORDERS:
        for form in sorted({"\\u%04x" % unit, "\\u%04X" % unit}):
            ask_written(rows, form, spelled(unit))
    ask_written(rows, "\\ud800\\uDC00", b"\xed\xa0\x80\xed\xb0\x80")
    ask_written(rows, "p/\\u0041~", b"p/A~")
    ask_written(rows, "\\u005C\\u0020", b"\\ ")
    ask_written(rows, "\\uaBcD", spelled(0xABCD))
    rows.about("What is no escaped text.")
    for text in ("a b", "\\", "\\\\", "\\u", "\\u1", "\\u12", "\\u123", "\\u12 4", "\\U0041", "u0041\\", "\\n", "é",
        "\u20ac", "\U00010000"):
        ask_written(rows, text, None)
    for place in range(4):
        for digit in "gG/:@`+-é ":
            ask_written(rows, "\\u" + "0" * place + digit + "0" * (3 - place), None)
            ask_written(rows, "a\\u" + "0" * place + digit + "0" * (3 - place) + "b", None)
    rows.about("65,535 bytes that a text writes, and one more.")
    for part, count, last, fits in (
        (b"a", 65535, b"", True),
        (b"a", 65536, b"", False),
        (b"\\u0800", 21845, b"", True),
        (b"\\u0800", 21845, b"a", False),
        (b"\\u0000", 32767, b"a", True),
        (b"\\u0000", 32767, b"\\u0000", False),
        (b"\\u0041", 65535, b"", True),
        (b"\\u0041", 65536, b"", False),
        (b"a", 65536, b"\\", False),
    ):
        rows.ask("written", repeated((part, count), last), "65535 bytes" if fits else N2)
        rows.ask("class", repeated((part, count), last), "65535 bytes" if fits else "none")
    for text in ("p/A", "p//A", "p.A", "/", "p/", "p\\u002fA", "p\\u002eA", "[I", "\\u005bI", "<init>", "p\\u0020A",
        "p/\\uD800"):
        data = re.sub(rb"\\u(....)", lambda found: spelled(int(found.group(1), 16)), text.encode())
        ask_written(rows, text, data)


def make(rows):
    spellings(rows)
    forms(rows)
    limits(rows)
    names(rows)
    texts(rows)
