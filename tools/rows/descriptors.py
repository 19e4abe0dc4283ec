"""Rows of descriptors (docs/FORMATS.md, 'Descriptors')."""
import itertools
import re

from names import KINDS, LIMIT, TEXT, escaped
from notation import joined, repeated, word

D1, D2, D3 = "D1 Malformed", "D2 TooManyDimensions", "D3 TooManyUnits"
TYPE = rb"\[*(?:[BCDFIJSZ]|L[^;]*;)"


class Type:
    """A type: how it is spelled."""

    def __init__(self, text):
        self.text = text
        self.dims = len(text) - len(text.lstrip(b"["))
        self.base = text[self.dims :]

    def name(self):
        return self.base[1:-1] if self.base[:1] == b"L" else None

    def is_named(self):
        name = self.name()
        return name is None or len(name) <= LIMIT and bool(TEXT.fullmatch(name) and KINDS[1].fullmatch(name))

    def units(self):
        return 2 if self.text in (b"J", b"D") else 1


def field_of(data):
    """The type of a field descriptor, whatever its dimensions."""
    if not re.fullmatch(TYPE, data, re.DOTALL):
        return None
    found = Type(data)
    return found if found.is_named() else None


def method_of(data):
    """The parameters of a method descriptor and what it returns, whatever they count."""
    found = re.fullmatch(rb"\(((?:" + TYPE + rb")*)\)(V|" + TYPE + rb")", data, re.DOTALL)
    if not found:
        return None
    params = [Type(text) for text in re.findall(TYPE, found.group(1), re.DOTALL)]
    ret = None if found.group(2) == b"V" else Type(found.group(2))
    if not all(t.is_named() for t in params + [ret or Type(b"I")]):
        return None
    return params, ret


def shown(data):
    return escaped(data) if len(data) <= 2000 else "%d bytes" % len(data)


def field_answer(data):
    found = field_of(data)
    if found is None:
        return D1
    if found.dims > 255:
        return D2
    name = found.name()
    return "%d dimensions %d units %s" % (found.dims, found.units(), "-" if name is None else shown(name))


def method_answer(data):
    found = method_of(data)
    if found is None:
        return D1
    params, ret = found
    if any(t.dims > 255 for t in params + ([ret] if ret else [])):
        return D2
    units = sum(t.units() for t in params)
    if units > 255:
        return D3
    classes = [t.name() for t in ([ret] if ret else []) + params if t.name() is not None]
    texts = [shown(t.text) for t in params] + [")", shown(ret.text) if ret else "V"]
    return " ".join(["%d units %d (" % (units, len(params))] + texts + [shown(c) for c in classes])


def form_answer(data):
    field, method = field_answer(data), method_answer(data)
    if field not in (D1, D2):
        return ("array" if data.startswith(b"[") else "plain") + " -"
    if method not in (D1, D2, D3):
        return ("void " if data.endswith(b")V") else "method ") + method.split()[0]
    return "none -"


def ask_all(rows, *pieces):
    """All three questions about bytes."""
    data, text = joined(*pieces), repeated(*pieces)
    rows.ask("field", text, field_answer(data))
    rows.ask("method", text, method_answer(data))
    rows.ask("form", text, form_answer(data))


def of_bytes(rows):
    rows.about("Descriptors: each byte alone, behind [, as a parameter and as what is returned.")
    for byte in range(256):
        for data in (bytes([byte]), b"[" + bytes([byte]), b"(" + bytes([byte]) + b")V", b"()" + bytes([byte])):
            rows.ask("form", word(data), form_answer(data))


def of_short_texts(rows):
    rows.about("Each text of at most four of some characters.")
    for count in range(5):
        for letters in itertools.product(b"I[La;()V", repeat=count):
            rows.ask("form", word(bytes(letters)), form_answer(bytes(letters)))


def of_fields(rows):
    rows.about("Field descriptors, and texts that are none.")
    for text in (
        b"B", b"C", b"D", b"F", b"I", b"J", b"S", b"Z", b"[[J", b"Ljava/lang/Object;", b"[Lp/A;", b"", b"V", b"[",
        b"[V", b"II",
        b"Lp/A", b"L;", b"Lp//A;", b"Lp.A;", b"L[I;", b"Lp/A;I", b"()V", b"Lp/\xc3\xa9;", b"L\xff;", b"L\xc1\x81;",
        b"L/;", b"Lp/;",
        b"L<init>;", b"[[[[D", b"(D)V", b"(J[J)I", b"(I", b"IV", b"VI", b"L p;", b" I", b"I ", b"l;", b"Lp/A;;",
    ):
        ask_all(rows, text)


def of_methods(rows):
    rows.about("Method descriptors of up to three parameters.")
    params = (b"I", b"J", b"D", b"[J", b"Lp/A;", b"[[Lq/B;")
    for count in range(4):
        for some in itertools.product(params, repeat=count):
            for ret in (b"V", b"I", b"[J", b"Lp/C;"):
                data = b"(" + b"".join(some) + b")" + ret
                rows.ask("method", word(data), method_answer(data))


def of_other_texts(rows):
    rows.about("Texts that are no method descriptor.")
    for text in (
        b"(I", b"(I)", b"(V)V", b"()VV", b"()[V", b"I)V", b"(I)(", b"(Lp/A)V", b"()", b"(", b")", b")V", b"((I)V)V",
        b"(I)V ",
        b"([)V", b"(I[)V", b"(L;)V", b"(Lp//A;)V", b"()Lp.A;", b"(I)Lp/A", b"(IJ[JLp/A;D)[I", b"(I[Lp/T;)Lp/U;",
        b"(\xff)V",
    ):
        ask_all(rows, text)


def of_limits(rows):
    rows.about("Limits: dimensions, units, the length of a name; which is told where more than one is passed.")
    for dims in (0, 1, 254, 255, 256, 257, 1000, 65534):
        for base in (b"I", b"J", b"Lp/A;"):
            ask_all(rows, (b"[", dims), base)
            ask_all(rows, b"(I", (b"[", dims), base + b")V")
            ask_all(rows, b"()", (b"[", dims), base)
    for part, most in ((b"I", 255), (b"J", 127), (b"D", 127), (b"[J", 255), (b"[[D", 255), (b"Lp/T;", 255)):
        for count in (most - 1, most, most + 1, most + 2):
            for ret in (b"V", b"J", b"[[J", b"Lp/U;"):
                ask_all(rows, b"(", (part, count), b")" + ret)
    for more in (b"I", b"J", b"II", b"[J"):
        ask_all(rows, b"(", (b"J", 127), more + b")V")
        ask_all(rows, b"(", more, (b"J", 126), b")V")
    for count in (65534, 65535, 65536):
        ask_all(rows, b"L", (b"a", count), b";")
        ask_all(rows, b"(I[L", (b"a", count), b";)V")
        ask_all(rows, b"()L", (b"a", count), b";")
    ask_all(rows, b"(", (b"I", 256), b")", (b"[", 256), b"I")
    ask_all(rows, b"(", (b"[", 256), b"I", (b"I", 256), b")V")
    ask_all(rows, b"(", (b"I", 256), b")I)")
    ask_all(rows, b"(", (b"[", 256), b"I)I)")
    ask_all(rows, (b"[", 256), b"V")


def make(rows):
    of_bytes(rows)
    of_short_texts(rows)
    of_fields(rows)
    of_methods(rows)
    of_other_texts(rows)
    of_limits(rows)
