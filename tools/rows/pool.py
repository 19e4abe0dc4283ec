"""Rows of the pool's entries: each line of the table kept and broken, kinds of handles, what an index names, limits of
descriptors (docs/FORMATS.md, 'Pool entries')."""
import itertools

from classfile import (
    NEXT, OBJECT, THIS, THIS_TEXT, File, Member, cls, double, dynamic, fieldref, handle, imethodref, integer, long,
    method_type,
    methodref, pair, raw, real, string, u2, utf8, version,
)
from files import CLASS, F3, F7, FINE, OLDER, ask, bad_pool
from notation import repeated, word

FIRST = bad_pool(NEXT)


def texts(*some):
    return [utf8(text) for text in some]


def ref_rows(tag, ref, named, other):
    """Of a member reference: a Class and a NameAndType of the kind that is named, and not of the other."""
    def good(class_index, pair_index, name, descriptor):
        return [ref(class_index, pair_index), pair(7, 8)] + texts(name, descriptor)

    m = b"m"
    rows = [
        ("%s: a Class" % tag, good(THIS, 6, m, named), good(THIS_TEXT, 6, m, named), FIRST),
        ("%s: of an array too, and no String" % tag,
            [ref(9, 6), pair(7, 8)] + texts(m, named) + [cls(10), utf8(b"[I")],
            [ref(9, 6), pair(7, 8)] + texts(m, named) + [string(10), utf8(b"[I")], FIRST),
        ("%s: no index 0" % tag, good(OBJECT, 6, m, named), good(0, 6, m, named), FIRST),
        ("%s: no NameAndType as Class" % tag, good(THIS, 6, m, named), good(6, 6, m, named), FIRST),
        ("%s: a NameAndType" % tag, good(THIS, 6, m, named), good(THIS, 7, m, named), FIRST),
        ("%s: no Class as NameAndType" % tag, good(THIS, 6, m, named), good(THIS, THIS, m, named), FIRST),
        ("%s: of such a descriptor" % tag, good(THIS, 6, m, named), good(THIS, 6, m, other), FIRST),
    ]
    return rows


def text_rows():
    """Utf8."""
    rows = [
        ("1: in one byte; 00 is none", b"\x01\x7f", b"\x00"),
        ("1: in two bytes; what one byte spells is not spelled in two, but U+0000", b"\xc0\x80\xc2\x80\xdf\xbf",
            b"\xc1\x81"),
        ("1: in three bytes; what two bytes spell is not spelled in three", b"\xe0\xa0\x80\xef\xbf\xbf",
            b"\xe0\x9f\xbf"),
        ("1: a surrogate stands alone; nothing is spelled in four bytes", b"\xed\xa0\x80", b"\xf0\x90\x80\x80"),
        ("1: no bytes; bytes that end within a code unit", b"", b"\xe2\x82"),
    ]
    return [(about, texts(keeps), texts(breaks), FIRST) for about, keeps, breaks in rows]


def number_rows():
    """Integer, Float, Long, Double."""
    rows = [
        ("3: four bytes", [integer(-1), string(THIS_TEXT)], [raw(b"\3\0\0\0")], F3),
        ("4: four bytes", [real(0xFFFFFFFF), string(THIS_TEXT)], [raw(b"\4\0\0\0")], F3),
    ]
    for tag, wide in ((5, long), (6, double)):
        rows += [
            ("%d: the second index is below the pool count" % tag, [wide(1)], [raw(bytes([tag]) + bytes(8))], FIRST),
            ("%d: the second index names nothing, the next entry stands behind it" % tag,
                [wide(0), string(8), utf8(b"x")], [wide(0), string(6), utf8(b"x")], bad_pool(7)),
            ("%d: the first index names no text" % tag, [wide(0), string(THIS_TEXT)], [wide(0), string(5)],
                bad_pool(7)),
        ]
    return rows


def class_rows():
    """Class and String."""
    rows = []
    for about, keeps, breaks in (
        ("a class name", b"p/q/A", b"p/q.A"), ("no part of it is empty", b"p/A", b"p/"),
        ("or two slashes", b"p/A", b"p//A"),
        ("a field descriptor that begins with [", b"[[I", b"[[V"), ("a whole one", b"[Lp/A;", b"[Lp/A"),
        ("I is a class name, Lp/A; is none", b"I", b"Lp/A;"),
        ("no text of no bytes", b"[Lp/A;", b""), ("no method descriptor", b"(I)V", b"[()V"),
        ("V is a class name", b"V", b"[V"),
    ):
        rows.append(("7: " + about, [cls(6)] + texts(keeps), [cls(6)] + texts(breaks), FIRST))
    rows += [
        ("7: a Utf8, no other entry", [cls(THIS_TEXT)], [cls(OBJECT)], FIRST),
        ("8: a Utf8, no other entry", [string(THIS_TEXT)], [string(THIS)], FIRST),
        ("8: any Utf8", [string(6)] + texts(b""), [string(6), integer(0)], FIRST),
    ]
    return rows


def reference_rows():
    """Fieldref, Methodref, InterfaceMethodref, MethodType, InvokeDynamic."""
    rows = []
    for named, other in ((b"I", b"()I"), (b"[I", b"(IJ)[I"), (b"Lp/A;", b"()V")):
        rows += ref_rows(9, fieldref, named, other)
        rows += ref_rows(10, methodref, other, named)
        rows += ref_rows(11, imethodref, other, named)
    of = lambda ref, name, descriptor: [ref(THIS, 6), pair(7, 8)] + texts(name, descriptor)
    rows += [
        ("10: a name that begins with < is <init>", of(methodref, b"<init>", b"()V"),
            of(methodref, b"<clinit>", b"()V"), FIRST),
        ("10: and its descriptor returns V", of(methodref, b"<init>", b"(I)V"), of(methodref, b"<init>", b"(I)I"),
            FIRST),
        ("10: and returns V, no [V", of(methodref, b"<init>", b"([I)V"), of(methodref, b"<init>", b"()Lp/V;"), FIRST),
        ("11: the name may be <init>, and returns anything", of(imethodref, b"<init>", b"()I"),
            of(imethodref, b"<init>", b"I"), FIRST),
        ("11: or <clinit>", of(imethodref, b"<clinit>", b"()V"), of(imethodref, b"<clinit>", b"[I"), FIRST),
        ("9: the name may be <init>", of(fieldref, b"<init>", b"I"), of(fieldref, b"<init>", b"()V"), FIRST),
        ("16: a method descriptor", [method_type(6)] + texts(b"(I)Lp/A;"), [method_type(6)] + texts(b"Lp/A;"), FIRST),
        ("16: a Utf8, no NameAndType with one", [method_type(8), pair(7, 8)] + texts(b"m", b"()V"),
            [method_type(6), pair(7, 8)] + texts(b"m", b"()V"), FIRST),
        ("18: the first two bytes are not looked at; a NameAndType",
            [dynamic(65535, 6), pair(7, 8)] + texts(b"m", b"()V"),
            [dynamic(65535, 8), pair(7, 8)] + texts(b"m", b"()V"), FIRST),
        ("18: with a method descriptor", [dynamic(0, 6), pair(7, 8)] + texts(b"<init>", b"()I"),
            [dynamic(0, 6), pair(7, 8)] + texts(b"x", b"I"), FIRST),
        ("18: <clinit> too", [dynamic(0, 6), pair(7, 8)] + texts(b"<clinit>", b"(I)V"),
            [dynamic(0, 6), pair(7, 8)] + texts(b"<clinit>", b"[I"), FIRST),
    ]
    return rows


def pair_rows():
    """NameAndType, and what a MethodHandle of a field names."""
    pairs = [
        ("an unqualified name, so without /", (b"x", b"I"), (b"x/y", b"I")),
        ("without .", (b"x,y", b"I"), (b"x.y", b"I")), ("without ;", (b"x:", b"I"), (b"x;", b"I")),
        ("without [", (b"x]", b"()V"), (b"[x", b"()V")),
        ("of at least one code point", (b"\xc3\xa9", b"()V"), (b"", b"()V")),
        ("a field descriptor", (b"x", b"[[Lp/A;"), (b"x", b"[[Lp/A")),
        ("or a method descriptor", (b"x", b"(ZLp/A;)D"), (b"x", b"(ZLp/A;)")),
        ("V is no field descriptor, and no parameter", (b"x", b"(Z)V"), (b"x", b"(V)V")),
        ("V alone is none", (b"x", b"()V"), (b"x", b"V")),
        ("with a method descriptor a method name, so without <", (b"<x", b"I"), (b"<x", b"()I")),
        ("and without >", (b"x>", b"I"), (b"x>", b"()I")),
        ("but for <init>", (b"<init>", b"()I"), (b"<Init>", b"()I")),
        ("and <clinit>", (b"<clinit>", b"(I)V"), (b"<clinit>x", b"(I)V")),
        ("with a field descriptor any unqualified name", (b"<clinit>x", b"I"), (b"<clinit>/", b"I")),
    ]
    rows = [("12: " + about, [pair(6, 7)] + texts(*keeps), [pair(6, 7)] + texts(*breaks), FIRST) for about, keeps,
        breaks in pairs]
    return rows + [
        ("12: the name is a Utf8, no Class", [pair(7, 6)] + texts(b"I", b"x"), [pair(THIS, 6)] + texts(b"I", b"x"),
            FIRST),
        ("12: the descriptor is a Utf8, no Class", [pair(6, 7)] + texts(b"x", b"S"),
            [pair(6, THIS)] + texts(b"x", b"S"), FIRST),
        ("15: a reference", [handle(1, 6), fieldref(THIS, 7), pair(8, 9)] + texts(b"x", b"I"),
            [handle(1, 7), fieldref(THIS, 7), pair(8, 9)] + texts(b"x", b"I"), FIRST),
    ]


def table():
    """Of each line of the table: what it says, entries that keep it, entries that break it, and the fault of these."""
    return text_rows() + number_rows() + class_rows() + reference_rows() + pair_rows()


def of_table(rows):
    for about, keeps, breaks, fault in table():
        rows.about("Tag " + about + ".")
        ask(rows, CLASS.changed(more=keeps), FINE)
        ask(rows, CLASS.changed(more=breaks), fault)
    rows.about("Every number that is the tag of nothing; a Long and a Double have no room as last entry.")
    for tag in range(256):
        if tag not in (1, 3, 4, 7, 8, 9, 10, 11, 12, 15, 16, 18):
            ask(rows, CLASS.changed(more=[raw(bytes([tag]))]), FIRST)
    rows.about("Every tag that there is, cut within its entry, at its length and behind it.")
    sizes = {1: 2, 3: 4, 4: 4, 7: 2, 8: 2, 9: 4, 10: 4, 11: 4, 12: 4, 15: 3, 16: 2, 18: 4}
    for tag, size in sizes.items():
        head = b"".join(list(CLASS.changed(count=6).pieces())[:7]) + bytes([tag])
        for count in range(size + 1):
            rows.ask("read", word(head + bytes(count)), F3)


# What a handle may name, at 5 to 20.
NAMED = texts(b"x", b"I", b"m", b"()V", b"<init>", b"<clinit>") + [
    pair(5, 6), pair(7, 8), pair(9, 8), pair(10, 8), fieldref(THIS, 11), methodref(THIS, 12), methodref(THIS, 13),
    imethodref(THIS, 12),
    imethodref(THIS, 13), imethodref(THIS, 14),
]
FIELD, METHOD, INIT, METHOD_OF_INTERFACE, HANDLE = 15, 16, 17, 18, 21
HANDLES = {
    1: [FIELD], 2: [FIELD], 3: [FIELD], 4: [FIELD], 5: [METHOD], 6: [METHOD, METHOD_OF_INTERFACE],
    7: [METHOD, METHOD_OF_INTERFACE],
    8: [INIT], 9: [METHOD_OF_INTERFACE],
}


def of_handles(rows):
    rows.about("MethodHandle: each kind with each index of the pool, and 0 and two beyond; no other kind.")
    for kind in range(256):
        for index in range(24) if kind < 11 or kind == 255 else [METHOD]:
            ask(rows, CLASS.changed(more=NAMED + [handle(kind, index)]),
                FINE if index in HANDLES.get(kind, []) else bad_pool(HANDLE))
    for major, minor in OLDER:
        rows.about("The kinds of a file of version %d.%d: 6 and 7 name a Methodref alone." % (major, minor))
        for kind, index in itertools.product(range(11), range(15, 21)):
            keeps = index in HANDLES.get(kind, []) and (kind not in (6, 7) or index == METHOD)
            ask(rows, CLASS.changed(version=version(major, minor), more=NAMED + [handle(kind, index)]),
                FINE if keeps else bad_pool(HANDLE))


# What entries may name: at 7, 8 and 9 texts, at 10 and 11 the names and types of a field and of a method, at 12 a field.
# The second index of the long is 6. The next entry stands at 13.
BEFORE = File(
    pool=[cls(2), utf8(b"p/A"), cls(4), utf8(b"java/lang/Object"), long(0)] + texts(b"x", b"I", b"()V") + [pair(7, 8),
        pair(7, 9), fieldref(THIS, 10)],
)
CLASS_NAMES, TEXTS, CLASSES, FIELDS, METHODS = {2, 4, 7, 8, 9}, {2, 4, 7, 8, 9}, {1, 3}, {10}, {11}
# Each place of an index: an entry with it, and the indices that it may have.
PLACES = [
    (cls, CLASS_NAMES), (string, TEXTS), (lambda i: fieldref(i, 10), CLASSES), (lambda i: fieldref(THIS, i), FIELDS),
    (lambda i: methodref(i, 11), CLASSES), (lambda i: methodref(THIS, i), METHODS),
    (lambda i: imethodref(i, 11), CLASSES),
    (lambda i: imethodref(THIS, i), METHODS), (lambda i: pair(i, 8), {7, 8, 9}), (lambda i: pair(7, i), {8, 9}),
    (lambda i: handle(1, i), {12}), (method_type, {9}), (lambda i: dynamic(0, i), METHODS),
]


def of_indices(rows):
    rows.about("Each place of an index, with each index of the pool, 0, that of the entry itself and two beyond.")
    for place, may_have in PLACES:
        for index in list(range(15)) + [256, 65535]:
            ask(rows, BEFORE.changed(more=[place(index)]), FINE if index in may_have else bad_pool(13))
    rows.about("What the entry at an index refers to.")
    file = CLASS.changed(
        more=[fieldref(9, 6), pair(7, 8)] + texts(b"x", b"[I") + [cls(8), methodref(THIS, 13), imethodref(THIS, 13),
            utf8(b"()V"), pair(7, 12)],
    )
    found = {
        1: "class p/A", 3: "class java/lang/Object", 5: "field [I x [I", 9: "class [I", 10: "method p/A x ()V",
        11: "imethod p/A x ()V",
    }
    for index in list(range(16)) + [65535]:
        rows.ask("reference", [word(file.bytes()), str(index)], found.get(index, "none"))


BLAMED = [
    ("a Class breaks its line over a Utf8 that breaks its own: the lesser index, the Class", [cls(6)] + texts(b"\0"),
        5),
    ("the same: the lesser index, the Utf8", texts(b"\0") + [cls(5)], 5),
    ("a String keeps its line over a Utf8 that breaks its own", [string(6)] + texts(b"\0"), 6),
    ("a Fieldref keeps its line over a Class with a bad name",
        [fieldref(6, 7), cls(10), pair(8, 9)] + texts(b"x", b"I", b"."), 6),
    ("a Fieldref keeps its line over a NameAndType with a bad name",
        [fieldref(THIS, 6), pair(7, 8)] + texts(b".", b"I"), 6),
    ("a Fieldref breaks its line over a NameAndType with a bad descriptor",
        [fieldref(THIS, 6), pair(7, 8)] + texts(b"x", b"V"), 5),
    ("a Methodref breaks its line over a name that begins with <, as the NameAndType does",
        [methodref(THIS, 6), pair(7, 8)] + texts(b"<x>", b"()V"), 5),
    ("a Methodref keeps its line over a name with > behind", [methodref(THIS, 6), pair(7, 8)] + texts(b"x>", b"()V"),
        6),
    ("an InterfaceMethodref keeps its line over such a name",
        [imethodref(THIS, 6), pair(7, 8)] + texts(b"<x>", b"()V"), 6),
    ("an InvokeDynamic keeps its line over a NameAndType with a bad name",
        [dynamic(0, 6), pair(7, 8)] + texts(b"<x>", b"()V"), 6),
    ("a MethodHandle keeps its line over a Fieldref that breaks its own",
        [handle(1, 6), fieldref(THIS_TEXT, 7), pair(8, 9)] + texts(b"x", b"I"), 6),
    ("a MethodHandle looks through its reference at the name: <init> is none of kind 5",
        [handle(5, 6), methodref(THIS, 7), pair(8, 9)] + texts(b"<init>", b"()I"), 5),
    ("a MethodHandle of kind 8 keeps its line over a Methodref to <init> that returns something",
        [handle(8, 6), methodref(THIS, 7), pair(8, 9)] + texts(b"<init>", b"()I"), 6),
] + [
    ("nor <clinit> of kind %d, though the Methodref breaks its own line too" % kind,
        [handle(kind, 6), methodref(THIS, 7), pair(8, 9)] + texts(b"<clinit>", b"()V"), 5)
    for kind in (5, 6, 7, 8)
]


def of_blame(rows):
    for about, more, index in BLAMED:
        rows.about("Who is blamed: " + about + ".")
        ask(rows, CLASS.changed(more=more), bad_pool(index))
    rows.about("Of two entries that break their lines the first is blamed, whatever they are.")
    breaking = [utf8(b"\0"), cls(0), string(0), fieldref(0, 0), methodref(0, 0), imethodref(0, 0), pair(0, 0),
        handle(1, 0), handle(0, 1), method_type(0), dynamic(0, 0)]
    for one, other in itertools.product(breaking, breaking):
        ask(rows, CLASS.changed(more=[one, other]), FIRST)
        ask(rows, CLASS.changed(more=[integer(0), one, long(0), other]), bad_pool(6))


# A descriptor in which one part may stand so often and not once more: before, part, behind, how often.
DIMENSIONS = [
    ("class", b"", b"[", b"I", 255), ("pair", b"", b"[", b"Lp/T;", 255), ("pair", b"(I", b"[", b"J)V", 255),
    ("type", b"()", b"[", b"I", 255),
    ("field", b"", b"[", b"I", 255), ("method", b"()", b"[", b"I", 255), ("static", b"(", b"[", b"I)V", 255),
]
UNITS = [
    ("pair", b"(", b"I", b")V", 255), ("pair", b"(I", b"J", b")V", 127), ("pair", b"(", b"D", b"Z)V", 127),
    ("pair", b"(", b"[J", b")V", 255),
    ("pair", b"(", b"Lp/T;", b")J", 255), ("type", b"(", b"I", b")V", 255), ("static", b"(", b"I", b")V", 255),
    ("static", b"(I", b"J", b")V", 127),
    ("method", b"(", b"I", b")V", 254), ("method", b"(", b"J", b")V", 127), ("method", b"(I", b"J", b")V", 126),
    ("init", b"(", b"I", b")V", 254),
    ("clinit", b"(", b"I", b")V", 254), ("static clinit", b"(", b"I", b")V", 255),
]
# What uses the descriptor of index 9: an entry at 8, or a member; names at 5 to 7.
ENTRIES = {"class": cls(9), "pair": pair(5, 9), "type": method_type(9)}
MEMBERS = {"field": (0, 5), "method": (0, 5), "static": (8, 5), "init": (0, 6), "clinit": (0, 7),
    "static clinit": (8, 7)}


def of_limits(rows):
    rows.about("Limits of descriptors, in the pool and of members, `this` included: as often as may be, and once more.")
    for used, before, part, behind, most in DIMENSIONS + UNITS:
        for count in (most - 1, most, most + 1):
            more = texts(b"x", b"<init>", b"<clinit>") + [ENTRIES.get(used, integer(0)),
                utf8(before + part * count + behind)]
            file = CLASS.changed(more=more)
            if used in MEMBERS:
                flags, name = MEMBERS[used]
                file = file.changed(**{"fields" if used == "field" else "methods": [Member(flags, name, 9)]})
            fault = F7 if used in MEMBERS else bad_pool(8)
            ask(rows, file, FINE if count <= most else fault)
    rows.about("A Utf8 of 65,535 bytes.")
    ask(rows, CLASS.changed(more=texts(b"x" * 65535)), FINE)
    ask(rows, CLASS.changed(more=texts(b"x" * 65534 + b"\0")), FIRST)
    rows.about("As many entries as a count can say.")
    ask(rows, CLASS.changed(more=[raw(b"\1\0\0")] * 65530), FINE)
    rows.lines[-1] = "read %s = fine" % repeated(
        b"\xca\xfe\xba\xbe\0\0\0\x34\xff\xff", b"".join(e.bytes for e in CLASS.entries()), (b"\1\0\0", 65530),
        u2(0x21) + u2(1) + u2(3) + bytes(8),
    )


def make(rows):
    of_table(rows)
    of_handles(rows)
    of_indices(rows)
    of_blame(rows)
    of_limits(rows)
