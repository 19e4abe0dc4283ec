"""Rows of class files: flags, members, supertypes, layout and order (docs/FORMATS.md, 'Class file')."""
import itertools
import struct

import flags as f
from classfile import (
    MAGIC, OBJECT, OBJECT_FILE, OBJECT_TEXT, THIS, VERSION, Attribute, File, Member, cls, double, dynamic,
    fieldref, handle, imethodref, integer, long, method_type, methodref, pair, raw, real, string, utf8, version,
)
from names import is_class
from notation import word

FINE = "fine"
F1, F2, F3, F4 = "F1 BadMagic", "F2 Version", "F3 Truncated", "F4 Trailing"
F6, F7, F8, F9 = "F6 BadFlags", "F7 BadMember", "F8 Duplicate", "F9 BadSupertype"
CLASS = File()
# Older versions: on both sides of each change of a rule, and an early one. The minor number decides none.
OLDER = ((45, 3), (48, 65535), (49, 0), (50, 0), (51, 65535))


def bad_pool(index):
    return "F5 BadPool %d" % index


def version_fault(major, minor):
    """Read are 52.0 and, of the majors below it from 45 on, every minor."""
    return FINE if 45 <= major < 52 or (major, minor) == (52, 0) else F2


def ask(rows, file, answer):
    rows.ask("read", word(file.bytes()), answer)


# Names and descriptors of members, at 5 to 10.
NAMES = [utf8(b"x"), utf8(b"I"), utf8(b"m"), utf8(b"()V"), utf8(b"<init>"), utf8(b"<clinit>")]
METHODS = [("a method", 7, 8, f.method_keeps), ("<init>", 9, 8, f.init_keeps), ("<clinit>", 10, 8, f.clinit_keeps)]


def of_flags(rows):
    rows.about("Flags of a class: each bit, each two, each three, and all without one or two.")
    bits = [1 << n for n in range(16)]
    sums = {0, 0xFFFF}
    for count in (1, 2, 3):
        sums |= {sum(some) for some in itertools.combinations(bits, count)}
    for count in (1, 2):
        sums |= {0xFFFF - sum(some) for some in itertools.combinations(bits, count)}
    sums |= {base ^ bit for base in (0x0021, 0x0600, 0x3601, 0x5031, 0x5421, 0x89CE, 0x8FCE) for bit in bits + [0]}
    for flags in sorted(sums):
        ask(rows, CLASS.changed(more=NAMES, flags=flags), FINE if f.class_keeps(flags) else F6)
    named = [("a field", 5, 6, f.field_keeps)] + METHODS
    bases = [0, 1, 2, 4, 0x19, 0x1019, 0xBF39, 0x5098, 0x50C8, 0xAF20, 0x14C1, 0x19F8, 0xE200, 0xFAC9, 0x0401, 0xFA81,
        0xFFFF]
    for what, name, descriptor, keeps in named:
        for of_interface in (False, True):
            rows.about("Flags of %s%s: some and each of them with a bit more or less." % (what,
                " of an interface" if of_interface else ""))
            some = set(bits) | {sum(two) for two in itertools.combinations(bits, 2)}
            some |= {base ^ bit for base in bases for bit in bits + [0]}
            for flags in sorted(some):
                members = [Member(flags, name, descriptor)]
                file = CLASS.changed(more=NAMES, flags=0x0600 if of_interface else 0x0021)
                file = file.changed(fields=members) if keeps is f.field_keeps else file.changed(methods=members)
                ask(rows, file, FINE if keeps(flags, of_interface) else F7)


def of_older_flags(rows):
    few = [[sum(some) for count in range(most + 1) for some in itertools.combinations([1 << n for n in range(16)], count)]
        for most in range(4)]
    for major, minor in OLDER:
        at = version(major, minor)
        rows.about("Flags of a class of version %d.%d: up to three bits." % (major, minor))
        for flags in sorted(few[3]):
            ask(rows, CLASS.changed(version=at, flags=flags), FINE if f.class_keeps(flags, major) else F6)
        for what, name, descriptor, keeps in METHODS:
            for of_interface in (False, True):
                rows.about("Flags of %s%s of that version: some bits, and some more or less than PUBLIC and ABSTRACT." % (what,
                    " of an interface" if of_interface else ""))
                some = few[2] if keeps is f.method_keeps else few[1]
                for flags in sorted({base ^ bits for base in (0, 0x0401) for bits in some}):
                    file = CLASS.changed(version=at, more=NAMES, flags=0x0600 if of_interface else 0x0021)
                    file = file.changed(methods=[Member(flags, name, descriptor)])
                    ask(rows, file, FINE if keeps(flags, of_interface, major) else F7)


# What a member may be named and described by, and what it may not.
FIELD_ROWS = [
    ((b"x", b"I"), (b"x/y", b"I")),
    ((b"x,y", b"I"), (b"x.y", b"I")),
    ((b"x:", b"I"), (b"x;", b"I")),
    ((b"x]", b"I"), (b"[x", b"I")),
    ((b"\xc0\x80", b"I"), (b"", b"I")),
    ((b"<init>", b"I"), (b"<init;", b"I")),
    ((b"<clinit>", b"I"), (b"/", b"I")),
    ((b"x", b"[[J"), (b"x", b"[[V")),
    ((b"x", b"Lp/A;"), (b"x", b"Lp/A")),
    ((b"m", b"J"), (b"m", b"()J")),
    ((b"m", b"J"), (b"m", b"V")),
    ((b"m", b"J"), (b"m", b"")),
]
METHOD_ROWS = [
    ((b"m", b"()V"), (b"m/n", b"()V")),
    ((b"m,n", b"()V"), (b"m.n", b"()V")),
    ((b"m:", b"()V"), (b"m;", b"()V")),
    ((b"m]", b"()V"), (b"[m", b"()V")),
    ((b"m", b"()V"), (b"<m", b"()V")),
    ((b"m", b"()V"), (b"m>", b"()V")),
    ((b"\xc0\x80", b"()V"), (b"", b"()V")),
    ((b"<init>", b"()V"), (b"<init>x", b"()V")),
    ((b"<clinit>", b"()V"), (b"<clinit", b"()V")),
    ((b"<init>", b"()I"), (b"<init>", b"()")),
    ((b"<clinit>", b"(IJ)I"), (b"<clinit>", b"(IJ")),
    ((b"m", b"(I[Lp/A;)V"), (b"m", b"(I[V)V")),
    ((b"x", b"()J"), (b"x", b"J")),
    ((b"x", b"()J"), (b"x", b"")),
]


def of_members(rows):
    rows.about("Names and descriptors of members.")
    for part, table in (("fields", FIELD_ROWS), ("methods", METHOD_ROWS)):
        for kept, broken in table:
            for texts, answer in ((kept, FINE), (broken, F7)):
                more = [utf8(texts[0]), utf8(texts[1])]
                ask(rows, CLASS.changed(more=more, **{part: [Member(0, 5, 6)]}), answer)
    rows.about("Indices of a member's name and descriptor: texts at 5 to 7, a long at 8 and 9, nothing from 10 on.")
    texts = [utf8(b"x"), utf8(b"I"), utf8(b"()V"), long(0)]
    for index in list(range(13)) + [255, 256, 65535]:
        # `p/A` and `java/lang/Object`, at 2 and 4, are no member's name; `I` at 6 and `()V` at 7 are.
        named = FINE if index in (5, 6, 7) else F7
        ask(rows, CLASS.changed(more=texts, fields=[Member(0, index, 6)]), named)
        ask(rows, CLASS.changed(more=texts, methods=[Member(0, index, 7)]), named)
        ask(rows, CLASS.changed(more=texts, fields=[Member(0, 5, index)]), FINE if index == 6 else F7)
        ask(rows, CLASS.changed(more=texts, methods=[Member(0, 5, index)]), FINE if index == 7 else F7)
    rows.about("Members alike: x at 5 and 6, I at 7 and 8, ()V at 9 and 10, y, J and ()I at 11 to 13.")
    twice = [utf8(t) for t in (b"x", b"x", b"I", b"I", b"()V", b"()V", b"y", b"J", b"()I")]
    text_at = {5: "x", 6: "x", 7: "I", 8: "I", 9: "()V", 10: "()V", 11: "y", 12: "J", 13: "()I"}
    for part, descriptors in (("fields", (7, 8, 12)), ("methods", (9, 10, 13))):
        some = list(itertools.product((5, 6, 11), descriptors))
        for count in (2, 3):
            for chosen in itertools.product(some if count == 2 else some[:2] + some[4:7], repeat=count):
                seen = {(text_at[name], text_at[descriptor]) for name, descriptor in chosen}
                members = [Member(n, *indices) for n, indices in zip((0x0001, 0x0010, 0), chosen)]
                ask(rows, CLASS.changed(more=twice, **{part: members}), FINE if len(seen) == count else F8)
    ask(rows, CLASS.changed(more=twice, fields=[Member(1, 5, 7)], methods=[Member(1, 5, 9)]), FINE)
    rows.about("Many members: x0 to x17 at 5 to 22, x0 again at 23, I, ()V, J and ()I at 24 to 27.")
    many = [utf8(b"x%d" % n) for n in range(18)] + [utf8(t) for t in (b"x0", b"I", b"()V", b"J", b"()I")]
    for part, descriptor, other in (("fields", 24, 26), ("methods", 25, 27)):
        for count in (16, 17, 18):
            each = [Member(1, 5 + n, descriptor) for n in range(count)]
            ask(rows, CLASS.changed(more=many, **{part: each}), FINE)
            for place, twin in ((1, 5), (count - 1, 5), (count - 1, 23), (count - 1, count + 3)):
                for named, answer in ((descriptor, F8), (other, FINE)):
                    members = each[:place] + [Member(1, twin, named)] + each[place + 1:]
                    ask(rows, CLASS.changed(more=many, **{part: members}), answer)


# p/A, java/lang/Object, p/B, an array, a long. Of each class the index, and behind it that of its text.
CLASSES = [cls(2), utf8(b"p/A"), cls(4), utf8(b"java/lang/Object"), cls(6), utf8(b"p/B"), cls(8), utf8(b"[Lp/B;"),
    long(0)]
A, B = 1, 5
INDICES = list(range(13)) + [65535]
PLAIN, INTERFACE = 0x0021, 0x0600


def of_supertypes(rows):
    rows.about("this_class and super_class: each two indices, in a class and in an interface.")
    for flags in (PLAIN, INTERFACE):
        for this_class, super_class in itertools.product(INDICES, INDICES):
            if this_class == OBJECT:
                keeps = flags == PLAIN and super_class == 0
            elif flags == INTERFACE:
                keeps = super_class == OBJECT
            else:
                keeps = super_class in (A, OBJECT, B)
            keeps = keeps and this_class in (A, OBJECT, B)
            file = File(pool=CLASSES, flags=flags, this_class=this_class, super_class=super_class)
            ask(rows, file, FINE if keeps else F9)
    rows.about("Interfaces: each index alone, and behind others; one may be listed twice.")
    for flags, index in itertools.product((PLAIN, INTERFACE), INDICES):
        keeps = FINE if index in (A, OBJECT, B) else F9
        for before in ([], [B], [B, B], [A, OBJECT]):
            for behind in ([], [B]):
                file = File(pool=CLASSES, flags=flags, interfaces=before + [index] + behind)
                ask(rows, file, keeps)
    for index in INDICES:
        file = File(pool=CLASSES, this_class=OBJECT, super_class=0, interfaces=[index])
        ask(rows, file, FINE if index in (A, OBJECT, B) else F9)


# A class with one of each, 131 bytes.
FULL = File(
    pool=[
        cls(2), utf8(b"p/A"), cls(4), utf8(b"java/lang/Object"), utf8(b"x"), utf8(b"I"), utf8(b"m"), utf8(b"()V"),
        utf8(b"Note"), long(-2),
    ],
    interfaces=[3],
    fields=[Member(0x0002, 5, 6, [Attribute(9, b"\x01\x02")])],
    methods=[Member(0x0401, 7, 8, [Attribute(0, b"\x03")])],
    attributes=[Attribute(65535, b"\x04\x05\x06")],
)
# One of each entry.
ENTRIES = File(
    more=[
        utf8(b"x"), utf8(b"I"), utf8(b"m"), utf8(b"()V"), pair(5, 6), pair(7, 8), integer(-7), real(0x7FC00000),
        long(-2),
        double(1), string(5), fieldref(1, 9), methodref(1, 10), imethodref(3, 10), handle(1, 18), method_type(8),
        dynamic(513, 10),
    ],
)
# What `docs/FORMATS.md`, 'Examples', calls assembled_use: the public class p/Use, which refers to a method of p/Svc.
USE = bytes.fromhex(
    "cafebabe00000034000b0a00030006010005702f5376630700020100016d010008284c702f543b29560c000400050100"
    "05702f557365070007010010"
) + b"java/lang/Object" + bytes.fromhex("07000900210008000a0000000000000000")


def shown(file, at, this_name, super_name):
    p = file.parts
    text = "".join(entry.shown + ", " for entry in file.entries())
    text += "version %d %d " % at
    text += "flags %d classes %d %s %d %s" % (p["flags"], p["this_class"], this_name, p["super_class"], super_name)
    text += "".join(" interface %d" % i for i in p["interfaces"])
    text += "".join(" field " + m.shown for m in p["fields"]) + "".join(" method " + m.shown for m in p["methods"])
    return text + "".join(a.shown for a in p["attributes"])


def ask_bytes(rows, data, answer):
    rows.ask("read", word(data), answer)


def of_whole_files(rows):
    rows.about("What is read of a file, and that it is written as it was read.")
    for file, this_name, super_name in (
        (OBJECT_FILE, "java/lang/Object", "-"), (CLASS, "p/A", "java/lang/Object"), (FULL, "p/A", "java/lang/Object"),
        (ENTRIES, "p/A", "java/lang/Object"),
    ):
        for at in ((52, 0),) + OLDER:
            file = file.changed(version=version(*at))
            ask(rows, file, FINE)
            rows.ask("file", word(file.bytes()), shown(file, at, this_name, super_name))
            rows.ask("write", word(file.bytes()), "the same")
    ask_bytes(rows, USE, FINE)
    rows.ask("write", word(USE), "the same")


def of_cut_files(rows):
    rows.about("Files cut short at every place, and bytes behind them.")
    for data in (OBJECT_FILE.bytes(), FULL.bytes(), ENTRIES.bytes(), USE):
        for end in range(len(data)):
            ask_bytes(rows, data[:end], F3)
        for rest in (b"\0", b"\xca", data):
            ask_bytes(rows, data + rest, F4)


def of_headers(rows):
    data = OBJECT_FILE.bytes()
    rows.about("Headers: each bit of the magic and the version, and others.")
    for place in range(8):
        for bit in range(8):
            changed = bytearray(data)
            changed[place] ^= 1 << bit
            minor, major = struct.unpack_from(">HH", changed, 4)
            ask_bytes(rows, bytes(changed), F1 if place < 4 else version_fault(major, minor))
    ask_bytes(rows, b"\xbe\xba\xfe\xca" + data[4:], F1)
    for major, minor in ((0, 0), (0, 45), (0, 52), (52, 3), (308, 0), (13312, 0), (11520, 0), (65535, 65535)):
        ask_bytes(rows, MAGIC + version(major, minor) + data[8:], version_fault(major, minor))
    rows.about("Versions around those that are read.")
    for major, minor in itertools.product(range(40, 65), (0, 1, 65535)):
        ask_bytes(rows, MAGIC + version(major, minor) + data[8:], version_fault(major, minor))


def of_pool_counts(rows):
    rows.about("Pool counts: as many as stand, one more (class flags are no tag), one less.")
    four = integer(0)
    ask(rows, CLASS.changed(more=[four]), FINE)
    ask(rows, CLASS.changed(count=6), bad_pool(5))
    ask(rows, CLASS.changed(more=[four, four], count=6), F3)


def of_changed_bytes(rows):
    rows.about("Each change of one byte: of java/lang/Object the version and the class flags alone may be others.")
    for major, minor in ((52, 0), (51, 65535), (48, 3), (45, 0)):
        data = OBJECT_FILE.changed(version=version(major, minor)).bytes()
        others = {
            4: [version_fault(major, byte << 8 | minor & 0xFF) for byte in range(256) if byte != minor >> 8],
            5: [version_fault(major, minor & 0xFF00 | byte) for byte in range(256) if byte != minor & 0xFF],
            6: [version_fault(byte << 8 | major, minor) for byte in range(1, 256)],
            7: [version_fault(byte, minor) for byte in range(256) if byte != major],
        }
        ways = {place: faults.count(FINE) for place, faults in others.items()}
        # An interface of this name would want a superclass.
        keeps = lambda flags: f.class_keeps(flags, major) and not flags & f.INTERFACE
        ways[32] = sum(keeps(byte << 8 | 0x21) for byte in range(1, 256))
        ways[33] = sum(keeps(byte) for byte in range(256) if byte != 0x21)
        for place in range(len(data)):
            rows.ask("changed", [word(data), str(place)], str(ways.get(place, 0)))
        rows.ask("changes", word(data), str(sum(ways.values())))
    rows.about("Of p/Use a reader that was written apart from this one, from the tables, took so many.")
    rows.ask("changes", word(USE), "4023")


def of_dash(rows):
    rows.about("A class whose superclass is named `-`, which lists as none: each other name in its place comes back.")
    dash = File(pool=[utf8(b"p/A"), cls(1), utf8(b"-"), cls(3)], this_class=2, super_class=4).bytes()
    ask_bytes(rows, dash, FINE)
    rows.ask("changed", [word(dash), str(dash.index(b"-"))],
        str(sum(is_class(bytes([byte])) for byte in range(256) if byte != 0x2D)))


def of_layout(rows):
    of_whole_files(rows)
    of_cut_files(rows)
    of_headers(rows)
    of_pool_counts(rows)
    of_changed_bytes(rows)
    of_dash(rows)


def of_short_bytes(rows):
    rows.about("The order of faults: bytes that end where they end.")
    for data, answer in (
        (b"\0\0\0", F3), (b"\xca\xfe\xba\xbf", F1), (b"\xca\xfe\xba\xbf\0\0\0\x35", F1), (MAGIC + b"\0\x01\0", F3),
        (MAGIC + version(51), F3), (MAGIC + version(45, 3) + b"\0", F3), (MAGIC + version(45, 3) + b"\0\0", bad_pool(0)),
        (MAGIC + b"\0\0\0\x35", F2), (MAGIC + b"\0\x01\0\x34\0\0", F2),
    ):
        ask_bytes(rows, data, answer)
    for behind, answer in (
        (b"\0", F3), (b"\0\0", bad_pool(0)), (b"\0\x02\x02", bad_pool(1)), (b"\0\x02\x05", bad_pool(1)),
        (b"\0\x02\x06\0", bad_pool(1)),
        (b"\0\x03\x05\0", F3), (b"\0\x03\x01\0\x02\x02", F3), (b"\0\x03\x07\0\x09\0", bad_pool(2)),
        (b"\0\x04\x05\0\0\0\0\0\0\0\0\x02", bad_pool(3)),
    ):
        ask_bytes(rows, MAGIC + VERSION + behind, answer)


def of_two_steps(rows):
    rows.about("Each two steps that a file may break: the first is told.")
    order = [
        ("magic", F1), ("version", F2), ("tag", bad_pool(6)), ("cut", F3), ("trailing", F4), ("entry", bad_pool(5)),
        ("flags", F6),
        ("this", F9), ("super", F9), ("interface", F9), ("field", F7), ("field twice", F8), ("method", F7),
        ("method twice", F8),
    ]
    for i, (first, answer) in enumerate(order):
        for second, _ in order[i:]:
            if {first, second} != {"cut", "trailing"}:
                ask_bytes(rows, broken({first, second}), answer)
    for some in itertools.combinations(range(len(order)), 3):
        if not {"cut", "trailing"} <= {order[n][0] for n in some}:
            ask_bytes(rows, broken({order[n][0] for n in some}), order[some[0]][1])


def of_member_order(rows):
    rows.about("Members: a member's own rules, then whether an earlier one is alike, then the next member.")
    names = [utf8(b"x"), utf8(b"y"), utf8(b"I"), utf8(b"()V")]
    kinds = {"same": (0, 5), "bad": (3, 5), "other": (0, 6), "other bad": (3, 6)}

    def first_fault(chosen):
        seen = set()
        for kind in chosen:
            flags, name = kinds[kind]
            if flags:
                return F7
            if name in seen:
                return F8
            seen.add(name)
        return None

    lists = [some for count in range(4) for some in itertools.product(kinds, repeat=count)]
    for some in lists:
        fields = [Member(*kinds[kind], 7) for kind in some]
        methods = [Member(*kinds[kind], 8) for kind in some]
        ask(rows, CLASS.changed(more=names, fields=fields), first_fault(some) or FINE)
        ask(rows, CLASS.changed(more=names, methods=methods), first_fault(some) or FINE)
    for some, others in itertools.product(lists[:21], lists[:21]):
        fields = [Member(*kinds[kind], 7) for kind in some]
        methods = [Member(*kinds[kind], 8) for kind in others]
        ask(rows, CLASS.changed(more=names, fields=fields, methods=methods),
            first_fault(some) or first_fault(others) or FINE)


def of_order(rows):
    of_short_bytes(rows)
    of_two_steps(rows)
    of_member_order(rows)


def broken(steps):
    """The bytes of a file in which these steps are broken and no others."""
    x = lambda descriptor, flags: Member(flags, 7, descriptor)
    fields = [x(8, 3 if "field" in steps else 1)] + ([x(8, 0)] if "field twice" in steps else [])
    methods = [x(9, 3 if "method" in steps else 1)] + ([x(9, 0)] if "method twice" in steps else [])
    data = File(
        magic=b"\xca\xfe\xba\0" if "magic" in steps else MAGIC,
        version=version(53) if "version" in steps else VERSION,
        more=[string(0 if "entry" in steps else 2), raw(b"\x02") if "tag" in steps else integer(0), utf8(b"x"),
            utf8(b"I"), utf8(b"()V")],
        flags=0x2001 if "flags" in steps else 0x0001,
        this_class=0 if "this" in steps else THIS,
        super_class=OBJECT_TEXT if "super" in steps else OBJECT,
        interfaces=[0 if "interface" in steps else OBJECT],
        fields=fields,
        methods=methods,
        rest=b"\0" if "trailing" in steps else b"",
    ).bytes()
    return data[:-1] if "cut" in steps else data


def make(rows):
    of_layout(rows)
    of_flags(rows)
    of_older_flags(rows)
    of_members(rows)
    of_supertypes(rows)
    of_order(rows)
