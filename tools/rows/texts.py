"""Rows of lines, assembler texts and listings (docs/FORMATS.md, 'Texts', 'Assembler')."""
import itertools

import flags as f
from classfile import (
    OBJECT_FILE, File, Member, cls, fieldref, imethodref, integer, methodref, pair, utf8, version,
)
from files import F2, F6, F7, F8, F9, FINE, USE, bad_pool, version_fault
from notation import repeated, word

CLASS = "class 0021 p/A java/lang/Object\n"


def text_word(text):
    return word(text.encode("utf-8"))


def ask(rows, text, answer):
    rows.ask("assemble", text_word(text), answer)


def bad_line(number):
    return "A1 BadLine %d" % number


def invalid(fault):
    return "A2 Invalid " + fault


def of_memory(rows):
    rows.about("How a refused growth is printed.")
    for library, text in (("names", "N0"), ("descriptors", "D0"), ("reader", "F0"), ("writer", "A0"),
        ("assembler", "A0")):
        rows.ask("memory", library, text + " Memory")


def of_lines(rows):
    rows.about("Lines that are not skipped, and their words: U+000A alone ends a line, U+0020 alone parts words.")
    for text, found in (
        ("", []), ("\n", []), ("a", [(1, "a")]), ("a\n", [(1, "a")]), ("\n\na", [(3, "a")]),
        ("a\n\nb", [(1, "a"), (3, "b")]),
        ("  a  b c ", [(1, "a b c")]), ("# a\n a", [(2, "a")]), ("   # a", []), ("a # b", [(1, "a # b")]), ("#", []),
        ("#a", []), ("a#", [(1, "a#")]),
        ("\t", [(1, "\t")]), ("a\tb", [(1, "a\tb")]), ("a\r\nb", [(1, "a\r"), (2, "b")]), ("\r", [(1, "\r")]),
        (" \t#", [(1, "\t#")]),
        ("\u00e9 \u20ac", [(1, "\u00e9 \u20ac")]), ("a\u00a0b", [(1, "a\u00a0b")]), ("a\u2028b", [(1, "a\u2028b")]),
        ("a\x0bb\x0cc", [(1, "a\x0bb\x0cc")]),
        ("# one\n\n load  a\r\n   \n\tb #c\n #\nlast", [(3, "load a\r"), (5, "\tb #c"), (7, "last")]),
        (" load  a\r\tb ", [(1, "load a\r\tb")]),
    ):
        lines = " ".join("%d: %s" % (n, " ".join(w.encode("utf-8").hex() for w in line.split(" "))) for n,
            line in found)
        rows.ask("lines", text_word(text), lines)


def of_bad_lines(rows):
    rows.about("Texts of which a line is none of the assembler's.")
    for text, line in (
        ("", 0), ("# no line\n   \n", 0), ("\n", 0), ("class 0021 p/A", 1), ("class 0021 p/A - -", 1), ("class", 1),
        ("\n#\nfield 0001 x I", 3),
        ("class 0021 p/A -\nclass 0021 p/A -", 2), ("class 21 p/A -", 1), ("class 00021 p/A -", 1),
        ("class +021 p/A -", 1), ("class 002g p/A -", 1),
        ("class 0021 p\\A -", 1), ("class 0021 p/A -\r\n", 1), ("class 0021 p/A \\u00", 1),
        ("class 0021 \u00e9 -", 1), ("Class 0021 p/A -", 1),
        ("class\t0021 p/A -", 1), ("version 51 0", 1), ("version 51 0\n" + CLASS, 1),
        ("implements p/I", 1), ("ref int 1", 1), ("@hex", 1), ("%config", 1),
    ):
        ask(rows, text, bad_line(line))
    for line in (
        "ref int +1", "ref int 2147483648", "ref int -2147483649", "ref int -", "ref int", "ref int 1 2",
        "ref int 0x1", "ref int 1.0", "ref int --1",
        "ref int \u0661", "ref int 99999999999999999999", "ref kind p/A m ()V", "ref", "ref class",
        "ref class p/A p/B", "ref class p\\A", "ref field p/A x",
        "ref field p/A x I I", "ref method p/A m", "ref imethod p/A m ()V I", "ref Method p/A m ()V", "@hex",
        "@hex 00", "implements", "implements p/I p/J",
        "implements p\\I", "field 0001 x", "field 0001 x I I", "field 1 x I", "field 00001 x I", "field +001 x I",
        "field 0001 x\\ I", "field 0001 x \\u00g0",
        "method 0001 m", "method 0001 m ()V V", "method 001 m ()V", "method -001 m ()V", "unknown", "%script",
        "class 0021 p/A -", "field 0001 x I\r",
        "field\t0001 x I", "ref  ", "version", "version 51", "version 51 0 0", "version 51.0", "version +51 0", "version -0 0",
        "version 51 +0", "version 51 -0", "version 65536 0", "version 51 65536", "version 000051 0", "version 51 000000",
        "version 65588 0", "version 51 99999", "version 0x33 0", "version 51 a", "version 5_1 0", "version \\u0035 0",
        "version \u0661 0", "version 51 0\r", "version\t51 0", "Version 51 0", "versions 51 0", "version 51 0 # note",
    ):
        ask(rows, CLASS + line, bad_line(2))
        ask(rows, "# before\n\n" + CLASS + "field 0001 y I\n   \n" + line + "\nfield 0001 z", bad_line(6))
    rows.about("A text that writes more than 65,535 bytes, at its line.")
    for front, behind in ((CLASS + "ref class ", ""), (CLASS + "field 0001 ", " I"), (CLASS + "method 0001 m L", ";"),
        (CLASS + "implements ", "")):
        extra = 2 if behind == ";" else 0
        rows.ask("assemble", repeated(front.encode(), (b"a", 65536 - extra), behind.encode()), bad_line(2))
    rows.ask("assemble", repeated(b"class 0021 ", (b"a", 65536), b" -"), bad_line(1))
    rows.ask("assemble", repeated(CLASS.encode() + b"ref class ", (b"a", 65535)),
        "%d bytes" % (len(File().bytes()) + 3 + 3 + 65535))


def of_invalid(rows):
    rows.about("Texts of good lines whose file breaks a rule.")
    for text, fault in (
        ("class 0210 p/A java/lang/Object", F6), ("class 2021 p/A java/lang/Object", F6),
        ("class 0021 p.A java/lang/Object", bad_pool(2)),
        ("class 0021 p/A p//B", bad_pool(4)), ("class 0021 p/A -", F9), ("class 0021 java/lang/Object p/A", F9),
        ("class 0600 p/A p/B", F9),
        ("class 0600 java/lang/Object -", F9), ("class 0021 [I java/lang/Object", F9), ("class 0021 p/A [I", F9),
        (CLASS + "implements [I", F9),
        (CLASS + "implements p/", bad_pool(6)), (CLASS + "method 0003 m ()V", F7), (CLASS + "method 0001 m I", F7),
        (CLASS + "method 0001 <m> ()V", F7),
        (CLASS + "field 0001 x ()V", F7), (CLASS + "field 0003 x I", F7), (CLASS + "field 0001 x/y I", F7),
        (CLASS + "field 0001 x I\nfield 0002 x I", F8),
        (CLASS + "method 0001 m ()V\nmethod 0001 m ()V", F8),
        (CLASS + "field 0003 x I\nmethod 0001 m ()V\nmethod 0001 m ()V", F7),
        (CLASS + "ref field p/B x ()V", bad_pool(1)), (CLASS + "ref method p/B <clinit> ()V", bad_pool(1)),
        (CLASS + "ref method p/B <init> ()I", bad_pool(1)),
        (CLASS + "ref method p/B m I", bad_pool(1)), (CLASS + "ref imethod p/B m I", bad_pool(1)),
        (CLASS + "ref int 1\nref class p.B", bad_pool(2)),
    ):
        ask(rows, text, invalid(fault))
    rows.about("Counts: each is judged before what it counts, and after what stands before it.")
    rows.ask("entries", repeated(b"class 0021 java/lang/Object -\n", (b"ref int -0007\n", 65532)), "65534")
    rows.ask("entries", repeated(b"class 0021 java/lang/Object -\n", (b"ref int -0007\n", 65533)),
        invalid(bad_pool(0)))
    rows.ask("entries", repeated(b"class 0021 p.A -\n", (b"ref int 0\n", 65535)), invalid(bad_pool(0)))
    for line, fault in (("implements p/I\n", F9), ("field 0001 x I\n", F7), ("method 0001 m ()V\n", F7)):
        for flags, first in (("0021", fault), ("0210", F6)):
            front = "class %s p/A java/lang/Object\n" % flags
            rows.ask("entries", repeated(front.encode(), (line.encode(), 65536)), invalid(first))
    rows.ask("entries", repeated(CLASS.encode(), (b"implements p/I\n", 65535)), "6")


def of_versions(rows):
    rows.about("The version of a text: 52.0 where no line says another, which may stand anywhere behind the class line, once.")
    for major, minor in itertools.product((0, 44, 45, 48, 51, 52, 53, 65535), (0, 1, 52, 65535)):
        spelled = OBJECT_FILE.changed(version=version(major, minor)).bytes().hex()
        kept = version_fault(major, minor) == FINE
        ask(rows, "class 0021 java/lang/Object -\nversion %d %d" % (major, minor), spelled if kept else invalid(F2))
    spelled = OBJECT_FILE.changed(version=version(51, 7)).bytes().hex()
    for line in ("version 51 7", "  version  51   7  ", "version 00051 00007\n", "#\n\nversion 051 0007\n#"):
        ask(rows, "class 0021 java/lang/Object -\n" + line, spelled)
    lines = ["implements p/I", "field 0019 x I", "method 0401 m ()V", "ref int 7"]
    pool = [integer(7), utf8(b"p/A"), cls(2), utf8(OBJECT), cls(4), utf8(b"p/I"), cls(6), utf8(b"x"), utf8(b"I"), utf8(b"m"),
        utf8(b"()V")]
    spelled = class_file(pool, 3, 5, version=version(45, 65535), interfaces=[7], fields=[Member(0x19, 8, 9)],
        methods=[Member(0x401, 10, 11)])
    for place in range(len(lines) + 1):
        ask(rows, CLASS + "\n".join(lines[:place] + ["version 45 65535"] + lines[place:]), spelled)
    rows.about("A second line is a bad one, whatever it says; a bad line comes before what a version breaks.")
    for one, other in itertools.product(("51 0", "52 0", "53 0"), ("51 0", "52 0", "0 0", "99999 0")):
        ask(rows, CLASS + "version %s\n#\nfield 0001 x I\nversion %s\nunknown" % (one, other), bad_line(5))
    ask(rows, CLASS + "version 53 0\nfield 0003 x I\nversion 51", bad_line(4))
    ask(rows, CLASS + "unknown\nversion 51 0\nversion 51 0", bad_line(2))
    rows.about("The version comes before all else that a file may break.")
    for text in ("class 0210 p/A java/lang/Object\n", "class 0021 p.A -\n", "class 0021 p/A -\n", CLASS + "field 0003 x I\n",
        CLASS + "method 0001 m ()V\nmethod 0001 m ()V\n", CLASS + "ref class p.B\n"):
        for numbers in ("53 0", "52 1", "44 65535"):
            ask(rows, text + "version " + numbers, invalid(F2))
    front = b"class 0021 java/lang/Object -\nversion %s 0\n"
    rows.ask("entries", repeated(front % b"53", (b"ref int 0\n", 65533)), invalid(F2))
    rows.ask("entries", repeated(front % b"51", (b"ref int 0\n", 65533)), invalid(bad_pool(0)))
    rows.ask("entries", repeated(front % b"51", (b"ref int 0\n", 65532)), "65534")


def of_judged_versions(rows):
    rows.about("What is asked of an interface and of its methods, by the version.")
    for flags, major in itertools.product((0x0200, 0x0201, 0x0600, 0x0601, 0x0621, 0x0221, 0x0611, 0x4601), range(45, 53)):
        pool = [utf8(b"p/J"), cls(1), utf8(OBJECT), cls(3)]
        spelled = class_file(pool, 2, 4, version=version(major), flags=flags)
        text = "class %04x p/J java/lang/Object\nversion %d 0" % (flags, major)
        ask(rows, text, spelled if f.class_keeps(flags, major) else invalid(F6))
    some = [(b"m", flags, f.method_keeps) for flags in (0x0001, 0x0002, 0x0009, 0x0401, 0x0421, 0x0C01, 0x0402)]
    some += [(b"<clinit>", 0x0008, f.clinit_keeps), (b"<clinit>", 0, f.clinit_keeps)]
    some += [(b"<init>", flags, f.init_keeps) for flags in (0x0001, 0x0002, 0x0401)]
    for (name, flags, keeps), major in itertools.product(some, range(45, 53)):
        pool = [utf8(b"p/J"), cls(1), utf8(OBJECT), cls(3), utf8(name), utf8(b"()V")]
        spelled = class_file(pool, 2, 4, version=version(major), flags=0x0601, methods=[Member(flags, 5, 6)])
        text = "class 0601 p/J java/lang/Object\nmethod %04x %s ()V\nversion %d 0" % (flags, name.decode(), major)
        ask(rows, text, spelled if keeps(flags, True, major) else invalid(F7))


def class_file(pool, this_class, super_class, **parts):
    return File(pool=pool, this_class=this_class, super_class=super_class, **parts).bytes().hex()


OBJECT = b"java/lang/Object"


def of_files(rows):
    rows.about("Texts and the bytes that they describe.")
    ask(rows, "class 0021 java/lang/Object -", OBJECT_FILE.bytes().hex())
    ask(rows, "# a user\n\nclass 0021 p/Use java/lang/Object\nref method p/Svc m (Lp/T;)V\n", USE.hex())
    p_a = [utf8(b"p/A"), cls(1), utf8(OBJECT), cls(3)]
    ask(rows, CLASS, class_file(p_a, 2, 4))
    ask(rows, "class 0021 \\u0070/A   java/lang/Object   \n#\n", class_file(p_a, 2, 4))
    ask(rows, "class 5021 p/A java/lang/Object", class_file(p_a, 2, 4, flags=0x5021))
    ask(rows, "class fAcE p/A java/lang/Object".replace("fAcE", "8dCe"), class_file(p_a, 2, 4, flags=0x8DCE))
    for number, value in (("0", 0), ("-0", 0), ("2147483647", 2147483647), ("-2147483648", -2147483648),
        ("-0007", -7), ("00000000000000000001", 1)):
        pool = [integer(value), utf8(b"p/A"), cls(2), utf8(OBJECT), cls(4)]
        ask(rows, CLASS + "ref int " + number, class_file(pool, 3, 5))
    rows.about("Equal `ref` lines are two entries; of equal entries the one of least index is used, wherever it stands.")
    pool = [cls(3), cls(3), utf8(b"p/A"), utf8(OBJECT), cls(4)]
    ask(rows, CLASS + "ref class p/A\nref class p/A", class_file(pool, 1, 5))
    pool = [methodref(2, 6), cls(3), utf8(b"p/A"), utf8(b"m"), utf8(b"()V"), pair(4, 5), utf8(OBJECT), cls(7)]
    ask(rows, CLASS + "ref method p/A m ()V\nref class p/A", class_file(pool, 2, 8))
    pool = [fieldref(5, 8), imethodref(5, 11), methodref(12, 11), utf8(b"q/B"), cls(4), utf8(b"x"), utf8(b"I"),
        pair(6, 7), utf8(b"m"), utf8(b"(I)V"), pair(9, 10)]
    pool += [cls(13), utf8(b"p/A")]
    swapped = pool[:11] + [utf8(b"p/A"), cls(12), utf8(OBJECT), cls(14)]
    swapped[2] = methodref(13, 11)
    text = "ref field q/B x I\nref imethod q/B m (I)V\nref method p/A m (I)V\n"
    ask(rows, CLASS + text, class_file(swapped, 13, 15))
    rows.about("Interfaces, fields and methods, in order; what stands already is used.")
    pool = p_a + [utf8(b"p/I"), cls(5), utf8(b"x"), utf8(b"I"), utf8(b"m"), utf8(b"()V")]
    file = dict(interfaces=[6, 2, 6], fields=[Member(0x19, 7, 8)], methods=[Member(0x401, 9, 10), Member(9, 7, 10)])
    text = "implements p/I\nimplements p/A\nimplements p/I\nmethod 0401 m ()V\nfield 0019 x I\nmethod 0009 x ()V\n"
    ask(rows, CLASS + text, class_file(pool, 2, 4, **file))
    ask(rows, CLASS + "field 0001 p/A java/lang/Object", invalid(F7))
    pool = [cls(2), utf8(b"[Lp/T;"), utf8(b"p/A"), cls(3), utf8(OBJECT), cls(5), utf8(b"f")]
    ask(rows, CLASS + "ref class [Lp/T;\nfield 0000 f [Lp/T;", class_file(pool, 4, 6, fields=[Member(0, 7, 2)]))


def of_listings(rows):
    rows.about("What a file lists, whose texts are printed as they need be.")
    lines = ["class 0601 p/A java/lang/Object", "implements p/I", "implements p/\\u00e9", "field 0019 \\u0020 [Lp/T;",
        "method 0401 m (I)V"]
    shown = "".join(line + " | " for line in lines)
    text = "class 0601 p/\\u0041 java/lang/Object\nimplements p/I\nimplements p/\\u00e9\nfield 0019 \\u0020 [Lp/T;\nmethod 0401 m (I)V\n"
    rows.ask("listing", text_word(text), shown + "|")
    rows.ask("listing", text_word("\n".join(lines)), shown + "|")
    rows.ask("listing", text_word("class 0021 java/lang/Object -"), "class 0021 java/lang/Object - | |")
    shuffled = "\n".join(["class 0021 p/Use java/lang/Object", "method 0001 b ()V", "ref int -7", "field 0001 a I"])
    listed = "class 0021 p/Use java/lang/Object | field 0001 a I | method 0001 b ()V | |"
    rows.ask("listing", text_word(shuffled), listed)
    rows.about("The version is listed behind the class line, where it is not 52.0.")
    for said, shows in (("51 0", "version 51 0 | "), ("00045 00003", "version 45 3 | "), ("48 65535", "version 48 65535 | "),
        ("45 0", "version 45 0 | "), ("52 0", ""), ("00052 00000", "")):
        rows.ask("listing", text_word(lines[0] + "\n" + lines[1] + "\nfield 0019 x I\nversion " + said),
            lines[0] + " | " + shows + lines[1] + " | field 0019 x I | |")


def make(rows):
    of_memory(rows)
    of_lines(rows)
    of_bad_lines(rows)
    of_invalid(rows)
    of_versions(rows)
    of_judged_versions(rows)
    of_files(rows)
    of_listings(rows)
