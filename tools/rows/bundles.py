"""Runs of the program over bundles: configurations, scripts, files that a loader has for a name, and supertypes
(docs/FORMATS.md, 'Configuration', 'Script'; docs/RULES.md, 'Deriving a class'). They are written as tests/program/run
reads them."""
import configs
from classfile import OBJECT_FILE, Attribute, File, Member, cls, integer, utf8, version

BOOT = '[[loader]]\nname = "boot"\n'
LINE = "load boot p/A\n"
MOST = 65535


def part(of, text):
    """A part of a row: as it stands, where lines can say it."""
    is_plain = text.isascii() and "\r" not in text and not text.endswith("\n\n") and text.strip("\n")
    is_plain = is_plain and not any(line[:3] in ("-- ", "== ") for line in text.split("\n"))
    if is_plain and text.endswith("\n"):
        return "-- %s\n%s" % (of, text)
    if is_plain:
        return "-- %s open\n%s\n" % (of, text)
    return "-- %s hex\n%s\n" % (of, text.encode().hex())


def parts(of, pieces):
    """The parts of a row that pieces are. A piece is a text, or a text and how often it stands."""
    lines = ""
    for piece in pieces:
        if isinstance(piece, tuple):
            lines += "-- %s times %d\n%s\n" % (of, piece[1], piece[0].encode().hex())
        elif piece:
            lines += part(of, piece)
    return lines


def run(name, pieces, status, out="", err=""):
    """A row. What is on standard output is a text, or pieces as what is given."""
    lines = "== %s\nwords: bundle\nstatus: %d\n" % (name, status) + parts("in", pieces)
    if out:
        lines += "-- out any\n" if out == "any" else parts("out", [out] if isinstance(out, str) else out)
    return lines + (part("err", "classlink: %s\n" % err) if err else "") + "\n"


def said(pieces, end):
    """The pieces of a text with a line at its end."""
    pieces = [pieces] if isinstance(pieces, str) else list(pieces)
    return pieces[:-1] + [pieces[-1] + end] if isinstance(pieces[-1], str) else pieces + [end]


def configurations():
    for number, pieces in enumerate(configs.READ, 1):
        pieces = said(pieces, "%script\n")
        yield run("configuration read: %d" % number, ["%config\n" + pieces[0]] + pieces[1:], 0)
    for number, (pieces, fault) in enumerate(configs.UNREAD, 1):
        pieces = said(pieces, "%script\n")
        name = "configuration unread: %d, %s" % (number, fault)
        yield run(name, ["%config\n" + pieces[0]] + pieces[1:], 1, err="config: " + fault)


# A script, and the name of each request, or its fault. Boot has no class.
SCRIPTS = [
    ([""], []),
    (["# nothing\n\n"], []),
    (["load boot p/A\n  load  boot   p\\u002fB  "], ["p/A", "p/B"]),
    (["load boot p/A\nload boot q\\u002FB"], ["p/A", "q/B"]),
    (["load boot p/\\u00e9"], ["p/\\u00e9"]),
    (["%config\n"], "L1 BadLine 1"),
    (["load x p/A"], "L2 UnknownLoader 1"),
    (["load Boot p/A"], "L2 UnknownLoader 1"),
    (["load x p.A"], "L1 BadLine 1"),
    (["#\n\nload boot p/A\r\n"], "L1 BadLine 3"),
    (["load\tboot p/A"], "L1 BadLine 1"),
    (["load boot"], "L1 BadLine 1"),
    (["load boot p/A 0"], "L1 BadLine 1"),
    (["load boot [I"], "L1 BadLine 1"),
    (["load boot p/A\nload \\ p/A"], "L2 UnknownLoader 2"),
    (["load boot p/A\nload p/B"], "L1 BadLine 2"),
    (["Load boot p/A"], "L1 BadLine 1"),
    (["load boot p//A"], "L1 BadLine 1"),
    (["load boot /A"], "L1 BadLine 1"),
    (["load boot p/A\nload boot p/A"], ["p/A", "p/A"]),
    # Resolutions and links.
    (["resolve boot p/A 0\nlink boot p/B\nload boot p/A"], ["p/A", "p/B", "p/A"]),
    ([" resolve  boot p\\u002fA   65535 \n# link\nlink boot p/B  "], ["p/A", "p/B"]),
    (["resolve boot p/A 00017"], ["p/A"]),
    (["resolve boot p/A 00000"], ["p/A"]),
    (["resolve boot p/A 000000"], "L1 BadLine 1"),
    (["resolve boot p/A 65536"], "L1 BadLine 1"),
    (["resolve boot p/A 131073"], "L1 BadLine 1"),
    (["resolve boot p/A 4294967297"], "L1 BadLine 1"),
    (["resolve boot p/A 99999"], "L1 BadLine 1"),
    (["resolve boot p/A -0"], "L1 BadLine 1"),
    (["resolve boot p/A +1"], "L1 BadLine 1"),
    (["resolve boot p/A 1_0"], "L1 BadLine 1"),
    (["resolve boot p/A 0x1"], "L1 BadLine 1"),
    (["resolve boot p/A a"], "L1 BadLine 1"),
    (["resolve boot p/A \\u0031"], "L1 BadLine 1"),
    (["resolve boot p/A \u0661"], "L1 BadLine 1"),
    (["resolve boot p/A 1\r\n"], "L1 BadLine 1"),
    (["resolve boot p/A 1\t"], "L1 BadLine 1"),
    (["resolve boot p/A"], "L1 BadLine 1"),
    (["resolve boot 1"], "L1 BadLine 1"),
    (["resolve boot 1 p/A"], "L1 BadLine 1"),
    (["resolve boot p/A 1 2"], "L1 BadLine 1"),
    (["resolve boot p.A 1"], "L1 BadLine 1"),
    (["resolve boot [Lp/A; 1"], "L1 BadLine 1"),
    (["Resolve boot p/A 1"], "L1 BadLine 1"),
    (["resolve x p/A 65536"], "L1 BadLine 1"),
    (["resolve x p.A 1"], "L1 BadLine 1"),
    (["resolve x p/A 1"], "L2 UnknownLoader 1"),
    (["link boot p/A 1"], "L1 BadLine 1"),
    (["link boot"], "L1 BadLine 1"),
    (["link"], "L1 BadLine 1"),
    (["link boot [I"], "L1 BadLine 1"),
    (["links boot p/A"], "L1 BadLine 1"),
    (["link x p.A"], "L1 BadLine 1"),
    (["link x p/A"], "L2 UnknownLoader 1"),
    (["link boot p/A\n\nthen\nlink x p/A\nresolve"], "L2 UnknownLoader 4"),
    (["# one\n\nload  a\r\n   \n\tb #c\n #\nlast"], "L1 BadLine 3"),
    # Rounds.
    (["load boot p/A\n\nthen"], ["p/A"]),
    (["then\nthen\nload boot p/A\n  then  \n# x\nthen\nload boot p/B\nthen"], ["p/A", "p/B"]),
    (["then"], []),
    (["then load boot p/A"], "L1 BadLine 1"),
    (["load boot p/A\nThen"], "L1 BadLine 2"),
    (["then\r\n"], "L1 BadLine 1"),
    (["then then"], "L1 BadLine 1"),
    (["then\nload x p/A"], "L2 UnknownLoader 2"),
    ([("then\n", MOST)], []),
    ([("then\n", MOST), "\nload boot p/A"], ["p/A"]),
    ([("then\n", MOST), "\n#\nthen"], "L3 TooMany"),
    ([("then\n", MOST), "\nthen then"], "L1 BadLine 65537"),
    ([(LINE, MOST)], "any"),
    ([(LINE, MOST), "\nthen"], "any"),
    ([(LINE, MOST), "\nload boot p/A\nthen"], "L3 TooMany"),
    ([(LINE, MOST), "\nload app p/A"], "L2 UnknownLoader 65537"),
    ([(LINE, MOST), "\n#\nresolve"], "L1 BadLine 65538"),
    ([(LINE, MOST), "\nlink boot p/A"], "L3 TooMany"),
    ([(LINE, MOST), "\nresolve boot p/A 1"], "L3 TooMany"),
    ([("resolve boot p/A 1\n", MOST)], "any"),
    ([("link boot p/A\n", MOST), "\nload boot p/A"], "L3 TooMany"),
    ([("then\n" + LINE, MOST)], "any"),
    ([("then\n" + LINE, MOST), "\nthen"], "L3 TooMany"),
]


def scripts():
    for number, (pieces, found) in enumerate(SCRIPTS, 1):
        pieces = ["%config\n" + BOOT + "%script\n"] + pieces
        name = "script: %d" % number
        if found == "any":
            yield run(name, pieces, 0, out="any")
        elif isinstance(found, str):
            yield run(name, pieces, 1, err="script: " + found)
        else:
            out = "".join("%d ClassNotFoundException %s@boot\n" % one for one in enumerate(found, 1))
            yield run(name, pieces, 0, out=out)


def p_a(**parts):
    """p/A over java/lang/Object, with x and I at 5 and 6 of the pool."""
    pool = [utf8(b"p/A"), cls(1), utf8(b"java/lang/Object"), cls(3), utf8(b"x"), utf8(b"I"), integer(7)]
    return File(**dict(dict(pool=pool, this_class=2, super_class=4), **parts))


FULL = p_a(flags=0x31, fields=[Member(2, 5, 6)], attributes=[Attribute(5, b"\t")])
# The name that is asked, the bytes that its loader has, and what is answered.
DRAFTS = [
    ("p/A", p_a().bytes(), "class p/A@boot"),
    ("p/A", FULL.bytes(), "class p/A@boot"),
    ("p/A", FULL.bytes() + b"\0", "ClassFormatError p/A@boot"),
    ("p/Z", FULL.bytes(), "NoClassDefFoundError p/Z@boot"),
    ("p/Z", p_a().bytes(), "NoClassDefFoundError p/Z@boot"),
    ("p/A", p_a(version=version(53)).bytes(), "UnsupportedClassVersionError p/A@boot"),
    ("p/A", p_a(version=version(51, 65535)).bytes(), "class p/A@boot"),
    ("p/Z", p_a(version=version(52, 1)).bytes(), "UnsupportedClassVersionError p/Z@boot"),
    # What a request asks for itself need not be public, and may be an interface.
    ("p/A", p_a(flags=0x20).bytes(), "class p/A@boot"),
    ("p/Z", p_a(flags=0x20).bytes(), "NoClassDefFoundError p/Z@boot"),
    ("p/A", p_a(flags=0x0601).bytes(), "class p/A@boot"),
    ("p/Z", p_a(flags=0x0601, interfaces=[4]).bytes(), "NoClassDefFoundError p/Z@boot"),
    ("p/Z", p_a(interfaces=[4]).bytes(), "NoClassDefFoundError p/Z@boot"),
    ("p/A", p_a(flags=0x0601, interfaces=[2]).bytes(), "ClassCircularityError p/A@boot"),
    ("p/A", p_a(flags=0x0201).bytes(), "ClassFormatError p/A@boot"),
    ("p/A", p_a(fields=[Member(2, 5, 9)]).bytes(), "ClassFormatError p/A@boot"),
    ("p/A", b"", "ClassFormatError p/A@boot"),
    ("p/A", bytes(100), "ClassFormatError p/A@boot"),
    # Other versions; the name and the flags are looked at behind the version, the flags by it.
    ("p/A", p_a(version=version(45)).bytes(), "class p/A@boot"),
    ("p/A", p_a(version=version(44, 65535)).bytes(), "UnsupportedClassVersionError p/A@boot"),
    ("p/Z", p_a(version=version(51)).bytes(), "NoClassDefFoundError p/Z@boot"),
    ("p/A", p_a(version=version(53), flags=0x0201).bytes(), "UnsupportedClassVersionError p/A@boot"),
    ("p/A", p_a(version=version(49), flags=0x0201).bytes(), "class p/A@boot"),
    ("p/A", p_a(version=version(50), flags=0x0201).bytes(), "ClassFormatError p/A@boot"),
]


def drafts():
    for number, (name, data, answer) in enumerate(DRAFTS, 1):
        sections = "%%class boot java/lang/Object\n@hex %s\n%%class boot %s\n@hex %s\n"
        sections %= (OBJECT_FILE.bytes().hex(), name, data.hex())
        history = "define java/lang/Object@boot\n" if answer.startswith(("class", "ClassCirc")) else ""
        history += "define p/A@boot\n" if answer.startswith("class") else ""
        bundle = "%config\n" + BOOT + sections + "%script\nload boot " + name + "\n"
        yield run("file of a name: %d" % number, [bundle], 0, out=history + "1 " + answer + "\n")


# Classes and their superclasses, and of each request in order what is answered.
ABOVE = {"p/A": "java/lang/Object", "p/B": "p/A", "p/V": "p/Z", "p/W": "p/X", "p/X": "p/Y", "p/Y": "p/X"}
ANSWERS = [
    ("p/X", "ClassCircularityError p/X@boot"), ("p/W", "ClassCircularityError p/X@boot"),
    ("p/V", "NoClassDefFoundError p/Z@boot"), ("p/B", "class p/B@boot"), ("p/Z", "ClassNotFoundException p/Z@boot"),
    ("p/Y", "ClassCircularityError p/Y@boot"), ("p/A", "class p/A@boot"),
]


def chains():
    sections = "%class boot java/lang/Object\nclass 0021 java/lang/Object -\n"
    sections += "".join("%%class boot %s\nclass 0021 %s %s\n" % (name, name, above) for name, above in ABOVE.items())
    script = "%script\n" + "".join("load boot %s\n" % name for name, _ in ANSWERS)
    out = "define java/lang/Object@boot\ndefine p/A@boot\ndefine p/B@boot\n"
    out += "".join("%d %s\n" % (number, answer) for number, (_, answer) in enumerate(ANSWERS, 1))
    yield run("chains and circles", ["%config\n" + BOOT + sections + script], 0, out=out)


# A supertype, and what a load of p/A over it is answered: flags and name of the supertype, the loader whose own content
# has it, whether p/A lists it as an interface, and the answer. p/A is app's, whose parent is boot.
TOP = "java/lang/Object"
FITS = "class p/A@app"
SUPERTYPES = [
    ("0021", "p/S", "app", False, FITS),
    ("0020", "p/S", "app", False, FITS),
    ("0021", "p/S", "boot", False, FITS),
    ("0020", "p/S", "boot", False, "IllegalAccessError p/S@boot"),
    ("0020", "q/S", "app", False, "IllegalAccessError q/S@app"),
    ("0020", "p/q/S", "app", False, "IllegalAccessError p/q/S@app"),
    ("0020", "S", "app", False, "IllegalAccessError S@app"),
    ("0601", "p/S", "app", False, "IncompatibleClassChangeError p/S@app"),
    ("0600", "p/S", "boot", False, "IllegalAccessError p/S@boot"),
    ("0600", "p/S", "app", False, "IncompatibleClassChangeError p/S@app"),
    ("0421", "p/S", "boot", False, FITS),
    # whether a class is final is not looked at
    ("0031", "p/S", "boot", False, FITS),
    ("0601", "p/S", "app", True, FITS),
    ("0600", "p/S", "app", True, FITS),
    ("0601", "p/S", "boot", True, FITS),
    ("2601", "p/S", "boot", True, FITS),
    ("0600", "p/S", "boot", True, "IllegalAccessError p/S@boot"),
    ("0600", "q/S", "app", True, "IllegalAccessError q/S@app"),
    ("0021", "p/S", "app", True, "IncompatibleClassChangeError p/S@app"),
    ("0020", "p/S", "boot", True, "IllegalAccessError p/S@boot"),
    ("0020", "p/S", "app", True, "IncompatibleClassChangeError p/S@app"),
]


def supertypes():
    for number, (flags, name, home, is_interface, answer) in enumerate(SUPERTYPES, 1):
        sections = "%%class boot %s\nclass 0021 %s -\n" % (TOP, TOP)
        sections += "%%class %s %s\nclass %s %s %s\n" % (home, name, flags, name, TOP)
        above = "%s\nimplements %s" % (TOP, name) if is_interface else name
        sections += "%%class app p/A\nclass 0021 p/A %s\n" % above
        by_app = "initiate %s boot by app\n" % TOP
        # java/lang/Object is loaded through the loader that needs it first: app for an interface's holder
        history = "define %s@boot\n" % TOP + (by_app if is_interface or home == "app" else "") + "define %s@%s\n" % (name, home)
        history += "initiate %s boot by app\n" % name if home == "boot" else ""
        history += "define p/A@app\n" if answer == FITS else ""
        bundle = "%config\n" + BOOT + '[[loader]]\nname = "app"\nparent = "boot"\n' + sections + "%script\nload app p/A\n"
        yield run("supertype: %d" % number, [bundle], 0, out=history + "1 " + answer + "\n")


# The loaders of docs/FORMATS.md, 'Four loaders', and the classes of its record_refused (Obj, T, Svc and Use of 'Sample classes').
FOUR = BOOT + '[[loader]]\nname = "app"\nparent = "boot"\n'
FOUR += '[[loader]]\nname = "plug"\nparent = "app"\norder = "child"\n[[loader]]\nname = "kid"\nparent = "app"\n'
SHARED = "%%class boot %s\nclass 0021 %s -\n" % (TOP, TOP)
SHARED += "%%class app p/T\nclass 0021 p/T %s\n%%class app p/Svc\nclass 0021 p/Svc %s\nmethod 0001 m (Lp/T;)V\n" % (TOP, TOP)
SHARED += "%%class plug p/T\nclass 0021 p/T %s\n%%class plug p/Use\nclass 0021 p/Use %s\nref method p/Svc m (Lp/T;)V\n" % (TOP, TOP)
TIMES = 1000


def settled_once():
    """The reference of record_refused, resolved a thousand times: needs and constraint come once, and the verdict each time."""
    history = "define %s@boot\ninitiate %s boot by plug\ndefine p/Use@plug\n" % (TOP, TOP)
    history += "initiate %s boot by app\ndefine p/Svc@app\ninitiate p/Svc app by plug\nconstrain p/T app plug\n" % TOP
    answers = "".join("%d method p/Svc@app m (Lp/T;)V\n" % number for number in range(1, TIMES + 1))
    pieces = ["%config\n" + FOUR + SHARED + "%script\n", ("resolve plug p/Use 1\n", TIMES)]
    yield run("one_settle_many_workers, by one worker", pieces, 0, out=history + answers)


# A class of boot and its method, both with a long name, and of app a class below it that overrides the method and one that names
# class and method; * is a long text.
LONG = "%%class boot %s\nclass 0021 %s -\n" % (TOP, TOP)
LONG += "%%class boot p/*\nclass 0021 p/* %s\nmethod 0001 * (Lp/*;)V\n" % TOP
LONG += "%class app p/D\nclass 0021 p/D p/*\nmethod 0001 * (Lp/*;)V\n"
LONG += "%class app p/B\nclass 0021 p/B p/*\nref class p/*\nref method p/B * (Lp/*;)V\nref method p/B *y (Lp/*;)V\n"
LONG += "%script\nload app p/B\nload boot p/*\nload app p/*\nload boot p/*y\nlink app p/D\n"
LONG += "resolve app p/B 1\nresolve app p/B 2\nresolve app p/B 3\n"
LONG_OUT = "define %s@boot\ndefine p/*@boot\ninitiate p/* boot by app\ndefine p/B@app\ndefine p/D@app\n" % TOP
LONG_OUT += "prepare %s@boot\nprepare p/*@boot\nconstrain p/* boot app\nprepare p/D@app\n" % TOP
LONG_OUT += "1 class p/B@app\n2 class p/*@boot\n3 class p/*@boot\n4 ClassNotFoundException p/*y@boot\n5 linked p/D@app\n"
LONG_OUT += "6 class p/*@boot\n7 method p/*@boot * (Lp/*;)V\n8 NoSuchMethodError p/B@app\n"
# The names of classes have two bytes more, the descriptors seven: the last are the longest that there are.
LENGTHS = (249, 250, 253, 254, 255, 256, 257, 65528)


def long_names():
    for length in LENGTHS:
        bundle, out = ([piece for it in text.split("*") for piece in (it, ("x", length))][:-1] for text in ("%config\n" + FOUR + LONG, LONG_OUT))
        yield run("names of %d bytes and more" % length, bundle, 0, out=out)


def text():
    made = [*configurations(), *scripts(), *drafts(), *chains(), *supertypes(), *settled_once(), *long_names()]
    return "# Made by tools/rows/bundles.py.\n\n" + "".join(made)
