"""Configurations that are read and that are not, with their fault (docs/FORMATS.md, 'Configuration'). A text is one
string or several pieces, a piece a text or a text and how often it stands."""

BOOT = '[[loader]]\nname = "boot"\n'
MOST = 65535


def loader(name, *lines):
    return '[[loader]]\nname = "%s"\n%s' % (name, "".join(line + "\n" for line in lines))


def many(count, more=""):
    """So many loaders, with more that is said of the third."""
    tables = ('{ name = "l%d"%s }' % (i, ", " + more if more and i == 2 else "") for i in range(count))
    return "loader = [%s]\n" % ", ".join(tables)


def parents(*names):
    return "parents = [%s]" % ", ".join('"%s"' % name for name in names)


def imports(*items):
    return "imports = [%s]" % ", ".join(items)


def brought(prefix, source):
    return '{ prefix = "%s", from = "%s" }' % (prefix, source)


FOUR = BOOT + loader("app", 'parent = "boot"') + loader("plug", 'parent = "app"', 'order = "child"') + loader("kid", 'parent = "app"')
IMPORTED = brought("p/", "boot")
L = ["l%d" % i for i in range(66)]
ROW = "".join(map(loader, L[:65]))

READ = [
    BOOT,
    FOUR,
    '\n# loaders\n[[loader]]\n  \n # x\nname = "boot"\n',
    '[[loader]] \nname = "boot" # x\n',
    '[[loader]]\r\nname = "boot"\r\n',
    '[[loader]]\n\t"name"\t=\t\'boot\'\n',
    'loader = [{ name = "boot" }, { name = "app", parent = "boot" }]\n',
    loader("b" * 64),
    loader("-") + loader("_") + loader("0") + loader("Boot") + loader("boot"),
    loader("boot", 'dir = ""'),
    loader("boot", 'dir = "Gr\u00fc\u00dfe und mehr"', 'order = "parent"', "imports = []"),
    loader("boot", 'order = "child"'),
    BOOT + loader("app", imports(brought("", "boot"))),
    BOOT + loader("app", imports(IMPORTED, IMPORTED, brought("p/q", "boot"))),
    BOOT + loader("app", "imports = [{ prefix = '\\u0070/\\uD83D[.;', from = \"boot\" }]"),
    BOOT + loader("app", "[[loader.imports]]", 'from = "boot"', 'prefix = "p/"'),
    BOOT + loader("app", imports(*[IMPORTED] * 64)),
    many(64),
    [BOOT + '[[loader]]\nname = "app"\nimports = [{ from = "boot", prefix = "', ("x", MOST), '" }]\n'],
    # what TOML reads as the same texts: of several lines, with escapes, literal
    '[[loader]]\nname = """boot"""\n',
    '[[loader]]\nname = """\nboot"""\n',
    '[[loader]]\nname = """bo\\\n   \n   ot"""\n',
    "[[loader]]\nname = \'\'\'boot\'\'\'\n",
    "[[loader]]\n\'name\' = \'\'\'\nboot\'\'\'\n",
    '[[loader]]\nname = "b\\u006fot"\n',
    '[[ "loader" ]]\nname = "boot"\n',
    'loader = [ # first\n  { name = "boot" }, # second\n  { "name" = "app", parent = \'boot\' }, # no more\n]\n',
    '[[loader]]\r\nname = "boot" # x\r\n\r\n[[loader]]\r\nname = """\r\napp"""\r\nparent = \'boot\'\r\n',
    # several parents, and many loaders
    BOOT + loader("app", parents("boot")),
    BOOT + loader("app", "parents = []"),
    BOOT + loader("app", 'parent = "boot"') + loader("plug", parents("app", "boot"), 'order = "child"', imports(IMPORTED)),
    ROW + loader("c", parents(*L[:64])),
    many(65),
    many(1024),
]

BAD = "C2 BadLoader %d"
MANY = "C5 TooMany"

# What is no TOML, and what is wrong at the top.
TOP = [
    ("x\n", "C1 NotToml"),
    ("[[loader]\n", "C1 NotToml"),
    ('[[loader]]\nname = "boot\n', "C1 NotToml"),
    ('[[loader]]\nname = boot\n', "C1 NotToml"),
    ('[[loader]]\nname = "boot"\nname = "boot"\n', "C1 NotToml"),
    ('[[loader]]\rname = "boot"\n', "C1 NotToml"),
    (BOOT + "[loader]\n", "C1 NotToml"),
    (BOOT + "%other\n", "C1 NotToml"),
    # nothing but the text's form is looked at before C1
    ('frob = 1\n[[loader]]\nname = "a b"\nx\n', "C1 NotToml"),
    ("", BAD % 0),
    ("# nothing\n", BAD % 0),
    ("loader = []\n", BAD % 0),
    ("loader = 1\n", BAD % 0),
    ('loader = "boot"\n', BAD % 0),
    ('loader = ["boot"]\n', BAD % 0),
    ('loader = [{ name = "boot" }, 1]\n', BAD % 0),
    ('[loader]\nname = "boot"\n', BAD % 0),
    ('[[loaders]]\nname = "boot"\n', BAD % 0),
    ('[[Loader]]\nname = "boot"\n', BAD % 0),
    ("frob = 1\n" + BOOT, BAD % 0),
    (BOOT + loader("boot") + "[other]\n", BAD % 0),
    (many(1025), MANY),
    ("frob = 1\n" + many(1025), BAD % 0),
    (many(1025, "frob = 1"), MANY),
    (many(1026, 'parent = "x"'), MANY),
    ('loader = [{ name = "boot", name = "boot" }]\n', "C1 NotToml"),
    ("loader = []\nloader = []\n", "C1 NotToml"),
    ('[[loader]]\nname = "bo\not"\n', "C1 NotToml"),
    # a table in place of an array, by a key with a dot; a float and a date in its place
    ('loader.name = "boot"\n', BAD % 0),
    ("loader = 1.5\n", BAD % 0),
    ("loader = 1979-05-27\n", BAD % 0),
    ("loader = [1.5]\n", BAD % 0),
]

# What is wrong with a loader by itself.
OWN = [
    ("[[loader]]\n", BAD % 0),
    (BOOT + '[[loader]]\ndir = "app"\n', BAD % 1),
    (loader(""), BAD % 0),
    (loader("b" * 65), BAD % 0),
    (loader("a b"), BAD % 0),
    (loader("a.b"), BAD % 0),
    (loader("a/b"), BAD % 0),
    (loader("B\u00f6t"), BAD % 0),
    ("[[loader]]\nname = 1\n", BAD % 0),
    ('[[loader]]\nname = ["boot"]\n', BAD % 0),
    (BOOT + loader("app") + BOOT, BAD % 2),
    (BOOT + BOOT + loader("a b"), BAD % 1),
    (loader("boot", "frob = 1"), BAD % 0),
    (loader("boot", 'Parent = "boot"'), BAD % 0),
    (BOOT + loader("app", 'Parents = ["boot"]'), BAD % 1),
    (loader("boot", "dir = 1"), BAD % 0),
    (BOOT + loader("app", "parent = 0"), BAD % 1),
    (BOOT + loader("app", 'parent = ["boot"]'), BAD % 1),
    (loader("boot", 'order = "Child"'), BAD % 0),
    (loader("boot", 'order = ""'), BAD % 0),
    (loader("boot", "order = true"), BAD % 0),
    (BOOT + loader("app", "imports = {}"), BAD % 1),
    (BOOT + loader("app", 'imports = "boot"'), BAD % 1),
    (BOOT + loader("app", 'imports = ["boot"]'), BAD % 1),
    (BOOT + loader("app", imports('{ prefix = "p/" }')), BAD % 1),
    (BOOT + loader("app", imports('{ from = "boot" }')), BAD % 1),
    (BOOT + loader("app", imports('{ prefix = "p/", from = "boot", frob = 1 }')), BAD % 1),
    (BOOT + loader("app", imports('{ prefix = 1, from = "boot" }')), BAD % 1),
    (BOOT + loader("app", imports('{ prefix = "p/", from = 0 }')), BAD % 1),
    (BOOT + loader("app", imports(IMPORTED, brought("p /", "boot"))), BAD % 1),
    (BOOT + loader("app", imports(brought("\u00e9", "boot"))), BAD % 1),
    (BOOT + loader("app", "imports = [{ prefix = '\\u00e', from = \"boot\" }]"), BAD % 1),
    ([BOOT + '[[loader]]\nname = "app"\nimports = [{ from = "boot", prefix = "', ("x", MOST + 1), '" }]\n'], BAD % 1),
    (BOOT + loader("app", imports(*[IMPORTED] * 65)), MANY),
    # all that is wrong with a loader by itself comes before its number of imports, and both before the next loader
    (BOOT + loader("app", imports(*[IMPORTED] * 64 + ['{ from = "boot" }'])), BAD % 1),
    (BOOT + loader("app", imports(*[IMPORTED] * 65), "frob = 1"), BAD % 1),
    (BOOT + loader("app", imports(*[IMPORTED] * 65)) + loader("a b"), MANY),
    (BOOT + loader("a b") + loader("kid", imports(*[IMPORTED] * 65)), BAD % 1),
    # floats, dates, times and keys with dots in place of texts and arrays
    ("[[loader]]\nname = 1.5\n", BAD % 0),
    ("[[loader]]\nname = inf\n", BAD % 0),
    ("[[loader]]\nname = 1979-05-27\n", BAD % 0),
    ('[[loader]]\nname.first = "boot"\n', BAD % 0),
    (loader("boot", "dir = 1e3"), BAD % 0),
    (loader("boot", "dir = 1979-05-27T07:32:00Z"), BAD % 0),
    (BOOT + loader("app", "parent = 1979-05-27T07:32:00"), BAD % 1),
    (BOOT + loader("app", "parent = 0.0"), BAD % 1),
    (loader("boot", "order = 07:32:00"), BAD % 0),
    (BOOT + loader("app", "imports = [1.5]"), BAD % 1),
    (BOOT + loader("app", "imports = 1979-05-27"), BAD % 1),
    (BOOT + loader("app", 'imports.prefix = "p/"'), BAD % 1),
    (BOOT + loader("app", imports('{ prefix = 1979-05-27, from = "boot" }')), BAD % 1),
    (BOOT + loader("app", imports('{ prefix = "p/", from = 1.5 }')), BAD % 1),
    (BOOT + loader("app", imports('{ prefix = "p/", from.name = "boot" }')), BAD % 1),
]

# What is wrong with the loaders that it names.
LED = [
    (loader("boot", 'parent = "b"'), "C3 UnknownLoader 0"),
    (loader("boot", 'parent = "boot"'), "C4 LaterLoader 0"),
    (loader("boot", 'parent = ""'), "C3 UnknownLoader 0"),
    (BOOT + loader("app", 'parent = "Boot"'), "C3 UnknownLoader 1"),
    (BOOT + loader("app", 'parent = "kid"') + loader("kid"), "C4 LaterLoader 1"),
    (BOOT + loader("app", imports(brought("p/", "x"))), "C3 UnknownLoader 1"),
    (BOOT + loader("app", imports(brought("p/", "app"))), "C4 LaterLoader 1"),
    (BOOT + loader("app", imports(brought("p/", "kid"))) + loader("kid"), "C4 LaterLoader 1"),
    # the parent, then the imports in order
    (BOOT + loader("app", 'parent = "app"', imports(brought("p/", "x"))), "C4 LaterLoader 1"),
    (BOOT + loader("app", imports(brought("p/", "x")), 'parent = "app"'), "C4 LaterLoader 1"),
    (BOOT + loader("app", 'parent = "x"', imports(brought("p/", "app"))), "C3 UnknownLoader 1"),
    (BOOT + loader("app", imports(IMPORTED, brought("p/", "x"), brought("p/", "app"))), "C3 UnknownLoader 1"),
    (BOOT + loader("app", imports(IMPORTED, brought("p/", "app"), brought("p/", "x"))), "C4 LaterLoader 1"),
    # each loader in order, after all that is wrong with any of them by itself
    (BOOT + loader("app", 'parent = "app"') + loader("kid", 'parent = "x"'), "C4 LaterLoader 1"),
    (BOOT + loader("app", 'parent = "x"') + loader("kid", 'parent = "kid"'), "C3 UnknownLoader 1"),
    (BOOT + loader("app", 'parent = "x"') + loader("kid", "frob = 1"), BAD % 2),
    (BOOT + loader("app", 'parent = "app"') + loader("kid", imports(*[IMPORTED] * 65)), MANY),
]

# What is wrong with several parents: of a loader by itself, and of those that it names.
SEVERAL = [
    (BOOT + loader("app", parents("boot"), 'parent = "boot"'), BAD % 1),
    (BOOT + loader("app", "parents = []", 'parent = "boot"'), BAD % 1),
    (BOOT + loader("app", 'parents = "boot"'), BAD % 1),
    (BOOT + loader("app", "parents = [1]"), BAD % 1),
    (BOOT + loader("app", 'parents = [["boot"]]'), BAD % 1),
    (BOOT + loader("app", "parents = {}"), BAD % 1),
    (BOOT + loader("app", parents("boot", "boot")), BAD % 1),
    (BOOT + loader("app", parents("x", "x")), BAD % 1),
    (BOOT + loader("app") + loader("kid", parents("boot", "app", "boot")), BAD % 2),
    (BOOT + loader("app", 'parents = ["boot", """bo\\u006ft"""]'), BAD % 1),
    # over 64 parents, after all that is wrong with the loader by itself, and before the next one
    (ROW + loader("c", parents(*L[:65])), MANY),
    (ROW + loader("c", parents(*L[:65], "l0")), BAD % 65),
    (ROW + loader("c", parents(*L[:65]), "frob = 1"), BAD % 65),
    (ROW + loader("c", parents(*L[:65]), imports('{ from = "l0" }')), BAD % 65),
    (ROW + loader("c", parents(*L[:65])) + loader("a b"), MANY),
    # and before a loader that is none
    (ROW + loader("c", parents(*L[:64], "l65")), MANY),
    # the parents in order, then the imports
    (loader("boot", parents("boot")), "C4 LaterLoader 0"),
    (BOOT + loader("app", parents("x")), "C3 UnknownLoader 1"),
    (BOOT + loader("app", parents("boot", "kid")) + loader("kid"), "C4 LaterLoader 1"),
    (BOOT + loader("app", parents("x", "app")), "C3 UnknownLoader 1"),
    (BOOT + loader("app", parents("app", "x")), "C4 LaterLoader 1"),
    (BOOT + loader("app", parents("x"), imports(brought("p/", "app"))), "C3 UnknownLoader 1"),
    (BOOT + loader("app", parents("boot"), imports(brought("p/", "app"))), "C4 LaterLoader 1"),
]

UNREAD = TOP + OWN + LED + SEVERAL
