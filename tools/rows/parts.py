"""Rows of files made from their parts: what no file can spell, and its place in the order of faults (docs/FORMATS.md,
'Faults, and the order in which they are found')."""
import itertools

from classfile import OBJECT_FILE, File, cls, handle, imethodref, methodref, pair, utf8, version
from files import F2, F6, F7, F8, F9, FINE, bad_pool, version_fault

MOST = 65535
# java/lang/Object, with a name and two descriptors for members at 3 to 5; the next index is 6.
OBJECT = ["utf8:'java/lang/Object", "class:1", "utf8:'m", "utf8:'I", "utf8:'()V", "flags:33", "this:2"]
LETTERS = "abcdefghijklmnop"
TEXTS = [one + other for one in LETTERS for other in LETTERS]
# 256 names from 6 on, and as many descriptors from 262 on.
NAMES = ["utf8:'" + text for text in TEXTS]
FIELD_TYPES = ["utf8:'L%s;" % text for text in TEXTS]
METHOD_TYPES = ["utf8:'(L%s;)V" % text for text in TEXTS]


def ask(rows, words, fault, count=None, this=2):
    """The parts of these words have this fault; of those that come back `count` entries."""
    count = len(OBJECT) - 2 + (count or 0)
    rows.ask("parts", OBJECT + words, "%s %d %d" % (fault, count, this))


def ask_size(rows, words, size):
    """The file of these words is of so many bytes."""
    rows.ask("parts", OBJECT + words, "%d bytes" % size)


SLOTS = [
    (["long", "unusable"], None), (["double", "unusable", "integer"], None), (["integer", "long"], 7),
    (["double"], 6), (["long"], 6),
    (["long", "integer"], 7), (["double", "double", "unusable"], 7), (["integer", "unusable"], 7),
    (["long", "unusable", "unusable"], 8),
    (["string:0", "unusable"], 7), (["unusable", "integer", "long"], 6), (["long", "unusable", "string:0"], 8),
    (["unusable"], 6),
]


def first_misplaced(slots):
    """The index of the first of these that cannot stand where it does, or nothing."""
    for i, slot in enumerate(slots):
        behind_wide = i > 0 and slots[i - 1] in ("long", "double")
        if slot in ("long", "double") and i + 1 == len(slots) and not behind_wide:
            return 6 + i
        if (slot == "unusable") != behind_wide:
            return 6 + i
    return None


def of_slots(rows):
    rows.about("Where a Long, a Double and an unusable index may stand among the parts.")
    for slots, blamed in SLOTS:
        if blamed:
            ask(rows, slots, bad_pool(blamed), len(slots))
    for count in range(1, 5):
        for slots in itertools.product(("long", "double", "unusable", "integer"), repeat=count):
            blamed = first_misplaced(slots)
            if blamed:
                ask(rows, list(slots), bad_pool(blamed), count)
    for slots in (["long", "unusable"], ["double", "unusable", "integer"]):
        spelled = {"long": "05" + "ff" * 8, "double": "06" + "00" * 8, "unusable": "", "integer": "0300000000"}
        pool = "0100106a6176612f6c616e672f4f626a65637407000101" + "00016d01000149010003282956"
        head = "cafebabe00000034%04x" % (6 + len(slots)) + pool
        rows.ask("parts", OBJECT + slots, head + "".join(spelled[s] for s in slots) + "00210002" + "00" * 10)
    rows.about("The unusable index first.")
    rows.ask("parts", ["unusable", "flags:33", "this:2"], bad_pool(1) + " 1 2")
    rows.about("The parts of java/lang/Object; parts that are refused come back.")
    rows.ask("parts", ["utf8:'java/lang/Object", "class:1", "flags:33", "this:2"], OBJECT_FILE.bytes().hex())
    for this in (0, 1, 3, 6, 65535):
        ask(rows, ["this:%d" % this], F9, this=this)


def of_counts(rows):
    rows.about("A pool of 65,534 indices, and of one more, which comes before its entries.")
    base = len(OBJECT_FILE.bytes()) + 4 + 4 + 6
    ask_size(rows, ["65529@integer"], base + 5 * 65529)
    ask(rows, ["65530@integer"], bad_pool(0), 65530)
    ask(rows, ["65530@string:0"], bad_pool(0), 65530)
    ask(rows, ["65528@integer", "long", "unusable"], bad_pool(0), 65530)
    rows.about("A text of 65,535 bytes.")
    ask_size(rows, ["utf8:78*65535"], base + 3 + 65535)
    rows.about("As many of each list as a count can say, and one more.")
    ask_size(rows, ["65535@interface:2"], base + 2 * MOST)
    ask(rows, ["65536@interface:2"], F9)
    ask_size(rows, ["65535@attribute:1"], base + 6 * MOST)
    ask(rows, ["65536@attribute:1"], F7)
    ask_size(rows, ["field:0:3:4:65535"], base + 8 + 6 * MOST)
    ask(rows, ["field:0:3:4:65536"], F7)
    ask_size(rows, ["method:0:3:5:65535"], base + 8 + 6 * MOST)
    ask(rows, ["method:0:3:5:65536"], F7)
    fields = NAMES + FIELD_TYPES
    methods = NAMES + METHOD_TYPES
    ask_size(rows, fields + ["fields:65535:6:262"], base + 256 * (5 + 7) + 8 * MOST)
    ask(rows, fields + ["fields:65536:6:262"], F7, 512)
    ask_size(rows, methods + ["methods:65535:6:262"], base + 256 * (5 + 10) + 8 * MOST)
    ask(rows, methods + ["methods:65536:6:262"], F7, 512)
    rows.about("What no width can say, each in its place: what comes before it in a file is told first.")
    ask(rows, ["65536@interface:2", "string:0"], bad_pool(6), 1)
    ask(rows, ["65536@interface:2", "flags:8225"], F6)
    ask(rows, ["65536@interface:2", "this:1"], F9, this=1)
    ask(rows, fields + ["fields:65536:6:262", "65536@interface:2"], F9, 512)
    ask(rows, ["field:0:3:4:65536", "field:0:3:4:0"], F7)
    ask(rows, ["field:0:3:4:0", "field:0:3:4:0", "field:3:3:4:65536"], F8)
    ask(rows, methods + ["methods:65536:6:262", "field:0:3:4:0", "field:0:3:4:0"], F8, 512)
    ask(rows, ["65536@attribute:1", "method:0:3:5:0", "method:0:3:5:0"], F8)
    ask(rows, ["65536@field:0:3:4:0"], F7)
    ask(rows, ["65535@field:0:3:4:0"], F8)


# An InterfaceMethodref at 8 and a Methodref at 9; the next index is 10.
CALLS = File(
    pool=[utf8(b"p/A"), cls(1), utf8(b"java/lang/Object"), cls(3), utf8(b"m"), utf8(b"()V"), pair(5, 6), imethodref(2, 7),
        methodref(2, 7)],
    this_class=2, super_class=4,
)


def of_versions(rows):
    object_words = OBJECT[:2] + ["flags:33", "this:2"]
    rows.about("Versions of parts.")
    for major, minor in itertools.product((0, 44, 45, 48, 51, 52, 53, 65535), (0, 1, 52, 65535)):
        spelled = OBJECT_FILE.changed(version=version(major, minor)).bytes().hex()
        kept = version_fault(major, minor) == FINE
        rows.ask("parts", object_words + ["version:%d.%d" % (major, minor)], spelled if kept else F2 + " 2 2")
    rows.about("The version comes before all else that may be wrong, also before what no width can say.")
    for major, minor in ((53, 0), (52, 1), (44, 65535)):
        at = ["version:%d.%d" % (major, minor)]
        for words, count in ((["65530@integer"], 65530), (["65530@string:0"], 65530), (["double"], 1), (["unusable"], 1),
            (["string:0"], 1), (["flags:8225"], 0), (["65536@interface:2"], 0), (["field:3:3:4:0"], 0),
            (["method:0:3:5:65536"], 0), (["65536@attribute:1"], 0)):
            ask(rows, at + words, F2, count)
        ask(rows, at + ["this:1"], F2, this=1)
    rows.about("What a handle may name: an InterfaceMethodref of kinds 6 and 7 from 52.0 on.")
    may_name = {5: (9,), 6: (8, 9), 7: (8, 9), 8: (), 9: (8,)}
    for at, kind, named in itertools.product(((45, 3), (51, 65535), (52, 0)), may_name, (8, 9)):
        file = CALLS.changed(version=version(*at), more=[handle(kind, named)])
        kept = named in may_name[kind] and (at[0] == 52 or (kind, named) not in ((6, 8), (7, 8)))
        words = ["version:%d.%d" % at, "flags:33", "this:2", "super:4"]
        words += [entry.shown.rstrip("'").replace(" ", ":") for entry in file.entries()]
        rows.ask("parts", words, file.bytes().hex() if kept else bad_pool(10) + " 10 2")


def make(rows):
    of_slots(rows)
    of_counts(rows)
    of_versions(rows)
