"""A class file told by its parts, and the bytes that it stands in (docs/FORMATS.md, 'Class file'). Nothing is looked
at here: a file may be no good one."""
import struct

MAGIC = b"\xca\xfe\xba\xbe"


def u2(n):
    return struct.pack(">H", n % 65536)


def u4(n):
    return struct.pack(">I", n)


def version(major, minor=0):
    return u2(minor) + u2(major)


VERSION = version(52)


class Entry:
    """An entry: its bytes, how many indices it takes, and how it is shown."""

    def __init__(self, spelling, shown="", indices=1):
        self.bytes = spelling
        self.shown = shown
        self.indices = indices


def utf8(text):
    shown = text.decode("ascii") if text.isascii() else "?"
    return Entry(b"\x01" + u2(len(text)) + text, "utf8 '%s'" % shown)


def integer(value):
    return Entry(b"\x03" + struct.pack(">i", value), "integer %d" % value)


def real(bits):
    return Entry(b"\x04" + u4(bits), "float %d" % bits)


def long(value):
    return Entry(b"\x05" + struct.pack(">q", value), "long %d, unusable" % value, 2)


def double(bits):
    return Entry(b"\x06" + struct.pack(">Q", bits), "double %d, unusable" % bits, 2)


def one(tag, what):
    return lambda index: Entry(bytes([tag]) + u2(index), "%s %d" % (what, index))


def two(tag, what):
    return lambda first, second: Entry(bytes([tag]) + u2(first) + u2(second), "%s %d %d" % (what, first, second))


cls, string, method_type = one(7, "class"), one(8, "string"), one(16, "type")
fieldref, methodref, imethodref = two(9, "fieldref"), two(10, "methodref"), two(11, "imethodref")
pair, dynamic = two(12, "pair"), two(18, "dynamic")


def handle(kind, reference):
    return Entry(b"\x0f" + bytes([kind]) + u2(reference), "handle %d %d" % (kind, reference))


def raw(spelling, indices=1):
    """Bytes that may be no entry."""
    return Entry(spelling, "", indices)


class Attribute:
    def __init__(self, name, data=b""):
        self.bytes = u2(name) + u4(len(data)) + data
        self.shown = " attribute %d %s" % (name, data.hex())


def counted(items):
    return u2(len(items)) + b"".join(item.bytes for item in items)


class Member:
    """A field or a method: flags, the indices of its name and its descriptor, its attributes."""

    def __init__(self, flags, name, descriptor, attributes=()):
        self.bytes = u2(flags) + u2(name) + u2(descriptor) + counted(attributes)
        self.shown = "%d %d %d" % (flags, name, descriptor) + "".join(a.shown for a in attributes)


# The public class p/A with nothing in it: the indices of its pool, behind which the next is 5.
THIS, THIS_TEXT, OBJECT, OBJECT_TEXT, NEXT = 1, 2, 3, 4, 5
CLASS_POOL = [cls(2), utf8(b"p/A"), cls(4), utf8(b"java/lang/Object")]


class File:
    """A file; what is not given is that of the public class p/A. `more` are entries behind the first ones of the pool,
    `rest` what stands behind the file."""

    def __init__(self, **parts):
        self.parts = dict(
            magic=MAGIC, version=VERSION, pool=CLASS_POOL, more=[], count=None, flags=0x0021, this_class=THIS,
            super_class=OBJECT, interfaces=[], fields=[], methods=[], attributes=[], rest=b"",
        )
        self.parts.update(parts)

    def changed(self, **parts):
        return File(**dict(self.parts, **parts))

    def entries(self):
        return self.parts["pool"] + self.parts["more"]

    def indices(self):
        return sum(entry.indices for entry in self.entries())

    def pieces(self):
        """The parts of the layout, in order, each whole item by itself."""
        p = self.parts
        count = self.indices() + 1 if p["count"] is None else p["count"]
        yield p["magic"]
        yield p["version"]
        yield u2(count)
        for entry in self.entries():
            yield entry.bytes
        yield u2(p["flags"])
        yield u2(p["this_class"])
        yield u2(p["super_class"])
        yield u2(len(p["interfaces"]))
        for interface in p["interfaces"]:
            yield u2(interface)
        for members in (p["fields"], p["methods"], p["attributes"]):
            yield u2(len(members))
            for member in members:
                yield member.bytes
        yield p["rest"]

    def bytes(self):
        return b"".join(self.pieces())


OBJECT_FILE = File(pool=[utf8(b"java/lang/Object"), cls(1)], this_class=2, super_class=0)
