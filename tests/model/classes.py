"""Class files as the model sees them, from assembler text and from bytes."""
import re
import struct

PUBLIC, PRIVATE, PROTECTED, STATIC, INTERFACE, ABSTRACT = 1, 2, 4, 8, 0x200, 0x400


def unescaped(text):
    return re.sub(r"\\u([0-9a-fA-F]{4})", lambda m: chr(int(m[1], 16)), text)


def escaped(name):
    return "".join(c if 0x21 <= ord(c) <= 0x7E and c != "\\" else f"\\u{ord(c):04x}" for c in name)


class Member:
    def __init__(self, flags, name, desc):
        self.flags, self.key, self.name, self.desc = flags, (name, desc), name, desc


class File:
    """A class file: flags, names of the class, its superclass and interfaces, members, and the references of its pool by index."""

    def __init__(self, flags, name, above, interfaces, fields, methods, refs):
        self.flags, self.name, self.above, self.interfaces = flags, name, above, interfaces
        self.fields, self.methods, self.refs = fields, methods, refs

    def is_interface(self):
        return bool(self.flags & INTERFACE)


def assembled(lines):
    """The file of assembler text, with the pool in the order of docs/FORMATS.md, 'Assembler'."""
    head, interfaces, fields, methods, pool = None, [], [], [], []
    for words in (line.split(" ") for line in lines):
        words = [unescaped(word) for word in words if word]
        if words[0] == "class":
            head = words
        elif words[0] == "implements":
            interfaces.append(words[1])
        elif words[0] in ("field", "method"):
            (fields if words[0] == "field" else methods).append(Member(int(words[1], 16), *words[2:]))
        elif words[0] == "ref":
            pool.append(tuple(words[1:]))

    def want(*entry):
        """Appends an entry behind what it wants, each where no equal one stands."""
        for text in entry[1:] if entry[0] in ("class", "pair") else ():
            want("utf8", text)
        if entry not in pool:
            pool.append(entry)

    for entry in list(pool):
        if entry[0] == "class":
            want("utf8", entry[1])
        elif entry[0] != "int":
            want("class", entry[1])
            want("pair", *entry[2:])
    for name in [head[2]] + [head[3]] * (head[3] != "-") + interfaces:
        want("class", name)
    for member in fields + methods:
        want("utf8", member.name)
        want("utf8", member.desc)
    above = None if head[3] == "-" else head[3]
    return File(int(head[1], 16), head[2], above, interfaces, fields, methods, dict(enumerate(pool, 1)))


def text_of(data):
    """Modified UTF-8: two surrogates for a supplementary character, and two bytes for U+0000."""
    return data.replace(b"\xc0\x80", b"\0").decode("utf-8", "surrogatepass")


def read(data):
    """The file that bytes are, or the name of the error that they load with. Of the rules of chapter 4 it looks at the layout alone."""
    if len(data) < 8 or data[:4] != b"\xca\xfe\xba\xbe":
        return "ClassFormatError"
    minor, major = struct.unpack_from(">HH", data, 4)
    if not (45 <= major <= 51 or (major, minor) == (52, 0)):
        return "UnsupportedClassVersionError"
    try:
        return structure(data)
    except (struct.error, KeyError, IndexError, UnicodeDecodeError):
        return "ClassFormatError"


class Bytes:
    """The bytes of a file, and how far they are read."""

    def __init__(self, data, at):
        self.data, self.at = data, at

    def take(self, form):
        values = struct.unpack_from(">" + form, self.data, self.at)
        self.at += struct.calcsize(">" + form)
        return values if len(values) > 1 else values[0]

    def pool(self):
        """The entries of the constant pool by their indices, as tag and value."""
        raw, i, count = {}, 1, self.take("H")
        while i < count:
            tag = self.take("B")
            if tag == 1:
                length = self.take("H")
                raw[i] = ("utf8", text_of(self.take(f"{length}s")) if length else "")
            else:
                raw[i] = (tag, self.take({3: "I", 4: "I", 5: "Q", 6: "Q", 7: "H", 8: "H", 15: "BH", 16: "H"}.get(tag, "HH")))
                if tag not in (3, 4, 5, 6, 7, 8, 9, 10, 11, 12, 15, 16, 18):
                    raise KeyError(tag)
            i += 2 if tag in (5, 6) else 1
        return raw

    def members(self, utf8):
        found = []
        for _ in range(self.take("H")):
            flags, n, d, attributes = self.take("HHHH")
            found.append(Member(flags, utf8(n), utf8(d)))
            for _ in range(attributes):
                self.skip()
        return found

    def skip(self):
        """Passes an attribute."""
        _, length = self.take("HI")
        self.take(f"{length}s") if length else None


def structure(data):
    file = Bytes(data, 8)
    raw = file.pool()

    def utf8(index):
        kind, value = raw[index]
        if kind != "utf8":
            raise KeyError(index)
        return value

    def name(index):
        return utf8(raw[index][1])

    flags, this, above = file.take("HHH")
    interfaces = [name(file.take("H")) for _ in range(file.take("H"))]
    fields, methods = file.members(utf8), file.members(utf8)
    for _ in range(file.take("H")):
        file.skip()
    if file.at != len(data):
        raise KeyError("trailing")
    refs = {}
    for index, (tag, value) in raw.items():
        if tag == 7:
            refs[index] = ("class", name(index))
        elif tag in (9, 10, 11):
            pair = raw[value[1]][1]
            refs[index] = ({9: "field", 10: "method", 11: "imethod"}[tag], name(value[0]), utf8(pair[0]), utf8(pair[1]))
    return File(flags, name(this), name(above) if above else None, interfaces, fields, methods, refs)
