"""Writes inputs that hurt a reader which trusts its input, for seconds and peak memory beside plain ones. Usage:
python3 hostile.py FOLDER COUNT [--colliding]. COUNT, up to 65,535, is how many names, methods or requests there are, so that
growth is seen; --colliding searches for names that fall on few places of a table whose seed is known, in place of plain ones (some
minutes for 65,535).

sections.bundle   a section for each name, without a class
classes.bundle    a class for each name, and a request for each
methods.class     methods of one name of 65,535 bytes, each with a descriptor of its own
missing.bundle    requests for one class, whose superclass is not there and has a name of 65,535 bytes
"""

import pathlib
import struct
import sys

from bundles import class_file

LETTERS = "abcdefghijklmnopqrstuvwxyzABCDEFGHIJKLMNOPQRSTUVWXYZ0123456789"
CONFIG = '%config\n[[loader]]\nname = "boot"\n'


def word(number):
    """A short word, another for each number."""
    letters = ""
    for _ in range(4):
        letters += LETTERS[number % len(LETTERS)]
        number //= len(LETTERS)
    return letters


WORD = 2**64 - 1


def sip_round(a, b, c, d):
    """One round of SipHash."""
    a = (a + b) & WORD
    c = (c + d) & WORD
    b = (b << 13 & WORD | b >> 51) ^ a
    d = (d << 16 & WORD | d >> 48) ^ c
    a = a << 32 & WORD | a >> 32
    c = (c + b) & WORD
    a = (a + d) & WORD
    b = (b << 17 & WORD | b >> 47) ^ c
    d = (d << 21 & WORD | d >> 43) ^ a
    return a, b, c << 32 & WORD | c >> 32, d


def table_hash(name):
    """What a table under the seed that everyone knows has for a name of eight bytes: SipHash-1-3 of it and of the byte 0xFF, folded."""
    a, b, c, d = 0x736F6D6570736575, 0x646F72616E646F6D, 0x6C7967656E657261, 0x7465646279746573
    for word in (int.from_bytes(name, "little"), 9 << 56 | 0xFF):
        a, b, c, d = sip_round(a, b, c, d ^ word)
        a ^= word
    c ^= 0xFF
    for _ in range(3):
        a, b, c, d = sip_round(a, b, c, d)
    hashed = a ^ b ^ c ^ d
    return (hashed ^ hashed >> 32) & 0xFFFFFFFF


def colliding_names(count):
    """Names that begin at the first 64 of the 8,192 groups of places that a table of 65,535 entries has."""
    found = []
    number = 0
    while len(found) < count:
        name = f"p/{word(number)}{word(number // 997)[:2]}"
        if table_hash(name.encode()) & 0x1FC0 == 0:
            found.append(name)
        number += 1
    return found


def methods_file(count):
    """A class whose methods have one long name."""
    pool = [
        b"\x01\x00\x03p/A",
        b"\x07\x00\x01",
        b"\x01\x00\x10java/lang/Object",
        b"\x07\x00\x03",
        b"\x01\xff\xff" + b"m" * 65535,
    ]
    members = []
    for number in range(min(count, 65529)):
        text = f"(L{word(number)};)V".encode()
        pool.append(b"\x01" + struct.pack(">H", len(text)) + text)
        members.append(struct.pack(">HHHH", 0x0401, 5, len(pool), 0))
    head = b"\xca\xfe\xba\xbe" + struct.pack(">HHH", 0, 52, len(pool) + 1)
    body = struct.pack(">HHHHHH", 0x0421, 2, 4, 0, 0, len(members))
    return head + b"".join(pool) + body + b"".join(members) + b"\x00\x00"


def main(folder, count, form="--plain"):
    folder = pathlib.Path(folder)
    folder.mkdir(parents=True, exist_ok=True)
    count = int(count)
    names = colliding_names(count) if form == "--colliding" else [f"p/{word(number)}" for number in range(count)]
    with open(folder / "sections.bundle", "w", encoding="ascii") as out:
        out.write(CONFIG)
        out.writelines(f"%class boot {name}\n@hex\n" for name in names)
        out.write("%script\n")
    with open(folder / "classes.bundle", "w", encoding="ascii") as out:
        out.write(CONFIG)
        for name, above in [("java/lang/Object", None)] + [(name, "java/lang/Object") for name in names]:
            out.write(f"%class boot {name}\n@hex {class_file(name, above).hex()}\n")
        out.write("%script\n")
        out.writelines(f"load boot {name}\n" for name in names)
    (folder / "methods.class").write_bytes(methods_file(count))
    with open(folder / "missing.bundle", "w", encoding="ascii") as out:
        out.write(f"{CONFIG}%class boot p/A\n@hex {class_file('p/A', 'x' * 65535).hex()}\n%script\n")
        out.write("load boot p/A\n" * min(count, 10_000))


if __name__ == "__main__":
    main(*sys.argv[1:])
