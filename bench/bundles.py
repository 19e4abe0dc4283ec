"""Writes bundles for benchmarks: flat.bundle, 10,000 classes that are each loaded, and chain.bundle, a class with 5,000
superclasses. Usage: python3 bundles.py FOLDER"""

import struct
import sys


def class_file(name, superclass):
    """The bytes of a public class without members."""
    pool = []

    def put(entry):
        pool.append(entry)
        return len(pool)

    def class_entry(text):
        utf8 = put(b"\x01" + struct.pack(">H", len(text)) + text.encode())
        return put(b"\x07" + struct.pack(">H", utf8))

    this_class = class_entry(name)
    super_class = class_entry(superclass) if superclass else 0
    head = b"\xca\xfe\xba\xbe" + struct.pack(">HHH", 0, 52, len(pool) + 1)
    return head + b"".join(pool) + struct.pack(">HHHHHHH", 0x21, this_class, super_class, 0, 0, 0, 0)


def write_bundle(path, classes, loads):
    root = [("java/lang/Object", None)]
    with open(path, "w", encoding="ascii") as out:
        out.write('%config\n[[loader]]\nname = "boot"\n')
        for name, superclass in root + classes:
            out.write(f"%class boot {name}\n@hex {class_file(name, superclass).hex()}\n")
        out.write("%script\n")
        for name in loads:
            out.write(f"load boot {name}\n")


def main(folder):
    flat = [(f"p/C{i}", "java/lang/Object") for i in range(10_000)]
    write_bundle(f"{folder}/flat.bundle", flat, [name for name, _ in flat])
    chain = [(f"p/D{i}", f"p/D{i - 1}" if i else "java/lang/Object") for i in range(5_000)]
    write_bundle(f"{folder}/chain.bundle", chain, [chain[-1][0]])


if __name__ == "__main__":
    main(sys.argv[1])
