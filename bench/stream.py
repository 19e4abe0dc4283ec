"""Writes the class files of jars, and those below folders, as one stream, each behind its length in four bytes, big-endian,
for classlink_corpus. Usage: python3 stream.py OUT MODE PATH.., MODE being `as-is`, or `patched`, which sets each version
after 52.0 to 52.0."""

import pathlib
import struct
import sys
import zipfile

VERSION = b"\x00\x00\x00\x34"


def files_of(path):
    if path.endswith(".jar"):
        with zipfile.ZipFile(path) as jar:
            yield from (jar.read(name) for name in sorted(jar.namelist()) if name.endswith(".class"))
    else:
        yield from (found.read_bytes() for found in sorted(pathlib.Path(path).rglob("*.class")))


def main(out, mode, *paths):
    count = 0
    with open(out, "wb") as stream:
        for path in paths:
            for file in files_of(path):
                minor, major = struct.unpack_from(">HH", file, 4)
                if mode == "patched" and (major, minor) > (52, 0):
                    file = file[:4] + VERSION + file[8:]
                stream.write(struct.pack(">I", len(file)) + file)
                count += 1
    print(count, "files")


main(*sys.argv[1:])
