#!/usr/bin/env python3
"""real.py FOLDER JAR..: real class files as directories, for the figures of docs/GATE.md.

  boot/         the classes of Java SE 8, from the ct.sym of the JDK whose home is JAVA_HOME (their version is set to 52.0)
  app/          each class file of version 45.0 to 52.0 in the jars
  loaders.toml  boot, and app above it
  loads         a load of each class of app
  resolutions   60,000 references of these classes
  links         a link of each

classlink run loaders.toml loads, in that folder.
"""
import os
import struct
import sys
import zipfile

LOADERS = '[[loader]]\nname = "boot"\ndir = "boot"\n[[loader]]\nname = "app"\nparent = "boot"\ndir = "app"\n'
MOST = 60000
REFERENCES = (7, 9, 10, 11)
WIDTHS = {3: 4, 4: 4, 5: 8, 6: 8, 7: 2, 8: 2, 9: 4, 10: 4, 11: 4, 12: 4, 15: 3, 16: 2, 18: 4}


def write(folder, name, data):
    path = f"{folder}/{name}.class"
    os.makedirs(os.path.dirname(path), exist_ok=True)
    with open(path, "wb") as out:
        out.write(data)


def boot(folder):
    count = 0
    with zipfile.ZipFile(f"{os.environ['JAVA_HOME']}/lib/ct.sym") as symbols:
        for entry in symbols.namelist():
            releases, *rest = entry.split("/")
            if "8" in releases and entry.endswith(".sig") and rest[-1] != "module-info.sig":
                data = symbols.read(entry)
                write(folder, "/".join(rest[1:])[:-4], data[:4] + b"\0\0\0\x34" + data[8:])
                count += 1
    return count


def is_read(data):
    minor, major = struct.unpack_from(">HH", data, 4)
    return 45 <= major <= 51 or (major, minor) == (52, 0)


def this_name(data):
    """The class that a class file names."""
    texts, classes, at = {}, {}, 10
    index, count = 1, struct.unpack(">H", data[8:10])[0]
    while index < count:
        tag = data[at]
        if tag == 1:
            length = struct.unpack(">H", data[at + 1:at + 3])[0]
            texts[index] = data[at + 3:at + 3 + length]
            at += 3 + length
        else:
            if tag == 7:
                classes[index] = struct.unpack(">H", data[at + 1:at + 3])[0]
            at += 1 + WIDTHS[tag]
        index += 2 if tag in (5, 6) else 1
    return texts[classes[struct.unpack(">H", data[at + 2:at + 4])[0]]].decode()


def references(data):
    """The indices of the pool's classes and members."""
    at, index, count = 10, 1, struct.unpack(">H", data[8:10])[0]
    while index < count:
        tag = data[at]
        if tag in REFERENCES:
            yield index
        at += 3 + struct.unpack(">H", data[at + 1:at + 3])[0] if tag == 1 else 1 + WIDTHS[tag]
        index += 2 if tag in (5, 6) else 1


def app(folder, jars):
    classes = {}
    for jar in jars:
        with zipfile.ZipFile(jar) as files:
            for entry in files.namelist():
                if entry.endswith(".class") and not entry.startswith("META-INF/"):
                    data = files.read(entry)
                    if is_read(data) and all(c.isalnum() or c in "/_$" for c in entry[:-6]):
                        classes.setdefault(this_name(data), data)
    for name, data in classes.items():
        write(folder, name, data)
    return classes


def main(folder, jars):
    os.makedirs(folder, exist_ok=True)
    known = boot(f"{folder}/boot")
    classes = app(f"{folder}/app", jars)
    asked = [f"resolve app {name} {index}\n" for name in classes for index in references(classes[name])]
    step = max(1, len(asked) // MOST)
    with open(f"{folder}/loaders.toml", "w", encoding="ascii") as out:
        out.write(LOADERS)
    for script, lines in (
        ("loads", [f"load app {name}\n" for name in classes]),
        ("resolutions", asked[::step][:MOST]),
        ("links", [f"link app {name}\n" for name in classes]),
    ):
        with open(f"{folder}/{script}", "w", encoding="ascii") as out:
            out.writelines(lines)
    size = sum(len(data) for data in classes.values())
    print(f"boot {known} classes, app {len(classes)} of {size} bytes, {len(asked)} references")


if __name__ == "__main__":
    main(sys.argv[1], sys.argv[2:])
