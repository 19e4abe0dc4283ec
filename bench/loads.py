#!/usr/bin/env python3
"""loads.py FOLDER: writes inputs of loads, to measure the program by.

  chain         5,000 classes, each over the one before, the lower half in boot and the rest in app
  interfaces    1,000 classes of app with 64 interfaces of boot each
  ladder        60 diamonds of interfaces above one another
  loaders       1,000 classes of the first of 64 loaders, each the parent of the next, loaded through the last
  many          65,535 loads of 20,000 classes
  directories/  the same from directories: classlink run loaders.toml loads, in that folder

Each file but the last is a bundle: classlink bundle < FILE.
"""
import os
import struct
import sys

OBJECT = "java/lang/Object"
TWO = '[[loader]]\nname = "boot"\n[[loader]]\nname = "app"\nparent = "boot"\n'
TOP = f"%class boot {OBJECT}\nclass 0021 {OBJECT} -\n"
MANY = 20000


def section(loader, name, above=OBJECT, interfaces=(), flags="0021"):
    lines = "".join(f"implements {it}\n" for it in interfaces)
    return f"%class {loader} {name}\nclass {flags} {name} {above}\n{lines}"


def bundle(path, config, classes, script):
    with open(path, "w", encoding="ascii") as out:
        out.write(f"%config\n{config}{''.join(classes)}%script\n{''.join(script)}")


def chain(path, count=5000):
    classes = [TOP]
    for n in range(count):
        loader = "boot" if n < count // 2 else "app"
        classes.append(section(loader, f"p/C{n}", f"p/C{n - 1}" if n else OBJECT))
    bundle(path, TWO, classes, [f"load app p/C{count - 1}\n"])


def interfaces(path):
    names = [f"p/I{n}" for n in range(64)]
    classes = [TOP] + [section("boot", name, flags="0601") for name in names]
    classes += [section("app", f"p/D{n}", interfaces=names) for n in range(1000)]
    bundle(path, TWO, classes, [f"load app p/D{n}\n" for n in range(1000)])


def ladder(path):
    classes = [TOP, section("boot", "p/L0", flags="0601")]
    for n in range(1, 61):
        for side in "AB":
            classes.append(section("boot", f"p/{side}{n}", interfaces=[f"p/L{n - 1}"], flags="0601"))
        classes.append(section("boot", f"p/L{n}", interfaces=[f"p/A{n}", f"p/B{n}"], flags="0601"))
    bundle(path, TWO, classes, ["load app p/L60\n"])


def loaders(path):
    config = '[[loader]]\nname = "boot"\n'
    for n in range(1, 64):
        above = f"l{n - 1}" if n > 1 else "boot"
        config += f'[[loader]]\nname = "l{n}"\nparent = "{above}"\n'
    classes = [TOP] + [section("boot", f"p/C{n}") for n in range(1000)]
    bundle(path, config, classes, [f"load l63 p/C{n}\n" for n in range(1000)])


def many(path):
    classes = [TOP] + [section("app", f"p/C{n}") for n in range(MANY)]
    bundle(path, TWO, classes, [f"load app p/C{n % MANY}\n" for n in range(65535)])


def class_file(name, above):
    def utf8(text):
        return b"\x01" + struct.pack(">H", len(text)) + text.encode()

    pool = utf8(name) + b"\x07\x00\x01" + (utf8(above) + b"\x07\x00\x03" if above else b"")
    indices = struct.pack(">HHH", 0x21, 2, 4 if above else 0)
    return b"\xca\xfe\xba\xbe\x00\x00\x00\x34" + struct.pack(">H", 5 if above else 3) + pool + indices + bytes(8)


def directories(folder):
    os.makedirs(f"{folder}/boot/java/lang", exist_ok=True)
    os.makedirs(f"{folder}/app/p", exist_ok=True)
    with open(f"{folder}/boot/{OBJECT}.class", "wb") as out:
        out.write(class_file(OBJECT, None))
    for n in range(MANY):
        with open(f"{folder}/app/p/C{n}.class", "wb") as out:
            out.write(class_file(f"p/C{n}", OBJECT))
    with open(f"{folder}/loaders.toml", "w", encoding="ascii") as out:
        out.write(TWO)
    with open(f"{folder}/loads", "w", encoding="ascii") as out:
        out.writelines(f"load app p/C{n % MANY}\n" for n in range(65535))


def main(folder):
    os.makedirs(folder, exist_ok=True)
    for make in chain, interfaces, ladder, loaders, many, directories:
        make(f"{folder}/{make.__name__}")


if __name__ == "__main__":
    main(sys.argv[1])
