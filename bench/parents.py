#!/usr/bin/env python3
"""parents.py FOLDER: writes inputs with many loaders under one, to measure the program by (measure.py), each under its name. Those with
few loaders stand beside those with 1,024.

Each is a bundle: classlink bundle < FILE.
"""
import sys

from loads import TOP, bundle, section
from making import made, with_lines, write_all

REFERENCES = 20


def below(count):
    """So many loaders, the others under the first, and their configuration."""
    others = [f"l{n}" for n in range(1, count)]
    config = "".join(f'[[loader]]\nname = "{it}"\nparent = "boot"\norder = "child"\n' for it in others)
    return ["boot", *others], '[[loader]]\nname = "boot"\n' + config


@made("10,000 loads of the first loader's classes through it, with two loaders")
def first_of_2(path, count=2):
    names = [f"p/C{n}" for n in range(10000)]
    bundle(path, below(count)[1], [TOP] + [section("boot", name) for name in names], [f"load boot {name}\n" for name in names])


@made("the same with 1,024")
def first_of_1024(path):
    first_of_2(path, 1024)


@made("20 references from each of 1,024 loaders to the methods of one class")
def referring(path):
    names, config = below(1024)
    refs = [f"ref method p/Svc m{n} ()V" for n in range(REFERENCES)]
    classes = [TOP, with_lines(section("boot", "p/Svc"), [f"method 0001 m{n} ()V" for n in range(REFERENCES)])]
    classes += [with_lines(section(name, "p/Use"), refs) for name in names]
    bundle(path, config, classes, [f"resolve {name} p/Use {n}\n" for name in names for n in range(1, REFERENCES + 1)])


@made("a script of 65,535 lines, asked of 64 loaders in turn")
def script_of_64(path, count=64):
    names, config = below(count)
    bundle(path, config, [TOP, section("boot", "p/T")], [f"load {names[n % count]} p/T\n" for n in range(65535)])


@made("the same of 1,024")
def script_of_1024(path):
    script_of_64(path, 1024)


if __name__ == "__main__":
    write_all(sys.argv[1])
