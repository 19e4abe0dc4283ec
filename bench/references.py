#!/usr/bin/env python3
"""references.py FOLDER: writes inputs of references, to measure the program by, each under its name, and those that are made so large
too, with so many classes that they have about a megabyte, under the name and `_mb`. What each is stands above what makes it.

Each is a bundle: classlink bundle < FILE.
"""
import sys

from loads import TOP, TWO, bundle, section
from making import NAMES, made, with_lines, write_all

LOADERS = [f"l{n}" for n in range(1, 64)]


@made("60,000 references to the methods of a class that has 65,000")
def methods(path, count=65000, users=4, each=15000):
    classes = [TOP, with_lines(section("app", "p/Wide"), [f"method 0001 m{n} ()V" for n in range(count)])]
    script = []
    for user in range(users):
        refs = [f"ref method p/Wide m{user + n * users} ()V" for n in range(each)]
        classes.append(with_lines(section("app", f"p/U{user}"), refs))
        script += [f"resolve app p/U{user} {n}\n" for n in range(1, each + 1)]
    bundle(path, TWO, classes, script)


@made("one reference, 65,535 times")
def settled(path):
    service = with_lines(section("boot", "p/Svc"), ["method 0001 m (Lp/T;)V"])
    user = with_lines(section("app", "p/Use"), ["ref method p/Svc m (Lp/T;)V"])
    bundle(path, TWO, [TOP, service, user], ["resolve app p/Use 1\n"] * 65535)


def below():
    """A loader above 63 others that look at their own classes first."""
    config = '[[loader]]\nname = "boot"\n'
    for name in LOADERS:
        config += f'[[loader]]\nname = "{name}"\nparent = "boot"\norder = "child"\n'
    return config


def service(loaders):
    """A class with a method for each name, and in each loader a class that refers to all of them."""
    found = [TOP, with_lines(section("boot", "p/Svc"), [f"method 0001 m (Lp/T{n};)V" for n in range(NAMES)])]
    refs = [f"ref method p/Svc m (Lp/T{n};)V" for n in range(NAMES)]
    return found + [with_lines(section(loader, "p/Use"), refs) for loader in loaders]


@made("63 loaders under one, whose classes each have 1,000 references to its methods: 63,000 constraints")
def constraints(path):
    script = [f"resolve {loader} p/Use {n}\n" for n in range(1, NAMES + 1) for loader in LOADERS]
    bundle(path, below(), service(LOADERS), script)


@made("the same where each of the loaders, and the one above, has recorded a class of its own of each name before")
def refused(path, loaders=LOADERS[:31]):
    classes = service(loaders) + [section(loader, f"p/T{n}") for loader in ["boot", *loaders] for n in range(NAMES)]
    script = [f"load {loader} p/T{n}\n" for loader in ["boot", *loaders] for n in range(NAMES)]
    script += [f"resolve {loader} p/Use {n}\n" for n in range(1, NAMES + 1) for loader in loaders]
    bundle(path, below(), classes, script)


@made("2,000 interfaces over one another, each with one method, which is resolved through a class that names the last", megabyte=8000)
def stacked(path, count=2000):
    own = ["method 0401 m ()V"]
    classes = [TOP]
    for n in range(count):
        over = [f"p/I{n - 1}"] if n else []
        classes.append(with_lines(section("app", f"p/I{n}", interfaces=over, flags="0601"), own))
    resolved_through(path, classes, [f"p/I{count - 1}"])


@made("a class that names 2,000 interfaces with one method, each over one that has none; the method is resolved", megabyte=7000)
def heads(path, count=2000):
    own = ["method 0401 m ()V"]
    classes, over = [TOP], [f"p/I{n}" for n in range(count)]
    for n, name in enumerate(over):
        classes.append(section("app", f"p/K{n}", flags="0601"))
        classes.append(with_lines(section("app", name, interfaces=[f"p/K{n}"], flags="0601"), own))
    resolved_through(path, classes, over)


def resolved_through(path, classes, over):
    classes.append(section("app", "q/C", interfaces=over, flags="0421"))
    classes.append(with_lines(section("app", "q/Use"), ["ref method q/C m ()V"]))
    bundle(path, TWO, classes, ["resolve app q/Use 1\n"])


if __name__ == "__main__":
    write_all(sys.argv[1])
