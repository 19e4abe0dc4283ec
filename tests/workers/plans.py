"""What the requests of a script want, from configuration and content alone (docs/RULES.md, 'Plan of a request', 'Service of a request').

The rules are those of the model in tests/model. Here each request goes its whole way by itself: nothing is recorded before it, and no
constraint is in its way. What it would make on that way is what it wants, in order, and where it ends is its verdict."""
import functools
import os
import sys
from dataclasses import dataclass

sys.path.insert(0, os.path.join(os.path.dirname(os.path.realpath(__file__)), "..", "model"))

from classes import escaped, unescaped  # noqa: E402
from machine import Machine, types_of  # noqa: E402

ASKED_AGAIN = ("superclasses", "superinterfaces", "lineage", "find_field")


@dataclass(frozen=True)
class Record:
    """A loader records for a name the class that its home defines: its own, by Define, or another's, by Initiate."""
    name: str
    loader: int
    home: int


@dataclass(frozen=True)
class Equal:
    """A name stands for one class in two loaders, of which the earlier is named first."""
    name: str
    one: int
    other: int


@dataclass(frozen=True)
class Prepared:
    """A class is prepared."""
    name: str
    loader: int


class Unreadable(Exception):
    """A line that tells of no step."""


class Rules(Machine):
    """The model over some loaders and files, with no state: what a request wants, and the lines in which that is told."""

    def __init__(self, loaders, files):
        super().__init__(loaders, files)
        self.numbers = {loader["name"]: i for i, loader in enumerate(loaders)}
        self.plans, self.lists, self.wants = {}, {}, []
        # in a ladder of diamonds there are more ways up than can be walked, so each of these is found once for each class
        for name in ASKED_AGAIN:
            setattr(self, name, functools.cache(getattr(self, name)))

    # ---- plans

    def plan(self, request):
        """What a request wants in turn, and its verdict where all of that stands. A want that was there before is left out: where the
        first of two stands, the second does."""
        if request not in self.plans:
            self.records, self.settled, self.wants = {}, {}, []
            verdict = self.answer(*request)
            self.plans[request] = self.wants, verdict
        return self.plans[request]

    def is_good(self, name, home):
        return self.plan(("load", home, name))[1] == f"class {self.at(name, home)}"

    def constraints(self, c):
        """The constraints of preparation of a good class."""
        if c not in self.lists:
            self.wants = []
            self.impose(c)
            self.lists[c] = self.wants
        return self.lists[c]

    def imposing(self, c):
        """The lists that say which equalities a recorded class may impose: its constraints of preparation, and the plan of each of its
        references. In front of the latter is the load of the class by its own loader, all of which stands where it is recorded."""
        yield self.constraints(c)
        for index in self.file(c).refs:
            yield self.plan(("resolve", c[1], c[0], index))[0]

    def supertypes(self, name, home):
        """The records that a definition rests on: each direct supertype's, by the class's own loader."""
        file = self.content[home, name]
        return [Record(above, home, self.home(home, above)) for above in [file.above] * (file.above is not None) + file.interfaces]

    # ---- where the model asks its tables, or changes them

    def above(self, c):
        name = self.file(c).above
        return None if name is None else (name, self.home(c[1], name))

    def interfaces(self, c):
        return [(name, self.home(c[1], name)) for name in self.file(c).interfaces]

    def record(self, loader, name, home):
        self.records[loader, name] = home
        self.wants.append(Record(name, loader, home))

    def make_equal(self, desc, a, b):
        self.wants += [Equal(name, min(a, b), max(a, b)) for name in types_of(desc)]

    def tell(self, *words):
        """Lines are made of wants, below."""

    def link(self, loader, name):
        c = self.load(loader, name, missing="ClassNotFoundException")
        for k in self.lineage(c):
            self.impose(k)
            self.wants.append(Prepared(*k))
        return f"linked {self.at(*c)}"

    # ---- lines

    def line(self, want):
        """The line of the step that makes a want stand."""
        name, called = escaped(want.name), [loader["name"] for loader in self.loaders]
        if isinstance(want, Equal):
            return f"constrain {name} {called[want.one]} {called[want.other]}"
        if isinstance(want, Record) and want.loader != want.home:
            return f"initiate {name} {called[want.home]} by {called[want.loader]}"
        return f"{'prepare' if isinstance(want, Prepared) else 'define'} {name}@{called[want.loader]}"

    def refusal(self, need):
        """The answer of a request whose first unmet need is refused."""
        if isinstance(need, Record):
            return f"LinkageError record {self.at(need.name, need.loader)}"
        return f"LinkageError equal {self.line(need).partition(' ')[2]}"

    def step(self, line):
        """The step that a line tells of, as what it makes stand."""
        try:
            found = self.read(line.split(" "))
        except (KeyError, ValueError):
            raise Unreadable("no line of a history") from None
        if self.line(found) != line:
            raise Unreadable(f"the step is told as '{self.line(found)}'")
        return found

    def read(self, words):
        kind, *others = words
        if kind in ("define", "prepare"):
            name, _, loader = " ".join(others).rpartition("@")
            name, loader = unescaped(name), self.numbers[loader]
            return Prepared(name, loader) if kind == "prepare" else Record(name, loader, loader)
        if kind == "constrain":
            name, one, other = others
            return Equal(unescaped(name), self.numbers[one], self.numbers[other])
        name, home, by, loader = others
        if (kind, by) != ("initiate", "by"):
            raise ValueError(kind)
        return Record(unescaped(name), self.numbers[loader], self.numbers[home])
