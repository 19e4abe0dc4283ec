#!/usr/bin/env python3
"""judge.py BUNDLE OUTPUT
judge.py CONFIG SCRIPT OUTPUT

Tells whether OUTPUT is one that `classlink bundle --workers N` may print of BUNDLE, or `classlink run` of CONFIG and SCRIPT where it is
started here, whatever N is and however the steps of the workers fall. It prints why not, and the status is then 1.

The output of several workers is not one text, so it is told by what docs/RULES.md says of it:

  - Each line of the history is a step that may happen where it stands ('The linkage machine'). What it says of Define, Initiate,
    Constrain and Prepare rests on records, equalities and prepared classes alone, so lines that are not printed have no part in it.
  - Each line is a step of some request's service: it makes stand what that request wants next, all before it being there, and the
    request's round has begun (docs/ARCHITECTURE.md, 'Threads, locks and cells': a worker waits for the round of its request).
  - Each request is answered with its plan's verdict at some place of the history, behind the posts of all earlier rounds.

No order of posts is searched for, since the earliest will do. A want that stands, and a need that is refused, stay so to the end of the
history. So a request has no answer up to some place, and one and the same from there on: where it may be posted is all that follows one
place. A post, and a settlement before it, change nothing that a line or another request's answer rests on; a settled reference has the
answer that it has at every later place, so equal references are answered alike whenever each is settled. A request that has its answer
wants nothing more, so no line has to stand before its post. And what is posted earlier lets the next round begin no later. So where any
order of posts explains an output, the one in which each request is posted as soon as it has its answer and its round has begun does, and
one walk along the history finds it.

A request that ran out of memory, or met a fault of its source, is refused: nothing in these runs gives cause for either."""
import os
import sys
from collections import defaultdict

sys.dont_write_bytecode = True
HERE = os.path.dirname(os.path.realpath(__file__))
sys.path[:0] = [HERE, f"{HERE}/.."]

from plans import Equal, Prepared, Record, Rules, Unreadable  # noqa: E402
import asking  # noqa: E402
import classes  # noqa: E402


class Refused(Exception):
    """Why a line cannot stand where it stands, or an answer cannot be given."""


def must(holds, why):
    if not holds:
        raise Refused(why)


class Tables:
    """What stands behind some lines of a history, and which step may come next ('State', 'The linkage machine')."""

    def __init__(self, rules):
        self.rules, self.records, self.prepared = rules, {}, set()
        self.joins = defaultdict(list)  # for a name, the sets of loaders that are joined for it
        self.defined = []

    def joined(self, name, loader):
        return next((them for them in self.joins[name] if loader in them), {loader})

    def homes(self, name, loaders):
        return {self.records[loader, name] for loader in loaders if (loader, name) in self.records}

    def met(self, want):
        if isinstance(want, Record):
            return self.records.get((want.loader, want.name)) == want.home
        if isinstance(want, Equal):
            return want.other in self.joined(want.name, want.one)
        return want in self.prepared

    def clashes(self, need):
        """To make the need stand would violate a constraint (5.3.4)."""
        if isinstance(need, Record):
            return bool(self.homes(need.name, self.joined(need.name, need.loader)) - {need.home})
        return len(self.homes(need.name, self.joined(need.name, need.one) | self.joined(need.name, need.other))) > 1

    def refused(self, want):
        return not isinstance(want, Prepared) and not self.met(want) and self.clashes(want)

    # ---- what may happen

    def may(self, step):
        """Refuses a step that may not happen here."""
        if isinstance(step, Prepared):
            self.may_prepare(step)
            return
        if isinstance(step, Equal):
            self.may_constrain(step)
        elif step.loader == step.home:
            self.may_define(step)
        else:
            self.may_initiate(step)
        must(not self.clashes(step), "it violates a constraint")

    def may_define(self, step):
        must(self.rules.home(step.loader, step.name) == step.home, "the loader is not the home of the name")
        must(self.rules.is_good(step.name, step.home), "the class is not good")
        must((step.loader, step.name) not in self.records, "the loader has recorded the name before")
        for it in self.rules.supertypes(step.name, step.home):
            must(self.met(it), f"the supertype {classes.escaped(it.name)} is not recorded by the loader")

    def may_initiate(self, step):
        must(self.rules.home(step.loader, step.name) == step.home, "the home of the name is another")
        must(self.met(Record(step.name, step.home, step.home)), "the home has not defined the class")
        must((step.loader, step.name) not in self.records, "the loader has recorded the name before")

    def may_constrain(self, step):
        must(not self.met(step), "it stands already")
        must(any(self.is_next(step, wants) for c in self.defined for wants in self.rules.imposing(c)),
             "it stands in no list of a recorded class behind what is met")

    def is_next(self, step, wants):
        for want in wants:
            if want == step:
                return True
            if not self.met(want):
                return False
        return False

    def may_prepare(self, step):
        must(self.met(Record(step.name, step.loader, step.loader)), "the class is not recorded")
        must(not self.met(step), "the class is prepared already")
        for it in self.rules.supertypes(step.name, step.loader):
            must(self.met(Prepared(it.name, it.home)), f"the supertype {classes.escaped(it.name)} is not prepared")
        must(all(map(self.met, self.rules.constraints((step.name, step.loader)))), "not all of its constraints are imposed")

    # ---- what happens

    def add(self, step):
        if isinstance(step, Record):
            self.records[step.loader, step.name] = step.home
            self.defined += [(step.name, step.home)] * (step.loader == step.home)
        elif isinstance(step, Equal):
            them = [self.joined(step.name, step.one), self.joined(step.name, step.other)]
            self.joins[step.name] = [it for it in self.joins[step.name] if it not in them] + [them[0] | them[1]]
        else:
            self.prepared.add(step)


class Course:
    """How far equal requests of a script have come: what they want next, and their answer once there is one."""

    def __init__(self, first_round, wants, verdict):
        self.first_round, self.wants, self.verdict, self.next, self.answer = first_round, wants, verdict, 0, None

    def wanted(self):
        return self.wants[self.next]


class Service:
    """All requests of a script, while a history goes on over the tables."""

    def __init__(self, rules, script, tables):
        self.rules, self.tables, self.courses = rules, tables, {}
        self.script, self.posted = script, 0
        self.waiting = defaultdict(list)  # under the name of what is wanted, since only a step of that name makes it stand or refused
        for place, request in script:
            if request not in self.courses:
                self.courses[request] = Course(place, *rules.plan(request))
        for course in self.courses.values():
            self.go_on(course)

    def go_on(self, course):
        """Passes what stands, up to the answer or to a want that is still to come ('Answer of a request in a state')."""
        while course.next < len(course.wants) and self.tables.met(course.wanted()):
            course.next += 1
        if course.next == len(course.wants):
            course.answer = course.verdict
        elif self.tables.refused(course.wanted()):
            course.answer = self.rules.refusal(course.wanted())
        else:
            self.waiting[course.wanted().name].append(course)

    def round(self):
        """The round that has begun: that of the first request without an answer. All before it are posted, and empty rounds passed."""
        while self.posted < len(self.script) and self.courses[self.script[self.posted][1]].answer is not None:
            self.posted += 1
        return self.script[min(self.posted, len(self.script) - 1)][0] if self.script else 0

    def may(self, step):
        """Refuses a step that no request wants next."""
        rounds = [course.first_round for course in self.waiting[step.name] if course.wanted() == step]
        must(rounds, "no request of the script wants it here")
        must(min(rounds) <= self.round(), "only requests want it whose round has not begun")

    def after(self, step):
        for course in self.waiting.pop(step.name, ()):
            self.go_on(course)

    def answer(self, request):
        course = self.courses[request]
        if course.answer is None:
            raise Refused(f"there can be none, since '{self.rules.line(course.wanted())}' did not happen")
        return course.answer


def judged(rules, script, output):
    """Walks along an output, and refuses it at the first line that cannot be."""
    lines = output.split("\n")
    must(lines.pop() == "", "the last line has no end")
    must(len(lines) >= len(script), "there are too few answers")
    history, answers = lines[:len(lines) - len(script)], lines[len(lines) - len(script):]
    tables = Tables(rules)
    service = Service(rules, script, tables)
    for line in history:
        try:
            step = rules.step(line)
            tables.may(step)
            service.may(step)
        except (Unreadable, Refused) as why:
            raise Refused(f"{line}: {why}") from None
        tables.add(step)
        service.after(step)
    for number, (line, (_, request)) in enumerate(zip(answers, script), 1):
        try:
            must(line == f"{number} {service.answer(request)}", f"over this history it is '{service.answer(request)}'")
        except Refused as why:
            raise Refused(f"{line}: {why}") from None


def why_not(rules, script, output):
    """Why an output is none that workers may print; nothing where it is one."""
    try:
        return judged(rules, script, output)
    except Refused as why:
        return str(why)


# ---- what is given

MODEL = asking.module("model", f"{HERE}/../model/model")


def of_bundle(text):
    """The rules over a bundle, and its script."""
    loaders, files, script = MODEL.given_by(text)
    return Rules(loaders, files), script


def units(text):
    """A name as its code units, as names stand in class files: a supplementary character is two."""
    data = text.encode("utf-16-be", "surrogatepass")
    return "".join(chr(data[at] << 8 | data[at + 1]) for at in range(0, len(data), 2))


def files_below(folder):
    """The class files of a directory, by name."""
    found = {}
    for at, _, names in os.walk(folder, followlinks=True):
        for name in names:
            if name.endswith(".class"):
                path = os.path.join(at, name)
                with open(path, "rb") as file:
                    found[units(os.path.relpath(path, folder)[:-len(".class")])] = classes.read(file.read())
    return found


def of_directories(config, script, top="."):
    """The rules over directories, and the script."""
    loaders, number = MODEL.loaders_of(config.split("\n"))
    files = {}
    for i, loader in enumerate(loaders):
        files |= {(i, name): file for name, file in files_below(os.path.join(top, loader["dir"])).items()}
    return Rules(loaders, files), MODEL.requests_of(script.split("\n"), number)


def text_of(path):
    with open(path, encoding="utf-8", newline="") as file:
        return file.read()


def main(words):
    if len(words) not in (2, 3):
        print(__doc__, file=sys.stderr)
        return 2
    sys.setrecursionlimit(100_000)
    *given, output = map(text_of, words)
    why = why_not(*(of_bundle if len(given) == 1 else of_directories)(*given), output)
    print("may be printed" if why is None else why)
    return 1 if why else 0


if __name__ == "__main__":
    sys.exit(main(sys.argv[1:]))
