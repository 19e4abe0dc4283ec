"""Wrong bodies: the edits of crates/NAME/wrong/ and must-fail/, which lines and functions they change, and which go together.

An edit is a file as `rt must-fail` reads it: a line `file: src/x.rt`, then pairs of lines `old: TEXT` and `new: TEXT`. Further
lines, of which `rt` takes no notice, may stand in it:

  says: TEXT          what the wrong body does, and of a further one of its function the clause that it turns
  turns: LABEL        the public function whose meaning it turns, where it changes a private function that serves it
  refuses: PATH       the prover's name of a function or law that has to be refused, where a constant, a type or a definition is edited
"""
import os
import re
from dataclasses import dataclass, field

import kit
from source import functions, label, names_of, text_of

FOLDERS = ("wrong", "must-fail")
FILE_NAME = r"[A-Za-z0-9_-][A-Za-z0-9_.-]*\.edit"
ASKS = "say by 'refuses: PATH'"
# So many edits go into one check at the most: more of them hold too much memory.
MOST_EDITS = 16


@dataclass
class Edit:
    crate: object
    folder: str
    name: str
    bad: str = ""  # why it cannot be tried
    lines: dict = field(default_factory=dict)  # the lines that it changes: (path, number from 0) to what then stands there
    holders: list = field(default_factory=list)  # the functions whose bodies it changes
    outside: list = field(default_factory=list)  # (path, line from 1) of what it changes in no function's body
    refuses: set = field(default_factory=set)
    says: str = ""
    turns: str = ""
    spans: dict = field(default_factory=dict)  # the prover's names of those that have to be refused, to (path, first line, last line)

    def __str__(self):
        return f"{self.crate.name}/{self.folder}/{self.name}"

    def find_names(self, known):
        """Finds the prover's names of what has to be refused, of the known ones, or says in `bad` why it cannot be tried."""
        unknown = sorted(self.refuses - known)
        if unknown:
            self.bad = f"'refuses:' names no function of the crate: {', '.join(unknown)}"
        elif self.refuses:
            self.spans = dict.fromkeys(self.refuses)
        elif self.outside:
            path, line = self.outside[0]
            self.bad = f"line {line} of {path} is changed in no function's body: {ASKS} which function has to be refused"
        for it in () if self.refuses or self.bad else self.holders:
            names = names_of(it, self.crate.name, known)
            self.spans |= {name: (it.path, it.first_line, it.last_line) for name in names}
            if len(names) != 1:
                self.bad = f"the prover's name of {label(it)} is not told apart ({', '.join(names) or 'none fits'}): {ASKS} it"

    def is_apart(self, other):
        """Whether one check can tell of both: each turns the body of another function, and none what others mean by a definition."""
        return not (self.refuses or other.refuses or self.spans.keys() & other.spans.keys() or self.lines.keys() & other.lines.keys())


def read(crate, folder, name):
    """Reads an edit: `bad` tells where it cannot be applied."""
    edit = Edit(crate, folder, name.removesuffix(".edit"))
    text = text_of(f"{crate.folder}/{folder}/{name}")
    word = lambda it: [value.strip() for value in re.findall(rf"^{it}: (.*)$", text, re.M)]
    edit.refuses, edit.says, edit.turns = {*word("refuses")}, " ".join(word("says")), " ".join(word("turns"))
    texts, why = kit.edited(crate, text)
    edit.bad = why or ""
    for path, new in (texts or {}).items():
        place(edit, path, text_of(f"{crate.folder}/{path}"), new)
    return edit


def place(edit, path, old, new):
    """Notes which lines of the file the edit changes (each pair of an edit is of one line), and the functions that hold them."""
    held, at = functions(path, old) if path.startswith("src/") else [], 0
    for number, (was, now) in enumerate(zip(old.split("\n"), new.split("\n"))):
        if was != now:
            edit.lines[path, number] = now
            # (only what differs counts: a pair may begin in what stands above a body)
            lead = len(os.path.commonprefix([was, now]))
            tail = len(os.path.commonprefix([was[lead:][::-1], now[lead:][::-1]]))
            holding = [it for it in held if it.opens < at + lead and at + max(len(was) - tail, lead) <= it.closes]
            holder = min(holding, key=lambda it: it.closes - it.opens, default=None)
            if holder is None or holder.is_meaning:
                edit.outside.append((path, number + 1))
            elif holder not in edit.holders:
                edit.holders.append(holder)
        at += len(was) + 1


def of_crate(crate, wanted=FOLDERS):
    """The crate's edits, and the files that stand where only edits may."""
    good, stray = [], []
    for folder in wanted:
        at = f"{crate.folder}/{folder}"
        for name in sorted(os.listdir(at)) if os.path.isdir(at) else []:
            if re.fullmatch(FILE_NAME, name):
                good.append(read(crate, folder, name))
            elif name != "none.txt":
                stray.append(f"{crate.name}/{folder}/{name}")
    return good, stray


def grouped(edits):
    """The edits in groups of such as one check can tell of."""
    groups = []
    for edit in edits:
        fits = (it for it in groups if len(it) < MOST_EDITS and all(edit.is_apart(other) for other in it))
        group = next(fits, None)
        if group is None:
            groups.append(group := [])
        group.append(edit)
    return groups
