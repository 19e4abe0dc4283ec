"""One check of a copy of a crate with some edits in it, and what it tells of the functions that they change.

All other functions are taken by their contracts: they are proved already, so in the copy their bodies are empty (the prover would look
at them all the same) and a hole stands for their proofs. A caller then has of them what their contracts say, and no more. Where the
prover takes no hole, as of a function that calls itself, the function is proved.
"""
import glob
import os
import pathlib
import re
import shutil
import tempfile

import kit
from source import text_of, without_bodies, write


class Attempt:
    """What a check said of a copy in which the files at these paths are edited."""

    def __init__(self, paths, run):
        self.paths, self.run = paths, run
        self.said = dict(kit.TOLD.findall(run.text))
        self.goals = [(path, int(line), why) for path, line, why in kit.GOAL.findall(run.text)]

    def not_taken(self, taken):
        """Which of the functions could not be taken by their contracts."""
        odd = {it for it in taken if not self.said.get(it, kit.RESTS).startswith(kit.RESTS)}
        misplaced = {at.replace("/", "::") for at in kit.MISPLACED.findall(self.run.text)}
        return odd | {it for it in taken if it.partition("::")[2] in misplaced}

    def unread(self, names):
        """Why the check says nothing of the named functions; '' where it does."""
        if self.run.ended == "late":
            return f"TOO LONG: no answer after {self.run.seconds:.0f} seconds of processor"
        if self.run.status < 0:
            return f"NOT TOLD: the check was ended by signal {-self.run.status}, most likely for memory"
        lines = self.run.text.split("\n")
        found = next((it for it in lines if kit.is_unread(it, self.paths)), "")
        if found:
            return f"BAD EDIT: the prover cannot read it: {found}"
        if kit.STALE.search(self.run.text):
            return "NOT TOLD: the kept work of a library cannot be used"
        if all(it in self.said for it in names):
            return ""
        found = next((it for it in lines if re.match(r"(error|rattle:)|\S+: error", it)), "") or self.run.text[:160]
        return f"{'NOT TOLD: the check did not run' if found.startswith('rattle:') else 'BAD EDIT: it does not compile'}: {found.strip()}"

    def with_closures(self, name):
        """The function, and what stands inside it."""
        return [it for it in self.said if it == name or it.startswith((f"{name}::{{", f"{name}::closure"))]

    def own_reason(self, name, span=None, by_lemma=False):
        """Why the prover refuses the function by itself: '' where it is proved, where it only calls what is not, and where that is not
        told. It shows in what the function's line says of its own proof, unless all that is refused of this is that it names what the
        edit took away, or in a goal of its code, whose place is its span. Where a definition is edited (by_lemma), a lemma that is
        refused counts too, but no other function's proof."""
        if not re.match(r"no proof|not proved", self.said[name]):
            return ""
        own, folder = f"{kit.proof_of(name)}.", "/".join([*name.split("::")[1:], ""])
        others = tuple(f"{kit.proof_of(it)}." for it in self.said if it != name)
        refused = [why for path, why in kit.REFUSED.findall(self.run.text) if path.startswith(folder)]
        only_names = refused and all(kit.NO_NAME.search(it) for it in refused)
        for part in re.split(r"; (?=it |expected |`search`)|: ", self.said[name]):
            if part.startswith("`search` did not prove "):
                return part
            for it in re.findall(r"`(Rattle\.[^`]*)`", part) if part.startswith("it stands on ") and not only_names else ():
                if it.startswith(own) or by_lemma and not it.startswith(others):
                    return part
        for path, line, why in self.goals:
            if span and path == span[0] and span[1] <= line <= span[2]:
                return f"{path}:{line}: {why}"
        return ""


def attempt(edits, names, taken, known, lanes, kept, limit):
    """Checks the named functions, over the work in the folder `kept`, in a copy of their crate that has the edits, for so many seconds
    of processor. Of the known functions those are taken by their contracts that `taken` has."""
    crate, lines = edits[0].crate, {}
    for edit in edits:
        for (path, number), line in edit.lines.items():
            lines.setdefault(path, text_of(f"{crate.folder}/{path}").split("\n"))[number] = line
    with tempfile.TemporaryDirectory(prefix="wrong-body-") as room:
        for part in kit.PARTS:
            if os.path.isdir(f"{crate.folder}/{part}"):
                shutil.copytree(f"{crate.folder}/{part}", f"{room}/{part}")
        for path, it in lines.items():
            write(f"{room}/{path}", "\n".join(it))
        for file in glob.glob(f"{room}/src/**/*.rt", recursive=True) if taken else ():
            text = pathlib.Path(file).read_text(encoding="utf-8")
            write(file, without_bodies(os.path.relpath(file, room), text, crate.name, taken, known))
        for name in taken:
            kit.leave_hole(room, name)
        return Attempt({*lines}, lanes.run(kit.words_of(crate, names, kept), room, limit))
