"""Tries the wrong bodies of crates, many in one check, and tells of each whether the prover refuses it.

An edit passes only where a function that it changes, or names, is refused for a reason of its own, and not just because its proof names
what the edit takes away. One whose function is only not proved because it calls another that is refused is tried again, without those
that were told of. A group that cannot be told of as a whole, since it does not compile or takes too long, is tried edit by edit. What is
still proved, does not compile, takes too long or is not told of even alone is a failure, with its reason.
"""
import os
import shutil
import tempfile
from concurrent.futures import CancelledError, ThreadPoolExecutor
from dataclasses import dataclass, field

import kit
from attempt import attempt
from costs import lines_of
from edits import grouped, of_crate
from lanes import Lanes

# What a check may take, in seconds of processor: so much to begin with, and for each line of the crate and each edit.
BEGIN_SECONDS = 240
LINE_SECONDS = 0.2
EDIT_SECONDS = 10


@dataclass
class Told:
    """What the trial of a crate's edits told, and what it cost."""

    crate: str
    refused: dict = field(default_factory=dict)  # the edit's name to the reason by which the prover refused it
    failed: list = field(default_factory=list)  # texts, with crate, file and reason
    checks: int = 0
    seconds: float = 0.0
    peak: int = 0


class Trial:
    """The trial of the edits of one crate, which is proved and whose library stands; its checks share the work kept in a folder."""

    def __init__(self, crate, edits, lanes, kept):
        self.edits, self.lanes, self.kept, self.told = edits, lanes, kept, Told(crate.name)
        self.known = kit.names_in(crate)
        self.taken = {it for it in self.known if kit.can_leave(it)}
        self.limit = BEGIN_SECONDS + LINE_SECONDS * lines_of(crate)

    def run(self):
        for edit in self.edits:
            edit.find_names(self.known)
            if edit.bad:
                self.fail(edit, f"BAD EDIT: {edit.bad}")
        left = [it for it in self.edits if not it.bad]
        groups = grouped(left)
        while groups:
            again = [it for group in groups for it in self.try_group(group)]
            # (where nothing was told of, company does not help)
            groups = grouped(again) if len(again) < len(left) else [[it] for it in again]
            left = again
        return self.told

    def fail(self, edit, why):
        self.told.failed.append(f"{edit}: {' '.join(why.split())[:400]}")

    def check(self, group):
        """Checks the functions of the edits in one copy of the crate. Returns what it told, and why it told nothing, if so."""
        names = {name for edit in group for name in edit.spans}
        while True:
            taken = self.taken - names
            tried = attempt(group, names, taken, self.known, self.lanes, self.kept, self.limit + EDIT_SECONDS * len(group))
            self.told.checks += 1
            self.told.seconds += tried.run.seconds
            self.told.peak = max(self.told.peak, tried.run.peak)
            # (what cannot be taken by its contract is proved from then on)
            odd = tried.not_taken(taken)
            if not odd:
                return tried, tried.unread(names)
            self.taken -= odd

    def try_group(self, group):
        """Tries a group, and returns those of its edits that nothing was told of."""
        tried, why = self.check(group)
        if why and len(group) > 1:
            return [it for edit in group for it in self.try_group([edit])]
        if why and not why.startswith("TOO LONG"):
            # (whatever it is, it may not lie in what was taken)
            taken, self.taken = self.taken, set()
            tried, why = self.check(group)
            self.taken = taken
        if why:
            self.fail(group[0], why)
            return []
        return [it for it in group if not self.tell(it, tried, len(group) == 1)]

    def tell(self, edit, tried, is_alone):
        """Notes what the check tells of the edit. Returns whether it tells anything: of an edit tried alone it has to."""
        for name, span in sorted(edit.spans.items()):
            for it in tried.with_closures(name):
                why = tried.own_reason(it, span, by_lemma=bool(edit.refuses))
                if why:
                    self.told.refused[edit.name] = f"{it}: {why}"
                    return True
        said = {name: tried.said[name] for name in sorted(edit.spans)}
        if all(it.startswith(("proved", "no hole", kit.RESTS)) for it in said.values()):
            self.fail(edit, f"NOT REFUSED: {', '.join(said)} is still proved")
            return True
        if is_alone:
            self.fail(edit, f"NOT TOLD: {', '.join(said)} is not refused for what it does: {'; '.join(said.values())}")
        return is_alone


class Trials:
    """The trials of several crates, each begun when the crate is proved; what they told, and what else failed. To be dropped at the
    end."""

    def __init__(self, crates, is_gentle=False, only=(), verbose=False, folders=("wrong",)):
        kit.guard()
        self.lanes, self.verbose, self.pool = Lanes(is_gentle), verbose, ThreadPoolExecutor(kit.lanes())
        self.begun, self.tolds, self.failed = set(), [], []
        self.edits = {crate.name: [it for it in of_crate(crate, folders)[0] if not only or it.name in only] for crate in crates}

    def begin(self, crate, kept=""):
        """Begins with a crate that is proved, unless it has, over the work in the folder `kept`, if there is one."""
        if self.edits[crate.name] and crate.name not in self.begun and not self.lanes.is_closed:
            self.begun.add(crate.name)
            self.pool.submit(self.one, crate, kept)

    def one(self, crate, kept):
        edits = self.edits[crate.name]
        try:
            with tempfile.TemporaryDirectory(prefix="wrong-bodies-") as room:
                if os.path.isdir(kept):
                    shutil.copytree(kept, room, dirs_exist_ok=True)
                told = Trial(crate, edits, self.lanes, room).run()
        except CancelledError:
            return
        except Exception as error:  # (whatever it is, the run has to end with its count)
            self.failed.append(f"{crate.name}: the trial of its wrong bodies broke off: {error!r}")
            return
        self.tolds.append(told)
        cost = f"{told.checks} checks, {told.seconds:.0f} seconds of processor, {told.peak / 1e9:.1f} GB at the most"
        lines = [f"{crate.name}/{name}: refused: {why[:200]}" for name, why in sorted(told.refused.items()) if self.verbose]
        lines += [f"{crate.name}: {len(told.refused)} of {len(edits)} wrong bodies refused; {cost}"]
        print("\n".join([*lines, *(f"FAILED: {why}" for why in told.failed)]), flush=True)

    def end(self):
        """Waits for all that was begun."""
        self.pool.shutdown()
        for why in self.failed:
            print(f"FAILED: {why}")

    def drop(self):
        """Ends what runs, and begins nothing more."""
        self.lanes.close()
        self.pool.shutdown(cancel_futures=True)


def try_all(crates, **which):
    """Proves the crates that have edits, over what rt check kept, and tries these. Returns what was told, and what else failed."""
    trials, held = Trials(crates, **which), kit.lock(crates)
    try:
        for crate in crates:
            if trials.edits[crate.name] and kit.prove(crate):
                trials.begin(crate, f"{crate.folder}/out/incremental")
            elif trials.edits[crate.name]:
                trials.failed.append(f"{crate.name}: it is not proved as it stands, so its edits were not tried")
        trials.end()
    finally:
        trials.drop()
        for it in held:
            os.close(it)
    return trials.tolds, trials.failed
