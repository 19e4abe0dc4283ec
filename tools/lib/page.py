"""The list of wrong bodies, made from the edits, and the public functions that have none.

What a wrong body does stands in the edit's line `says:`. A public function whose type leaves no other answer stands in
crates/NAME/wrong/none.txt, a line `LABEL: why` for each; a line `*: why` there says that the crate needs no wrong bodies.
"""
import os
import re

from edits import of_crate
from source import label, labels, text_of


def without_edit(crate):
    """The public functions that no edit can turn, with the reason."""
    file = f"{crate.folder}/wrong/none.txt"
    return dict(re.findall(r"^(\S.*?): (.*)$", text_of(file), re.M)) if os.path.isfile(file) else {}


def turned(edit, public):
    """The public function that the edit turns, or else what it changes."""
    return edit.turns or next((public.get(it, label(it)) for it in edit.holders), edit.outside[0][0] if edit.outside else "what cannot be applied")


def lacking(crate):
    """The public functions of the crate with no edit, and no reason why there is none."""
    public = labels(crate.folder)
    told = {turned(edit, public) for edit in of_crate(crate)[0]} | {*without_edit(crate)}
    return [it for it in dict.fromkeys(public.values()) if it not in told and "*" not in told]


def whole(crates):
    """The list: of each edit what it turns, and what the wrong body does; and why a public function has none."""
    lines = []
    for crate in crates:
        public = labels(crate.folder)
        edits = sorted(of_crate(crate)[0], key=lambda it: turned(it, public))
        lines += [f"{turned(it, public)}: {it}: {it.says or it.name.replace('_', ' ')}" for it in edits]
        lines += [f"{function}: {crate.name}, none: {why}" for function, why in without_edit(crate).items()]
    return "\n".join(lines)
