"""What the tools take of the kit: its crates, its reading of edits, and how a check is called and what it says.

The kit's command `rt` and the `rtlib.py` beside it are loaded, so that a repository is read here as the kit reads it. No other file
reaches into them, and this one relies on:

  rt      edited, unread, processors, free
  rtlib   crates_below, lock, guarded, fmt, PARTS, RATTLE, STALE; of a crate name, folder, rlib, is_program, below, words, check,
          build_rlib, out
  a library, whose toolchain/mir.json lists the functions of its crate by the prover's names
  rattle  check --only, --allow-holes, --incremental; its lines `fn NAME: ..` and `note: FILE:LINE:COLUMN: it is not proved ..`; proofs
          of a function in proofs/PATH/NAME, where Proof.antt with a hole stands for all of them

What `rt ci` prints and starts is known to judge.py and costs.py alone. After a new kit `tools/wrong-bodies --self-test` tells whether
the rest still holds.
"""
import json
import os
import pathlib
import re
import runpy
import shutil
import sys
import tempfile

from source import functions, module_of, texts_of, write

sys.dont_write_bytecode = True

# The line of a check that tells of one function, and the one that tells of a goal in the code.
TOLD = re.compile(r"^fn (\S+): (.*)$", re.M)
GOAL = re.compile(r"^note: (src/[^:]*):(\d+):\d+: (it is not proved .*)$", re.M)
# What a check refuses in a proof file, and how it says that a name of that file stands for nothing.
REFUSED = re.compile(r"^(?:\./)?proofs/([^:]*):\d+:\d+: error: (.*)$", re.M)
NO_NAME = re.compile(r"has no field|is not in scope|has no `|was not admitted")
# How the line of a function says that its proof rests on a hole, and how a check says that the proof may not be one: a function that
# calls itself has its proof elsewhere.
RESTS = "depends on a hole in "
MISPLACED = re.compile(r"^(?:\./)?proofs/(.*)/Proof\.antt: error\b", re.M)
# The files of a function's proof, and what stands in their place where the function is taken by its contract.
PROOF_FILES = ("Invariants.antt", "Answers.antt", "Proof.antt")
HOLE = """use {place}.Statement.{{statement}}

pub {name}_spec : {{M : Type 1}} → statement M
{name}_spec = ?
"""

PLACES = [os.path.realpath(shutil.which("rt") or ""), "/opt/rattle/bin/rt"]
rt = runpy.run_path(next(it for it in PLACES if os.path.isfile(f"{os.path.dirname(it)}/rtlib.py")))
rtlib = rt["rtlib"]
PARTS, STALE = rtlib.PARTS, rtlib.STALE
# The repository's crates, each after those that it uses; the processors that may be used; the memory that is free, in bytes.
crates, processors, free = rtlib.crates_below, rt["processors"], rt["free"]
# The words before a command that is to end, with all that it starts, when this process does; only the main thread may ask first.
guard = rtlib.guarded
# Whether the prover cannot read an edited text, by one line of a check and the paths of what was edited.
is_unread = rt["unread"]


def lanes():
    """How many checks may run side by side, as for rt ci: as many as RT_JOBS says, else one a processor."""
    return int(os.environ.get("RT_JOBS") or 0) or processors()


def edited(crate, text):
    """The texts of the files that an edit changes, by their path in the crate, and why it cannot be applied, if so."""
    return rt["edited"](text, crate.folder)


def not_laid_out(crate):
    """What rt fmt would change in a crate, a line each; rt ci proves no crate where there is any."""
    with tempfile.TemporaryFile("w+") as said:
        is_other = rtlib.fmt(crate.folder, "--check", said)
        said.seek(0)
        return (said.read().splitlines() or ["rt fmt would change it"]) if is_other else []


def lock(crates):
    """Waits until no other rt works on the crates and what is below them, and keeps others out while what it returns is held."""
    return rtlib.lock({it.folder: it for crate in crates for it in [*crate.below(), crate]}.values())


def prove(crate):
    """Proves a crate and what is below it, over what rt check kept, and makes the libraries. Returns whether all are proved."""
    for it in [*crate.below(), crate]:
        with open(os.devnull, "w", encoding="utf-8") as it.out:
            if it.check(["--jobs", "1"]) if it.is_program else it.build_rlib(["--jobs", "1"], anew=False):
                return False
    return True


def names_in(crate):
    """The prover's names of a proved crate's functions: as its library lists them; a program has none, so of its functions those that
    stand in no impl, as its source has them."""
    if crate.is_program:
        found = [it for path, text in texts_of(crate.folder).items() for it in functions(path, text) if not it.head]
        return {f"{module_of(it, crate.name)}::{it.name}" for it in found}
    found = json.loads(pathlib.Path(f"{crate.rlib}/toolchain/mir.json").read_text(encoding="utf-8"))
    return {name for name, *_ in found if name.startswith(f"{crate.name}::") and "::Destruct++" not in name}


def words_of(crate, names, kept):
    """The words of a check of these functions, over the work that the folder `kept` holds, which goes on past what is refused."""
    only = [word for it in sorted(names) for word in ("--only", it.partition("::")[2])]
    words = crate.words(["--jobs", "1", "--allow-holes", *only], keeps=False)
    return [*guard(), rtlib.RATTLE, "check", *words, "--incremental", kept]


def proof_of(name):
    """Where the prover keeps a function's proof, as it names that."""
    crate, *path = name.split("::")
    return ".".join(["Rattle", crate, "proofs", *path])


def can_leave(name):
    """Whether a hole can stand for a function's proof: of one that no other function encloses."""
    return re.fullmatch(r"[\w:]+", name) is not None and "::fn::" not in name


def leave_hole(folder, name):
    """Puts a hole in the place of a function's proof, in a copy of its crate."""
    path = name.split("::")[1:]
    at = "/".join([folder, "proofs", *path])
    for file in PROOF_FILES:
        pathlib.Path(f"{at}/{file}").unlink(missing_ok=True)
    write(f"{at}/{PROOF_FILES[-1]}", HOLE.format(place=proof_of(name), name=path[-1]))
