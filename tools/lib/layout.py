"""The rules of the repository that are seen in seconds, before anything is proved.

A rule that is broken is a failure. What only should be mended is listed: long clauses, public functions with no edit.
"""
import os
import re
import subprocess

import kit
import names
import page
from edits import of_crate
from source import functions, names_of, text_of, texts_of

HANDLES = "Handles allowed: Threads, Wait."
MOST_LINES = 500
CLAUSE = re.compile(r"\s*(?:requires|ensures|ghost (?!use\b)\w+(?: =|:))")
MOST_COLUMNS = 100
TEXTS = (".rt", ".antt", ".md", ".edit", ".txt", ".py", ".java", ".c", ".toml", ".bundle", ".expected", ".dot", "")
# A relation or a type that a file of definitions states.
STATED = re.compile(r"^(?:(?:abbrev|unfoldable) )?pub (?:(?:abbrev|unfoldable|record|data) )?([A-Z]\w*)\b", re.M)
# A number of some paper or issue says nothing to a reader of the repository, which states its rules itself.
CITATION = re.compile(r"(?<!\.)\b(?:[Pp]aper|[Ii]ssue|[Rr]equest|[Dd]efinition|[Rr]ule)s? #?[DRW]?\d+\b|\b[TDRW]\d{1,2} ?\([ivx]+\)|\bW\d{1,2}\b")


def tracked(root):
    """The files of the repository; where git does not tell, all but what a check made."""
    ran = subprocess.run(["git", "ls-files"], cwd=root, capture_output=True, text=True)
    walked = (os.path.relpath(f"{at}/{it}", root) for at, _, names in os.walk(root) for it in names)
    found = sorted(it for it in walked if not {"out", ".git"} & {*it.split("/")}) if ran.returncode else ran.stdout.splitlines()
    return [it for it in found if os.path.isfile(f"{root}/{it}")]


def lines_of(root, files, ends):
    """The lines of the files whose names have one of these endings, each with its file and its number."""
    for it in files:
        if os.path.splitext(it)[1] in ends:
            yield from ((it, number, line) for number, line in enumerate(text_of(f"{root}/{it}").split("\n"), 1))


def handles(root, files, _crates):
    """HANDLES is the one line that the task gives."""
    said = text_of(f"{root}/HANDLES").strip() if "HANDLES" in files else "no such file"
    return [] if said == HANDLES else [f"HANDLES: it has to be '{HANDLES}', and is '{said[:80]}'"]


def nothing_made(_root, files, _crates):
    """Nothing that a check or build made is committed."""
    return [f"{it}: what a check made is never committed" for it in files if "out" in it.split("/")[:-1] or it.endswith(".pyc")]


def nothing_half_merged(root, files, _crates):
    """No text has the lines between which git leaves two versions."""
    marks = ("<" * 7 + " ", ">" * 7 + " ")
    return [f"{it}:{number}: two versions stand here" for it, number, line in lines_of(root, files, TEXTS) if line.startswith(marks)]


def stands_alone(root, files, _crates):
    """No text cites a paper's or an issue's number."""
    cited = ((it, number, CITATION.search(line)) for it, number, line in lines_of(root, files, TEXTS) if not it.startswith("tools/"))
    return [f"{it}:{number}: '{said[0]}' cites a number that the repository does not have" for it, number, said in cited if said]


def edits_apply(_root, _files, crates):
    """Each edit can be applied, and names functions of its crate."""
    found = []
    for crate in crates:
        edits, stray = of_crate(crate)
        found += [f"{it}: only edits, FILE.edit, and none.txt stand here" for it in stray]
        found += [f"{it}: {it.bad}" for it in edits if it.bad]
        named = [(it, name) for it in edits for name in sorted(it.refuses)]
        held = [it for path, text in texts_of(crate.folder).items() for it in functions(path, text)] if named else []
        found += [f"{it}: 'refuses:' names no function of the crate: {name}" for it, name in named if not any(names_of(at, crate.name, [name]) for at in held)]
    return found


def files_are_short(root, files, _crates):
    """No file of code is so long that nobody reads it to its end."""
    counted = ((it, text_of(f"{root}/{it}").count("\n")) for it in files if it.endswith((".rt", ".py")))
    return [f"{it}: {number} lines, over {MOST_LINES}" for it, number in counted if number > MOST_LINES]


def meanings_have_names(root, files, _crates):
    """No two files of definitions call a relation or a type by one name. (Functions may: as a method, each is of its own type.)"""
    found = {}
    for it in files:
        if re.fullmatch(r"crates/[^/]*/specs/.*\.antt", it):
            for name in STATED.findall(text_of(f"{root}/{it}")):
                found.setdefault(name, []).append(it)
    return [f"{', '.join(places)}: each defines {name}" for name, places in found.items() if len(places) > 1]


def code_is_laid_out(root, _files, crates):
    """Each file of code is as `rt fmt` lays it out: rt ci proves no crate else."""
    return [f"{os.path.relpath(it.folder, root)}: {why}: run rt fmt there" for it in crates for why in kit.not_laid_out(it)]


def code_is_checked(_root, files, crates):
    """Each file of code is one that a check reads: rt ci takes no other in the repository."""
    read = re.compile(rf"crates/({'|'.join(it.name for it in crates)})/(src|specs|proofs)/.*")
    code = [it for it in files if it.endswith((".rt", ".antt")) and not read.fullmatch(it)]
    return [f"{it}: no check reads it, since it lies in src/, specs/ or proofs/ of no crate" for it in code]


RULES = (
    handles,
    nothing_made,
    nothing_half_merged,
    code_is_checked,
    code_is_laid_out,
    meanings_have_names,
    stands_alone,
    files_are_short,
    edits_apply,
    names.pages_name_what_is,
)


def long_clauses(root, files):
    """The lines of clauses and of ghost members that are too long, whichever line of theirs it is."""
    found, depth = [], 0
    for it, number, line in lines_of(root, files, (".rt",)):
        depth = 0 if number == 1 else depth
        if depth > 0 or CLAUSE.match(line):
            depth = max(depth + line.count("{") - line.count("}"), 0)
            found += [f"{it}:{number}: a line of a clause has {len(line)} columns, over {MOST_COLUMNS}"] if len(line) > MOST_COLUMNS else []
    return found


def judged(root, crates):
    """How many rules hold, what breaks one, and what should be mended, by kind."""
    files = tracked(root)
    broken = [rule(root, files, crates) for rule in RULES]
    mend = {
        "clauses too long": long_clauses(root, files),
        "public functions without a wrong body": [f"{it.name}: {name} has no wrong body" for it in crates for name in page.lacking(it)],
    }
    return sum(not it for it in broken), [why for it in broken for why in it], mend
