"""What the pages name is there: files and folders, what is said to stand in them, and the names of code.

Looked at is what stands between backticks, outside of blocks.
"""
import os
import re

from source import text_of

# Where the paths of a page begin that does not stand beside them; all may begin at the top or in crates/, too.
HOMES = {"docs/CLASSFILE.md": "crates/cl_classfile"}
FOLDERS = "src specs proofs wrong must-fail".split()
# Pages whose every name of code is a word of the tree, or of a later stage, which the section of ARCHITECTURE.md names; and the section
# of another page, whose further words in backticks are bytes, codes and texts too.
NAMING = re.compile(r"(.*/)?README\.md|docs/(RULES|ARCHITECTURE|CLASSFILE)\.md")
NAMING_PAGE, NAMING_SECTION = "docs/FORMATS.md", "## Where each section is stated"
NAME = re.compile(r"(?!_)\w+(::\w+)*(?=[(<]|$)")
LATER = re.compile(r"^## Stages of the work$(.*?)^## ", re.M | re.S)
# Names of Rust, of the host and of programs beside this one.
OTHERS = set("Rc Cell RefCell strace statx openat mremap EINTR LD_PRELOAD clang".split())
RULE = ["Definition", "Code", "Proof", "Wrong bodies", "Examples"]


def spans(page, text):
    """The lines of a page by their numbers, each cut at its backticks, where every second piece stands between two; and whether its
    names are those of code."""
    is_block, is_naming = False, NAMING.fullmatch(page) is not None
    for number, line in enumerate(text.split("\n"), 1):
        is_block ^= line.startswith("```")
        if page == NAMING_PAGE and line.startswith("## "):
            is_naming = line == NAMING_SECTION
        if not is_block:
            yield number, line.split("`"), is_naming


class Tree:
    """The files and folders of a repository, and the words of each file of its code, with others that are known."""

    def __init__(self, root, files, known):
        self.root, self.places, self.words = root, set(files), [known]
        for it in files:
            if not it.endswith((".md", ".toml")):
                self.words.append(known.union(re.findall(r"\w+", f"{os.path.basename(it)} {text_of(f'{root}/{it}')}")))
            while it := os.path.dirname(it):
                self.places.add(it)

    def place(self, name, page):
        """Where a path leads; None where it is none of the repository, '' where it is one and leads nowhere."""
        parts = name.split("/")
        if not re.fullmatch(r"[\w.-]+(/[\w.-]*)+", name) or {"NAME", "out"} & {*parts}:
            return None
        homes = [HOMES.get(page, os.path.dirname(page)), "crates", ""]
        is_ours = homes[0].startswith("crates/") and parts[0] in FOLDERS
        if not is_ours and not any(os.path.join(it, parts[0]) in self.places for it in homes):
            return None
        found = (os.path.normpath(os.path.join(it, name)) + end for end in ("", ".antt", ".rt") for it in homes)
        return next((it for it in found if it in self.places), "")

    def holds(self, place, name):
        """Whether a file has this word or line, or a folder of edits this edit."""
        if os.path.isdir(f"{self.root}/{place}"):
            return f"{place}/{name}.edit" in self.places
        return re.search(rf"(?<!\w){re.escape(name.split('::')[-1])}(?!\w)", text_of(f"{self.root}/{place}"))


def unheld(tree, page, pieces):
    """Paths that lead nowhere, and names that are not where the line says: `a`, `b` in `PATH` and in `PATH`, `a` (`PATH`)."""
    names, last = [], []
    for before, said in zip(pieces[::2], pieces[1::2]):
        place = tree.place(said, page)
        if place == "":
            yield f"there is no {said}"
        if place and before in (" in ", " (", " and in "):
            last = last if before == " and in " else names
            yield from (f"{it} is not in {said}" for it in last if not tree.holds(place, it))
        names = [*(names if before in (", ", " and ", ", and ") else []), said] if place is None else []


def rules_are_found(text):
    """Each rule of RULES.md ends with the lines that say where it is found."""
    for rule in re.split(r"^### ", text, flags=re.M)[1:]:
        heads = re.findall(r"^- ([\w ]+): ", rule.split("\n## ")[0], re.M)
        if heads[-len(RULE) :] != RULE:
            yield f"docs/RULES.md: '{rule.split(chr(10))[0]}' does not end with the lines {', '.join(RULE)}"


def pages_name_what_is(root, files, _crates):
    """No page names a file, or a name of code, that is not there."""
    texts = {it: text_of(f"{root}/{it}") for it in files if it.endswith(".md")}
    later = LATER.search(texts.get("docs/ARCHITECTURE.md", ""))
    tree = Tree(root, files, OTHERS | set(re.findall(r"\w+", later[1] if later else "")))
    found = [*rules_are_found(texts.get("docs/RULES.md", ""))]
    if NAMING_SECTION not in texts.get(NAMING_PAGE, NAMING_SECTION):
        found.append(f"{NAMING_PAGE}: it has no section '{NAMING_SECTION}'")
    for page, text in texts.items():
        for number, pieces, is_naming in spans(page, text):
            found += [f"{page}:{number}: {it}" for it in unheld(tree, page, pieces)]
            named = [name for said in pieces[1::2] if (name := NAME.match(said))] if is_naming else []
            found += [f"{page}:{number}: nothing is named {it[0]}" for it in named if not any({*it[0].split("::")} <= words for words in tree.words)]
    return found
