"""Where the functions of a Rattle file stand, what the prover calls them, and which of them a crate's users can call.

Files are read by their lines, as `rt fmt` lays them out: an item's body opens at the end of its first line or of a line with the same
margin, and closes with a brace at that margin. The gate refuses every other layout.
"""
import functools
import glob
import itertools
import os
import pathlib
import re
from dataclasses import dataclass

ITEM = re.compile(r"( *)(?P<public>pub(?:\([^)]*\))? )?(?P<words>(?:(?:const|ghost|unsafe) )*)(?P<kind>fn|mod|impl|trait)\b ?(?P<name>\w*)")
GENERICS = re.compile(r"^<(?:->|[^<>]|<(?:->|[^<>]|<[^<>]*>)*>)*>")
CLAUSE = re.compile(r"\b(requires|ensures|ghost|decreases)\b")
# Traits whose impl is told as a whole, since one method of it says all.
STANDARD = "From TryFrom Into Display Debug PartialEq Eq PartialOrd Ord Hash Iterator Default Clone Drop Deref Borrow AsRef Index Error".split()


@dataclass(frozen=True)
class Function:
    """A function with a body, which opens and closes at these places of the text. Its lines, from that of the word fn, are counted from 1."""

    path: str
    modules: tuple
    head: str  # of the impl or trait that it stands in, or ''
    name: str
    is_public: bool
    is_meaning: bool  # a const or ghost one: its body may stand in the meaning of others
    is_empty: bool
    opens: int
    closes: int
    first_line: int
    last_line: int


@functools.cache
def text_of(file):
    """The text of a file, as it was when it was first asked for: edits are made to what they were read against."""
    return pathlib.Path(file).read_text(encoding="utf-8", errors="replace")


def write(file, text):
    """Writes a file, and makes its folder where there is none."""
    os.makedirs(os.path.dirname(file), exist_ok=True)
    pathlib.Path(file).write_text(text, encoding="utf-8")


def opening(lines, first, margin):
    """The line on which the body of an item opens that begins on this one, both from 0; None where it has none."""
    for at in range(first, len(lines)):
        line = lines[at]
        if line.endswith(("{", "{}")) and (at == first or re.match(rf"{margin}[{{)>]", line)):
            return at
        # (what goes on stands farther in, but for these; else the next item begins)
        if at > first and line.strip() and not re.match(rf"{margin}( |\)|>|where)", line):
            return None
    return None


@functools.cache
def functions(path, text):
    """The functions of a file that have a body."""
    lines, found, around, at = text.split("\n"), [], [(None, (), "")], 0
    begins = [0, *itertools.accumulate(len(it) + 1 for it in lines)]
    while at < len(lines):
        item, first = ITEM.match(lines[at]), at
        at += 1
        if lines[first] == around[-1][0]:
            around.pop()
        opens = opening(lines, first, item[1]) if item else None
        if opens is None:
            continue
        ends, (_, modules, head) = f"{item[1]}}}", around[-1]
        if item["kind"] == "fn":
            closes = opens if lines[opens].endswith("{}") else lines.index(ends, opens)
            is_empty = all(re.match(r" *(//|$)", it) for it in lines[opens + 1 : closes])
            what = (path, modules, head, item["name"], item["public"] == "pub ", re.search("const|ghost", item["words"]) is not None, is_empty)
            places = begins[opens] + lines[opens].rindex("{"), begins[closes] + lines[closes].rindex("}")
            found.append(Function(*what, *places, first + 1, closes + 1))
            at = closes + 1
        elif not lines[opens].endswith("{}"):
            head = " ".join(" ".join(lines[first : opens + 1]).split()).removeprefix("pub ").removesuffix("{").strip()
            around.append((ends, (*modules, item["name"]), "") if item["kind"] == "mod" else (ends, modules, head))
            at = opens + 1
    return found


# ---- heads of impls --------------------------------------------------------------------------------------------------------


def last_word(of_type):
    """The last name of a type's path, without its parameters."""
    plain = re.sub(r"<.*", "", of_type.strip().lstrip("&").removeprefix("mut ").strip())
    return re.sub(r".*::", "", plain)


def of_head(head):
    """The trait of an impl's head with its parameters, or '', and the type."""
    body = re.sub(r"\bwhere\b.*", "", head.removeprefix("impl").removeprefix("trait").strip())
    trait, _, of_type = GENERICS.sub("", body).rpartition(" for ")
    return trait.strip(), last_word(of_type)


def label(function):
    """What a page calls the function: `Type::name`, `Trait for Type` for a trait of std, or its name."""
    if not function.head:
        return function.name
    trait, of_type = of_head(function.head)
    if function.head.startswith("trait") or last_word(trait) not in STANDARD:
        return f"{of_type}::{function.name}"
    return f"{re.sub(r'^[^<]*::', '', trait)} for {of_type}"


# ---- the prover's names ----------------------------------------------------------------------------------------------------


def module_of(function, crate):
    parts = function.path[len("src/") : -len(".rt")].split("/")
    return "::".join([crate, *(parts[:-1] if parts[-1] in ("lib", "main", "mod") else parts), *function.modules])


def names_of(function, crate, known):
    """The prover's names for the function, of those known: not one where it cannot be told.

    A method of `impl Trait<Arg> for Type` is `module::TypeTraitArg::name`, where parts are left out that are not needed."""
    module = module_of(function, crate)
    if not function.head:
        return [it for it in known if it == f"{module}::{function.name}"]
    trait, of_type = of_head(function.head)
    begins, arguments = of_type + last_word(trait), re.findall(r"\w+", trait.partition("<")[2])
    found = {}
    for it in known:
        *above, owner, name = it.split("::")
        is_named = not arguments or any(word in owner for word in arguments)
        if name == function.name and (owner == begins or trait and owner.startswith(begins) and is_named):
            # (the module tells more than the whole name)
            found[it] = "::".join(above) == module, owner == begins + "".join(arguments)
    return [it for it, told in found.items() if told == max(found.values())]


def without_bodies(path, text, crate, taken, known):
    """The text of a file with nothing in the bodies of the functions that are taken by their contracts, each line where it was."""
    for it in sorted(functions(path, text), key=lambda it: -it.opens):
        names = names_of(it, crate, known)
        if len(names) == 1 and names[0] in taken and not (it.is_meaning or it.is_empty or it.head.startswith("trait")):
            lines = "\n" * text.count("\n", it.opens, it.closes)
            text = f"{text[: it.opens + 1]} unreachable!() {lines}{text[it.closes :]}"
    return text


# ---- what users of a crate can call ----------------------------------------------------------------------------------------


def texts_of(folder):
    """The files of src/ that are no tests, by their path in the crate, with their text."""
    paths = glob.glob(f"{folder}/src/**/*.rt", recursive=True)
    found = {os.path.relpath(it, folder): text_of(it) for it in sorted(paths, key=lambda it: (os.path.dirname(it), it))}
    tests = set()
    for path, text in found.items():
        above = os.path.dirname(path) if re.search(r"/(lib|main|mod)\.rt$", path) else path[: -len(".rt")]
        tests |= {f"{above}/{it}" for it in re.findall(r"^#\[cfg\(test\)\]\nmod (\w+);", text, re.M)}
    return {path: text for path, text in found.items() if not any(path == f"{it}.rt" or path.startswith(f"{it}/") for it in tests)}


def public_functions(folder):
    """The functions that users of the crate can call, in the order of the files; of a program, those of its modules."""
    texts = texts_of(folder)
    is_program, root = "src/main.rt" in texts, texts.get("src/lib.rt", "")
    # (the files of public modules, and the names that the root passes on)
    public = {f"src/{it}.rt" for it in re.findall(r"^pub mod (\w+);", root, re.M)} | {"src/lib.rt"}
    used = re.findall(r"^pub use [\w:]+?::(\{[^}]*\}|\w+);", root, re.M)
    passed = {re.sub(r".* as ", "", it.strip()) for names in used for it in names.strip("{}").split(",")}
    types = {}
    for path, text in texts.items():
        for is_pub, it in re.findall(r"^ *(pub )?(?:struct|enum|trait) (\w+)", text, re.M):
            types[it] = bool(is_pub) and (is_program or path in public or it in passed)

    def is_reached(it, text):
        trait, of_type = of_head(it.head)
        # (a Drop without clauses promises no more than a derived one)
        if it.is_empty or it.is_meaning or it.head.startswith("trait") or trait == "Drop" and not CLAUSE.search(text, text.rfind("fn", 0, it.opens), it.opens):
            return False
        if trait:
            return types.get(of_type, is_program) and types.get(last_word(trait), True)
        return it.is_public and (types.get(of_type, False) if it.head else is_program or it.path in public or it.name in passed)

    return [it for path, text in texts.items() for it in functions(path, text) if is_reached(it, text)]


def labels(folder):
    """What a page calls each function that users of the crate can call: with its file's name, where two would be called the same."""
    public = public_functions(folder)
    free = [it.name for it in public if not it.head]
    stem = lambda it: os.path.basename(it.path)[: -len(".rt")]
    return {it: f"{stem(it)}::{it.name}" if not it.head and free.count(it.name) > 1 else label(it) for it in public}
