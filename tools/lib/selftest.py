"""The trial of wrong bodies, tried on a crate of its own, whose edits each have to be told of for what they are.

Wrong bodies pass, two of one function and one of a constant among them, and a wrong definition. By name must be told: right bodies, of a
function that others turn and of one whose callee alone another turns too; a right definition; what does not compile; what is refused
for no reason of its own (the borrow checker does not cover it); and a line changed in no body.
"""
import contextlib
import io
import tempfile

import kit
import trial
from source import write

CODE = """//! A crate to try the tool on.
#![tactic(auto)]

ghost use Rattle.std.specs.Prelude.{◌≡◌, ◌+◌, ◌≤◌};
ghost use Rattle.tried.specs.Sums.{twice};

const STEP: u32 = 1;

pub fn next(n: u32) -> u32
    requires { n ≤ 1000 }
    ensures { result ≡ n + 1 }
{
    n + STEP
}

pub fn second(n: u32) -> u32
    requires { n ≤ 900 }
    ensures { result ≡ n + 2 }
{
    let first = next(n);
    next(first)
}

pub fn same(n: u32) -> u32
    ensures { result ≡ n }
{
    let same = n;
    same
}

pub fn counted(n: u32) -> u32
    ensures { result ≡ n }
{
    let mut i = 0;
    while i < n {
        i += 1;
    }
    i
}

pub fn halves(s: &mut [u8]) -> (&mut [u8], &mut [u8]) {
    let half = s.len() / 2;
    s.split_at_mut(half)
}

pub fn two()
    ensures { twice 1 ≡ 2 }
{}
"""

COUNTED = """use Rattle.std.proofs.Common.{◌-◌, ◌≤◌}
use Rattle.tried.proofs.counted.Given as goal

abbrev pub invariant-loop-i : goal.invariant-loop-i
invariant-loop-i l = l.i ≤ l.n

abbrev pub decreases-loop-i : goal.decreases-loop-i
decreases-loop-i l = l.n - l.i
"""

SUMS = """-- sums of a number with itself
use Rattle.std.specs.Prelude.{ℕ, ◌+◌}

-- two of them
abbrev pub twice : ℕ → ℕ
twice n = n + n
"""

# Each edit: what it turns into what, how the tool has to tell of it, and any further line.
EDITS = {
    "wrong": ("    n + STEP", "    n + STEP + 1", "refused", ""),
    "wrong_again": ("    n + STEP", "    n", "refused", ""),
    "right_again": ("    n + STEP", "    STEP + n", "NOT REFUSED", ""),
    "counted_less": ("    while i < n {", "    while i + 1 < n {", "refused", ""),
    "counted_right": ("        i += 1;", "        i = i + 1;", "NOT REFUSED", ""),
    "constant": ("const STEP: u32 = 1;", "const STEP: u32 = 2;", "refused", "refuses: tried::next\n"),
    "outside": ("const STEP: u32 = 1;", "const STEP: u32 = 2;", "BAD EDIT: line", ""),
    "caller_right": ("    let first = next(n);", "    let first: u32 = next(n);", "NOT REFUSED", ""),
    "right": ("    let same = n;", "    let same = n + 0;", "NOT REFUSED", ""),
    "uncompiled": ("    let same = n;", "    let same = m;", "BAD EDIT: it does not compile", ""),
    "hollow": ("    s.split_at_mut(half)", "    s.split_at_mut(s.len() / 2)", "NOT TOLD", ""),
    "definition": ("twice n = n + n", "twice n = n", "refused", "refuses: tried::two\n"),
    "definition_right": ("twice n = n + n", "twice n = (n + n)", "NOT REFUSED", "refuses: tried::two\n"),
}


def files():
    """The files of the repository of the throw-away crate, by their paths."""
    found = {"crates.txt": "tried:\n", "crates/tried/src/lib.rt": CODE, "crates/tried/proofs/counted/Invariants.antt": COUNTED}
    found |= {"crates/tried/specs/Lib.antt": "pub mod Sums\n", "crates/tried/specs/Sums.antt": SUMS}
    for name, (old, new, _, more) in EDITS.items():
        file = "specs/Sums.antt" if old in SUMS else "src/lib.rt"
        found[f"crates/tried/wrong/{name}.edit"] = f"{more}file: {file}\nold: {old}\nnew: {new}\n"
    return found


def run():
    """Tries the edits and says of each whether it was told of for what it is. Returns the exit status."""
    with tempfile.TemporaryDirectory(prefix="wrong-bodies-self-") as root:
        for path, text in files().items():
            write(f"{root}/{path}", text)
        with contextlib.redirect_stdout(io.StringIO()):
            tolds, failed = trial.try_all(kit.crates(root))
    found = {name: f"refused: {why}" for told in tolds for name, why in told.refused.items()}
    for told in tolds:
        found |= {edit.rpartition("/")[2]: why for edit, _, why in (it.partition(": ") for it in told.failed)}
    wrong = [name for name, (_, _, wanted, _) in EDITS.items() if not found.get(name, "").startswith(wanted)]
    for name, (_, _, wanted, _) in EDITS.items():
        print(f"{'WRONG' if name in wrong else 'ok'}: {name}: wanted {wanted}: {found.get(name, 'nothing was told of it')}")
    print(*failed, f"{len(EDITS) - len(wrong)} passed, {len(wrong) + len(failed)} failed", sep="\n")
    return 1 if wrong or failed else 0
