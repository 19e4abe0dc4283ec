"""What a run costs, crate by crate: processor seconds of proofs with builds, of tests and of edits, lines, and the largest process.

rt ci does not say what each crate costs, so while it runs the processes that it starts are looked at twice a second: each process of
the prover says by its words which crate it checks, and by its folder whether it tries an edit. What runs after the last look at a
process is missed; check tells how much that is of what the system counted.
"""
import contextlib
import glob
import os
import pathlib
import re
import threading

KINDS = ("proof", "tests", "edits")
TICKS = os.sysconf("SC_CLK_TCK")
BLINK = 0.5
# The budgets.
SECONDS_A_LINE = 0.1
TESTS_OF_PROOF = 1 / 3
MOST_GIGABYTES = 4.0
HEAD = """| crate | lines | proof, build | tests | edits | seconds | peak, GB |
|---|---|---|---|---|---|---|
"""


def read(path):
    return pathlib.Path(path).read_text(encoding="utf-8", errors="replace")


def kind_of(words, folder):
    """Which crate a process of the prover works on, and at what; None for another process."""
    if not words[0].endswith("/rattle") or "--crate-name" not in words:
        return None
    crate = words[words.index("--crate-name") + 1]
    if os.path.basename(folder).startswith("rt-edit-"):
        return crate, "edits"
    return crate, "tests" if "--test" in words else "proof"


class Watch:
    """Looks at the processes that one process has started, until it is stopped."""

    def __init__(self, above):
        self.above, self.seen, self.stopped = above, {}, threading.Event()
        self.thread = threading.Thread(target=self.run, daemon=True)
        self.thread.start()

    def run(self):
        while not self.stopped.wait(BLINK):
            for file in glob.glob(f"/proc/{self.above}/task/*/children"):
                # (what ends while it is looked at was seen before)
                with contextlib.suppress(OSError):
                    for process in read(file).split():
                        self.look(process)

    def look(self, process):
        """Notes of a process of the prover the most that it has used, what it has waited for included."""
        with contextlib.suppress(OSError):
            what = kind_of(read(f"/proc/{process}/cmdline").split("\0"), os.readlink(f"/proc/{process}/cwd"))
            # (what stands behind the name: times from the 12th word on, and the 20th is when it began)
            stat = read(f"/proc/{process}/stat").rpartition(") ")[2].split()
            peak = re.search(r"VmHWM:\s+(\d+)", read(f"/proc/{process}/status"))
            if what and peak:
                seconds = sum(map(int, stat[11:15])) / TICKS
                self.seen[process, stat[19]] = (*what, seconds, 1024 * int(peak[1]))

    def costs(self):
        """Stops looking, and returns what each process cost: its crate, of which kind it was, seconds, and the most bytes that it held."""
        self.stopped.set()
        self.thread.join()
        return [*self.seen.values()]


def lines_of(crate):
    """How many lines the crate has of code, definitions and proofs."""
    files = (it for part in ("src", "specs", "proofs") for it in glob.glob(f"{crate.folder}/{part}/**/*", recursive=True))
    return sum(read(it).count("\n") for it in files if it.endswith((".rt", ".antt")))


def marked(number, limit, form=".0f"):
    return f"**{number:{form}}**" if number > limit else f"{number:{form}}"


def table(crates, costs, edits):
    """The table of a run, whose costs are as a Watch tells them; `edits` is how many each crate has. What is over its budget is bold."""
    used = lambda kind, crate="": sum(it[2] for it in costs if it[1] == kind and crate in ("", it[0]))
    rows, of_all = [], 0
    for crate in crates:
        lines, (proof, tests, tried) = lines_of(crate), (used(kind, crate.name) for kind in KINDS)
        peak = max((it[3] for it in costs if it[0] == crate.name), default=0) / 1e9
        cells = [crate.name, f"{lines:,}", marked(proof, SECONDS_A_LINE * lines), marked(tests, TESTS_OF_PROOF * proof)]
        cells += [str(edits[crate.name]), f"{tried:.0f}", marked(peak, MOST_GIGABYTES, ".1f")]
        rows.append(f"| {' | '.join(cells)} |\n")
        of_all += lines
    proof, tests, tried = (f"{used(kind) / 60:.1f} min" for kind in KINDS)
    return f"{HEAD}{''.join(rows)}| all | {of_all:,} | {proof} | {tests} | {sum(edits.values())} | {tried} | |"
