"""Runs rt ci, the judge of all proofs, programs and stored runs, and tells in short what it says, and why what failed did."""
import os
import re
import shutil
import subprocess
import time
from dataclasses import dataclass

from costs import Watch
from kit import guard, lanes

LAST = re.compile(r"^(\d+) passed, (\d+) failed$", re.M)
# Of a crate that an earlier run on this machine proved, by the checksums of all that it read, rt ci says that it is kept.
PROVED = re.compile(r"rt: (\w+) (?:proved|is kept: an earlier run on this machine proved .*)\n")
NOT_PROVED = re.compile(r"rt: \w+(?:: its tests are)? NOT PROVED")
# An edit of must-fail/ that could not be tried: rt ci tells of it, and counts it neither as passed nor as failed.
BAD_EDIT = re.compile(r"^rt: ((?:must-fail )?\S+: BAD EDIT: .*)$", re.M)
# The lines of a crate's part of the log that say why it, or its tests, are not proved.
SECTION = r"^== {0}(?:: its tests)?\n(.*?)^rt: {0}(?:: its tests are)? (?:NOT PROVED|proved)$"
REASON = re.compile(r"^(?:(?:\./)?\S+\.(?:rt|antt):\d+:\d+: error|fn \S+: (?:not proved|no proof)|rt: (?!chose|note)|rattle: ).*$", re.M)
MOST_REASONS = 6


@dataclass
class Judged:
    passed: int
    failed: list  # texts, with crate, file and reason
    are_proved: bool
    costs: list  # of each process that rt ci started, as a Watch tells them
    seconds: float  # of processor, all that rt ci started
    clock: float


def run(root, crates, file, when_proved, when_refused):
    """Runs rt ci with its output in the file, and shows it in short form as it goes. when_proved is told of each crate that is proved,
    whose library then stands, and when_refused where a proof fails. rt ci ends with this process."""
    for crate in crates:
        # (libraries that earlier checks left, which rt ci would put back in place of its own)
        shutil.rmtree(f"{crate.folder}/out/rlib", ignore_errors=True)
    begun, text, named = time.time(), "", {it.name: it for it in crates}
    # (one job a proof: more cost more of processor, and the wrong bodies beside it take what cores it leaves; rt ci then plans no memory)
    how = {"cwd": root, "stdin": subprocess.DEVNULL, "stdout": subprocess.PIPE, "stderr": subprocess.STDOUT, "env": {**os.environ, "RT_JOBS": str(lanes())}}
    ran = subprocess.Popen([*guard(), "rt", "ci"], text=True, errors="replace", **how)
    watch = Watch(ran.pid)
    with open(file, "w", encoding="utf-8") as log:
        for line in ran.stdout:
            log.write(line)
            text += line
            if line.startswith("rt: ") and not line.startswith(("rt: chose", "rt: note")):
                print(f"{(time.time() - begun) / 60:5.1f} min  {line[4:].rstrip()[:150]}", flush=True)
            proved = PROVED.fullmatch(line)
            if proved and proved[1] in named:
                when_proved(named[proved[1]])
            elif NOT_PROVED.match(line):
                when_refused()
    _, status, usage = os.wait4(ran.pid, 0)
    ran.returncode = os.waitstatus_to_exitcode(status)
    return judged(text, ran.returncode, watch.costs(), usage.ru_utime + usage.ru_stime, time.time() - begun)


def judged(text, status, *costs):
    """What an output of rt ci, which ended with this status, comes to."""
    last, named = LAST.findall(text), re.findall(r"^rt: FAILED: (.*)$", text, re.M)
    passed, number = map(int, last[-1]) if last else (0, 1)
    failed = [f"{it}: {reason_of(text, it)}" for it in re.findall(r"\S+(?: \((?:tests|run)\))?", named[-1])] if named and last else []
    failed += BAD_EDIT.findall(text)
    if (number or status) and not failed:
        failed = [f"rt ci ended with status {status}: {' '.join(text.split(chr(10))[-4:])[-400:]}"]
    return Judged(passed, failed, bool(last) and "NOT PROVED" not in text and passed > 0, *costs)


def reason_of(text, what):
    """What the log of rt ci says of a failure: of an edit, CRATE/EDIT; a run, 'CRATE (run)' or 'CRATE (tests)'; or a crate's proof."""
    name, _, kind = what.partition(" ")
    found = re.findall(rf"^rt: (?:must-fail )?{re.escape(name)}(?: \([^)]*\))?: (.*)$", text, re.M)
    if kind == "(tests)":
        # (the tests write right before the line that tells how they ended)
        wrote = text.partition(f"rt: {name}: its tests FAILED")[0].rpartition("\nrt: ")[2]
        found = re.findall(r"^test .*(?:FAILED|failed).*$|^.*panicked.*$", wrote, re.M)
    elif not kind and "/" not in name:
        found = [it for body in re.findall(SECTION.format(name), text, re.M | re.S) for it in REASON.findall(body)][:MOST_REASONS]
        found = found or re.findall(rf"^rt: {name} NOT PROVED.*$", text, re.M)
    return "; ".join(it[:200] for it in found[-MOST_REASONS:]) or "see the log"
