#!/usr/bin/env python3
"""workers.py PROGRAM FOLDER: serves inputs of loads by several workers, and prints what that takes.

  20,000 classes from directories, each loaded once: by 1 and by 4 workers
  65,535 loads of these, from directories, and from a bundle: by 1, 4 and 64 workers
  65,535 resolutions of one reference: by 1, 4 and 64 workers

The inputs are those of loads.py and references.py, written into FOLDER. Each is served three times, with the output to nothing: a line
has the least seconds of the clock and of processor, and the greatest peak that was seen. Nothing else should run meanwhile."""
import os
import subprocess
import sys
import time

from loads import MANY, directories, many
from references import settled

TIMES = 3
EACH = 0.002  # seconds from one look at the peak to the next


def made(folder):
    os.makedirs(folder, exist_ok=True)
    directories(f"{folder}/directories")
    many(f"{folder}/many")
    settled(f"{folder}/settled")
    with open(f"{folder}/directories/once", "w", encoding="ascii") as out:
        out.writelines(f"load app p/C{n}\n" for n in range(MANY))


def peak_of(number):
    """The peak of a process so far, in MB. What wait4 tells would have the memory of this script in it, from before the program began."""
    try:
        with open(f"/proc/{number}/status", encoding="ascii") as file:
            return max(int(line.split()[1]) / 1000 for line in file if line.startswith("VmHWM:"))
    except (OSError, ValueError):
        return 0.0


def served(words, folder, given):
    """Seconds of the clock and of processor, and the peak as it was last seen, of one run."""
    peak = 0.0
    with open(given or os.devnull, "rb") as source:
        begun = time.perf_counter()
        started = subprocess.Popen(words, cwd=folder, stdin=source, stdout=subprocess.DEVNULL)
        while not (ended := os.wait4(started.pid, os.WNOHANG))[0]:
            peak = max(peak, peak_of(started.pid))
            time.sleep(EACH)
        seconds = time.perf_counter() - begun
    started.returncode = os.waitstatus_to_exitcode(ended[1])
    if started.returncode:
        sys.exit(f"{' '.join(words)}: status {started.returncode}")
    return seconds, ended[2].ru_utime + ended[2].ru_stime, peak


def main(program, folder):
    program, folder = os.path.realpath(program), os.path.realpath(folder)
    made(folder)
    below = f"{folder}/directories"
    inputs = [(f"{MANY:,} classes from directories", ["run", "loaders.toml", "once"], None, (1, 4)),
              ("65,535 loads from directories", ["run", "loaders.toml", "loads"], None, (1, 4, 64)),
              ("65,535 loads from a bundle", ["bundle"], f"{folder}/many", (1, 4, 64)),
              ("65,535 resolutions of one reference", ["bundle"], f"{folder}/settled", (1, 4, 64))]
    print("| input | workers | seconds | processor | peak |\n|---|---|---|---|---|")
    for name, words, given, workers in inputs:
        for count in workers:
            runs = [served([program, *words, "--workers", str(count)], below, given) for _ in range(TIMES)]
            seconds, processor, peak = min(it[0] for it in runs), min(it[1] for it in runs), max(it[2] for it in runs)
            print(f"| {name} | {count} | {seconds:.2f} | {processor:.2f} | {peak:.1f} MB |", flush=True)


if __name__ == "__main__":
    main(*sys.argv[1:])
