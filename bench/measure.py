#!/usr/bin/env python3
"""measure.py PROGRAM FOLDER [--runs N] [NAME..] [-- WORD..]

Runs the built program on the bundles that references.py and parents.py wrote into a folder, all or those of these names, with these
further words, and prints a line of a table for each: what it is, its bytes, the seconds of processor, the least of so many runs (three),
and the greatest peak of memory, then the same of the bundle of about a megabyte, if there is one. A run that does not end with 0 is
marked. GNU time starts the program: a child's peak is never less than that of who started it, which python's is too great for."""
import os
import subprocess
import sys
import tempfile

import parents  # noqa: F401
import references  # noqa: F401
from making import MADE

TIME = ["/usr/bin/time", "--quiet", "--format=%U %S %M"]


def measured(program, path, words, runs):
    """Bytes, seconds and peak, as a table has them."""
    seconds, peaks, mark = [], [], ""
    for _ in range(runs):
        with open(path, "rb") as given, tempfile.NamedTemporaryFile("r") as told:
            command = [*TIME, f"--output={told.name}", program, "bundle", *words]
            status = subprocess.run(command, stdin=given, stdout=subprocess.DEVNULL, stderr=subprocess.DEVNULL).returncode
            user, system, peak = told.read().split()
        seconds.append(float(user) + float(system))
        peaks.append(int(peak) / 1024)
        mark = f" (status {status})" if status else mark
    return f"{os.path.getsize(path):,} | {min(seconds):.2f}{mark} | {max(peaks):.0f} MB"


def main(program, folder, *rest):
    names, words = list(rest), []
    if "--" in names:
        place = names.index("--")
        names, words = names[:place], names[place + 1 :]
    runs = 3
    if "--runs" in names:
        place = names.index("--runs")
        runs = int(names[place + 1])
        del names[place : place + 2]
    for name in names or MADE:
        _, what, _ = MADE[name]
        paths = [f"{folder}/{name}", f"{folder}/{name}_mb"]
        lines = [measured(program, path, words, runs) for path in paths if os.path.exists(path)]
        print(f"| `{name}`: {what} | {' | '.join(lines) or 'no such bundle'} |", flush=True)


if __name__ == "__main__":
    main(*sys.argv[1:])
