#!/usr/bin/env python3
"""Writes the rows of crates/classlink_rows, its `stdin` and what it has to print, and those of tests/program that are
made; all of them into one folder, if one is named."""
import sys

sys.dont_write_bytecode = True

import bundles
import descriptors
import files
import names
import parts
import pool
import texts
from notation import Rows


def write(path, text):
    with open(path, "w", encoding="ascii", newline="\n") as out:
        out.write(text)


def main():
    rows = Rows()
    for table in (names, descriptors, files, pool, parts, texts):
        table.make(rows)
    asked, run = sys.argv[1:2] * 2 or ("crates/classlink_rows", "tests/program")
    write(asked + "/stdin", "\n".join(rows.lines) + "\n")
    write(asked + "/stdout", "%d rows, 0 differ\n" % rows.count)
    write(run + "/made", bundles.text())


if __name__ == "__main__":
    main()
