#!/usr/bin/env python3
"""Says whether the map of the code names what each crate stands on.

    bench/crates.py [--write]

docs/ARCHITECTURE.md has a table of the crates, whose last column says what each stands on, and crates.txt decides.
Prints where the two differ, and ends with status 1 where they do. With --write the column is written from crates.txt
first; a row that is missing is to be written by hand, since it says what the crate is for.
"""

import argparse
import os
import sys

ROOT = os.path.dirname(os.path.dirname(os.path.abspath(__file__)))
LIST = "crates.txt"
MAP = "docs/ARCHITECTURE.md"
HEADER = "| Crate | For | Stands on |"


def crates(text):
    """The libraries that each crate names, by crate, in the order of the list."""
    lines = [line.split("#")[0] for line in text.splitlines()]
    named = [line.split(":", 1) for line in lines if ":" in line]
    return {name.split()[0]: below.split() for name, below in named}


def table(lines):
    """The numbers of the lines of the table's rows."""
    first = lines.index(HEADER) + 2
    last = first
    while last < len(lines) and lines[last].startswith("|"):
        last += 1
    return range(first, last)


def cells(row):
    """The three cells of a row: the crate, what it is for, and what it stands on."""
    name, purpose, below = row.strip("|").split(" | ")
    return name.strip(" `"), purpose.strip(), below.strip()


def column(below):
    """What the last cell of a crate should say."""
    return ", ".join("`%s`" % name for name in below)


def row_of(name, purpose, below):
    """The row of a crate."""
    end = " %s |" % column(below) if below else " |"
    return "| `%s` | %s |%s" % (name, purpose, end)


def faults(listed, rows):
    """What differs, a line each."""
    mapped = [name for name, _, _ in rows]
    for name in listed:
        if name not in mapped:
            yield "%s has no row" % name
    for name, _, below in rows:
        if name not in listed:
            yield "%s is no crate of %s" % (name, LIST)
        elif below != column(listed[name]):
            yield "%s stands on %s" % (name, column(listed[name]) or "nothing")


def rewritten(lines, listed):
    """The lines with the last column of each known crate written anew."""
    new = list(lines)
    for number in table(lines):
        name, purpose, _ = cells(lines[number])
        if name in listed:
            new[number] = row_of(name, purpose, listed[name])
    return new


def read(path):
    """The text of a file of the repository."""
    with open(os.path.join(ROOT, path), encoding="utf-8") as file:
        return file.read()


def write(path, text):
    """Writes a file of the repository."""
    with open(os.path.join(ROOT, path), "w", encoding="utf-8") as file:
        file.write(text)


def main():
    parser = argparse.ArgumentParser(description=__doc__.split("\n")[0])
    parser.add_argument("--write", action="store_true", help="write the column from %s" % LIST)
    args = parser.parse_args()
    listed = crates(read(LIST))
    lines = read(MAP).splitlines()
    if HEADER not in lines:
        sys.exit("%s: no table with the head %s" % (MAP, HEADER))
    if args.write:
        lines = rewritten(lines, listed)
        write(MAP, "\n".join(lines) + "\n")
    found = list(faults(listed, [cells(lines[number]) for number in table(lines)]))
    for fault in found:
        print("%s: %s" % (MAP, fault))
    sys.exit(1 if found else 0)


if __name__ == "__main__":
    main()
