#!/usr/bin/env python3
"""Says where the code leaves the forms of docs/ARCHITECTURE.md that a script can see.

    bench/forms.py

Prints a line for each place, and ends with status 1 where there is one:

- a definition of `specs/`, or a field of a record there, without a comment line above it;
- a clause of a contract with more than 140 characters, but in a module of laws, whose clauses begin with quantifiers,
  and where it is one word of `specs/` that is applied to names;
- a file of `src/` that doesn't begin with what it does;
- a test outside of the crates of rows;
- a lemma whose statement stands in two files, but for the names of what is bound.
"""

import collections
import glob
import os
import re
import sys

ROOT = os.path.dirname(os.path.dirname(os.path.abspath(__file__)))
CRATES = os.path.join(ROOT, "crates")
LONGEST = 140

DEFINITION = re.compile(r"(?:abbrev |unfoldable )?pub (?:abbrev |record |data |unfoldable )?\S+.* :|pub (?:record|data) ")
FIELD = re.compile(r"\s+pub \S+ :")
CLAUSE = re.compile(r"\s*(?:requires|ensures)(?: \w+)? \{ (.*) \}[;,]?$")
SAYS_MORE = re.compile("[→×≡λ]|record")
LEMMA = re.compile(r"(?:pub )?([A-Za-z_][\w'-]*) : (.*→.*)$")


def files(pattern):
    """The files of all crates that the pattern names, without what `rt` made."""
    found = glob.glob(os.path.join(CRATES, pattern), recursive=True)
    return sorted(path for path in found if "/out/" not in path)


def name_of(path):
    """The path from the top of the repository."""
    return os.path.relpath(path, ROOT)


def lines_of(path):
    """The lines of a file."""
    with open(path, encoding="utf-8") as text:
        return text.read().split("\n")


def uncommented():
    """Definitions and fields without a comment."""
    for path in files("*/specs/**/*.antt"):
        lines = lines_of(path)
        for place, line in enumerate(lines):
            if not (DEFINITION.match(line) or FIELD.match(line)) or line.startswith("pub mod"):
                continue
            above = place - 1
            while above > 0 and lines[above].startswith("infix"):
                above -= 1
            if not lines[above].strip().startswith("--"):
                yield "%s:%d: no comment: %s" % (name_of(path), place + 1, line.strip()[:60])


def long_clauses():
    """Clauses of contracts that want a word."""
    for path in files("*/src/**/*.rt"):
        if "laws" in os.path.relpath(path, CRATES):
            continue
        for place, line in enumerate(lines_of(path)):
            found = CLAUSE.match(line)
            if found and len(found.group(1)) > LONGEST and SAYS_MORE.search(found.group(1)):
                yield "%s:%d: a clause of %d characters" % (name_of(path), place + 1, len(found.group(1)))


def headless():
    """Files that don't say what they do."""
    for path in files("*/src/**/*.rt"):
        if not lines_of(path)[0].startswith("//!"):
            yield "%s: no head" % name_of(path)


def tests():
    """Tests beside code."""
    for path in files("*/src/**/*.rt"):
        if not os.path.relpath(path, CRATES).startswith("craig_rows_"):
            for place, line in enumerate(lines_of(path)):
                if line.strip() in ("#[test]", "#[cfg(test)]"):
                    yield "%s:%d: a test beside code" % (name_of(path), place + 1)


def statement(text):
    """The statement of a lemma, with its bound names numbered as they come."""
    bound = set()
    for group in re.findall(r"[({]([^():{}]+) : ", text) + re.findall(r"λ ([^.]*)\.", text):
        bound.update(re.findall(r"[\w']+", group))
    numbers = {}
    words = []
    for word in re.findall(r"[\w'-]+|\S", text):
        words.append("%%%d" % numbers.setdefault(word, len(numbers)) if word in bound else word)
    return " ".join(words)


def copies():
    """Lemmas that stand in two files."""
    stands = collections.defaultdict(list)
    for path in files("*/proofs/**/*.antt"):
        for line in lines_of(path):
            found = LEMMA.match(line)
            if found and "goal." not in found.group(2):
                stands[statement(found.group(2))].append("%s (%s)" % (found.group(1), name_of(path)))
    for places in stands.values():
        if len({place.split("(")[1] for place in places}) > 1:
            yield "one lemma: " + ", ".join(places)


def main():
    """Prints all of them."""
    faults = [*uncommented(), *long_clauses(), *headless(), *tests(), *copies()]
    for fault in faults:
        print(fault)
    sys.exit(1 if faults else 0)


if __name__ == "__main__":
    main()
