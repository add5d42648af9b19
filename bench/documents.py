#!/usr/bin/env python3
"""Says where the documents and the code name different things.

    bench/documents.py

Three tests. Each word in backticks in README.md and docs/ that looks like a name of the code stands somewhere in the
code. Each call of docs/PROVED.md is a function of the crate whose heading it stands under, and each clause one of the
calls of its row. And each definition and record that the headline reaches, the contract of `craig_top` in its words and
in those that these are made of, is named in backticks in the first part of docs/DEFINITIONS.md. Prints what is missing,
and ends with status 1 then.

No test reads what a document says of a name: that is for a reader.
"""

import os
import re
import sys

ROOT = os.path.dirname(os.path.dirname(os.path.abspath(__file__)))
TOP_CALL = "crates/craig_top/src/top_call.rt"
DEFINITIONS = "docs/DEFINITIONS.md"
FIRST_PART = "# What the headline reaches"
CLAIMS = "docs/PROVED.md"

NAME = re.compile(r"[A-Za-z_][\w]*(?:[-'][\w]+)*")
QUOTED = re.compile(r"`([^`\n]+)`")
DEFINED = re.compile(r"(?:abbrev |unfoldable )*pub (?:abbrev )?(?:record |data )?([^\s:(]+)")
FUNCTION = re.compile(r"\s*(?:pub(?:\(crate\))? )?(?:final )?fn (\w+)")
CLAUSE = re.compile(r"\s*(?:(?:ensures|requires) (\w+) \{|ghost (\w+) = )")
IMPORT = re.compile(r"(?:ghost )?use Rattle\.(craig\w*)\.specs\.(\w+)(?:\.\{([^}]*)\}| as (\w+))?")


def read(path):
    """The text of a file of the repository."""
    with open(os.path.join(ROOT, path), encoding="utf-8") as file:
        return file.read()


def files(folder, ends):
    """The files below a folder of the repository whose names end so, built ones left out."""
    for path, folders, names in os.walk(os.path.join(ROOT, folder)):
        folders[:] = [name for name in folders if name != "out"]
        for name in names:
            if name.endswith(ends):
                yield os.path.relpath(os.path.join(path, name), ROOT)


# The words of the documents.

def documents():
    """The documents."""
    return ["README.md"] + sorted(files("docs", ".md"))


def code_words():
    """Every word of the code, of the names of its files and folders, and of the scripts."""
    words = set()
    for path in list(files("crates", (".rt", ".antt", ".edit"))) + list(files("bench", ".py")) + ["crates.txt"]:
        words.update(re.findall(r"\w+", read(path)))
        words.update(re.findall(r"\w+", path))
    return words


def quoted_names(text):
    """The words in backticks that are names of code: of two words or with a capital, and no text of a script."""
    for quoted in QUOTED.findall(text):
        for word in re.findall(r"\w+", quoted):
            if re.fullmatch(r"[a-z]+(_[a-z0-9]+)+|[A-Z][a-z]+\w*", word):
                yield word


def unknown_words():
    """The documents' names that are in no file of the code."""
    known = code_words()
    for path in documents():
        for word in sorted(set(quoted_names(read(path))) - known):
            yield "%s: `%s` is nowhere in the code" % (path, word)


# The clauses of the claims.

def contracts(crate):
    """The names of the clauses of each function of a crate."""
    found = {}
    for path in files("crates/%s/src" % crate, ".rt"):
        name = None
        for line in read(path).splitlines():
            function = FUNCTION.match(line)
            if function:
                name = function.group(1)
                found.setdefault(name, set())
            clause = CLAUSE.match(line)
            if clause and (name or clause.group(2)):
                found.setdefault(name, set()).add(clause.group(1) or clause.group(2))
    return found


def rows(text):
    """The rows of the claims: the crate of their heading, the calls and the clauses that they name.

    What stands behind a colon are fields of a clause, or definitions in it.
    """
    crate = None
    for line in text.splitlines():
        if line.startswith("## "):
            crate = line[3:].strip()
        if crate and line.startswith("| ") and not line.startswith("| Claim"):
            _, calls, clauses = line.strip("|").split(" | ")
            clauses, _, fields = clauses.partition(":")
            yield crate, QUOTED.findall(calls), QUOTED.findall(clauses), QUOTED.findall(fields)


def unknown_clauses():
    """The calls that are no functions of their crate, the clauses that their contracts lack, and unknown fields."""
    for crate, calls, clauses, fields in rows(read(CLAIMS)):
        known = contracts(crate)
        names = [call.split("::")[-1] for call in calls]
        theirs = set().union(*(known.get(name, set()) for name in names)) or set().union(set(), *known.values())
        for name in names:
            if name not in known and not name[0].isupper():
                yield "%s: `%s` is no call of %s" % (CLAIMS, name, crate)
        for clause in clauses:
            if clause not in theirs:
                yield "%s: `%s` is no clause of %s" % (CLAIMS, clause, ", ".join(names) or crate)
        for field in fields:
            if not is_field(field):
                yield "%s: `%s` is no field and no definition" % (CLAIMS, field)


def is_field(word):
    """Whether the word is a field of a record, or a definition."""
    named = re.compile(r"\bpub (?:record |abbrev )?%s\b" % re.escape(word))
    return any(named.search(read(path)) for path in files("crates", ".antt"))


# What the headline reaches.

class Module:
    """A file of definitions: the text of each, and where its other words come from."""

    def __init__(self, text):
        self.texts = {}
        self.imported = {}
        self.modules = {}
        name = None
        for line in text.splitlines():
            if line.startswith("use "):
                self.take_import(line)
                continue
            defined = DEFINED.match(line)
            if defined:
                name = defined.group(1)
            if name and not line.startswith("--"):
                self.texts[name] = self.texts.get(name, "") + line.split("--")[0] + "\n"

    def take_import(self, line):
        """Notes what a line brings in."""
        for crate, file, names, alias in IMPORT.findall(line):
            for word in NAME.findall(names):
                self.imported[word] = (crate, file)
            self.modules[alias or file] = (crate, file)


def modules():
    """The files of definitions by crate and name."""
    found = {}
    for path in files("crates", ".antt"):
        parts = path.split(os.sep)
        if parts[2] == "specs":
            found[parts[1], parts[-1][:-len(".antt")]] = Module(read(path))
    return found


def resolve(found, module, text):
    """The definitions that a text of a module names."""
    for alias, word in re.findall(r"\b(\w+)\.(\w+)", text):
        place = module.modules.get(alias)
        if place in found and word in found[place].texts:
            yield place, word
    for word in NAME.findall(text):
        place = module.imported.get(word)
        if place in found and word in found[place].texts:
            yield place, word


def reached(found):
    """The definitions that the contract of the top call names, and those that these name, and so on."""
    text = read(TOP_CALL)
    lines = text.splitlines()
    top = Module("\n".join(line[len("ghost "):] for line in lines if line.startswith("ghost use")))
    waiting = list(resolve(found, top, "\n".join(line for line in lines if "ensures" in line)))
    seen = set()
    while waiting:
        place, word = waiting.pop()
        if (place, word) in seen:
            continue
        seen.add((place, word))
        module = found[place]
        waiting += resolve(found, module, module.texts[word])
        waiting += [(place, other) for other in NAME.findall(module.texts[word]) if other in module.texts]
    return seen


def unsaid_definitions():
    """The definitions that the headline reaches and the document doesn't name."""
    part = read(DEFINITIONS).partition(FIRST_PART)[2].partition("\n# ")[0]
    said = {word for quoted in QUOTED.findall(part) for word in NAME.findall(quoted)}
    for (crate, file), word in sorted(reached(modules())):
        if NAME.fullmatch(word) and word not in said:
            yield "%s: `%s` of %s/specs/%s.antt is not said" % (DEFINITIONS, word, crate, file)


def main():
    found = list(unknown_words()) + list(unknown_clauses()) + list(unsaid_definitions())
    for fault in found:
        print(fault)
    sys.exit(1 if found else 0)


if __name__ == "__main__":
    main()
