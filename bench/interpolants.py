#!/usr/bin/env python3
"""Times how long interpolants take beside the search whose refutation they are drawn from.

    bench/interpolants.py PROGRAM [--seconds N]

PROGRAM is the built program (crates/craig/out/craig). Each list of clauses is split into parts, and solved under
`system pudlak` with the outer cuts alone, which cost nothing beyond the search, then with one inner cut, with four and
with all of them, and under `system all` with all of them. The lists are a chain of implications with one in each part;
the reachable states of a counter of seven bits that moves by 1 or 2, unrolled, with a step in each part; two multipliers
with their factors exchanged and a row of partial products in each part; and random clauses of three literals, five and a
half for each variable, in eight parts in turn. Times are processor seconds of whole runs in turn, and the ratio is to the
run with the outer cuts. A run that takes longer than N seconds, 60 if not said, is cut off. Nothing here is a test: it
prints figures to compare in one run.
"""

import argparse
import os
import random
import resource
import sys
import tempfile

import clause_lists


def chain(parts):
    """A chain of implications from variable 1 to the last, one in each part, whose first is true and whose last isn't."""
    clauses = [(1, [1])] + [(part, [-part, part + 1]) for part in range(1, parts + 1)]
    return parts, clauses + [(parts, [-(parts + 1)])]


def counter(steps):
    """The unrolled counter with a step in each part, and the end in the last one."""
    clauses = clause_lists.counter(steps)
    start, each = 7, 46
    placed = [(1, clause) for clause in clauses[:start]]
    for step in range(steps):
        placed += [(step + 1, clause) for clause in clauses[start + each * step:start + each * (step + 1)]]
    return steps + 1, placed + [(steps + 1, clause) for clause in clauses[start + each * steps:]]


def multipliers(bits):
    """Two products of the same numbers, the second with the factors exchanged, which differ in some bit."""
    left, right = list(range(1, bits + 1)), list(range(bits + 1, 2 * bits + 1))
    gates = clause_lists.Gates(2 * bits)
    first = gates.product(left, right)
    gates.part += 1
    second = gates.product(right, left)
    differ = [gates.gate(clause_lists.XOR, [one, other]) for one, other in zip(first, second)]
    return gates.part, gates.placed + [(gates.part, differ)]


def dense(variables):
    """So many random clauses that no assignment makes them true, in eight parts in turn."""
    source = random.Random(variables)
    clauses = [
        [source.choice((-1, 1)) * variable for variable in source.sample(range(1, variables + 1), 3)]
        for _ in range(round(5.5 * variables))
    ]
    return 8, [(place % 8 + 1, clause) for place, clause in enumerate(clauses)]


FAMILIES = (
    [("chain %d" % parts, chain(parts)) for parts in (256, 1024, 4096)]
    + [("counter %d" % steps, counter(steps)) for steps in (12, 24, 48)]
    + [("multipliers %d" % bits, multipliers(bits)) for bits in (4, 5, 6, 7)]
    + [("random %d" % variables, dense(variables)) for variables in (150, 200, 300)]
)


def some_cuts(parts, count):
    """So many inner cuts, evenly spread."""
    return sorted({max(1, min(parts - 1, parts * place // (count + 1))) for place in range(1, count + 1)})


def settings(parts):
    """The columns: what each is called, and the lines that set it."""
    return [
        ("outer", ["cuts 0 %d" % parts]),
        ("1 cut", ["cuts %d" % some_cuts(parts, 1)[0]]),
        ("4 cuts", ["cuts " + " ".join(map(str, some_cuts(parts, 4)))]),
        ("all cuts", []),
        ("all systems", ["system all"]),
    ]


def run(program, lines, seconds):
    """The processor seconds of a run, and how many bytes it put; None where it was cut off."""
    with tempfile.TemporaryFile() as script, tempfile.TemporaryFile() as out:
        script.write(("\n".join(lines) + "\n").encode())
        script.seek(0)
        child = os.fork()
        if child == 0:
            resource.setrlimit(resource.RLIMIT_CPU, (seconds, seconds + 1))
            os.dup2(script.fileno(), 0)
            os.dup2(out.fileno(), 1)
            os.execv(program, [program])
        _, status, usage = os.wait4(child, 0)
        if os.WIFSIGNALED(status):
            return None, None
        out.seek(0)
        text = out.read()
    if b"\ns UNSATISFIABLE\n" not in text:
        sys.exit("no refutation")
    return usage.ru_utime + usage.ru_stime, len(text)


def main():
    options = argparse.ArgumentParser(usage=__doc__)
    options.add_argument("program")
    options.add_argument("--seconds", type=int, default=60)
    given = options.parse_args()
    program = os.path.abspath(given.program)
    names = [name for name, _ in settings(4096)]
    print("%-14s" % "clauses" + "".join(" %11s %7s" % (name, "ratio") for name in names) + "  bytes of the last")
    for name, (parts, clauses) in FAMILIES:
        line, least, size = "%-14s" % name, None, None
        for _, lines in settings(parts):
            script = ["parts %d" % parts] + lines + ["add %d %s 0" % (part, " ".join(map(str, clause))) for part, clause in clauses] + ["solve 0"]
            took, size = run(program, script, given.seconds)
            least = took if least is None else least
            ratio = "-" if took is None or least is None else "%.2f" % (took / max(least, 0.001))
            line += " %11s %7s" % ("-" if took is None else "%.3f" % took, ratio)
        print(line + "  %s" % size, flush=True)


if __name__ == "__main__":
    main()
