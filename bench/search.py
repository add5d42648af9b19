#!/usr/bin/env python3
"""Times how `craig` solves lists of clauses, beside other solvers on the same lists in the same run.

    bench/search.py PROGRAM [--families NAME ..] [--solvers NAME ..] [--seconds N] [--runs N] [--conflicts]

PROGRAM is the built program (crates/craig/out/craig), and each solver a program that reads a DIMACS file, `minisat`,
`cadical` and `picosat` if none is named; one that isn't installed is left out. The lists are those of `clause_lists.py`,
all families if none is named. `craig` is asked for the outer cuts alone, so its time has no interpolant in it, and it keeps
its proof. All solvers run on one list in turn, and the median of N runs is taken, 1 if not said. Times are processor
seconds, memory is the largest resident set as GNU `time` counts it, ratios are those of `craig` to each solver, and a run
that takes longer than N seconds, 60 if not said, is cut off. Answers that differ are an error. The last lines have the geometric means of the ratios
over the lists that take MiniSat 0.1 seconds or more.

With `--conflicts` the number of conflicts is put beside that of MiniSat. `craig` doesn't print it: it is the least limit
under which the list is decided, found by halving, for lists that take it at most 5 seconds and MiniSat 0.1 or more. Nothing
here is a test: it prints figures to compare in one run.
"""

import argparse
import math
import os
import re
import resource
import shutil
import statistics
import sys
import tempfile

import clause_lists

# the greatest conflict limit of a script
GREATEST_LIMIT = 100000
# from so many seconds of MiniSat on a list counts for the means
LEAST_SECONDS = 0.1


def write_files(folder, clauses):
    """The clauses as the lines of a script in two parts, and as a DIMACS text."""
    script, dimacs = os.path.join(folder, "script"), os.path.join(folder, "dimacs")
    with open(script, "w") as out:
        out.write("parts 2\ncuts 0 2\n")
        for place, clause in enumerate(clauses):
            out.write("add %d %s 0\n" % (1 + place % 2, " ".join(map(str, clause))))
    with open(dimacs, "w") as out:
        out.write("p cnf %d %d\n" % (max(abs(literal) for clause in clauses for literal in clause), len(clauses)))
        for clause in clauses:
            out.write(" ".join(map(str, clause)) + " 0\n")
    return script, dimacs


class Run:
    """A run of a program: what it printed, its processor seconds, and its largest resident set in kilobytes; no text where
    it was cut off."""

    def __init__(self, words, given, seconds):
        with tempfile.TemporaryFile() as out, tempfile.NamedTemporaryFile("r") as memory:
            child = os.fork()
            if child == 0:
                resource.setrlimit(resource.RLIMIT_CPU, (seconds, seconds + 1))
                os.dup2(os.open(given, os.O_RDONLY), 0)
                os.dup2(out.fileno(), 1)
                # a child of this process by itself would count the memory of the interpreter as its own
                os.execvp("time", ["time", "-q", "-f", "%M", "-o", memory.name] + words)
            _, status, usage = os.wait4(child, 0)
            out.seek(0)
            # above 128 for a program that a signal has ended
            self.text = out.read() if os.WIFEXITED(status) and os.WEXITSTATUS(status) <= 128 else None
            self.memory = int(memory.read().split()[-1])
        self.seconds = usage.ru_utime + usage.ru_stime

    def answer(self):
        """Whether the clauses have a model; None where that wasn't decided."""
        if self.text is None or b"SAT" not in self.text:
            return None
        return b"UNSAT" not in self.text


def solved(program, script, seconds, limit=None):
    """A run of the program over the script, under the limit."""
    with tempfile.NamedTemporaryFile("w") as whole:
        with open(script) as lines:
            shutil.copyfileobj(lines, whole)
        if limit:
            whole.write("limit %d\n" % limit)
        whole.write("solve 0\n")
        whole.flush()
        return Run([program], whole.name, seconds)


def median(runs):
    """The run of median time among some of one list."""
    return sorted(runs, key=lambda run: run.seconds)[(len(runs) - 1) // 2]


def conflicts(program, script, seconds):
    """How many conflicts the program meets before it decides; None where they are more than the greatest limit."""
    low, high = 0, 1024
    while solved(program, script, seconds, min(high, GREATEST_LIMIT)).answer() is None:
        if high >= GREATEST_LIMIT:
            return None
        low, high = high, high * 2
    while high - low > max(1, high // 100):
        middle = (low + high) // 2
        if solved(program, script, seconds, middle).answer() is None:
            low = middle
        else:
            high = middle
    return high


def geometric(ratios):
    return math.exp(statistics.fmean(map(math.log, ratios))) if ratios else float("nan")


def cell(run, form="%.3f"):
    return "-" if run.text is None else form % run.seconds


def main():
    options = argparse.ArgumentParser(usage=__doc__)
    options.add_argument("program")
    options.add_argument("--families", nargs="+", default=list(clause_lists.FAMILIES))
    options.add_argument("--solvers", nargs="+", default=["minisat", "cadical", "picosat"])
    options.add_argument("--seconds", type=int, default=60)
    options.add_argument("--runs", type=int, default=1)
    options.add_argument("--conflicts", action="store_true")
    given = options.parse_args()
    program = os.path.abspath(given.program)
    solvers = [name for name in given.solvers if shutil.which(name)]
    columns = ["list", "answer", "craig s", "MB"] + [word for name in solvers for word in (name + " s", "ratio", "MB", "ratio")]
    print("| " + " | ".join(columns + (["conflicts", "minisat", "ratio"] if given.conflicts else [])) + " |")
    print("|" + "---|" * (len(columns) + 3 * given.conflicts))
    times, memories, counts, unsolved = {name: [] for name in solvers}, {name: [] for name in solvers}, [], []
    with tempfile.TemporaryDirectory() as folder:
        for family in given.families:
            for name, clauses in clause_lists.lists(family):
                script, dimacs = write_files(folder, clauses)
                runs = {solver: [] for solver in ["craig"] + solvers}
                for _ in range(given.runs):
                    runs["craig"].append(solved(program, script, given.seconds))
                    for solver in solvers:
                        runs[solver].append(Run([solver, dimacs], dimacs, given.seconds))
                ours, *others = [median(runs[solver]) for solver in runs]
                answers = {run.answer() for run in [ours] + others} - {None}
                if len(answers) > 1:
                    sys.exit("answers differ on %s" % name)
                counted = "minisat" in solvers and others[solvers.index("minisat")].seconds >= LEAST_SECONDS
                answer = {True: "sat", False: "unsat"}[answers.pop()] if answers else "-"
                line = [name, answer, cell(ours), "%.1f" % (ours.memory / 1024)]
                for solver, run in zip(solvers, others):
                    both = ours.text is not None and run.text is not None
                    time, memory = ours.seconds / max(run.seconds, 0.001), ours.memory / run.memory
                    line += [cell(run), "%.2f" % time if both else "-", "%.1f" % (run.memory / 1024), "%.2f" % memory if both else "-"]
                    if both and counted:
                        times[solver].append(time)
                        memories[solver].append(memory)
                    if ours.text is None and run.text is not None and solver == "minisat" and run.seconds <= 20:
                        unsolved.append(name)
                if given.conflicts:
                    line += compared(program, script, given.seconds, ours, others[solvers.index("minisat")], counted, counts)
                print("| " + " | ".join(line) + " |", flush=True)
    print()
    for solver in solvers:
        print("geometric means over %d lists, to %s: time %.2f, memory %.2f" % (len(times[solver]), solver, geometric(times[solver]), geometric(memories[solver])))
    if given.conflicts:
        print("geometric mean over %d lists of the conflicts to those of minisat: %.2f" % (len(counts), geometric(counts)))
    print("solved by minisat in 20 seconds and not by craig: %s" % (", ".join(unsolved) or "none"))


def compared(program, script, seconds, ours, minisat, counted, counts):
    """The columns of the conflicts, of which the ratio is noted."""
    found = re.search(rb"conflicts\s*:\s*(\d+)", minisat.text or b"")
    if not counted or found is None or ours.text is None or ours.seconds > 5:
        return ["", "", ""]
    count = conflicts(program, script, seconds)
    if count is None:
        return ["more than %d" % GREATEST_LIMIT, found[1].decode(), ""]
    counts.append(count / max(1, int(found[1])))
    return [str(count), found[1].decode(), "%.2f" % counts[-1]]


if __name__ == "__main__":
    main()
