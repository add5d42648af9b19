#!/usr/bin/env python3
"""Times thousands of solves under assumptions over one long list of clauses, beside solvers used as libraries.

    bench/incremental.py PROGRAM [FAMILY ..] [--solves N] [--clauses N] [--sample N] [--cuts WORDS] [--write FOLDER]

PROGRAM is the built program (crates/craig/out/craig). The families are

    reach      random graphs, unrolled: is a target reached at step k, under the activation literals of the steps up to k?
    bound      soft clauses whose violations a sequential counter counts: can so many of them be kept, under a bound that
               each solve moves by one, up after a refutation and down after a model?
    enumerate  the inputs that give gates of a circuit certain values, each model blocked by a clause that holds under an
               assumption

and each list has about N clauses, 100000 if not said, in two parts. A script is asked line by line, so that each answer has
a time of its own, with the processor time of the program beside the time on the clock; then the same script is run whole,
with its solves and without them. Then the first solves are asked over a list that was doubled by clauses of two literals
over variables of their own, few or many of them, which no solve touches, and one solve is asked again and again. Lists of
their own end the run: one clause among many, one clause asked again and again, and conflicts behind a chain of implications.

A C++ compiler `c++` and the libraries of MiniSat and PicoSAT are used where they are installed: a small program then answers
the same script with each. So is `minisat`, which is run on its own for a sample of the solves, with the assumptions as
clauses. Answers that differ are an error. Nothing here is a test: it prints figures to compare in one run.
"""

import argparse
import os
import random
import shutil
import subprocess
import sys
import tempfile
import threading
import time

# The library programs: they answer the lines of a script, but that no circuit is written.
PEER = r"""
#include <cstdio>
#include <cstdlib>
#include <string>
#include <vector>
#ifdef MINISAT
#include <minisat/core/Solver.h>
using namespace Minisat;
static Solver solver;
static Minisat::Lit lit(int l) {
    while (solver.nVars() <= std::abs(l)) solver.newVar();
    return Minisat::mkLit(std::abs(l), l < 0);
}
static void add(const std::vector<int>& c) {
    Minisat::vec<Minisat::Lit> v;
    for (size_t i = 0; i < c.size(); i++) v.push(lit(c[i]));
    solver.addClause(v);
}
static bool solve(const std::vector<int>& a) {
    Minisat::vec<Minisat::Lit> v;
    for (size_t i = 0; i < a.size(); i++) v.push(lit(a[i]));
    return solver.solve(v);
}
static bool failed(int l) {
    for (int i = 0; i < solver.conflict.size(); i++) if (solver.conflict[i] == ~lit(l)) return true;
    return false;
}
static int greatest() { return solver.nVars() - 1; }
static bool value(int v) { return solver.modelValue(v) == l_True; }
static void start() {}
#else
extern "C" {
#include <picosat/picosat.h>
}
static PicoSAT* solver;
static void add(const std::vector<int>& c) {
    for (size_t i = 0; i < c.size(); i++) picosat_add(solver, c[i]);
    picosat_add(solver, 0);
}
static bool solve(const std::vector<int>& a) {
    for (size_t i = 0; i < a.size(); i++) picosat_assume(solver, a[i]);
    return picosat_sat(solver, -1) == PICOSAT_SATISFIABLE;
}
static bool failed(int l) { return picosat_failed_assumption(solver, l); }
static int greatest() { return picosat_variables(solver); }
static bool value(int v) { return picosat_deref(solver, v) > 0; }
static void start() { solver = picosat_init(); }
#endif
int main() {
    start();
    char* line = 0;
    size_t room = 0;
    std::vector<int> lits;
    while (getline(&line, &room, stdin) > 0) {
        char* at = line;
        lits.clear();
        if (line[0] == 'a') {
            strtol(at + 4, &at, 10);
            while (int l = strtol(at, &at, 10)) lits.push_back(l);
            add(lits);
            puts("ok");
        } else if (line[0] == 's') {
            at += 6;
            while (strtol(at, &at, 10)) lits.push_back(strtol(at, &at, 10));
            if (solve(lits)) {
                fputs("s SATISFIABLE\nv ", stdout);
                for (int v = 1; v <= greatest(); v++) printf("%d ", value(v) ? v : -v);
                puts("0");
            } else {
                fputs("s UNSATISFIABLE\nf ", stdout);
                for (size_t i = 0; i < lits.size(); i++) if (failed(lits[i])) printf("%d ", lits[i]);
                puts("0\na 0");
            }
        } else {
            puts("ok");
        }
        fflush(stdout);
    }
    return 0;
}
"""


class Reach:
    """Random graphs of sixteen states in four classes, of which each step leads from one to the next, unrolled: a state has
    one of two predecessors in the step before, and where the input of the step is true, some have one of them alone. A
    target asks two graphs for a state each, of one class."""

    states, classes, steps = 16, 4, 98

    def __init__(self, clauses, solves):
        source = random.Random(1)
        self.targets = max(1, solves // self.steps)
        self.last, self.clauses = 0, []
        self.count = max(2, round((clauses / self.steps - 2 * self.targets) / (1.25 * self.states)))
        graphs = [[self.predecessors(source, state) for state in range(self.states)] for _ in range(self.count)]
        wanted = []
        for _ in range(self.targets):
            one, other = source.sample(range(self.count), 2)
            state = source.randrange(self.states)
            among = range(state % self.classes, self.states, self.classes)
            wanted.append([(one, state), (other, source.choice(among))])
        now = [[self.new() for _ in range(self.states)] for _ in graphs]
        self.clauses += [(1, [state[0]]) for state in now]
        self.clauses += [(1, [-other]) for state in now for other in state[1:]]
        self.active, self.reached = [], []
        for step in range(self.steps):
            part, active, read = self.part(step), self.new(), self.new()
            after = [[self.new() for _ in range(self.states)] for _ in graphs]
            for graph, old, new in zip(graphs, now, after):
                for state, (before, narrow) in enumerate(graph):
                    self.clauses.append((part, [-active, -new[state]] + [old[one] for one in before]))
                    if narrow:
                        self.clauses.append((part, [-active, -new[state], -read, old[before[0]]]))
            self.active.append(active)
            self.reached.append([self.new() for _ in wanted])
            for reached, target in zip(self.reached[-1], wanted):
                self.clauses += [(part, [-reached, after[one][state]]) for one, state in target]
            now = after

    def predecessors(self, source, state):
        """Two states of the class before, and whether the input may leave the first alone."""
        among = [one for one in range(self.states) if (one + 1 - state) % self.classes == 0]
        return source.sample(among, 2), source.random() < 0.25

    def new(self):
        self.last += 1
        return self.last

    def part(self, step):
        return 1 if step < self.steps // 2 else 2

    def commands(self):
        """Yields the lines behind the clauses, and is sent the answer to each `solve`."""
        for step in range(self.steps):
            for reached in self.reached[step]:
                known = [(self.part(earlier), self.active[earlier]) for earlier in range(step + 1)]
                yield solve_line(known + [(self.part(step), reached)])


class Bound:
    """Soft clauses of three literals, most of whose variables are assumed, and a sequential counter of those that are given
    up. Each solve exchanges two of the assumed values, and moves the bound by one."""

    def __init__(self, clauses, solves):
        source = random.Random(2)
        width = 100
        soft = max(20, clauses // (2 * width))
        self.source, self.solves, self.width = source, solves, width
        self.free = max(4, soft // 40)
        self.last = max(8, min(99, soft // 5)) + self.free
        self.assumed = [source.choice((-1, 1)) * variable for variable in range(1, self.last - self.free + 1)]
        self.clauses, before = [], []
        inputs = range(1, self.last + 1)
        for place in range(soft):
            part = 1 if place < soft // 2 else 2
            violated = self.new()
            self.clauses.append((part, [source.choice((-1, 1)) * one for one in source.sample(inputs, 3)] + [violated]))
            count = [self.new() for _ in range(width)]
            self.clauses.append((part, [-violated, count[0]]))
            for bit in range(width if before else 0):
                self.clauses.append((part, [-before[bit], count[bit]]))
                if bit + 1 < width:
                    self.clauses.append((part, [-violated, -before[bit], count[bit + 1]]))
            before = count
        self.count = before

    def new(self):
        self.last += 1
        return self.last

    def commands(self):
        bound = self.width // 2
        for _ in range(self.solves):
            model = yield solve_line([(1, literal) for literal in self.assumed] + [(2, -self.count[bound])])
            bound = min(self.width - 1, max(0, bound - 1 if model is not None else bound + 1))
            for place in self.source.sample(range(len(self.assumed)), 2):
                self.assumed[place] = -self.assumed[place]


class Enumerate:
    """A circuit of random gates. All inputs but six have an assumed value, and three gates too; each model is blocked by a
    clause over the six, under an assumption of its own for these values."""

    inputs, free, outputs = 80, 6, 3

    def __init__(self, clauses, solves):
        source = random.Random(3)
        self.source, self.solves = source, solves
        self.last, self.clauses, self.gates = self.inputs, [], []
        while len(self.clauses) < clauses:
            part = 1 if len(self.clauses) < clauses // 2 else 2
            one, other = (source.choice((-1, 1)) * variable for variable in source.sample(range(1, self.last + 1), 2))
            self.last += 1
            gate, kind = self.last, source.choice(("and", "xor"))
            self.gates.append((gate, kind, one, other))
            if kind == "and":
                self.clauses += [(part, [-gate, one]), (part, [-gate, other]), (part, [gate, -one, -other])]
            else:
                self.clauses += [(part, [-gate, one, other]), (part, [-gate, -one, -other])]
                self.clauses += [(part, [gate, -one, other]), (part, [gate, one, -other])]

    def values(self, inputs):
        """The values of all variables."""
        values = [False] + inputs
        of = lambda literal: values[abs(literal)] != (literal < 0)
        for _, kind, one, other in self.gates:
            values.append(of(one) and of(other) if kind == "and" else of(one) != of(other))
        return values

    def commands(self):
        done = 0
        late = [gate for gate, _, _, _ in self.gates[len(self.gates) // 2:]]
        while done < self.solves:
            values = self.values([self.source.random() < 0.5 for _ in range(self.inputs)])
            signed = lambda variable: variable if values[variable] else -variable
            order = self.source.sample(range(1, self.inputs + 1), self.inputs)
            self.last += 1
            held = [(2, self.last)] + [(1, signed(one)) for one in order[self.free:]]
            held += [(2, signed(gate)) for gate in self.source.sample(late, self.outputs)]
            model = ()
            while model is not None and done < self.solves:
                done += 1
                model = yield solve_line(held)
                if model is not None:
                    true = set(model.split()[1:-1])
                    blocked = [-one if str(one).encode() in true else one for one in order[:self.free]]
                    yield add_line(2, [-self.last] + blocked)


FAMILIES = {"reach": Reach, "bound": Bound, "enumerate": Enumerate}


def add_line(part, literals):
    return "add %d %s 0\n" % (part, " ".join(map(str, literals)))


def solve_line(assumptions):
    return "solve %s 0\n" % " ".join("%d %d" % assumption for assumption in assumptions)


def untouched(last, count, variables):
    """Lines of so many clauses of two literals over new variables, which are true where all of these are false."""
    source = random.Random(4)
    return [
        add_line(1 + place % 2, [-(last + 1 + one) for one in source.sample(range(variables), 2)])
        for place in range(count)
    ]


def greatest(lines):
    """The greatest variable of clauses and assumptions."""
    return max(abs(int(word)) for line in lines for word in line.split()[2:])


class Session:
    """A program that is asked line by line."""

    def __init__(self, program):
        self.process = subprocess.Popen([program], stdin=subprocess.PIPE, stdout=subprocess.PIPE)
        # the clock of the time that another process has used, as Linux numbers these
        self.clock = (~self.process.pid << 3) | 2

    def used(self):
        return time.clock_gettime(self.clock)

    def tell(self, lines):
        """Sends lines that are answered by `ok`."""
        writer = threading.Thread(target=self.send, args=("".join(lines),))
        writer.start()
        for _ in lines:
            if self.process.stdout.readline() != b"ok\n":
                sys.exit("a line was refused")
        writer.join()

    def send(self, text):
        self.process.stdin.write(text.encode())
        self.process.stdin.flush()

    def ask(self, line):
        """The model or None, how many literals failed, the bytes of the circuit, and the seconds: used ones and on the
        clock."""
        used, clock = self.used(), time.perf_counter()
        self.send(line)
        read = self.process.stdout.readline
        first = read()
        second = read()
        if first == b"s SATISFIABLE\n":
            model, failed, size = second, 0, 0
        elif first == b"s UNSATISFIABLE\n":
            model, failed = None, len(second.split()) - 2
            size = int(read().split()[1])
            self.process.stdout.read(size)
        else:
            sys.exit("%r is no answer" % first)
        clock = time.perf_counter() - clock
        return model, failed, size, self.used() - used, clock

    def close(self):
        self.process.stdin.close()
        self.process.stdout.close()
        if self.process.wait() != 0:
            sys.exit("status %d" % self.process.returncode)


class Record:
    """What came of a script that was asked line by line."""

    def __init__(self):
        # the lines behind the clauses, and for each solve its answer, failed literals, bytes and seconds
        self.lines, self.answers, self.failed, self.sizes, self.used, self.clock = [], [], [], [], [], []

    def add(self, line, answer, failed, size, used, clock):
        self.lines.append(line)
        self.answers.append(answer)
        self.failed.append(failed)
        self.sizes.append(size)
        self.used.append(used)
        self.clock.append(clock)

    def of(self, answer, numbers):
        return [number for number, given in zip(numbers, self.answers) if given == answer]


def asked(program, start, commands):
    """Asks the lines that the generator gives, and sends it the models."""
    session, record = Session(program), Record()
    session.tell(start)
    model = None
    try:
        line = next(commands)
        while True:
            if line.startswith("solve"):
                model, failed, size, used, clock = session.ask(line)
                record.add(line, model is not None, failed, size, used, clock)
            else:
                session.tell([line])
                record.lines.append(line)
            line = commands.send(model if line.startswith("solve") else None)
    except StopIteration:
        session.close()
    return record


def again(lines):
    """The same lines, whatever the answers are."""
    for line in lines:
        yield line


def whole(program, lines):
    """The seconds on the clock of a run of the whole script, and what it put."""
    with tempfile.TemporaryFile() as script, tempfile.TemporaryFile() as out:
        script.write("".join(lines).encode())
        script.seek(0)
        clock = time.perf_counter()
        subprocess.run([program], stdin=script, stdout=out, check=True)
        return time.perf_counter() - clock


def alone(solver, clauses, lines, sample):
    """The mean seconds on the clock of a run of a solver on its own, with the assumptions as clauses, over some solves."""
    solves = [place for place, line in enumerate(lines) if line.startswith("solve")]
    chosen = solves[::max(1, len(solves) // sample)][:sample]
    total, answers = 0.0, []
    for place in chosen:
        more = [list(map(int, line.split()[2:])) for line in lines[:place] if line.startswith("add")]
        numbers = lines[place].split()[1:-1]
        texts = [" ".join(map(str, literals)) + " 0\n" for _, literals in clauses]
        texts += [" ".join(map(str, literals)) + "\n" for literals in more]
        texts += [literal + " 0\n" for literal in numbers[1::2]]
        last = max(abs(int(word)) for text in texts for word in text.split())
        with tempfile.NamedTemporaryFile("w") as file:
            file.write("p cnf %d %d\n" % (last, len(texts)) + "".join(texts))
            file.flush()
            clock = time.perf_counter()
            code = subprocess.run([solver, file.name], stdout=subprocess.DEVNULL).returncode
            total += time.perf_counter() - clock
        answers.append((solves.index(place), code == 10))
    return total / len(chosen), answers


def libraries(folder):
    """The programs over libraries that can be built here."""
    built = []
    compiler = shutil.which("c++")
    for name, words in (("MiniSat", ["-DMINISAT", "-lminisat"]), ("PicoSAT", ["-DPICOSAT", "-lpicosat"])):
        source, program = os.path.join(folder, "peer.cc"), os.path.join(folder, name)
        with open(source, "w") as out:
            out.write(PEER)
        command = [compiler, "-O2", words[0], source, "-o", program, words[1]]
        if compiler and subprocess.run(command, stderr=subprocess.DEVNULL).returncode == 0:
            built.append((name, program))
    return built


def mean(numbers):
    return 1000 * sum(numbers) / len(numbers) if numbers else float("nan")


def spread(numbers):
    """Mean, median and greatest in milliseconds, and the means of the first and of the last tenth."""
    if not numbers:
        return "%8s %8s %8s %8s %8s" % (("-",) * 5)
    tenth = max(1, len(numbers) // 10)
    return "%8.2f %8.2f %8.2f %8.2f %8.2f" % (
        mean(numbers), mean(sorted(numbers)[len(numbers) // 2:len(numbers) // 2 + 1]), mean([max(numbers)]),
        mean(numbers[:tenth]), mean(numbers[-tenth:]))


def same(name, one, other):
    if one != other:
        sys.exit("the answers of %s differ" % name)


def print_doubled(programs, start, lines, answers, count):
    """The time of the first solves as the list is, and where it is twice as long."""
    fewer = max(100, len(answers) // 10)
    solves = [place for place, line in enumerate(lines) if line.startswith("solve")]
    lines, answers = lines[:(solves + [len(lines)])[fewer] if fewer < len(solves) else len(lines)], answers[:fewer]
    last = greatest(start[2:] + lines)
    few, many = untouched(last, count, 1000), untouched(last, count, count)
    print("%-40s %9s %9s %9s %9s" % ("doubled, first %d, used ms" % len(answers), "model", "median", "none", "median"))
    for who, what in programs:
        for word, doubled in (
            ("as it is", start), ("few variables, behind", start + few),
            ("few variables, before", start[:2] + few + start[2:]),
            ("many variables, behind", start + many),
        ):
            other = asked(what, doubled, again(lines))
            same("the doubled list", answers, other.answers)
            cells = ""
            for answer in (True, False):
                used = sorted(other.of(answer, other.used))
                cells += " %9.3f %9.3f" % (mean(used), 1000 * used[len(used) // 2]) if used else " %9s %9s" % ("-", "-")
            print("%-40s%s" % ("%s, %s" % (who, word), cells), flush=True)


def print_repeated(programs, start, record):
    """The time of one solve that is asked again and again, with a model, and without one by most failed assumptions."""
    solves = [line for line in record.lines if line.startswith("solve")]
    start = start + [line for line in record.lines if not line.startswith("solve")]
    print("%-40s %9s %9s %9s %9s" % ("one solve again and again, used ms", "model", "last", "none", "last"))
    for who, what in programs:
        cells = ""
        for answer, times in ((True, max(10, len(solves) // 10)), (False, len(solves))):
            places = [place for place, given in enumerate(record.answers) if given == answer]
            if places:
                line = solves[max(places, key=lambda place: record.failed[place])]
                used = asked(what, start, again([line] * times)).used
                cells += " %9.3f %9.3f" % (mean(used[:times // 10]), mean(used[-(times // 10):]))
            else:
                cells += " %9s %9s" % ("-", "-")
        print("%-40s%s" % (who, cells), flush=True)


def print_lengths(programs, count):
    """A refutation by one clause of a list, and a model of it, where the other clauses are over 1000 variables. The first
    solve looks at each clause once, so it stands by itself."""
    lengths = (count, 2 * count, 4 * count)
    print("%-40s" % "by length of the list, used ms" + "".join(" %9d" % length for length in lengths))
    for who, what in programs:
        cells = {"none": "", "none, the first": "", "model": "", "model, the first": ""}
        for length in lengths:
            start = ["parts 2\n", "cuts 1\n", add_line(1, [-1, 2])] + untouched(2, length, 1000)
            for word, line, times in (("none", solve_line([(1, 1), (2, -2)]), 2000), ("model", "solve 0\n", 100)):
                used = asked(what, start, again([line] * times)).used
                cells[word] += " %9.3f" % mean(used[1:])
                cells[word + ", the first"] += " %9.3f" % (1000 * used[0])
        for word, figures in cells.items():
            print("%-40s%s" % ("%s, %s" % (who, word), figures), flush=True)


def print_short(programs, times):
    """A list of one clause, all of whose literals fail, asked again and again; and solves that meet one conflict each, which
    rests on a chain of literals that the clauses force."""
    print("%-40s %9s %9s" % ("one clause, %d times, used ms" % times, "first", "last"))
    for who, what in programs:
        start = ["parts 2\n", "cuts 1\n", add_line(1, [-variable for variable in range(1, 100)] + [100])]
        line = solve_line([(1, variable) for variable in range(1, 100)] + [(2, -100)])
        used = asked(what, start, again([line] * times)).used
        print("%-40s %9.3f %9.3f" % (who, mean(used[:times // 10]), mean(used[-(times // 10):])), flush=True)
    lengths = (10, 1000, 10000)
    print("%-40s" % "a conflict behind a chain, used ms" + "".join(" %9d" % length for length in lengths))
    for who, what in programs:
        cells = ""
        for length in lengths:
            start = ["parts 2\n", "cuts 1\n", add_line(1, [1])]
            start += [add_line(1 + 2 * variable // length, [-variable, variable + 1]) for variable in range(1, length)]
            lines = []
            for one in range(length + 1, length + 1 + times // 10, 2):
                start += [add_line(2, [-length, one, one + 1]), add_line(2, [-length, one, -one - 1])]
                lines.append(solve_line([(2, -one)]))
            cells += " %9.3f" % mean(asked(what, start, again(lines)).used)
        print("%-40s%s" % (who, cells), flush=True)


def main():
    options = argparse.ArgumentParser(usage=__doc__)
    options.add_argument("program")
    options.add_argument("families", nargs="*", default=list(FAMILIES))
    options.add_argument("--solves", type=int, default=2000)
    options.add_argument("--clauses", type=int, default=100000)
    options.add_argument("--sample", type=int, default=5)
    options.add_argument("--cuts", default="1")
    options.add_argument("--write")
    given = options.parse_args()
    program = os.path.abspath(given.program)
    with tempfile.TemporaryDirectory() as folder:
        peers = libraries(folder)
        for name in given.families:
            family = FAMILIES[name](given.clauses, given.solves)
            start = ["parts 2\n", "cuts %s\n" % given.cuts] + [add_line(*clause) for clause in family.clauses]
            last = family.last
            record = asked(program, start, family.commands())
            lines, answers = record.lines, record.answers
            if given.write:
                with open(os.path.join(given.write, name + ".craig"), "w") as out:
                    out.write("".join(start + lines))
            most = max(len(line.split()) // 2 - 1 for line in lines if line.startswith("solve"))
            print("%s: %d clauses, %d variables, %d solves under up to %d assumptions, %d with a model and %d without" % (
                name, len(family.clauses), last, len(answers), most, sum(answers), len(answers) - sum(answers)))
            adds = [line for line in lines if not line.startswith("solve")]
            print("%-22s %9s %9s %9s %9s %7s" % ("whole script", "reading s", "whole s", "ms/solve", "less read", "ratio"))
            base = None
            for who, what in [("craig", program)] + peers:
                took, reading = whole(what, start + lines), whole(what, start + adds)
                each = 1000 * (took - reading) / len(answers)
                base = each if base is None else base
                print("%-22s %9.2f %9.2f %9.3f %9.3f %7.2f" % (
                    who, reading, took, 1000 * took / len(answers), each, base / each), flush=True)
            if shutil.which("minisat") and given.sample:
                took, sampled = alone("minisat", family.clauses, lines, given.sample)
                same("minisat", [answers[place] for place, _ in sampled], [answer for _, answer in sampled])
                print("%-22s %9s %9.2f %9.3f %9s %7.2f" % (
                    "minisat, run each time", "-", took * len(answers), 1000 * took, "-", base / (1000 * took)))
            print("%-22s %8s %8s %8s %8s %8s %8s" % (
                "asked, used ms", "clock ms", "mean", "median", "greatest", "first", "last"))
            records = [("craig", record)]
            for who, what in peers:
                other = asked(what, start, again(lines))
                same(who, answers, other.answers)
                records.append((who, other))
            for who, other in records:
                for answer, word in ((True, "model"), (False, "none")):
                    clock, used = other.of(answer, other.clock), other.of(answer, other.used)
                    print("%-22s %8.2f %s" % ("%s, %s" % (who, word), mean(clock), spread(used)))
            sizes, failed = record.of(False, record.sizes), record.of(False, record.failed)
            if sizes:
                print("circuits of cuts %s: %d bytes on average, %d the greatest; %.1f failed assumptions on average" % (
                    given.cuts, sum(sizes) / len(sizes), max(sizes), sum(failed) / len(failed)))
            print_doubled([("craig", program)] + peers[:1], start, lines, answers, len(family.clauses))
            print_repeated([("craig", program)] + peers[:1], start, record)
            print()
        print_lengths([("craig", program)] + peers, given.clauses)
        print_short([("craig", program)] + peers, 5 * given.solves)


if __name__ == "__main__":
    main()
