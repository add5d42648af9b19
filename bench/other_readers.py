#!/usr/bin/env python3
"""Has other tools read circuits and clauses that `craig` wrote in each of its forms, and compares what they say.

    bench/other_readers.py [--program PROGRAM] [CIRCUITS [SEED]]

So many random circuits (100 if not said) and as many random lists of clauses are written by the program of
`random_circuits.py`. Each circuit is compared with its values by `Aig::value` under each assignment of its inputs:

- The ASCII text is given to yosys, and the binary text to yosys and berkeley-abc, as they are. The tools write what
  they have read as BLIF, which is evaluated here: every output has the same values under all assignments. Each is given
  a second time with marked names, as `with_marked_names` makes them: yosys and berkeley-abc take an input and an output
  of one name for one thing, and in the replies of `craig` two may have one name.
- The binary text is also what `binary_form` makes here of the ASCII text, byte for byte.
- The text of clauses is given to minisat, cadical and picosat, twice under each assignment of the inputs as unit
  clauses. They find a model, in which each root has its output's value; and none with the clause that some root has
  another value. So under each assignment each output, assumed, has exactly the value of the circuit.
- The binary text, read and written in the ASCII form by `craig` itself, is the ASCII text, byte for byte. The ASCII
  text, read and written in the binary form and back, is a circuit of the same functions, names and number of gates; it
  stands by the depth of its gates then, and is the same text if it makes the way once more.

The DIMACS text of each list of clauses has these very clauses, and minisat, cadical and picosat say of it whether it
has a model, as a walk over all assignments does.

Where PROGRAM is named, the built program (crates/craig/out/craig), it answers as many random scripts without a model,
each once in each format. The binary block is what `binary_form` makes of the ASCII one, and the block of clauses is
given to the solvers as above, with the values that the ASCII text has here.

Tools that aren't installed are left out. The first difference ends the run with status 1.
"""

import argparse
import concurrent.futures
import os
import random
import re
import shutil
import subprocess
import sys
import tempfile

from random_circuits import OUTPUTS, write_all

SOLVERS = ("minisat", "cadical", "picosat")


def read(folder, name):
    """The bytes of a file."""
    with open(os.path.join(folder, name), "rb") as file:
        return file.read()


def write(folder, name, data):
    """Writes bytes into a file, and gives its path."""
    path = os.path.join(folder, name)
    with open(path, "wb") as file:
        file.write(data)
    return path


class Values:
    """The names of a circuit's inputs, and of each output its name and its values."""

    def __init__(self, inputs, outputs):
        self.inputs, self.outputs, self.rows = inputs, outputs, range(1 << len(inputs))

    def of_text(text):
        """Those of a file: a line with the inputs, and one for each output."""
        first, *lines = text.decode().splitlines()
        return Values(first.split(), [tuple(line.split()) for line in lines])

    def assignment(self, row):
        """The values of the inputs under an assignment, by name."""
        return {name: row >> place & 1 == 1 for place, name in enumerate(self.inputs)}

    def wanted(self, row):
        """The values of the outputs under an assignment, in order."""
        return [values[row] == "1" for _, values in self.outputs]


# AIGER.

def symbols_of(text):
    """Where the symbols of a text of either form begin."""
    lines = text.split(b"\n")
    inputs, _, outputs, gates = map(int, lines[0].split()[2:6])
    if text.startswith(b"aag"):
        return sum(len(line) + 1 for line in lines[:1 + inputs + outputs + gates])
    place = sum(len(line) + 1 for line in lines[:1 + outputs])
    for _ in range(2 * gates):
        while text[place] > 127:
            place += 1
        place += 1
    return place


def with_marked_names(text):
    """The text with an x before the names of inputs and a y before those of outputs."""
    place = symbols_of(text)
    symbols = re.sub(rb"^i(\d+) ", rb"i\1 x", text[place:], flags=re.M)
    return text[:place] + re.sub(rb"^o(\d+) ", rb"o\1 y", symbols, flags=re.M)


def binary_form(text):
    """The binary form of an ASCII text in the layout that is written: rising gates, the greater operand first."""
    lines = text.split(b"\n")
    inputs, _, outputs, gates = map(int, lines[0].split()[2:6])
    form = b"aig" + lines[0][3:] + b"\n" + b"".join(line + b"\n" for line in lines[1 + inputs : 1 + inputs + outputs])
    deltas = bytearray()
    for line in lines[1 + inputs + outputs : 1 + inputs + outputs + gates]:
        own, left, right = map(int, line.split())
        for delta in (own - left, left - right):
            while delta > 127:
                deltas.append(delta & 127 | 128)
                delta >>= 7
            deltas.append(delta)
    return form + bytes(deltas) + b"\n".join(lines[1 + inputs + outputs + gates :])


class Ascii:
    """A circuit as an ASCII text writes it."""

    def __init__(self, text):
        lines = text.decode().splitlines()
        inputs, _, outputs, gates = map(int, lines[0].split()[2:6])
        numbers = [list(map(int, line.split())) for line in lines[1 : 1 + inputs + outputs + gates]]
        symbols = dict(line.split() for line in lines[1 + inputs + outputs + gates :])
        self.inputs = [(symbols["i%d" % place], words[0]) for place, words in enumerate(numbers[:inputs])]
        self.outputs = [(symbols["o%d" % place], words[0]) for place, words in enumerate(numbers[inputs : inputs + outputs])]
        self.gates = numbers[inputs + outputs :]

    def values(self, assignment):
        """The values of the outputs, in order."""
        known = {0: False}
        for name, literal in self.inputs:
            known[literal] = assignment[name]
        value = lambda literal: known[literal & ~1] != (literal & 1 == 1)
        for own, left, right in self.gates:
            known[own] = value(left) and value(right)
        return [value(literal) for _, literal in self.outputs]


def is_same_circuit(text, values):
    """Whether an ASCII text has the functions and the names."""
    circuit = Ascii(text)
    names = [name for name, _ in circuit.outputs] == [name for name, _ in values.outputs]
    return names and all(circuit.values(values.assignment(row)) == values.wanted(row) for row in values.rows)


def values_of(text):
    """The values of an ASCII text under each assignment of its inputs."""
    circuit = Ascii(text)
    inputs = Values([name for name, _ in circuit.inputs], [])
    rows = [circuit.values(inputs.assignment(row)) for row in inputs.rows]
    columns = ["".join("01"[bit] for bit in column) for column in zip(*rows)]
    return Values(inputs.inputs, [(name, column) for (name, _), column in zip(circuit.outputs, columns)])


def is_converted(folder, number, values):
    """Whether the circuit is the same however often its text was read and written in the other form."""
    aag, there = read(folder, "%d.aag" % number), read(folder, "%d.aag.aig" % number)
    back, again = read(folder, "%d.aag.aig.aag" % number), read(folder, "%d.aag.aig.aag.aig" % number)
    same = is_same_circuit(aag, values) and is_same_circuit(back, values)
    sizes = aag.split(b"\n")[0] == back.split(b"\n")[0]
    return same and sizes and there == again == binary_form(back) and read(folder, "%d.aig.aag" % number) == aag


# BLIF, which both tools write.

def read_blif(path):
    """The tables of a BLIF file: of each signal its operands and the rows where it has the row's last digit.

    Yosys puts a backslash before a name that is a number.
    """
    tables = {}
    current = None
    with open(path) as source:
        text = source.read().replace("\\\n", " ").replace(" \\", " ")
    for line in text.splitlines():
        words = line.split("#")[0].split() if not line.startswith(".names") else line.split()
        if not words:
            continue
        if words[0] == ".names":
            current = words[-1]
            tables[current] = (words[1:-1], [])
        elif words[0].startswith("."):
            current = None
        elif current is not None:
            tables[current][1].append(("", words[0]) if len(words) == 1 else tuple(words))
    return tables


def value(tables, name, assignment, known):
    """The value of a signal; a signal without a table is an input, and false where it has no value."""
    if name not in known:
        if name not in tables:
            known[name] = assignment.get(name, False)
        else:
            operands, rows = tables[name]
            values = [value(tables, operand, assignment, known) for operand in operands]
            meets = [all(c == "-" or (c == "1") == v for c, v in zip(row, values)) for row, _ in rows]
            known[name] = any(meets) == (not rows or rows[0][1] == "1") if rows else False
    return known[name]


def is_same_blif(path, values, marks):
    """Whether the outputs of a BLIF file have the values, where a mark stands before the inputs' and outputs' names."""
    tables = read_blif(path)
    for row in values.rows:
        assignment = {marks[0] + name: bit for name, bit in values.assignment(row).items()}
        known = {}
        for (name, _), wanted in zip(values.outputs, values.wanted(row)):
            if marks[1] + name not in tables or value(tables, marks[1] + name, assignment, known) != wanted:
                return False
    return True


def by_yosys(folder, names):
    """Has yosys read the files, and write each as BLIF."""
    lines = ["design -reset\nread_aiger %s\nwrite_blif %s.yosys.blif\n" % (name, name) for name in names]
    script = write(folder, "script.ys", "".join(lines).encode())
    subprocess.run(["yosys", "-q", "-s", script], cwd=folder, check=True, stdout=subprocess.DEVNULL)
    return "%s.yosys.blif"


def by_abc(folder, names):
    """Has berkeley-abc read the files, and write each as BLIF."""
    lines = ["read_aiger %s\nwrite_blif %s.abc.blif\n" % (name, name) for name in names]
    script = write(folder, "script.abc", "".join(lines).encode())
    subprocess.run(["berkeley-abc", "-q", "source -x " + script], cwd=folder, check=True, stdout=subprocess.DEVNULL)
    return "%s.abc.blif"


def compare_blif(folder, tool, by, ending, all_values, marks=("", "")):
    """Has a tool read the circuits of a form, and compares what it wrote."""
    if shutil.which(tool) is None:
        return
    pattern = by(folder, ["%d%s" % (number, ending) for number in all_values])
    for number, values in all_values.items():
        path = os.path.join(folder, pattern % ("%d%s" % (number, ending)))
        if not os.path.exists(path):
            sys.exit("circuit %d: %s does not read %s" % (number, tool, ending))
        if not is_same_blif(path, values, marks):
            sys.exit("circuit %d: another function in %s, from %s" % (number, tool, ending))
    print("%s: %d circuits read from %s, with the same functions of %d outputs" % (tool, len(all_values), ending, OUTPUTS))


# Clauses.

class Clauses:
    """A DIMACS text: its clauses, and the named roots of its comment lines."""

    def __init__(self, text):
        lines = text.decode().splitlines()
        self.roots = [line.split()[2:] for line in lines if line.startswith("c o ")]
        (header,) = [line.split() for line in lines if line.startswith("p ")]
        self.variables = int(header[2])
        self.clauses = [list(map(int, line.split())) for line in lines if line[0] not in "cp"]
        if header[:2] != ["p", "cnf"] or int(header[3]) != len(self.clauses) or any(clause.pop() != 0 for clause in self.clauses):
            sys.exit("no DIMACS text: %r" % text)

    def text(self, more):
        """The text of the clauses with more behind them."""
        clauses = self.clauses + more
        greatest = max([abs(literal) for clause in clauses for literal in clause] + [self.variables])
        lines = ["p cnf %d %d" % (greatest, len(clauses))] + [" ".join(map(str, clause + [0])) for clause in clauses]
        return "".join(line + "\n" for line in lines).encode()


def model_by(solver, folder, name, text):
    """The true literals of a model that the solver finds, or None where it finds that there is none."""
    path = write(folder, name, text)
    words = {"minisat": ["-verb=0", path, path + ".model"], "cadical": ["-q", path], "picosat": [path]}[solver]
    run = subprocess.run([solver] + words, capture_output=True, text=True)
    if run.returncode == 20:
        return None
    if run.returncode != 10:
        sys.exit("%s gives no answer for %s" % (solver, path))
    if solver == "minisat":
        lines = read(folder, name + ".model").decode().splitlines()[1:]
    else:
        lines = [line[1:] for line in run.stdout.splitlines() if line.startswith("v")]
    return {int(word) for line in lines for word in line.split()}


def truth(root, model):
    """The value of a root in a model."""
    return root == "T" if root in "TF" else int(root) in model


def has_values(solver, folder, number, values):
    """Whether the clauses give the roots the values of the outputs under each assignment, and no others."""
    clauses = Clauses(read(folder, "%d.cnf" % number))
    if [name for name, _ in clauses.roots] != [name for name, _ in values.outputs]:
        return False
    for row in values.rows:
        units = [[int(name) if bit else -int(name)] for name, bit in values.assignment(row).items()]
        wanted = values.wanted(row)
        model = model_by(solver, folder, "%d.%s" % (number, solver), clauses.text(units))
        if model is None or [truth(root, model) for _, root in clauses.roots] != wanted:
            return False
        pairs = [(root, bit) for (_, root), bit in zip(clauses.roots, wanted) if root not in "TF"]
        others = [-int(root) if bit else int(root) for root, bit in pairs]
        if model_by(solver, folder, "%d.%s" % (number, solver), clauses.text(units + [others])) is not None:
            return False
    return True


def is_satisfied(clause, assignment):
    """Whether a clause is true, where the assignment gives values to names."""
    return any(assignment[str(abs(literal))] == (literal > 0) for literal in clause)


def has_clauses(solver, folder, number, values):
    """Whether the DIMACS text has the clauses, and the solver says of it whether it has a model."""
    clauses = Clauses(read(folder, "%d.dimacs" % number))
    given = [set(map(int, line.split())) for line in read(folder, "%d.clauses" % number).decode().splitlines()]
    if [set(clause) for clause in clauses.clauses] != given:
        return False
    some = any(all(is_satisfied(clause, values.assignment(row)) for clause in given) for row in values.rows)
    text = read(folder, "%d.dimacs" % number)
    return (model_by(solver, folder, "%d.%s" % (number, solver), text) is not None) == some


def compare_clauses(folder, solver, what, test, all_values):
    """Has a solver look at the clauses of each circuit or list."""
    if shutil.which(solver) is None:
        return
    with concurrent.futures.ThreadPoolExecutor(2) as pool:
        found = pool.map(lambda item: test(solver, folder, *item), all_values.items())
        for number, same in zip(all_values, found):
            if not same:
                sys.exit("circuit %d: %s differ in %s" % (number, what, solver))
    print("%s: the %s of %d are the same" % (solver, what, len(all_values)))


# The replies of the program.

def script(seed):
    """A script over few variables, and its clauses."""
    source = random.Random(seed)
    variables, parts = source.sample(range(1, 90), 6), source.randint(2, 5)
    system = source.choice(("mcmillan", "pudlak", "dual", "inverse", "all"))
    clauses = [
        (source.randint(0, parts), [source.choice((-1, 1)) * variable for variable in source.sample(variables, source.randint(2, 3))])
        for _ in range(40)
    ]
    lines = ["parts %d" % parts, "system " + system]
    lines += ["add %d %s 0" % (part, " ".join(map(str, clause))) for part, clause in clauses]
    return "".join(line + "\n" for line in lines + ["solve 0"]).encode()


def block(program, form, lines):
    """The circuit of the last reply to a script in a format, or None where there is a model."""
    run = subprocess.run([program, "--format", form], input=lines, capture_output=True, check=True)
    place = run.stdout.rfind(b"\na ")
    if place < 0:
        return None
    length, _, text = run.stdout[place + 3 :].partition(b"\n")
    if len(text) != int(length):
        sys.exit("a block of %d bytes has %d" % (int(length), len(text)))
    return text


def replies(program, folder, count, first):
    """The values of so many replies without a model, by number; their blocks of clauses are left in the folder."""
    found, seed = {}, first
    while len(found) < count:
        lines = script(seed)
        aag, aig, cnf = (block(program, form, lines) for form in ("aag", "aig", "cnf"))
        if aag is not None:
            if aig != binary_form(aag):
                sys.exit("script %d: the binary form is another one" % seed)
            write(folder, "%d.cnf" % seed, cnf)
            found[seed] = values_of(aag)
        seed += 1
    return found


def compare_circuits(folder, count, first):
    """Compares the circuits and clauses of the program that stands in `random_circuits.py`."""
    write_all(folder, count, first)
    all_values = {number: Values.of_text(read(folder, "%d.values" % number)) for number in range(first, first + count)}
    for number, values in all_values.items():
        aag, aig = read(folder, "%d.aag" % number), read(folder, "%d.aig" % number)
        if aig != binary_form(aag):
            sys.exit("circuit %d: the binary form is another one" % number)
        if not is_converted(folder, number, values):
            sys.exit("circuit %d is another one once it is converted" % number)
        write(folder, "%d.marked.aag" % number, with_marked_names(aag))
        write(folder, "%d.marked.aig" % number, with_marked_names(aig))
    print("craig: %d circuits converted, with the same functions of %d outputs" % (count, OUTPUTS))
    for ending, marks in ((".aag", ("", "")), (".aig", ("", "")), (".marked.aag", ("x", "y")), (".marked.aig", ("x", "y"))):
        compare_blif(folder, "yosys", by_yosys, ending, all_values, marks)
        if ending.endswith("aig"):
            compare_blif(folder, "berkeley-abc", by_abc, ending, all_values, marks)
    for solver in SOLVERS:
        compare_clauses(folder, solver, "values by clauses", has_values, all_values)
        compare_clauses(folder, solver, "lists of clauses", has_clauses, all_values)


def compare_replies(program, folder, count, first):
    """Compares what the program replies in the formats."""
    all_values = replies(os.path.abspath(program), folder, count, first)
    for solver in SOLVERS:
        compare_clauses(folder, solver, "values of replies", has_values, all_values)


def main():
    options = argparse.ArgumentParser(usage=__doc__)
    options.add_argument("--program")
    options.add_argument("circuits", nargs="?", type=int, default=100)
    options.add_argument("seed", nargs="?", type=int, default=1)
    given = options.parse_args()
    if not any(map(shutil.which, ("yosys", "berkeley-abc") + SOLVERS)):
        sys.exit("no tool is installed")
    with tempfile.TemporaryDirectory() as folder:
        compare_circuits(folder, given.circuits, given.seed)
    if given.program:
        with tempfile.TemporaryDirectory() as folder:
            compare_replies(given.program, folder, given.circuits, given.seed)


if __name__ == "__main__":
    main()
