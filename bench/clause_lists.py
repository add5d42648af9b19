"""Families of lists of clauses, which several scripts here have solved.

Each family has ten lists of growing size, with and without models, and is a function without arguments that gives their
names and clauses. A clause is a list of literals as in DIMACS. All that is random comes from a seed of its own.
"""

import itertools
import random


def pigeons(holes, more=1):
    """Clauses that put so many pigeons more than there are holes into the holes, no two into one."""
    at = lambda pigeon, hole: 1 + pigeon * holes + hole
    some = [[at(pigeon, hole) for hole in range(holes)] for pigeon in range(holes + more)]
    apart = [
        [-at(one, hole), -at(two, hole)]
        for hole in range(holes) for one in range(holes + more) for two in range(one)
    ]
    return some + apart


def three(variables, ratio, seed=0):
    """Random clauses of three different variables, so many for each variable."""
    source = random.Random(1000 * variables + seed)
    return [
        [source.choice((-1, 1)) * variable for variable in source.sample(range(1, variables + 1), 3)]
        for _ in range(round(ratio * variables))
    ]


def planted(variables, ratio, seed=0):
    """Random clauses of three different variables that are true under a random assignment: with one or two true literals
    so often that a majority of signs doesn't betray it."""
    source = random.Random(1000 * variables + seed)
    model = [None] + [source.choice((-1, 1)) for _ in range(variables)]
    clauses = []
    while len(clauses) < round(ratio * variables):
        chosen = source.sample(range(1, variables + 1), 3)
        clause = [source.choice((-1, 1)) * variable for variable in chosen]
        true = sum(literal * model[abs(literal)] > 0 for literal in clause)
        # Jia, Moore and Strain, "Generating hard satisfiable formulas by hiding solutions deceptively", AAAI 2005
        if true and source.random() < 0.618 ** true:
            clauses.append(clause)
    return clauses


def counter(steps, bits=7):
    """A counter of so many bits that moves by 1 or 2 at each step from 0, and ends above twice the number of steps, which
    is to be less than the greatest number of these bits."""
    clauses = [[-bit] for bit in range(1, bits + 1)]
    for step in range(steps):
        base = 2 * bits * step
        state = [base + 1 + bit for bit in range(bits)]
        after = [base + 2 * bits + 1 + bit for bit in range(bits)]
        add_two = base + bits + 1
        carry = [None] + [base + bits + 1 + bit for bit in range(1, bits)]
        low = state[0]
        clauses += [[-carry[1], add_two, low], [carry[1], -add_two], [carry[1], -low]]
        clauses += [[after[0], low, add_two], [after[0], -low, -add_two], [-after[0], low, -add_two], [-after[0], -low, add_two]]
        for bit in range(1, bits):
            old, new, more = state[bit], after[bit], carry[bit]
            clauses += [[-new, old, more], [-new, -old, -more], [new, -old, more], [new, old, -more]]
            if bit < bits - 1:
                clauses += [[-carry[bit + 1], old], [-carry[bit + 1], more], [carry[bit + 1], -old, -more]]
    last = [2 * bits * steps + 1 + bit for bit in range(bits)]
    bound = 2 * steps + 1
    for bit in range(bits - 1, -1, -1):
        if bound >> bit & 1:
            clauses.append([last[bit]] + [last[high] for high in range(bit + 1, bits) if not bound >> high & 1])
    return clauses


XOR = lambda a, b: a != b
AND = lambda a, b: a and b
OR = lambda a, b: a or b
ODD = lambda a, b, c: (a + b + c) % 2 == 1
MOST = lambda a, b, c: a + b + c > 1
SELECT = lambda a, b, c: b if a else c


class Gates:
    """Clauses of gates, each clause in the part that is set when its gate is made."""

    def __init__(self, inputs):
        self.last, self.part, self.placed = inputs, 1, []

    def gate(self, function, operands):
        """A new variable with the value of the function of the operands."""
        self.last += 1
        for values in itertools.product((False, True), repeat=len(operands)):
            rest = [-operand if value else operand for operand, value in zip(operands, values)]
            self.placed.append((self.part, rest + [self.last if function(*values) else -self.last]))
        return self.last

    def constant(self):
        """A new variable that is false."""
        return self.gate(lambda: False, [])

    def sum(self, left, right, carry):
        """The bits of a sum with as many bits as the operands, the lowest first, and the carry behind them."""
        total = []
        for one, other in zip(left, right):
            total.append(self.gate(ODD, [one, other, carry]))
            carry = self.gate(MOST, [one, other, carry])
        return total, carry

    def product(self, left, right):
        """The bits of a product, the lowest first, with the partial products of each bit of the right in a part of its own."""
        total = [self.gate(AND, [bit, right[0]]) for bit in left]
        done = []
        for factor in right[1:]:
            self.part += 1
            done.append(total.pop(0))
            row = [self.gate(AND, [bit, factor]) for bit in left]
            carry = self.gate(lambda a: False, [row[0]])
            total.append(carry)
            summed, carry = self.sum(total, row, carry)
            total = summed + [carry]
        return done + total

    def differ(self, left, right):
        """A clause that some bits differ."""
        self.placed.append((self.part, [self.gate(XOR, [one, other]) for one, other in zip(left, right)]))

    def clauses(self):
        return [clause for _, clause in self.placed]


def multiplier(bits, first, last):
    """Two products of the same numbers, the second with the factors exchanged, of which some bit in a range differs."""
    left, right = list(range(1, bits + 1)), list(range(bits + 1, 2 * bits + 1))
    gates = Gates(2 * bits)
    one, other = gates.product(left, right), gates.product(right, left)
    gates.differ(one[first:last], other[first:last])
    return gates.clauses()


def adders(bits):
    """The sum of four numbers, added in two orders, whose bits differ."""
    one, two, three, four = (list(range(1 + bits * place, 1 + bits * (place + 1))) for place in range(4))
    gates = Gates(4 * bits)
    zero = gates.constant()
    add = lambda left, right: gates.sum(left, right, zero)[0]
    gates.differ(add(add(one, two), add(three, four)), add(add(add(four, two), one), three))
    return gates.clauses()


def gray(bits, steps):
    """A counter of Gray's code and a binary one, which both move at a step or stay, by a free input. In the end the code
    of the binary one is another one."""
    gates = Gates(steps)
    code = [gates.constant() for _ in range(bits)]
    binary, parity = list(code), code[0]
    for step in range(1, steps + 1):
        # where the number of ones is even the lowest bit turns, and else the one behind the lowest one
        turns, none_below = [gates.gate(lambda a: not a, [parity])], parity
        for bit in range(1, bits):
            if bit == bits - 1:
                turns.append(none_below)
            else:
                turns.append(gates.gate(AND, [none_below, code[bit - 1]]))
                none_below = gates.gate(lambda a, b: a and not b, [none_below, code[bit - 1]])
        code = [gates.gate(XOR, [bit, gates.gate(AND, [turn, step])]) for bit, turn in zip(code, turns)]
        parity = gates.gate(XOR, [parity, step])
        carry = step
        for place, bit in enumerate(binary):
            binary[place], carry = gates.gate(XOR, [bit, carry]), gates.gate(AND, [bit, carry])
    gates.differ(code[:-1], [gates.gate(XOR, pair) for pair in zip(binary, binary[1:])])
    return gates.clauses()


def parity(variables, seed=0):
    """Two chains of exclusive ors over the same variables in different orders, which end differently."""
    gates = Gates(variables)
    ends = []
    for place in range(2):
        order = list(range(1, variables + 1))
        if place:
            random.Random(variables + seed).shuffle(order)
        end = order[0]
        for variable in order[1:]:
            end = gates.gate(XOR, [end, variable])
        ends.append(end)
    gates.differ(ends[:1], ends[1:])
    return gates.clauses()


def schedule(jobs, slots, shared, seed=0):
    """Jobs of which each has exactly one slot, and no two that share something the same; so many share something with one."""
    source = random.Random(1000 * jobs + seed)
    at = lambda job, slot: 1 + job * slots + slot
    clauses = [[at(job, slot) for slot in range(slots)] for job in range(jobs)]
    clauses += [[-at(job, one), -at(job, two)] for job in range(jobs) for one in range(slots) for two in range(one)]
    pairs = source.sample([(one, two) for one in range(jobs) for two in range(one)], round(jobs * shared / 2))
    return clauses + [[-at(one, slot), -at(two, slot)] for one, two in pairs for slot in range(slots)]


FAMILIES = {
    "pigeons": (pigeons, [(6,), (6, 2), (7,), (7, 2), (7, 3), (8,), (8, 2), (8, 3), (8, 4), (9,)]),
    "random": (three, [(n, 4.26) for n in (120, 150, 170, 180, 190, 200, 210, 220, 235, 250)]),
    "planted": (planted, [(n, 4.3) for n in (150, 180, 200, 220, 240, 260, 280, 300, 320, 340)]),
    "counters": (counter, [(n, 9) for n in (48, 64, 80, 100, 120, 140, 160, 180, 200, 220)]),
    "gray": (gray, [(n, 3 * n) for n in range(8, 18)]),
    "multipliers": (multiplier, [(5, 0, 10), (6, 0, 6), (6, 0, 12), (7, 0, 6), (7, 0, 7), (7, 9, 14), (7, 0, 8), (8, 0, 7), (9, 0, 7), (8, 0, 8)]),
    "adders": (adders, [(n,) for n in range(4, 14)]),
    "parity": (parity, [(n,) for n in (16, 18, 20, 21, 22, 23, 24, 25, 26, 28)]),
    "schedules": (schedule, [(n, 4, 8.6) for n in range(40, 140, 10)]),
}


def lists(family):
    """The names and clauses of a family's lists."""
    make, sizes = FAMILIES[family]
    for size in sizes:
        yield "%s %s" % (family, " ".join(map(str, size))), make(*size)
