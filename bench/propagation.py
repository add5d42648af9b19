#!/usr/bin/env python3
"""Times unit propagation over fixed decisions, by `Held` and by MiniSat's solver, on the same lists of clauses.

    bench/propagation.py [FAMILY ..] [--seconds N] [--built PROGRAM]

MiniSat's program can't be given decisions, so that both are driven from inside, in the same way. A program over `Held`
and one whose class derives from MiniSat's `Solver` hold the same clauses in the same order, learn nothing, and go through
one series: propagate; where a clause is false, go back to half of the present level; else decide the next free variable,
or go back to level 0 where none is free. Variables come in the order of a stride over all of them, and signs from a
generator of numbers, so that both decide the same literals. Whether a clause is false and what is assigned where none is
don't depend on the order of propagation: both programs must count the same decisions, conflicts and assigned literals
at the decisions, or the run ends with status 1.

What is timed is the series alone, in processor time of the process, with the clauses loaded before: calls of
`Held::propagate`, `decide`, `back_to` and `value` on one side, of `propagate`, `newDecisionLevel`, `uncheckedEnqueue`,
`cancelUntil` and `value` on the other. A propagation is a literal that was put on the trail. MiniSat's `cancelUntil` also
saves phases and looks whether each variable is in the heap of its order, which `Held` leaves to its caller. There is no
learnt clause and no activity, so these are figures of the clauses as given. The memory is what the process has after
loading beyond what it has before, without the file of the clauses.

The families are random clauses of three literals at 4.2 clauses a variable, counters unrolled, and tables of so many
jobs and slots, in which each job has a slot and no slot two jobs, as long clauses and pairs. The series has as many
steps as MiniSat makes in N seconds, 2 if not said. The program over `Held` is proved and built by `rt run` in a copy of
the crates; the other is built by `c++` with the library of MiniSat 2.2 that Debian's package has. Nothing here is a test:
it prints figures to compare in one run.
"""

import argparse
import os
import subprocess
import sys
import tempfile

import clause_lists
from random_circuits import copy_of_crates

STRIDE = 7919

READER = r"""// The number of four bytes at the front, the lowest first, and what is behind it.
fn first_number(bytes: &[u8]) -> (u32, &[u8]) {
    if bytes.len() < 4 {
        return (0, bytes);
    }
    let (head, rest) = bytes.split_at(4);
    (u32::from_le_bytes([head[0], head[1], head[2], head[3]]), rest)
}

// The literal of a code: twice the variable, and one more where it is negated.
fn literal_of(code: u32) -> Lit {
    Lit::new(Var(code / 2), code % 2 == 1)
}

// Reads a clause: the number of its literals, and their codes.
fn first_clause(alloc: Global, bytes: &[u8]) -> Result<(Vec<Lit>, &[u8]), AllocError> {
    let (length, behind) = first_number(bytes);
    let mut rest = behind;
    let mut literals = Vec::new(alloc);
    for _ in 0..length {
        let (code, behind) = first_number(rest);
        literals.push(literal_of(code))?;
        rest = behind;
    }
    Ok((literals, rest))
}

"""

PROGRAM = r"""//! Drives held clauses through a series of decisions, and prints counts, nanoseconds and memory.
#![tactic(auto)]

ghost use Rattle.std.specs.Prelude.{◌≡◌, ◌<◌, ◌≤◌, true, All, IfSome};
ghost use Rattle.craig_watch.specs.Trail.{value_under};
ghost use Rattle.craig_watch.specs.declared.value.Value.TheVariants.{Free};

use anyhow::{Result, bail};
use craig_base::{Flags, Lit, Normal, Var, normal};
use craig_watch::{Held, Value};
use std::alloc::{AllocError, Global};
use std::fs;

const STRIDE: u32 = [STRIDE];

const FLAGS: Flags = Flags {
    learnt: false,
    kept: true,
    glue: 0,
};

// Whether each variable of the literals is known.
fn are_known(held: &Held, literals: &[Lit]) -> bool
    ensures { result ≡ true → All (λ l. l.var < held.now.vars) literals.now }
{
    let vars = held.vars();
    literals.iter().all(|literal| literal.var().0 < vars)
}

// Holds a clause, at level 0.
fn hold_one(alloc: Global, held: &mut Held, literals: &[Lit]) -> Result<(), AllocError> {
    if let Normal::Clause(clause) = normal(alloc, literals)? {
        if held.level() == 0 && are_known(held, clause.as_slice()) {
            let _ = held.hold(clause.as_slice(), FLAGS)?;
        }
    }
    Ok(())
}

[READER]// Holds the clauses of the bytes: the number of variables, that of clauses, and the clauses.
fn load(alloc: Global, held: &mut Held, bytes: &[u8]) -> Result<(), AllocError> {
    let (vars, behind) = first_number(bytes);
    let (count, behind) = first_number(behind);
    let mut rest = behind;
    if vars <= 2147483648 {
        held.grow(vars)?;
    }
    for _ in 0..count {
        let (literals, behind) = first_clause(alloc, rest)?;
        hold_one(alloc, held, literals.as_slice())?;
        rest = behind;
    }
    Ok(())
}

// The decisions and what is counted of them.
#[derive(Drop)]
struct Series {
    at: u32,
    state: u64,
    decisions: u64,
    conflicts: u64,
    assigned: u64,
    at_decisions: u64,
}

impl Series {
    // The next sign: Knuth's linear congruence.
    fn sign(&mut self) -> bool {
        self.state = self.state.wrapping_mul(6364136223846793005).wrapping_add(1442695040888963407);
        (self.state >> 33) % 2 == 1
    }

    // The next free literal, unless all variables are assigned.
    fn next(&mut self, held: &Held) -> Option<Lit>
        ensures known { IfSome result (λ l. l.var < held.now.vars) }
        ensures free { IfSome result (λ l. value_under held.now.trail l ≡ Free) }
    {
        let vars = held.vars();
        if vars == 0 {
            return None;
        }
        for _ in 0..vars {
            self.at = self.at.wrapping_add(STRIDE) % vars;
            if held.value(Lit::new(Var(self.at), false)) == Value::Free {
                let literal = Lit::new(Var(self.at), self.sign());
                if held.value(literal) == Value::Free {
                    return Some(literal);
                }
            }
        }
        None
    }

    // Propagates, and then decides or goes back.
    fn step(&mut self, held: &mut Held) -> Result<(), AllocError> {
        let before = held.trail().len() as u64;
        let conflict = held.propagate()?;
        let after = held.trail().len() as u64;
        self.assigned = self.assigned.wrapping_add(after.wrapping_sub(before));
        if conflict.is_some() {
            self.conflicts = self.conflicts.wrapping_add(1);
            let level = held.level();
            held.back_to(level / 2);
        } else {
            self.at_decisions = self.at_decisions.wrapping_add(after);
            match self.next(held) {
                Some(literal) => {
                    self.decisions = self.decisions.wrapping_add(1);
                    self.assigned = self.assigned.wrapping_add(1);
                    held.decide(literal);
                }
                None => held.back_to(0),
            }
        }
        Ok(())
    }
}

// What the system says of this process, by words: the nanoseconds of processor time stand first.
fn nanoseconds(rt: &HostRuntime) -> Result<String> {
    let text = fs::read_to_string(rt, "/proc/self/schedstat")?;
    Ok(text)
}

// The line of the system that says how much memory the process has.
fn print_memory(rt: &HostRuntime, word: &str) -> Result<()> {
    let status = fs::read_to_string(rt, "/proc/self/status")?;
    for line in status.as_str().lines() {
        if line.starts_with("VmRSS:") {
            println!(rt; "{word} {line}")?;
        }
    }
    Ok(())
}

fn read_list(rt: &HostRuntime, held: &mut Held, path: &str) -> Result<()> {
    let bytes = fs::read(rt, path)?;
    load(rt.alloc(), held, bytes.as_slice())?;
    Ok(())
}

fn measure(rt: &HostRuntime, path: &str, steps: u64) -> Result<()> {
    print_memory(rt, "before")?;
    let mut held = Held::new(rt.alloc());
    read_list(rt, &mut held, path)?;
    print_memory(rt, "loaded")?;
    let mut series = Series {
        at: 0,
        state: 1,
        decisions: 0,
        conflicts: 0,
        assigned: 0,
        at_decisions: 0,
    };
    let start = nanoseconds(rt)?;
    for _ in 0..steps {
        series.step(&mut held)?;
    }
    let end = nanoseconds(rt)?;
    println!(rt; "start {start}")?;
    println!(rt; "end {end}")?;
    println!(rt; "counts {} {} {} {}", series.decisions, series.conflicts, series.at_decisions, series.assigned)?;
    Ok(())
}

fn main(rt: HostRuntime) -> Result<()> {
    let words = std::env::args(&rt)?;
    let mut path = String::new(rt.alloc());
    let mut steps = 0;
    for word in words.skip(1) {
        match word.as_str().parse::<u64>() {
            Ok(number) => steps = number,
            Err(_) => path = word,
        }
    }
    if steps == 0 {
        bail!("no number of steps");
    }
    measure(&rt, path.as_str(), steps)
}
"""

PEER = r"""
#include <cstdio>
#include <cstdlib>
#include <cstring>
#include <vector>
#include <time.h>
#include <minisat/core/Solver.h>
using namespace Minisat;

static double now() {
    timespec t;
    clock_gettime(CLOCK_PROCESS_CPUTIME_ID, &t);
    return t.tv_sec * 1e9 + t.tv_nsec;
}

static void memory(const char* word) {
    FILE* in = fopen("/proc/self/status", "r");
    char line[256];
    while (fgets(line, sizeof line, in)) if (!strncmp(line, "VmRSS:", 6)) printf("%s %s", word, line);
    fclose(in);
}

class Driven : public Solver {
public:
    unsigned at;
    unsigned long long state, decisions, conflicts, atDecisions, assigned;
    Driven() : at(0), state(1), decisions(0), conflicts(0), atDecisions(0), assigned(0) {}
    bool sign() {
        state = state * 6364136223846793005ULL + 1442695040888963407ULL;
        return (state >> 33) % 2 == 1;
    }
    void step() {
        int before = trail.size();
        CRef conflict = propagate();
        assigned += trail.size() - before;
        if (conflict != CRef_Undef) {
            conflicts++;
            cancelUntil(decisionLevel() / 2);
            return;
        }
        atDecisions += trail.size();
        unsigned vars = nVars();
        for (unsigned i = 0; i < vars; i++) {
            at = (at + [STRIDE]u) % vars;
            if (value(Var(at)) == l_Undef) {
                Lit l = mkLit(at, sign());
                if (value(l) == l_Undef) {
                    decisions++;
                    assigned++;
                    newDecisionLevel();
                    uncheckedEnqueue(l);
                    return;
                }
            }
        }
        cancelUntil(0);
    }
    // so many steps, or as many as are made in the time where the number is 0
    void run(unsigned long long steps, double seconds) {
        double start = now();
        unsigned long long made = 0;
        for (; steps ? made < steps : made % 256 || now() - start < seconds * 1e9; made++) step();
        double end = now();
        printf("steps %llu\nstart 0\nend %.0f\ncounts %llu %llu %llu %llu\n", made, end - start, decisions, conflicts, atDecisions, assigned);
    }
};

static unsigned number(FILE* in) {
    unsigned char b[4] = {0, 0, 0, 0};
    if (fread(b, 1, 4, in) != 4) exit(1);
    return b[0] | b[1] << 8 | b[2] << 16 | (unsigned)b[3] << 24;
}

int main(int count, char** words) {
    memory("before");
    Driven solver;
    FILE* in = fopen(words[1], "rb");
    unsigned vars = number(in), clauses = number(in);
    while (solver.nVars() < (int)vars) solver.newVar();
    for (unsigned i = 0; i < clauses; i++) {
        vec<Lit> clause;
        unsigned length = number(in);
        for (unsigned j = 0; j < length; j++) {
            unsigned code = number(in);
            clause.push(mkLit(code / 2, code % 2));
        }
        solver.addClause_(clause);
    }
    fclose(in);
    memory("loaded");
    solver.run(strtoull(words[2], 0, 10), atof(words[3]));
    return 0;
}
"""


def counter(steps, bits):
    """An unrolled counter; its clauses of one literal come last."""
    return sorted(clause_lists.counter(steps, bits), key=lambda clause: len(clause) == 1)


def table(jobs, slots):
    """Each job has a slot, and no slot two jobs."""
    return clause_lists.pigeons(slots, jobs - slots)


FAMILIES = {
    "random": [("random %d" % variables, clause_lists.three, variables, 4.2) for variables in (300, 1000, 20000, 238000)],
    "counter": [("counter %d" % steps, counter, steps, 16) for steps in (50, 1000, 9000)],
    "table": [("table %dx%d" % size, table, *size) for size in ((20, 20), (60, 80), (125, 130))],
}


def write_list(path, clauses):
    """The clauses as numbers of four bytes: those of variables and clauses, then each clause's length and codes."""
    numbers = [max(abs(literal) for clause in clauses for literal in clause), len(clauses)]
    for clause in clauses:
        numbers.append(len(clause))
        numbers += [2 * (abs(literal) - 1) + (literal < 0) for literal in clause]
    with open(path, "wb") as out:
        out.write(b"".join(number.to_bytes(4, "little") for number in numbers))


def build_peer(folder):
    """The program over MiniSat's library."""
    source, program = os.path.join(folder, "driven.cc"), os.path.join(folder, "driven")
    with open(source, "w") as out:
        out.write(PEER.replace("[STRIDE]", str(STRIDE)))
    subprocess.run(["c++", "-O2", source, "-o", program, "-lminisat"], check=True)
    return program


def build_ours(folder):
    """The program over `Held`, proved and built; some minutes where nothing is kept."""
    crate = copy_of_crates(folder, "propagation", ["anyhow", "craig_base", "craig_watch"])
    with open(os.path.join(crate, "src", "main.rt"), "w") as out:
        out.write(PROGRAM.replace("[STRIDE]", str(STRIDE)).replace("[READER]", READER))
    # a check keeps what it proved, which a run by itself doesn't before it ends
    subprocess.run(["rt", "check"], cwd=crate, stdout=subprocess.DEVNULL, stderr=subprocess.DEVNULL)
    run = subprocess.run(["rt", "run"], cwd=crate, capture_output=True, text=True)
    program = os.path.join(crate, "out", "propagation")
    if not os.path.exists(program):
        sys.exit(run.stdout[-3000:] + run.stderr[-3000:])
    return program


def figures(words):
    """What a program prints: the steps, nanoseconds, counts, and kilobytes of the clauses."""
    found = {}
    for line in subprocess.run(words, capture_output=True, text=True, check=True).stdout.splitlines():
        if line:
            word, *rest = line.split()
            found[word] = rest
    memory = int(found["loaded"][1]) - int(found["before"][1])
    nanoseconds = int(found["end"][0]) - int(found["start"][0])
    return found.get("steps", [None])[0], nanoseconds, list(map(int, found["counts"])), memory


def main():
    options = argparse.ArgumentParser(usage=__doc__)
    options.add_argument("families", nargs="*", default=list(FAMILIES))
    options.add_argument("--seconds", type=float, default=2)
    options.add_argument("--built", help="the program over `Held`, where it is built already")
    given = options.parse_args()
    print("%-15s %8s %9s %9s %9s" % ("clauses", "count", "decisions", "conflicts", "literals")
          + " %11s %11s %6s %8s %8s %6s" % ("craig /s", "MiniSat /s", "ratio", "craig kB", "MiniSat", "ratio"))
    with tempfile.TemporaryDirectory() as folder:
        peer, ours = build_peer(folder), given.built or build_ours(folder)
        for family in given.families:
            for name, make, *size in FAMILIES[family]:
                path = os.path.join(folder, "list")
                clauses = make(*size)
                write_list(path, clauses)
                steps, _, _, _ = figures([peer, path, "0", str(given.seconds)])
                # in turn, and the better of two each
                runs = [(figures([ours, path, steps]), figures([peer, path, steps, "0"])) for _ in range(2)]
                (_, took, counts, memory), (_, other, others, more) = (min(side, key=lambda run: run[1]) for side in zip(*runs))
                if counts[:3] != others[:3]:
                    sys.exit("%s: counts differ: %s and %s" % (name, counts, others))
                speed, speed_other = counts[3] / took * 1e9, others[3] / other * 1e9
                print("%-15s %8d %9d %9d %9d" % (name, len(clauses), counts[0], counts[1], counts[3])
                      + " %11.0f %11.0f %6.2f" % (speed, speed_other, speed / speed_other)
                      + " %8d %8d %6.2f" % (memory, more, memory / max(more, 1)), flush=True)


if __name__ == "__main__":
    main()
