#!/usr/bin/env python3
"""Counts the kept proofs of lists of clauses that have no model, and the memory of whole runs beside other solvers.

    bench/memory.py PROGRAM [--families NAME ..] [--seconds N] [--built COUNTER]

PROGRAM is the built program (crates/craig/out/craig). A second program over `Solver`, which is proved and built by `rt run`
in a copy of the crates, has a tracer that counts: the derived clauses that were told, the resolution steps of their
chains, the bytes of these chains in packed form, and the literals. It makes the same search as PROGRAM, and one derived
clause in each conflict beside those of unit clauses. MiniSat prints its conflicts.

The memory is the largest resident set, as GNU `time` counts it, of PROGRAM with its proof kept and the outer cuts asked
for, of MiniSat, and of PicoSAT; neither keeps a proof, since PicoSAT of Debian 12 is built without its trace. The lists are
those of `clause_lists.py` without a model; one that a solver doesn't refute in N seconds, 60 if not said, is left out. The
last line has the geometric means over the lists that take MiniSat 0.1 seconds or more. Nothing here is a test: it prints
figures to compare in one run.
"""

import argparse
import os
import re
import subprocess
import sys
import tempfile

import clause_lists
from propagation import READER, write_list
from random_circuits import copy_of_crates
from search import LEAST_SECONDS, Run, geometric, solved, write_files

COUNTER = r"""//! Solves a list of clauses, and prints what its tracer has counted.
#![tactic(auto)]

ghost use Rattle.std.specs.Prelude.{◌≡◌, ◌<◌, ◌≤◌, true, None, All, OnOk};

use anyhow::{Result, bail};
use craig_base::{ClauseId, Lit, Part, Var};
use craig_proof::{ChainStore, Pair, Step, Tracer};
use craig_solver::{Answer, Solver};
use std::alloc::{AllocError, Global};
use std::fs;

// What was told, and tells no meaning.
#[derive(Drop)]
struct Counter {
    derived: u64,
    steps: u64,
    bytes: u64,
    literals: u64,
}

// How many groups of seven bits the number has, which is below 2^42.
fn groups(number: u64) -> u64 {
    if number < 0x80 {
        1
    } else if number < 0x4000 {
        2
    } else if number < 0x20_0000 {
        3
    } else if number < 0x1000_0000 {
        4
    } else if number < 0x8_0000_0000 {
        5
    } else {
        6
    }
}

impl Tracer for Counter {
    ghost told = { λ _. None };

    ghost kept = { λ _. tt };

    fn original(&mut self, _id: ClauseId, _part: Part, _lits: &[Lit]) -> Result<(), AllocError> {
        Ok(())
    }

    fn derived(
        &mut self,
        id: ClauseId,
        lits: &[Lit],
        first: ClauseId,
        rest: &[Step],
    ) -> Result<(), AllocError> {
        self.derived = self.derived.wrapping_add(1);
        self.steps = self.steps.wrapping_add(rest.len() as u64);
        self.literals = self.literals.wrapping_add(lits.len() as u64);
        let mut bytes = groups(id.0.wrapping_sub(first.0));
        for step in rest {
            let pivot = u64::from(step.pivot.var().0).wrapping_mul(2);
            bytes = bytes.wrapping_add(groups(pivot)).wrapping_add(groups(id.0.wrapping_sub(step.antecedent.0)));
        }
        self.bytes = self.bytes.wrapping_add(bytes);
        Ok(())
    }

    fn forget(&mut self, _id: ClauseId) {}

    fn reclaim(&mut self) {}
}

type Counting = Pair<ChainStore, Counter>;

[READER]
// Whether each variable of the literals is known.
fn are_known(vars: u32, literals: &[Lit]) -> bool
    ensures { result ≡ true → All (λ l. l.var < vars) literals.now }
{
    literals.iter().all(|literal| literal.var().0 < vars)
}

// Adds a clause.
fn add(solver: &mut Solver<Counting>, literals: &[Lit]) -> Result<(), AllocError> {
    let vars = solver.vars();
    if are_known(vars, literals) {
        solver.add(Part(1), literals)?;
    }
    Ok(())
}

// Adds the clauses of the bytes: the number of variables, that of clauses, and the clauses.
fn load(alloc: Global, solver: &mut Solver<Counting>, bytes: &[u8]) -> Result<(), AllocError> {
    let (vars, behind) = first_number(bytes);
    let (count, behind) = first_number(behind);
    let mut rest = behind;
    if vars <= 2147483648 {
        solver.reach(vars)?;
    }
    for _ in 0..count {
        let (literals, behind) = first_clause(alloc, rest)?;
        add(solver, literals.as_slice())?;
        rest = behind;
    }
    Ok(())
}

fn count(rt: &HostRuntime, path: &str) -> Result<()> {
    let counter = Counter {
        derived: 0,
        steps: 0,
        bytes: 0,
        literals: 0,
    };
    let mut solver = Solver::new(rt.alloc(), Pair::new(ChainStore::new(rt.alloc()), counter));
    let bytes = fs::read(rt, path)?;
    load(rt.alloc(), &mut solver, bytes.as_slice())?;
    let answer = solver.solve(&[], None)?;
    let Answer::Failed { .. } = answer else {
        bail!("not refuted");
    };
    let counted = solver.tracer().second();
    println!(rt; "{} {} {} {}", counted.derived, counted.steps, counted.bytes, counted.literals)?;
    Ok(())
}

fn main(rt: HostRuntime) -> Result<()> {
    let words = std::env::args(&rt)?;
    let mut path = String::new(rt.alloc());
    for word in words.skip(1) {
        path = word;
    }
    count(&rt, path.as_str())
}
"""


def build(folder):
    """The program that counts, proved and built; some minutes where nothing is kept."""
    crate = copy_of_crates(folder, "counting", ["anyhow", "craig_base", "craig_proof", "craig_solver"])
    with open(os.path.join(crate, "src", "main.rt"), "w") as out:
        out.write(COUNTER.replace("[READER]", READER))
    subprocess.run(["rt", "check"], cwd=crate, stdout=subprocess.DEVNULL, stderr=subprocess.DEVNULL)
    run = subprocess.run(["rt", "run"], cwd=crate, capture_output=True, text=True)
    program = os.path.join(crate, "out", "counting")
    if not os.path.exists(program):
        sys.exit(run.stdout[-3000:] + run.stderr[-3000:])
    return program


def main():
    options = argparse.ArgumentParser(usage=__doc__)
    options.add_argument("program")
    options.add_argument("--families", nargs="+", default=list(clause_lists.FAMILIES))
    options.add_argument("--seconds", type=int, default=60)
    options.add_argument("--built", help="the program that counts, where it is built already")
    given = options.parse_args()
    program = os.path.abspath(given.program)
    columns = ["list", "derived", "conflicts of minisat", "ratio", "steps", "bytes a step", "literals", "craig MB"]
    print("| " + " | ".join(columns + ["minisat MB", "ratio", "picosat MB", "ratio"]) + " |")
    print("|" + "---|" * (len(columns) + 4))
    conflicts, to_minisat, to_picosat = [], [], []
    with tempfile.TemporaryDirectory() as folder:
        counter = given.built or build(folder)
        for family in given.families:
            for name, clauses in clause_lists.lists(family):
                script, dimacs = write_files(folder, clauses)
                path = os.path.join(folder, "list")
                write_list(path, clauses)
                minisat = Run(["minisat", dimacs], dimacs, given.seconds)
                ours = solved(program, script, given.seconds)
                picosat = Run(["picosat", dimacs], dimacs, given.seconds)
                if minisat.answer() is not False or ours.answer() is not False or picosat.answer() is not False:
                    continue
                derived, steps, size, literals = map(int, subprocess.run([counter, path], capture_output=True, text=True, check=True).stdout.split())
                met = int(re.search(rb"conflicts\s*:\s*(\d+)", minisat.text)[1])
                line = [name, str(derived), str(met), "%.2f" % (derived / max(1, met)), str(steps), "%.2f" % (size / max(1, steps)), str(literals)]
                line += ["%.1f" % (ours.memory / 1024), "%.1f" % (minisat.memory / 1024), "%.2f" % (ours.memory / minisat.memory)]
                line += ["%.1f" % (picosat.memory / 1024), "%.2f" % (ours.memory / picosat.memory)]
                if minisat.seconds >= LEAST_SECONDS:
                    conflicts.append(derived / max(1, met))
                    to_minisat.append(ours.memory / minisat.memory)
                    to_picosat.append(ours.memory / picosat.memory)
                print("| " + " | ".join(line) + " |", flush=True)
    print()
    print("geometric means over %d lists: conflicts %.2f, memory to minisat %.2f, to picosat %.2f" % (
        len(conflicts), geometric(conflicts), geometric(to_minisat), geometric(to_picosat)))


if __name__ == "__main__":
    main()
