"""Random circuits and lists of clauses, as `craig` writes them in each of its forms.

The program that writes them stands below. `rt try` runs it in a copy of the crates, unproved. Of each circuit it leaves
these files, whose names begin with the circuit's number:

- `.values`: a line with the names of the inputs, and then a line for each output, with its name and its value under each
  assignment of the inputs, by `Aig::value`; the first input is the lowest bit of an assignment's number.
- `.aag`, `.aig`, `.cnf`: the circuit as `Layout::write_aag`, `Layout::write_aig` and `write_tseitin` write it.
- `.aig.aag`: what `write_aag` writes of the circuit that `read` reads from the binary text.
- `.aag.aig`, `.aag.aig.aag`, `.aag.aig.aag.aig`: the ASCII text, read and written in the other form once, twice and
  three times.
- `.clauses`, `.dimacs`: random clauses, a line each, and what `write_dimacs` writes of them.
"""

import os
import shutil
import subprocess
import sys
import tempfile

ROOT = os.path.dirname(os.path.dirname(os.path.abspath(__file__)))
INPUTS = 5
OUTPUTS = 4

PROGRAM = r"""//! Writes random circuits and clauses in each form, into files.
#![tactic(auto)]

use anyhow::{Result, bail};
use craig_aig::{Aig, Edge};
use craig_aiger::{Circuit, Layout, Name, OutName, read};
use craig_base::{Lit, Lits, Names, Normal, Var, normal};
use craig_cnf::{write_dimacs, write_tseitin};
use std::alloc::{AllocError, Global};
use std::fs;

const INPUTS: u32 = [INPUTS];
const OUTPUTS: u32 = [OUTPUTS];

// The outputs are named from here on, and the inputs below, so that no input and output have one name.
const FIRST_OUTPUT: u32 = 5000;

// The greatest name that an input may have, and behind it the fresh variables.
const TOP: u32 = 101;

// A generator of numbers: Knuth's linear congruence.
#[derive(Drop)]
struct Random {
    state: u64,
}

impl Random {
    // A number below the bound.
    fn below(&mut self, bound: u64) -> u64 {
        self.state = self.state.wrapping_mul(6364136223846793005).wrapping_add(1442695040888963407);
        (self.state >> 33) % bound
    }

    // One of the edges or its negation.
    fn edge(&mut self, edges: &[Edge]) -> Edge {
        let edge = edges[self.below(edges.len() as u64) as usize];
        if self.below(2) == 0 { edge } else { Aig::not(edge) }
    }

    // A literal of an input.
    fn literal(&mut self) -> Lit {
        let variable = Var(self.below(u64::from(INPUTS)) as u32);
        Lit::new(variable, self.below(2) == 0)
    }
}

// Names for the inputs, which rise in no order.
fn named(alloc: Global, seed: u64) -> Result<Names, AllocError> {
    let mut names = Names::new(alloc);
    for variable in 0..INPUTS {
        let _ = names.dense(1 + (97 * variable + 13 * (seed % 7) as u32) % TOP)?;
    }
    Ok(names)
}

// Edges of constants, inputs and gates over them.
fn edges(alloc: Global, aig: &mut Aig, random: &mut Random) -> Result<Vec<Edge>, AllocError> {
    let mut edges = Vec::new(alloc);
    edges.push(Aig::constant(false))?;
    for variable in 0..INPUTS {
        let input = aig.input(Var(variable))?;
        edges.push(input)?;
    }
    let gates = random.below(30);
    for _ in 0..gates {
        let left = random.edge(edges.as_slice());
        let right = random.edge(edges.as_slice());
        let edge = match random.below(3) {
            0 => aig.and(left, right)?,
            1 => aig.or(left, right)?,
            _ => {
                let select = random.edge(edges.as_slice());
                aig.mux(select, left, right)?
            }
        };
        edges.push(edge)?;
    }
    Ok(edges)
}

// The outputs: random edges with their names.
fn outputs(alloc: Global, random: &mut Random, edges: &[Edge]) -> Result<Vec<(OutName, Edge)>, AllocError> {
    let mut outputs = Vec::new(alloc);
    for place in 0..OUTPUTS {
        let name = OutName { family: None, cut: FIRST_OUTPUT + place };
        outputs.push((name, random.edge(edges)))?;
    }
    Ok(outputs)
}

// The lines of the inputs' names and of the outputs' values.
fn values(alloc: Global, aig: &Aig, names: &Names, outputs: &[(OutName, Edge)]) -> Result<String> {
    let mut text = String::new(alloc);
    for variable in 0..INPUTS {
        text.push_str(format!(in alloc; "{} ", names.name(Var(variable)))?.as_str())?;
    }
    for (name, edge) in outputs {
        text.push_str(format!(in alloc; "\n{name} ")?.as_str())?;
        for row in 0..1u32 << INPUTS {
            let mut assignment = Vec::new(alloc);
            for variable in 0..INPUTS {
                assignment.push(row >> variable & 1 == 1)?;
            }
            text.push(if aig.value(*edge, assignment.as_slice())? { '1' } else { '0' })?;
        }
    }
    text.push('\n')?;
    Ok(text)
}

// The number that a name writes.
fn number(name: &Option<Name>) -> Result<u32> {
    let Some(name) = name else { bail!("no name") };
    let mut number = 0;
    for digit in name.as_slice() {
        number = 10 * number + u32::from(*digit - 48);
    }
    Ok(number)
}

// The edge of a literal.
fn edge_of(edges: &[Edge], literal: u64) -> Edge {
    let edge = edges[(literal / 2) as usize];
    if literal % 2 == 0 { edge } else { Aig::not(edge) }
}

// The layout of a circuit that was read.
fn layout_of(alloc: Global, circuit: &Circuit) -> Result<Layout> {
    let mut names = Names::new(alloc);
    let mut aig = Aig::new(alloc);
    let mut edges = Vec::new(alloc);
    edges.push(Aig::constant(false))?;
    for name in circuit.inputs.as_slice() {
        let variable = names.dense(number(name)?)?;
        edges.push(aig.input(variable)?)?;
    }
    for gate in circuit.gates.as_slice() {
        let left = edge_of(edges.as_slice(), gate.left);
        let right = edge_of(edges.as_slice(), gate.right);
        edges.push(aig.and(left, right)?)?;
    }
    let mut outputs = Vec::new(alloc);
    for root in circuit.outputs.as_slice() {
        let name = OutName { family: None, cut: number(&root.name)? };
        outputs.push((name, edge_of(edges.as_slice(), root.literal)))?;
    }
    Ok(Layout::new(alloc, &aig, &names, outputs.as_slice())?)
}

// The layout of the circuit that a text writes.
fn layout_read(alloc: Global, text: &[u8]) -> Result<Layout> {
    match read(alloc, text) {
        Ok(circuit) => layout_of(alloc, &circuit),
        Err(error) => bail!("{error}"),
    }
}

fn ascii(alloc: Global, layout: &Layout) -> Result<Vec<u8>> {
    let mut text = Vec::new(alloc);
    layout.write_aag(&mut text)?;
    Ok(text)
}

fn binary(alloc: Global, layout: &Layout) -> Result<Vec<u8>> {
    let mut text = Vec::new(alloc);
    layout.write_aig(&mut text)?;
    Ok(text)
}

fn clauses_of(alloc: Global, layout: &Layout) -> Result<Vec<u8>> {
    let mut text = Vec::new(alloc);
    write_tseitin(layout, TOP, &mut text)?;
    Ok(text)
}

// Writes a file of a circuit or of clauses.
fn put(rt: &HostRuntime, seed: u64, ending: &str, text: &[u8]) -> Result<()> {
    let path = format!(in rt.alloc(); "[FOLDER]/{seed}{ending}")?;
    fs::write(rt, path.as_str(), text)?;
    Ok(())
}

// Writes the circuit of the ASCII text in the other form, three times over, and that of the binary text once.
fn put_converted(rt: &HostRuntime, seed: u64, aag: &[u8], aig: &[u8]) -> Result<()> {
    let alloc = rt.alloc();
    let back = ascii(alloc, &layout_read(alloc, aig)?)?;
    put(rt, seed, ".aig.aag", back.as_slice())?;
    let once = binary(alloc, &layout_read(alloc, aag)?)?;
    put(rt, seed, ".aag.aig", once.as_slice())?;
    let twice = ascii(alloc, &layout_read(alloc, once.as_slice())?)?;
    put(rt, seed, ".aag.aig.aag", twice.as_slice())?;
    let thrice = binary(alloc, &layout_read(alloc, twice.as_slice())?)?;
    put(rt, seed, ".aag.aig.aag.aig", thrice.as_slice())
}

// Writes a random circuit.
fn put_circuit(rt: &HostRuntime, seed: u64, random: &mut Random, names: &Names) -> Result<()> {
    let alloc = rt.alloc();
    let mut aig = Aig::new(alloc);
    let edges = edges(alloc, &mut aig, random)?;
    let outputs = outputs(alloc, random, edges.as_slice())?;
    let values = values(alloc, &aig, names, outputs.as_slice())?;
    put(rt, seed, ".values", values.as_str().as_bytes())?;
    let layout = Layout::new(alloc, &aig, names, outputs.as_slice())?;
    let aag = ascii(alloc, &layout)?;
    put(rt, seed, ".aag", aag.as_slice())?;
    let aig = binary(alloc, &layout)?;
    put(rt, seed, ".aig", aig.as_slice())?;
    put(rt, seed, ".cnf", clauses_of(alloc, &layout)?.as_slice())?;
    put_converted(rt, seed, aag.as_slice(), aig.as_slice())
}

// Writes random clauses of up to three literals.
fn put_clauses(rt: &HostRuntime, seed: u64, random: &mut Random, names: &Names) -> Result<()> {
    let alloc = rt.alloc();
    let mut clauses: Vec<Lits> = Vec::new(alloc);
    let mut lines = String::new(alloc);
    let count = random.below(40);
    for _ in 0..count {
        let mut literals = Vec::new(alloc);
        let length = 1 + random.below(2) + random.below(2);
        for _ in 0..length {
            literals.push(random.literal())?;
        }
        if let Normal::Clause(clause) = normal(alloc, literals.as_slice())? {
            for literal in clause.as_slice() {
                let sign = if literal.negated() { "-" } else { "" };
                lines.push_str(format!(in alloc; "{sign}{} ", names.name(literal.var()))?.as_str())?;
            }
            lines.push('\n')?;
            clauses.push(clause)?;
        }
    }
    put(rt, seed, ".clauses", lines.as_str().as_bytes())?;
    let mut text = Vec::new(alloc);
    write_dimacs(alloc, clauses.as_slice(), names, &mut text)?;
    put(rt, seed, ".dimacs", text.as_slice())
}

fn main(rt: HostRuntime) -> Result<()> {
    for seed in [FIRST]..[FIRST] + [COUNT] {
        let mut random = Random { state: seed };
        let names = named(rt.alloc(), seed)?;
        put_circuit(&rt, seed, &mut random, &names)?;
        put_clauses(&rt, seed, &mut random, &names)?;
    }
    println!(rt; "end")?;
    Ok(())
}
"""


def copy_of_crates(folder, name, libraries):
    """A copy of the crates in the folder, with a crate of this name beside them; its folder is given back."""
    shutil.copytree(os.path.join(ROOT, "crates"), os.path.join(folder, "crates"), ignore=shutil.ignore_patterns("out"))
    with open(os.path.join(ROOT, "crates.txt")) as old, open(os.path.join(folder, "crates.txt"), "w") as new:
        new.write(old.read() + "%s: %s\n" % (name, " ".join(libraries)))
    shutil.copy(os.path.join(ROOT, "HANDLES"), folder)
    crate = os.path.join(folder, "crates", name)
    os.makedirs(os.path.join(crate, "src"))
    return crate


def write_all(target, count, first):
    """Writes so many circuits and lists of clauses, numbered from the first on, into the target folder."""
    program = PROGRAM
    for word, text in (("INPUTS", INPUTS), ("OUTPUTS", OUTPUTS), ("FIRST", first), ("COUNT", count), ("FOLDER", target)):
        program = program.replace("[%s]" % word, str(text))
    with tempfile.TemporaryDirectory() as folder:
        crate = copy_of_crates(folder, "random_circuits", ["anyhow", "craig_base", "craig_aig", "craig_aiger", "craig_cnf"])
        with open(os.path.join(crate, "src", "main.rt"), "w") as out:
            out.write(program)
        run = subprocess.run(["rt", "try"], cwd=crate, capture_output=True, text=True)
    if run.returncode != 0 or "end\n" not in run.stdout:
        sys.exit(run.stdout[-2000:] + run.stderr[-2000:])
