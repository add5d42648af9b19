#!/usr/bin/env python3
"""Times how circuits are built, laid out, written and read, and prints nanoseconds a gate.

    bench/circuits.py [GATES ..]

Chains of so many gates over 1000 inputs, 10000, 100000 and 1000000 if none is named, are built in an arena, laid out,
written in the ASCII and in the binary form, and read back from each. The program that does it is written into a copy of
the crates, proved and run by `rt run`, which takes some minutes where nothing is kept. Nothing here is a test: it prints
figures to compare in one run.

Where berkeley-abc is installed, it reads the very file of the binary form, and the last column is the time of `read` as
a ratio to its time. Its reading builds a hashed network, and `read` a list of gates; in the ASCII form `read` also sorts
them by depth. It goes down a deep chain by recursion, so it is given all the stack that there is.
"""

import os
import resource
import shutil
import subprocess
import sys
import tempfile
import time

from random_circuits import copy_of_crates

PROGRAM = r"""//! Builds, lays out and writes circuits of several sizes, and prints how long each step takes.
#![tactic(auto)]

ghost use Rattle.std.specs.Prelude.{◌≡◌, ◌<◌, ◌≤◌, ℕ, length, Contains, IfOk};
ghost use Rattle.craig_aig.specs.Cones.{cone};

use anyhow::Result;
use craig_aig::{Aig, Edge};
use craig_aiger::{Form, Layout, OutName};
use craig_base::{Names, Var};
use std::alloc::{AllocError, Global};
use std::fs;
use std::time::Instant;

const INPUTS: u32 = 1000;

// Names for the inputs.
fn named(alloc: Global) -> Result<Names, AllocError> {
    let mut names = Names::new(alloc);
    for variable in 0..INPUTS {
        let _ = names.dense(1 + 7 * variable)?;
    }
    Ok(names)
}

// One gate more on the chain.
fn longer(aig: &mut Aig, names: &Names, last: Edge, variable: u32) -> Result<Edge, AllocError>
    requires last { last.place < length aig.old }
    requires cone { (x : ℕ) → Contains (cone aig.old last) x → x < length names.now }
    requires variable { variable < length names.now }
    ensures edge { IfOk result (λ e. e.place < length aig.new) }
    ensures cone { IfOk result (λ e. (x : ℕ) → Contains (cone aig.new e) x → x < length names.now) }
{
    let input = aig.input(Var(variable))?;
    aig.and(input, Aig::not(last))
}

// A chain of so many gates.
fn chain(aig: &mut Aig, names: &Names, gates: u32) -> Result<Edge, AllocError>
    requires { INPUTS ≤ length names.now }
    ensures edge { IfOk result (λ e. e.place < length aig.new) }
    ensures cone { IfOk result (λ e. (x : ℕ) → Contains (cone aig.new e) x → x < length names.now) }
{
    let _ = aig.len();
    let mut last = Aig::constant(true);
    for place in 0..gates {
        last = longer(aig, names, last, place % INPUTS)?;
    }
    Ok(last)
}

// The layout of one output.
fn of_one(alloc: Global, aig: &Aig, names: &Names, edge: Edge) -> Result<Layout, AllocError>
    requires edge { edge.place < length aig.now }
    requires inputs { (x : ℕ) → Contains (cone aig.now edge) x → x < length names.now }
{
    let name = OutName {
        family: None,
        cut: 0,
    };
    Layout::new(alloc, aig, names, &[(name, edge)])
}

// The nanoseconds since the start, or 0 where the clock doesn't tell.
fn since(rt: &HostRuntime, start: &Instant) -> u128 {
    match start.elapsed(rt) {
        Ok(time) => time.as_nanos(),
        Err(_) => 0,
    }
}

// Whether the text is read.
fn is_read(alloc: Global, text: &[u8]) -> bool {
    craig_aiger_read::read(alloc, text).is_ok()
}

// Appends the text of the form.
fn write_form(layout: &Layout, form: Form, out: &mut Vec<u8>) -> Result<(), AllocError> {
    match form {
        Form::Aag => layout.write_aag(out),
        Form::Aig => layout.write_aig(out),
    }
}

// Prints the bytes of the form, and the nanoseconds of its size, writing and reading. The text is given back.
fn measure_form(rt: &HostRuntime, layout: &Layout, form: Form) -> Result<Vec<u8>> {
    let alloc = rt.alloc();
    let start = Instant::now(rt)?;
    let size = layout.size_of(form);
    let counted = since(rt, &start);
    let mut text = Vec::new(alloc);
    let start = Instant::now(rt)?;
    write_form(layout, form, &mut text)?;
    let written = since(rt, &start);
    let start = Instant::now(rt)?;
    let back = is_read(alloc, text.as_slice());
    let read = since(rt, &start);
    if !back {
        println!(rt; "not read")?;
    }
    print!(rt; " {size} {counted} {written} {read}")?;
    Ok(text)
}

// Prints the figures of both forms, and leaves the binary text in a file.
fn measure_text(rt: &HostRuntime, layout: &Layout, gates: u32, built: u128, laid_out: u128) -> Result<()> {
    print!(rt; "{gates} {built} {laid_out}")?;
    let _ = measure_form(rt, layout, Form::Aag)?;
    let text = measure_form(rt, layout, Form::Aig)?;
    println!(rt; "")?;
    let path = format!(in rt.alloc(); "[FOLDER]/{gates}.aig")?;
    fs::write(rt, path.as_str(), text.as_slice())?;
    Ok(())
}

// Lays the edge out, and goes on with its text.
fn measure_layout(rt: &HostRuntime, aig: &Aig, names: &Names, last: Edge, gates: u32, built: u128) -> Result<()>
    requires edge { last.place < length aig.now }
    requires inputs { (x : ℕ) → Contains (cone aig.now last) x → x < length names.now }
{
    let start = Instant::now(rt)?;
    let layout = of_one(rt.alloc(), aig, names, last)?;
    let laid_out = since(rt, &start);
    measure_text(rt, &layout, gates, built, laid_out)
}

// Builds a chain, and goes on with its layout.
fn measure_chain(rt: &HostRuntime, aig: &mut Aig, names: &Names, gates: u32) -> Result<()> {
    if names.len() < INPUTS {
        return Ok(());
    }
    let start = Instant::now(rt)?;
    let last = chain(aig, names, gates)?;
    let built = since(rt, &start);
    measure_layout(rt, aig, names, last, gates, built)
}

// Measures a chain of so many gates.
fn measure(rt: &HostRuntime, gates: u32) -> Result<()> {
    let names = named(rt.alloc())?;
    let mut aig = Aig::new(rt.alloc());
    measure_chain(rt, &mut aig, &names, gates)
}

fn main(rt: HostRuntime) -> Result<()> {
    for gates in [GATES] {
        measure(&rt, gates)?;
    }
    Ok(())
}
"""

CHAIN_INVARIANTS = r"""use Rattle.std.proofs.Common.{ℕ, ◌<◌, length, Contains}
use Rattle.craig_aig.specs.Cones.{cone}
use Rattle.circuit_times.proofs.chain.Given as goal

abbrev pub invariant-loop-place : goal.invariant-loop-place
invariant-loop-place l = record {
  edge : l.last.place < length l.aig;
  inputs : (x : ℕ) → Contains (cone l.aig l.last) x → x < length l.names;
}
"""

LONGER_ANSWERS = r"""use Rattle.std.proofs.Common.{◌≡◌, inl, inr, ℕ, ◌<◌, List, [], ◌∷◌, length, Contains, Result, Ok, Err, IfOk, ◌∙◌, ap, length-append, arith, subst}
use Rattle.std.specs.declared.alloc.AllocError.{AllocError}
use Rattle.craig_aig.specs.Cones.{cone, ConeWithin}
use Rattle.craig_aig.specs.Edges.{Edge}
use Rattle.craig_aig.specs.Growth.{Extends, KeepsEdges}
use Rattle.craig_aig.specs.declared.node.Node.{Node}
use Rattle.circuit_times.proofs.longer.Goals as goal

one_member : (xs : List ℕ) (v x n : ℕ) → xs ≡ v ∷ [] → v < n → Contains xs x → x < n
one_member xs v x n is below h =
    let m = subst (λ l. Contains l x) is h in
    let first : m.0 ≡ 0 = omega (arith, m.1) in
    let e : v ≡ x = rw first at m.2 in
    omega (arith, e)

grown_cone : (first second third : List Node) (input last other : Edge) (r : Result Edge AllocError) (v n : ℕ) → cone second input ≡ v ∷ [] → KeepsEdges first second → last.place < length first → Extends first second → cone second other ≡ cone second last → ((x : ℕ) → Contains (cone first last) x → x < n) → IfOk r (ConeWithin second input other third) → v < n → IfOk r (λ e. (x : ℕ) → Contains (cone third e) x → x < n)
grown_cone first second third input last other (Err e) v n one kept within grown same old h below = h
grown_cone first second third input last other (Ok edge) v n one kept within grown same old h below = λ x m.
    let later : last.place < length second = omega (arith, within, ap length grown.1, length-append first grown.0) in
    elim (h x m) [
      | inl p ↦ one_member (cone second input) v x n one below p
      | inr p ↦ old x (subst (λ l. Contains l x) (same ∙ (kept last within later).cone_is) p)
    ]

pub returns-clause-cone : goal.returns-clause-cone
returns-clause-cone c =
    grown_cone c.args.aig.now c.input.new.self c.and.new.self c.in_ok-input.input c.args.last c.not.result c.and.result c.args.variable _ c.in_ok-input.ensures.cone c.in_ok-input.ensures.grows.kept c.requires.last c.in_ok-input.ensures.grows.extends (c.not.ensures.cone c.input.new.self) c.requires.cone c.and.ensures.cone c.requires.variable
"""

OF_ONE_ANSWERS = r"""use Rattle.std.proofs.Common.{ℕ, zero, suc, [], ◌∷◌, All, Contains, length, ◌<◌, None, arith}
use Rattle.craig_aig.specs.Cones.{cone}
use Rattle.craig_aig.specs.Edges.{Edge}
use Rattle.craig_aiger.specs.declared.out_name.OutName.{OutName}
use Rattle.circuit_times.proofs.of_one.Goals as goal

All-one : {X : Type 0} (P : X → Type 0) (x : X) → P x → All P (x ∷ [])
All-one P x p zero d within = p
All-one P x p (suc k) d within = absurd (omega arith)

pub new-requires-clause-inputs : goal.new-requires-clause-inputs
new-requires-clause-inputs c = All-one (λ (o : OutName × Edge). (x : ℕ) → Contains (cone c.args.aig.now o.1) x → x < length c.args.names.now) (record { family = None; cut = 0 }, c.args.edge) c.requires.inputs
"""

FILES = {
    "src/main.rt": PROGRAM,
    "proofs/Lib.antt": "",
    "proofs/chain/Invariants.antt": CHAIN_INVARIANTS,
    "proofs/longer/Answers.antt": LONGER_ANSWERS,
    "proofs/of_one/Answers.antt": OF_ONE_ANSWERS,
}


def write_crate(folder, sizes):
    """A copy of the crates with the program beside them; the folder of the program is given back."""
    crate = copy_of_crates(folder, "circuit_times", ["anyhow", "craig_base", "craig_aig", "craig_aiger", "craig_aiger_read"])
    for name, text in FILES.items():
        path = os.path.join(crate, name)
        os.makedirs(os.path.dirname(path), exist_ok=True)
        with open(path, "w") as out:
            out.write(text.replace("[GATES]", "[%s]" % ", ".join(map(str, sizes))).replace("[FOLDER]", folder))
    return crate


def with_all_stack():
    resource.setrlimit(resource.RLIMIT_STACK, (resource.RLIM_INFINITY, resource.RLIM_INFINITY))


def seconds_of_abc(commands):
    start = time.perf_counter()
    subprocess.run(["berkeley-abc", "-q", commands], check=True, stdout=subprocess.DEVNULL, preexec_fn=with_all_stack)
    return time.perf_counter() - start


def reading_by_abc(path, gates):
    """The nanoseconds in which berkeley-abc reads the file."""
    times = max(1, 3 * 10**6 // gates)
    return (seconds_of_abc("; ".join(["read_aiger " + path] * times)) - seconds_of_abc("")) / times * 10**9


def row(figures, folder):
    """The rows of one chain: one for each form."""
    gates, built, laid_out, *forms = map(int, figures)
    for name, (size, counted, written, read) in (("aag", forms[:4]), ("aig", forms[4:])):
        line = "%9d %5s %10d %6.2f" % (gates, name, size, size / gates)
        line += "".join(" %9.1f" % (nanoseconds / gates) for nanoseconds in (built, laid_out, counted, written, read))
        if name == "aig" and shutil.which("berkeley-abc"):
            other = reading_by_abc(os.path.join(folder, "%d.aig" % gates), gates)
            line += " %9.1f %9.2f" % (other / gates, read / other)
        yield line


def main():
    sizes = [int(word) for word in sys.argv[1:]] or [10**4, 10**5, 10**6]
    with tempfile.TemporaryDirectory() as folder:
        run = subprocess.run(["rt", "run"], cwd=write_crate(folder, sizes), capture_output=True, text=True)
        if run.returncode != 0:
            sys.exit(run.stdout + run.stderr)
        columns = ["building", "layout", "size", "writing", "reading", "abc", "ratio"]
        print("%9s %5s %10s %6s" % ("gates", "form", "bytes", "a gate") + "".join(" %9s" % name for name in columns))
        for line in run.stdout.splitlines():
            figures = line.split()
            if len(figures) == 11 and all(figure.isdigit() for figure in figures):
                print("\n".join(row(figures, folder)))


if __name__ == "__main__":
    main()
