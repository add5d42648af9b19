#!/usr/bin/env python3
"""Gives `read` binary AIGER texts that are cut, changed and made up to harm it, and compares what it says.

    bench/hostile_aiger.py [CIRCUITS [SEED]]

So many random texts (12 if not said), with latches, bad literals, names and comments, are cut at every byte, have each
byte changed, and have garbage put behind them. To these come texts with headers of up to 10^18 of each kind, with too
many and too few numbers; with differences that are 0, below zero, written in too many groups or with empty ones, at the
end of the text, or that never end; and with symbols of what isn't there or has a name. What `read` says of each text is
compared with a reading that is written here, after the definition in `craig_spec/specs/AigerBinary.antt`: the same file,
by a checksum of all that it has, or the same fault at the same byte. Where a text counts 10^13 inputs or more and is in
order up to its symbols, want of memory is an answer too, since each input takes a place before the symbols are read.

A difference, a run that ends early, or memory above 64 megabytes, but for the texts in order with 10^6 inputs and more,
ends with status 1. The program that reads the texts stands below. `rt try` runs it in a copy of the crates, unproved.
"""

import os
import random
import subprocess
import sys
import tempfile

from random_circuits import copy_of_crates

PROGRAM = r"""//! Reads texts that stand one behind another in a file, and prints what each is.
#![tactic(auto)]

use anyhow::Result;
use craig_aiger_read::{AigerError, Circuit, Name, Reset, Root, read};
use std::fs;

// A checksum of numbers: that of Fowler, Noll and Vo, a number for a byte.
#[derive(Drop)]
struct Sum {
    state: u64,
}

impl Sum {
    fn add(&mut self, number: u64) {
        self.state = (self.state ^ number).wrapping_mul(1099511628211);
    }

    fn add_name(&mut self, name: &Option<Name>) {
        match name {
            None => self.add(0),
            Some(name) => {
                self.add(1 + name.as_slice().len() as u64);
                for byte in name.as_slice() {
                    self.add(u64::from(*byte));
                }
            }
        }
    }

    fn add_roots(&mut self, roots: &[Root]) {
        for root in roots {
            self.add(root.literal);
            self.add_name(&root.name);
        }
    }

    fn add_circuit(&mut self, circuit: &Circuit) {
        for name in circuit.inputs.as_slice() {
            self.add_name(name);
        }
        for latch in circuit.latches.as_slice() {
            self.add(latch.next);
            self.add(match latch.reset {
                Reset::Zero => 0,
                Reset::One => 1,
                Reset::Open => 2,
            });
            self.add_name(&latch.name);
        }
        self.add_roots(circuit.outputs.as_slice());
        self.add_roots(circuit.bads.as_slice());
        for gate in circuit.gates.as_slice() {
            self.add(gate.left);
            self.add(gate.right);
        }
    }
}

fn print_circuit(rt: &HostRuntime, circuit: &Circuit) -> Result<()> {
    let mut sum = Sum { state: 0 };
    sum.add_circuit(circuit);
    let inputs = circuit.inputs.as_slice().len();
    let latches = circuit.latches.as_slice().len();
    let outputs = circuit.outputs.as_slice().len();
    let bads = circuit.bads.as_slice().len();
    let gates = circuit.gates.as_slice().len();
    println!(rt; "file {inputs} {latches} {outputs} {bads} {gates} {}", sum.state)?;
    Ok(())
}

fn print_fault(rt: &HostRuntime, error: &AigerError) -> Result<()> {
    match error {
        AigerError::Header { place } => println!(rt; "Header {place}")?,
        AigerError::Count { place } => println!(rt; "Count {place}")?,
        AigerError::Unsupported { place } => println!(rt; "Unsupported {place}")?,
        AigerError::Truncated { place } => println!(rt; "Truncated {place}")?,
        AigerError::Line { place } => println!(rt; "Line {place}")?,
        AigerError::Literal { place } => println!(rt; "Literal {place}")?,
        AigerError::Twice { place } => println!(rt; "Twice {place}")?,
        AigerError::Reset { place } => println!(rt; "Reset {place}")?,
        AigerError::Delta { place } => println!(rt; "Delta {place}")?,
        AigerError::Symbol { place } => println!(rt; "Symbol {place}")?,
        AigerError::Undefined { place } => println!(rt; "Undefined {place}")?,
        AigerError::Cycle { place } => println!(rt; "Cycle {place}")?,
        AigerError::NoMemory(_) => println!(rt; "NoMemory")?,
    }
    Ok(())
}

fn print_reading(rt: &HostRuntime, text: &[u8]) -> Result<()> {
    match read(rt.alloc(), text) {
        Ok(circuit) => print_circuit(rt, &circuit),
        Err(error) => print_fault(rt, &error),
    }
}

// The line of the system that says the most memory that was used so far.
fn print_memory(rt: &HostRuntime) -> Result<()> {
    let status = fs::read_to_string(rt, "/proc/self/status")?;
    for line in status.as_str().lines() {
        if line.starts_with("VmHWM:") {
            println!(rt; "{line}")?;
        }
    }
    Ok(())
}

// Each text stands behind its length, which is eight bytes, the lowest first. A length of 2^32 asks for the memory.
fn main(rt: HostRuntime) -> Result<()> {
    let bytes = fs::read(&rt, "[FOLDER]/texts")?;
    let mut rest = bytes.as_slice();
    print_memory(&rt)?;
    for _ in 0..1u64 << 40 {
        if rest.len() < 8 {
            break;
        }
        let (head, behind) = rest.split_at(8);
        let mut length = 0u64;
        for place in 0..8 {
            length += u64::from(head[place]) << (8 * place as u32);
        }
        rest = behind;
        if length == 1 << 32 {
            print_memory(&rt)?;
        } else {
            let (text, behind) = rest.split_at(length as usize);
            print_reading(&rt, text)?;
            rest = behind;
        }
    }
    println!(rt; "end")?;
    Ok(())
}
"""


# So many inputs have no place in the addresses of a process.
MANY = 10**13
WANTING = "NoMemory"


class Fault(Exception):
    """What is wrong with a text, and where."""


def fails(kind, place):
    raise Fault("%s %d" % (kind, place))


def numbers_in(line):
    """The numbers of a line, one to nine of up to 18 digits, or None."""
    words = line.split(b" ")
    if len(words) > 9 or not all(1 <= len(word) <= 18 and all(48 <= byte < 58 for byte in word) for word in words):
        return None
    return [int(word) for word in words]


class Reading:
    """The reading of a binary text."""

    def __init__(self, text):
        self.text, self.place = text, 0

    def line(self):
        """The next line and its place, or None at the end."""
        if self.place >= len(self.text):
            return None
        start, end = self.place, self.text.find(b"\n", self.place)
        end = len(self.text) if end < 0 else end
        self.place = end + 1
        return start, self.text[start:end]

    def header(self):
        first = self.line()
        if first is None or not first[1].startswith(b"aig "):
            fails("Header", 0)
        numbers = numbers_in(first[1][4:])
        if numbers is None or len(numbers) < 5:
            fails("Header", 0)
        if numbers[0] != numbers[1] + numbers[2] + numbers[4]:
            fails("Count", 0)
        if any(numbers[6:]):
            fails("Unsupported", 0)
        self.greatest, self.inputs, self.latches, self.outputs, self.gates = numbers[:5]
        self.bads = numbers[5] if len(numbers) > 5 else 0

    def numbers(self, lengths):
        """The place and the numbers of the next line, which are so many."""
        found = self.line()
        if found is None:
            fails("Truncated", len(self.text))
        numbers = numbers_in(found[1])
        if numbers is None or len(numbers) not in lengths:
            fails("Line", found[0])
        if numbers[0] > 2 * self.greatest + 1:
            fails("Literal", found[0])
        return found[0], numbers

    def latch(self, variable):
        place, numbers = self.numbers((1, 2))
        reset = numbers[1] if len(numbers) > 1 else 0
        if reset not in (0, 1, 2 * variable):
            fails("Reset", place)
        return numbers[0], min(reset, 2)

    def difference(self, least, most):
        """The next number in groups of seven bits."""
        start, number = self.place, 0
        for group in range(9):
            if self.place >= len(self.text):
                fails("Truncated", len(self.text))
            byte = self.text[self.place]
            self.place += 1
            number += (byte & 127) << 7 * group
            if byte < 128:
                if not least <= number <= most:
                    fails("Delta", start)
                return number
        fails("Delta", start)

    def symbols(self):
        """The names of things, by letter and position."""
        counts = {105: self.inputs, 108: self.latches, 111: self.outputs, 98: self.bads}
        names = {}
        while True:
            found = self.line()
            if found is None or found[1][:1] == b"c":
                return names
            place, line = found
            word, space, name = line[1:].partition(b" ")
            numbers = numbers_in(word)
            if not space or numbers is None:
                fails("Symbol", place)
            key = line[0], numbers[0]
            if key in names or key[1] >= counts.get(key[0], 0):
                fails("Symbol", place)
            names[key] = name

    def file(self):
        """What `read` is to say of the text."""
        self.header()
        latches = [self.latch(1 + self.inputs + place) for place in some(self.latches)]
        outputs = [self.numbers((1,))[1][0] for _ in some(self.outputs)]
        bads = [self.numbers((1,))[1][0] for _ in some(self.bads)]
        self.place = min(self.place, len(self.text))
        gates, own = [], 2 * (1 + self.inputs + self.latches)
        for _ in some(self.gates):
            left = own - self.difference(1, own)
            gates.append((left, left - self.difference(0, left)))
            own += 2
        if self.inputs >= MANY:
            return WANTING
        names = self.symbols()
        named = lambda letter, place: [1 + len(names[letter, place]), *names[letter, place]] if (letter, place) in names else [0]
        numbers = [number for place in range(self.inputs) for number in named(105, place)]
        for place, latch in enumerate(latches):
            numbers += [*latch, *named(108, place)]
        for letter, roots in ((111, outputs), (98, bads)):
            for place, root in enumerate(roots):
                numbers += [root, *named(letter, place)]
        numbers += [operand for gate in gates for operand in gate]
        state = 0
        for number in numbers:
            state = (state ^ number) * 1099511628211 % 2**64
        return "file %d %d %d %d %d %d" % (self.inputs, len(latches), len(outputs), len(bads), len(gates), state)


def some(count):
    """The numbers below the count, which needn't be there in full."""
    return range(min(count, 2**62))


def reading(text):
    """What `read` is to say of a text."""
    try:
        return Reading(text).file()
    except Fault as fault:
        return str(fault)


def groups(number, empty=0):
    """The bytes of a number in groups of seven bits, with so many empty ones behind."""
    out = bytearray()
    while number > 127 or empty > 0:
        out.append(number & 127 | 128)
        empty -= number <= 127
        number >>= 7
    return bytes(out + bytes([number]))


def random_text(source):
    """A text in order with all that a text may have."""
    inputs, latches, outputs, bads, gates = (source.randint(0, most) for most in (6, 4, 4, 3, 40))
    greatest = inputs + latches + gates
    head = "aig %d %d %d %d %d" % (greatest, inputs, latches, outputs, gates)
    head += " %d" % bads + source.choice(("", " 0", " 0 0 0")) if bads or source.random() < 0.3 else ""
    lines = [head]
    for place in range(latches):
        own = 2 * (1 + inputs + place)
        lines.append("%d" % source.randint(0, 2 * greatest + 1) + source.choice(("", " 0", " 1", " %d" % own)))
    lines += ["%d" % source.randint(0, 2 * greatest + 1) for _ in range(outputs + bads)]
    text = "".join(line + "\n" for line in lines).encode()
    own = 2 * (1 + inputs + latches)
    for _ in range(gates):
        left = source.randint(0, own - 1)
        text += groups(own - left, source.choice((0, 0, 0, 1, 3))) + groups(left - source.randint(0, left), source.choice((0, 0, 0, 2)))
        own += 2
    things = [(letter, place) for letter, count in zip("ilob", (inputs, latches, outputs, bads)) for place in range(count)]
    source.shuffle(things)
    for letter, place in things[: source.randint(0, len(things))]:
        name = bytes(source.choice(b"abc 019\x00\xff\r") for _ in range(source.randint(0, 5)))
        text += b"%s%d " % (letter.encode(), place) + name + b"\n"
    return text + source.choice((b"", b"c\n", b"c\nany\x00thing\n\xff", b"comment"))


def harmed(source, text):
    """The text cut at every byte, with each byte changed, and with garbage behind."""
    for place in range(len(text) + 1):
        yield text[:place]
    for place in range(len(text)):
        for byte in {source.randrange(256), text[place] ^ 1, text[place] ^ 128, 10, 32, 48, 255}:
            yield text[:place] + bytes([byte]) + text[place + 1 :]
        yield text[:place] + text[place + 1 :]
        yield text[:place] + bytes([source.randrange(256)]) + text[place:]
    for length in (1, 2, 3, 10, 100, 10000):
        garbage = bytes(source.randrange(256) for _ in range(length))
        for between in (b"", b"\n", b"c", b"\nc\n", b"i0 "):
            yield text + between + garbage
    for tail in (b"\n", b"\n\n", b"i0 x\n", b"i0 x\ni0 x\n", b"i0  \n", b"l0 \n", b"x0 y\n", b"i\n", b"i 0 x\n", b"i00 x\n", b"o-1 x\n"):
        yield text + tail
    for position in (2**31, 2**32, 2**63, 2**64, 10**17, 10**18 - 1, 10**18):
        yield text + b"i%d x\n" % position


def headers():
    """Texts whose headers count much, or have a wrong number of numbers."""
    huge = (10**9, 2**31 - 1, 2**31, 2**32, 2**32 + 1, 10**17, 10**18 - 1, 10**18, 2**63, 2**64, 2**64 + 1, 10**30)
    for many in huge:
        for place in range(6):
            counts = [0] * 6
            counts[place] = many
            counts[0] = counts[1] + counts[2] + counts[4] if place else many
            # inputs need no lines, so that up to the symbols such a text is in order
            if place == 1 and many < MANY:
                counts[3] = 1
            for tail in (b"", b"\n", b"\n0\n", b"\n0\n\x02\x00", b"\n\x02\x01\x02\x01"):
                if place != 1 or many >= MANY or b"0" not in tail:
                    yield b"aig %s" % b" ".join(b"%d" % count for count in counts) + tail
    for words in ("", "0", "0 0 0 0", "0 0 0 0 0", "0 0 0 0 0 0 0 0 0", "0 0 0 0 0 0 0 0 0 0", "0 0 0 0 0 0 1", "0 0 0 0 0 0 0 0 1",
                  "1 0 0 0 0", "0 1 0 0 0", "1 1 0 0 0 ", " 1 1 0 0 0", "1  1 0 0 0", "01 1 0 0 0", "+1 1 0 0 0", "-1 -1 0 0 0", "1 1 0 0 0x",
                  "1\t1 0 0 0", "1 1 0 0 0\r", "1.0 1 0 0 0", "1e3 1 0 0 0", "\u0661 1 0 0 0", "000000000000000001 1 0 0 0", "0000000000000000001 1 0 0 0"):
        for tail in ("", "\n"):
            yield ("aig " + words + tail).encode()
    yield b"aig " + b"1" * 10**6 + b" 1 0 0 0\n"
    yield b"aig " + b"0 " * 10**6 + b"\n"
    yield b"aig 0 0 0 0 0" + b"x" * 10**6
    for letters in (b"", b"a", b"ai", b"aig", b"aig ", b"AIG 0 0 0 0 0\n", b"aig\t0 0 0 0 0\n", b"aig0 0 0 0 0\n", b"\xef\xbb\xbfaig 0 0 0 0 0\n", b"\n", b"\x00" * 100):
        yield letters


def differences():
    """Texts of two inputs and one or two gates with differences of all kinds."""
    forms = [groups(n) for n in (0, 1, 2, 3, 5, 6, 7, 127, 128, 2**31, 2**32 + 2, 2**62, 2**63 - 1, 2**63, 2**64 + 2)]
    forms += [groups(2, empty) for empty in range(1, 12)] + [groups(0, empty) for empty in range(1, 12)]
    forms += [b"\x80" * count for count in (1, 8, 9, 10, 10**6)] + [b"\xff" * count for count in (1, 8, 9, 10, 10**6)]
    for first in forms:
        yield b"aig 3 2 0 0 1\n" + first
        for second in (b"\x00", b"\x01", b"\x04", b"\x05", b"\x80\x00", b"\xff" * 9, b""):
            yield b"aig 3 2 0 0 1\n" + first + second
            yield b"aig 4 2 0 0 2\n\x02\x02" + first + second
            yield b"aig 3 2 0 0 1\n\x02" + second + first
    for many in (10**5, 10**18 - 1):
        # as many gates as the header counts, or far fewer
        gates = min(many, 10**5)
        yield b"aig %d 0 0 0 %d\n" % (many, many) + b"\x02\x00" * gates
        yield b"aig %d 0 0 0 %d\n" % (many, many) + b"\x01\x00" * gates


def inputs_in_order():
    """Texts in order whose headers count many inputs."""
    for many in (10**6, MANY, 2**58, 2**59, 10**17, 10**18 - 2):
        yield b"aig %d %d 0 0 0\n" % (many, many)
        yield b"aig %d %d 0 1 1\n%d\n\x02\x00i%d x\n" % (many + 1, many, 2 * many, many - 1)


def read_all(ordinary, many):
    """What the program says of the texts, and the kilobytes that it took at the start, after the ordinary ones, and at the end."""
    pack = lambda texts: b"".join(len(text).to_bytes(8, "little") + text for text in texts)
    mark = (2**32).to_bytes(8, "little")
    with tempfile.TemporaryDirectory() as folder:
        crate = copy_of_crates(folder, "hostile_aiger", ["anyhow", "craig_aiger_read"])
        with open(os.path.join(folder, "texts"), "wb") as out:
            out.write(pack(ordinary) + mark + pack(many) + mark)
        with open(os.path.join(crate, "src", "main.rt"), "w") as out:
            out.write(PROGRAM.replace("[FOLDER]", folder))
        run = subprocess.run(["rt", "try"], cwd=crate, capture_output=True, text=True)
    lines = run.stdout.split("end\n")[0].splitlines()
    if run.returncode != 0 or "end\n" not in run.stdout:
        sys.exit("the program ended early, at text %d\n" % len(lines) + run.stdout[-500:] + run.stderr[-2000:])
    memory = [int(line.split()[1]) for line in lines if line.startswith("VmHWM")]
    return [line for line in lines if not line.startswith("VmHWM")], memory


def main():
    count = int(sys.argv[1]) if len(sys.argv) > 1 else 12
    source = random.Random(int(sys.argv[2]) if len(sys.argv) > 2 else 1)
    ordinary = list(headers()) + list(differences())
    for _ in range(count):
        text = random_text(source)
        ordinary += harmed(source, text)
    ordinary = [text for text in ordinary if not text.startswith(b"aag ")]
    wanted = [reading(text) for text in ordinary]
    many = list(inputs_in_order())
    many_wanted = [reading(text) for text in many]
    said, memory = read_all(ordinary, many)
    for text, want, line in zip(ordinary + many, wanted + many_wanted, said, strict=True):
        if line != want:
            sys.exit("%r (%d bytes) is read as %s, and not as %s" % (text[:200], len(text), line, want))
    files = sum(want.startswith("file") for want in wanted)
    print("%d texts read as the definition says, %d of them as files" % (len(said), files))
    print("memory: %d kB for the texts themselves, %d at most while reading, %d with 10^6 inputs in order" % tuple(memory))
    if memory[1] > memory[0] + 64 * 1024:
        sys.exit("too much memory")


if __name__ == "__main__":
    main()
