#!/usr/bin/env python3
"""Prints how long the parts of a gate take, as the table of docs/GATE.md.

    bench/gate.py LOG [--processes FILE] [--places N] [--start HH:MM:SS]
    bench/gate.py --watch > FILE
    bench/gate.py --functions LOG .. [--over SECONDS]

LOG is what `rt ci` prints, each line behind the time at which it came:

    (echo start; rt ci 2>&1) | while IFS= read -r l; do printf '%s %s\n' "$(date +%T)" "$l"; done > gate.log

A gate works on several crates at once, and prints what it has to say of one only when it is done with that: the lines
of a crate's proof, of its tests' proof and of its edits stand together and have one time, that of their end. So a log
tells in which minute each of them ended and not how long it took: they may have waited, and they shared the processors.
What is printed from a log alone is the end, and a share: the places at work, N of them, 4 if not said, are divided at
each moment among all that could have been at work then, a crate's proof from the end of the proofs that it stands on,
its tests and edits from the end of its own. What waited long gets too much of it.

Processor time is measured beside the gate. `--watch` looks each second at the processes of the prover and prints a line
for each that ended: when it was first and last seen, the crate, whether it had the tests, its processor seconds, and
the folder that it ran in. It is ended by a signal. Nothing else may prove on the machine meanwhile. A process in a
folder `rt-edit-..` counts as an edit, and so does one without the tests that began after the crate was proved and ran
in a folder of another name than the crate's. Any other counts as the tests' proof where it had the tests, and else as
the proof. With such a FILE the table has processor minutes. They lack what a process did in its last second, and other
programs than the prover, as the compiler that builds what was proved.

What a function costs is told by a check of one crate that prints each function as it is done. `--functions` reads such
logs, and prints what took longer than SECONDS, 20 if not said, by wall time from one function's line to the next:

    rt check --test --jobs 1 2>&1 | while IFS= read -r l; do printf '%s %s\n' "$(date +%T)" "$l"; done > crate.log

from nothing (no folder `out`), with nothing else at work. With more jobs or with kept work the times mean nothing.
"""

import argparse
import collections
import os
import re
import signal
import sys
import time

ROOT = os.path.dirname(os.path.dirname(os.path.abspath(__file__)))

STAMPED = re.compile(r"(\d\d):(\d\d):(\d\d)(?:\.\d+)? (.*)$")
BLOCK = re.compile(r"== (\w+)(?:: (.*))?$")
PROVED = re.compile(r"rt: (\w+) proved$")
TESTED = re.compile(r"rt: (\w+): its tests are proved")
EDIT = re.compile(r"must-fail|\w\.edit\b|\bedits?\b")
ITEM = re.compile(r"(fn|impl|struct|enum|trait|statements|logic|axioms|note|empty|linked|by-macro|crate|only)\b")
COUNT = re.compile(r"(\d+) passed, (\d+) failed")
CHECKED = re.compile(r"checked (\S+), (\d+) of (\d+)$")

KINDS = ["proof", "tests", "edits"]
OUTCOMES = ["NOT REFUSED", "BAD EDIT", "NOT TRIED", "refused"]
DAY = 24 * 3600


# Times.

def stamped(lines):
    """The stamped lines as pairs of seconds and text; the seconds go on past midnight."""
    before, days = 0, 0
    for line in lines:
        found = STAMPED.match(line.rstrip("\n"))
        if not found:
            continue
        hours, minutes, seconds, text = found.groups()
        now = int(hours) * 3600 + int(minutes) * 60 + int(seconds)
        if now + days * DAY < before - DAY // 2:
            days += 1
        before = now + days * DAY
        yield before, text


def seconds_of(clock):
    """The seconds of a time of day."""
    hours, minutes, seconds = clock.split(":")
    return int(hours) * 3600 + int(minutes) * 60 + int(seconds)


def clock(seconds):
    """The time of day of so many seconds."""
    return time.strftime("%H:%M:%S", time.gmtime(seconds % DAY))


def minutes(seconds):
    """So many seconds in minutes, or nothing."""
    return "" if seconds is None else "%.1f" % (seconds / 60)


# The log of a gate.

class Gate:
    """What a log says: when it began and ended, when each part ended, and how the edits came out."""

    def __init__(self):
        self.start = None
        self.end = None
        self.ends = {}
        self.edits = collections.defaultdict(collections.Counter)
        self.count = []
        self.strange = []


def kind_of(what):
    """The kind of a block, by what its first line says behind the crate's name."""
    if not what:
        return "proof"
    if "test" in what:
        return "tests"
    if EDIT.search(what):
        return "edits"
    return None


def outcome_of(text):
    """How an edit came out, if the line says so."""
    for outcome in OUTCOMES:
        if outcome.lower() in text.lower():
            return outcome
    return None


def crate_in(text, known, block):
    """The crate that a line speaks of: one that it names, and else that of the block."""
    named = [name for name in re.findall(r"\w+", text) if name in known]
    return named[0] if named else block


def read_gate(lines, known):
    """What a log says, where `known` are the crates."""
    gate, crate, kind = Gate(), None, None
    for now, text in stamped(lines):
        gate.start = now if gate.start is None else gate.start
        gate.end = now
        block = BLOCK.match(text)
        if block:
            crate, kind = block.group(1), kind_of(block.group(2))
            if kind == "edits":
                gate.ends[crate, kind] = now
            continue
        take_line(gate, now, text, known, crate, kind)
    return gate


def take_line(gate, now, text, known, crate, kind):
    """Takes a line that begins no block."""
    if ITEM.match(text) and not text.startswith("logic="):
        return
    if PROVED.match(text):
        gate.ends[PROVED.match(text).group(1), "proof"] = now
    elif TESTED.match(text):
        gate.ends[TESTED.match(text).group(1), "tests"] = now
    elif text.startswith("logic="):
        gate.ends.setdefault((crate, "tests" if " tests=" in text else kind or "proof"), now)
    elif COUNT.search(text) or text.startswith("rt: ok"):
        gate.count.append(text)
    elif EDIT.search(text):
        take_edit(gate, now, text, crate_in(text, known, crate))
    elif text.startswith("rt:"):
        gate.strange.append(text)


def take_edit(gate, now, text, crate):
    """Takes a line that speaks of an edit."""
    outcome = outcome_of(text)
    if outcome and crate:
        gate.edits[crate][outcome] += 1
        gate.ends[crate, "edits"] = now
    elif not outcome:
        gate.strange.append(text)


# Shares of the wall time.

def ready(gate, below, part):
    """When a part could begin: once what it stands on was proved."""
    crate, kind = part
    needed = below.get(crate, []) if kind == "proof" else [crate]
    ends = [gate.ends[name, "proof"] for name in needed if (name, "proof") in gate.ends]
    return max(ends, default=gate.start)


def shares(gate, below, places):
    """The seconds of each part, if the places are divided among all that could be at work."""
    begins = {part: ready(gate, below, part) for part in gate.ends}
    moments = sorted(set(begins.values()) | set(gate.ends.values()) | {gate.start})
    share = dict.fromkeys(gate.ends, 0.0)
    for first, last in zip(moments, moments[1:]):
        open_parts = [part for part in share if begins[part] <= first and last <= gate.ends[part]]
        for part in open_parts:
            share[part] += (last - first) * min(1.0, places / len(open_parts))
    return share


# Processes.

def proving():
    """The processes of the prover: the crate, whether it has the tests, and the folder, by process."""
    for name in os.listdir("/proc"):
        if not name.isdigit():
            continue
        try:
            with open("/proc/%s/cmdline" % name, "rb") as file:
                words = file.read().decode(errors="replace").split("\0")
            if os.path.basename(words[0]) != "rattle" or "--crate-name" not in words:
                continue
            crate = words[words.index("--crate-name") + 1]
            yield int(name), (crate, "--test" in words, os.readlink("/proc/%s/cwd" % name))
        except (OSError, IndexError):
            continue


def processor_seconds(process):
    """The processor seconds of a process so far, without those of its children."""
    with open("/proc/%d/stat" % process) as file:
        fields = file.read().rsplit(")", 1)[1].split()
    return (int(fields[11]) + int(fields[12])) / os.sysconf("SC_CLK_TCK")


class Watched:
    """A process that was seen."""

    def __init__(self, now, about):
        self.first = self.last = now
        self.crate, self.tests, self.folder = about
        self.seconds = 0.0

    def line(self):
        """The line of the process."""
        times = clock(self.first) + " " + clock(self.last)
        return "%s %s %s %.1f %s" % (times, self.crate, "tests" if self.tests else "code", self.seconds, self.folder)


def look(seen):
    """Looks at the processes once, and gives those that are gone."""
    now = seconds_of(time.strftime("%H:%M:%S"))
    present = dict(proving())
    for process, about in present.items():
        try:
            seconds = processor_seconds(process)
        except OSError:
            continue
        watched = seen.setdefault(process, Watched(now, about))
        watched.last, watched.seconds = now, seconds
    gone = [process for process in seen if process not in present]
    return [seen.pop(process) for process in gone]


def watch():
    """Prints a line for each process of the prover that ended, until a signal comes."""
    seen = {}

    def stop(*_):
        for watched in seen.values():
            print(watched.line(), flush=True)
        sys.exit(0)

    signal.signal(signal.SIGTERM, stop)
    signal.signal(signal.SIGINT, stop)
    while True:
        for watched in look(seen):
            print(watched.line(), flush=True)
        time.sleep(1)


def measured(lines, gate):
    """The processor seconds of each part, and those of each edit by crate, from the lines of processes."""
    seconds, edits = collections.Counter(), collections.defaultdict(list)
    for line in lines:
        first, _, crate, kind, spent, folder = line.split(None, 5)
        part = (crate, part_kind(crate, kind, seconds_of(first), folder, gate))
        seconds[part] += float(spent)
        if part[1] == "edits":
            edits[crate].append(float(spent))
    return dict(seconds), edits


def part_kind(crate, kind, first, folder, gate):
    """What a process was at work on: an edit, the tests or the proof."""
    name = os.path.basename(folder.strip())
    if name.startswith("rt-edit"):
        return "edits"
    if kind == "tests":
        return "tests"
    end = gate.ends.get((crate, "proof"))
    return "edits" if name != crate and end is not None and first > end % DAY else "proof"


# What is printed.

def print_table(gate, order, spent, unit):
    """The table of the crates."""
    print("| Crate | Proof | Tests | Edits | Proof ended | Tests ended | Edits ended | Edits refused |")
    print("|---|---|---|---|---|---|---|---|")
    for crate in order:
        times = [minutes(spent.get((crate, kind))) for kind in KINDS]
        ends = [end_of(gate, (crate, kind)) for kind in KINDS]
        print("| `%s` | %s | %s | %s |" % (crate, " | ".join(times), " | ".join(ends), edits_of(gate, crate)))
    sums = [sum(s for (_, k), s in spent.items() if k == kind) for kind in KINDS]
    last = [last_end(gate, kind) for kind in KINDS]
    print("| all | %s | %s | |" % (" | ".join(map(minutes, sums)), " | ".join(last)))
    print()
    print(unit)
    print_rule(sums)


def end_of(gate, part):
    """In which minute a part ended, if it did."""
    return minutes(gate.ends[part] - gate.start) if part in gate.ends else ""


def last_end(gate, kind):
    """In which minute the last part of the kind ended."""
    return minutes(max((end - gate.start for (_, k), end in gate.ends.items() if k == kind), default=None))


def edits_of(gate, crate):
    """How many edits were refused, and what else came of them."""
    counts = gate.edits[crate]
    return ", ".join("%d %s" % (counts[o], o) if o != "refused" else str(counts[o]) for o in OUTCOMES if counts[o])


def print_rule(sums):
    """Whether tests and edits stay below the proofs."""
    proof, others = sums[0], sums[1] + sums[2]
    if proof == 0 or sums[2] == 0:
        print("Tests and edits beside proofs: the log has not both.")
        return
    word = "no more than" if others <= proof else "MORE THAN"
    print("Tests and edits took %s minutes, %s the %s of the proofs: %.2f of them." % (
        minutes(others), word, minutes(proof), others / proof))


def print_rest(gate):
    """How the gate came out, and which lines were not understood."""
    print("The log covers %s minutes of wall time." % minutes(gate.end - gate.start))
    for text in gate.count or ["It has no count of what passed, so the gate was cut off."]:
        print(text)
    if gate.strange:
        print("Lines that were not understood, %d of them:" % len(gate.strange))
        for text in gate.strange[:8]:
            print("    " + text[:160])


def print_edits(edits):
    """How many processes the edits of a crate took, and how long the longest one."""
    for crate, spent in edits.items():
        print("Edits of %s: %d processes, the longest %d seconds." % (crate, len(spent), max(spent)))


def functions(paths, over):
    """Prints what took long in checks of one job, a line each, the longest first."""
    found = []
    for path in paths:
        with open(path, encoding="utf-8") as file:
            found += costs(file)
    long = sorted(((spent, name) for spent, name in found if spent >= over), reverse=True)
    print("| Seconds | Function or test |")
    print("|---|---|")
    for spent, name in long:
        print("| %d | `%s` |" % (spent, name))
    print()
    print("%d of %d took %d seconds or more, and %s of %s minutes." % (
        len(long), len(found), over, minutes(total(long)), minutes(total(found))))
    print("What stands in a module `tests` took %s minutes." % minutes(total(c for c in found if "tests::" in c[1])))


def total(found):
    """The seconds of all of them."""
    return sum(spent for spent, _ in found)


def costs(lines):
    """The wall seconds of each function of one check, from the line before it."""
    before, found = None, []
    for now, text in stamped(lines):
        checked = CHECKED.match(text)
        if checked and before is not None:
            found.append((now - before, checked.group(1)))
        if checked or text.startswith("so far:"):
            before = now
    return found


# The commands.

def crates():
    """The crates that each crate stands on, by crate, lowest first."""
    below = {}
    with open(os.path.join(ROOT, "crates.txt"), encoding="utf-8") as file:
        for line in file:
            name, colon, named = line.split("#")[0].partition(":")
            if colon:
                below[name.split()[0]] = named.split()
    return below


def report(args):
    """Prints the table of a log."""
    below = crates()
    with open(args.log, encoding="utf-8") as file:
        gate = read_gate(file, below)
    if gate.start is None:
        sys.exit("%s: no line begins with a time" % args.log)
    if args.start:
        gate.start = seconds_of(args.start)
    if args.processes:
        with open(args.processes, encoding="utf-8") as file:
            spent, edits = measured(file, gate)
        unit = "Minutes of one processor in the first columns, and minutes of wall time from the start in the others."
    else:
        spent, edits = shares(gate, below, args.places), {}
        unit = "Shares of %d places in minutes of wall time, no measure of any part, in the first columns." % args.places
    print_table(gate, below, spent, unit)
    print_rest(gate)
    print_edits(edits)


def main():
    parser = argparse.ArgumentParser(description=__doc__.split("\n")[0])
    parser.add_argument("log", nargs="?", help="the stamped log of a gate")
    parser.add_argument("--processes", help="what --watch printed beside the gate")
    parser.add_argument("--places", type=int, default=4, help="how many crates were worked on at once")
    parser.add_argument("--start", help="when the gate began, where its log does not")
    parser.add_argument("--watch", action="store_true", help="watch the prover's processes")
    parser.add_argument("--functions", nargs="+", metavar="LOG", help="stamped logs of checks with one job")
    parser.add_argument("--over", type=int, default=20, help="the least seconds of what is listed")
    args = parser.parse_args()
    if args.watch:
        watch()
    elif args.functions:
        functions(args.functions, args.over)
    elif args.log:
        report(args)
    else:
        parser.error("a log, --watch or --functions is wanted")


if __name__ == "__main__":
    main()
