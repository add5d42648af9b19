#!/usr/bin/env python3
"""Times how `craig` reads scripts, and prints nanoseconds a byte and the most memory that it took.

    bench/reading.py PROGRAM [MEGABYTES ..]

PROGRAM is the built program (crates/craig/out/craig). Scripts of each size, 10, 100 and 400 megabytes if none is
named, are read: clauses over 1000 variables, one line without a newline, empty lines, and refused lines. Time is
processor time of the program, with the system's for its reads and writes. Nothing here is a test: it prints figures
to compare in one run.
"""

import os
import sys
import tempfile

MEGABYTE = 1000 * 1000


def clauses():
    return b"".join(
        b"add %d %d -%d %d 0\n" % (1 + i % 2, 1 + i % 1000, 1 + (7 * i) % 1000, 1 + (13 * i) % 1000)
        for i in range(4000)
    )


SHAPES = [
    ("clauses", clauses()),
    ("one line", b"x" * 4000),
    ("empty lines", b"\n" * 4000),
    ("refused lines", b"add 1 7 -9\n" * 4000),
]


def write_script(path, chunk, size):
    with open(path, "wb") as script:
        for _ in range(size // len(chunk)):
            script.write(chunk)


def run(program, path):
    """Processor seconds that the program took for the script, and its largest resident set in bytes."""
    child = os.fork()
    if child == 0:
        os.dup2(os.open(path, os.O_RDONLY), 0)
        os.dup2(os.open(os.devnull, os.O_WRONLY), 1)
        os.execv(program, [program])
    _, status, usage = os.wait4(child, 0)
    if status != 0:
        sys.exit("%s ended with %d" % (program, status))
    return usage.ru_utime + usage.ru_stime, usage.ru_maxrss * 1024


def main():
    program = os.path.abspath(sys.argv[1])
    sizes = [int(word) for word in sys.argv[2:]] or [10, 100, 400]
    print("%-14s %6s %9s %10s" % ("script", "MB", "ns/byte", "memory MB"))
    with tempfile.TemporaryDirectory() as folder:
        path = os.path.join(folder, "script")
        for name, chunk in SHAPES:
            for size in sizes:
                write_script(path, chunk, size * MEGABYTE)
                seconds, memory = run(program, path)
                print("%-14s %6d %9.1f %10.1f" % (name, size, seconds * 1e9 / (size * MEGABYTE), memory / 1e6), flush=True)


if __name__ == "__main__":
    main()
