#!/usr/bin/env python3
"""Builds the program, runs it on 1,000 to 16,000 lines, and prints the time that each line and each entry takes.

The lines are `add 1`, or `add 1` and `query` in turn. Run it anywhere in the repository, with `rt` on the path. Each
number of lines is run five times, and the shortest time is taken. The time to start the program, measured with no
lines, is taken off.
"""

import pathlib
import subprocess
import time

CRATE = pathlib.Path(__file__).resolve().parent.parent / "crates" / "hpx"
PROGRAM = CRATE / "out" / "hpx"
WORDS = ["accumulator", "--hpx:localities=2"]
COMMANDS = b"commands: reset, add [amount], query, help, quit\n"
RUNS = 5


def adds(lines):
    """Lines of `add 1`, what they print, and how many entries each leaves."""
    return b"add 1\n" * lines, COMMANDS + b"> " * (lines + 1), 15 * lines


def adds_and_queries(lines):
    """The same of `add 1` and `query` in turn."""
    text = COMMANDS + b"".join(b"> > %d\n" % (i + 1) for i in range(lines // 2)) + b"> "
    return b"add 1\nquery\n" * (lines // 2), text, 31 * (lines // 2)


def shortest(text, want):
    """The shortest time of some runs, in seconds."""
    times = []
    for _ in range(RUNS):
        start = time.perf_counter()
        ran = subprocess.run([PROGRAM, *WORDS], input=text, capture_output=True)
        times.append(time.perf_counter() - start)
        assert ran.returncode == 0, ran
        assert ran.stdout == want
    return min(times)


def main():
    subprocess.run(["rt", "run", "--", *WORDS], cwd=CRATE, input=b"", check=True, capture_output=True)
    idle = shortest(b"", COMMANDS + b"> ")
    for name, kind in (("add 1", adds), ("add 1, query", adds_and_queries)):
        for lines in (1000, 2000, 4000, 8000, 16000):
            text, want, entries = kind(lines)
            took = shortest(text, want) - idle
            count = 14 + entries
            print(f"{name}: {lines} lines: {took / lines * 1e6:.2f} microseconds a line, {took / count * 1e6:.3f} an entry")


if __name__ == "__main__":
    main()
