#!/usr/bin/env python3
"""Builds the program, and prints how fast it computes: calls a second of `fib`, steps of parts a second of `stencil`,
lines a second of `load`, and peak memory.

A call is one action that computes a Fibonacci number: with a threshold of 2 each call of 2 or more makes two others, and with a
threshold of 12 each call below 12 computes its number by itself, so that bodies cost more. Run it anywhere in
the repository, with `rt` on the path. Each is run five times, and the shortest time is taken. The time to start the program, measured
with the smallest number or no step, is taken off.
"""

import os
import pathlib
import subprocess
import time

CRATE = pathlib.Path(__file__).resolve().parent.parent / "crates" / "hpx"
PROGRAM = CRATE / "out" / "hpx"
RUNS = 5
THRESHOLD = 2
COSTLY = 12


def fibonacci(n):
    """The number, by its recurrence."""
    return n if n < 2 else fibonacci(n - 1) + fibonacci(n - 2)


def calls(n, threshold=THRESHOLD):
    """How many calls compute it."""
    return 1 if n < threshold else 1 + calls(n - 1, threshold) + calls(n - 2, threshold)


def run(words, want):
    """One run: its seconds, and the most memory that it held, in MB. What it prints must be what is wanted, where that is given."""
    start = time.perf_counter()
    child = subprocess.Popen([PROGRAM, *words], stdin=subprocess.DEVNULL, stdout=subprocess.PIPE)
    out = child.stdout.read()
    _, status, used = os.wait4(child.pid, 0)
    child.returncode = os.waitstatus_to_exitcode(status)
    took = time.perf_counter() - start
    assert child.returncode == 0, (words, child.returncode)
    assert want is None or out == want, (words, out)
    return took, used.ru_maxrss / 1024


def shortest(words, want=None):
    """The run of some that took least."""
    return min(run(words, want) for _ in range(RUNS))


def fib(n, localities, threads=1, threshold=THRESHOLD):
    words = ["fib", "--n-value", str(n), "--threshold", str(threshold), f"--hpx:localities={localities}", f"--hpx:threads={threads}"]
    return shortest(words, b"fibonacci(%d) == %d\n" % (n, fibonacci(n)))


def stencil(points, parts, steps, localities):
    words = ["stencil", "--points", str(points), "--parts", str(parts), "--steps", str(steps), f"--hpx:localities={localities}"]
    return shortest(words)


def load(lines, localities):
    return shortest(["load", "--lines", str(lines), f"--hpx:localities={localities}"])


def main():
    subprocess.run(["rt", "run", "--", "fib", "--n-value", "1"], cwd=CRATE, check=True, capture_output=True)
    for localities in (1, 4):
        idle, _ = fib(1, localities)
        for n in range(12, 21, 2):
            took, held = fib(n, localities)
            count = calls(n)
            print(f"fib {n}, {localities} localities: {count} calls, {count / (took - idle):.0f} calls a second, {held:.0f} MB")
        idle, _ = stencil(1024, 32, 0, localities)
        took, held = stencil(1024, 32, 100, localities)
        print(f"stencil of 1,024 points in 32 parts, {localities} localities: {3200 / (took - idle):.0f} steps of parts a second, {held:.0f} MB")
        idle, _ = load(0, localities)
        took, held = load(20000, localities)
        print(f"load of 20,000 lines, {localities} localities: {20000 / (took - idle):.0f} lines a second, {held:.0f} MB")
    for n, threshold in ((20, THRESHOLD), (28, COSTLY)):
        for threads in (1, 2, 4):
            idle, _ = fib(1, 1, threads, threshold)
            took, held = fib(n, 1, threads, threshold)
            count = calls(n, threshold)
            print(f"fib {n}, threshold {threshold}, {threads} threads: {count} calls, {count / (took - idle):.0f} calls a second, {held:.0f} MB")


if __name__ == "__main__":
    main()
