#!/usr/bin/env python3
"""Builds the program, and prints how many lines of `add 1` a second a session of two localities takes: in one process, and in two.

Each line is one call to the other locality and its answer, and the next is read once the answer is there. So over two processes the
time for a line is that of a round trip over loopback TCP. Where `erl` is at hand, the same number of calls from one node of Erlang to another
is measured beside it. Run it anywhere in the repository, with `rt` on the path, or with the path of the program as built. Each is
run five times, and the shortest time is taken, from the answer to a first query to the answer to a last one.
"""

import os
import pathlib
import shutil
import socket
import subprocess
import sys
import tempfile
import threading
import time

BENCH = pathlib.Path(__file__).resolve().parent
CRATE = BENCH.parent / "crates" / "hpx"
LINES = 20000
RUNS = 5
OPENED = b"commands: reset, add [amount], query, help, quit\n> 0\n> "


def free_port(count):
    """The first of so many ports in a row that nobody has now."""
    for port in range(7000, 30000, count):
        taken = []
        try:
            for it in range(port, port + count):
                taken.append(socket.socket())
                taken[-1].bind(("127.0.0.1", it))
            return port
        except OSError:
            pass
        finally:
            for it in taken:
                it.close()
    raise RuntimeError("no port is free")


def seconds(console, text, want):
    """How long a console takes to write what is wanted, once it is fed a text."""

    def feed():
        console.stdin.write(text)
        console.stdin.flush()

    feeder = threading.Thread(target=feed)
    start = time.perf_counter()
    feeder.start()
    out = console.stdout.read(len(want))
    took = time.perf_counter() - start
    feeder.join()
    assert out == want, out[-100:]
    return took


def session(program, lines, processes):
    """The seconds that the lines of one session take."""
    port = free_port(2)
    common = [program, "accumulator", "--hpx:localities=2"]
    sides = [[]]
    if processes == 2:
        common += [f"--hpx:agas=127.0.0.1:{port}"]
        sides = [["--hpx:node=0", "--hpx:console"], ["--hpx:node=1", "--hpx:worker"]]
    pipe, null = subprocess.PIPE, subprocess.DEVNULL
    children = []
    try:
        for side in sides:
            stdin, stdout = (null, null) if children else (pipe, pipe)
            children.append(subprocess.Popen(common + side, stdin=stdin, stdout=stdout))
        console = children[0]
        seconds(console, b"query\n", OPENED)
        took = seconds(console, b"add 1\n" * lines + b"query\n", b"> " * lines + b"%d\n> " % lines)
        console.stdin.close()
        assert [it.wait(timeout=10) for it in children] == [0] * len(children)
        return took
    finally:
        for it in children:
            it.kill()


def erlang(calls):
    """The seconds that so many calls take from one node to another."""
    port = free_port(1)
    environment = {**os.environ, "ERL_EPMD_PORT": str(port)}
    erl = ["erl", "-noshell", "-setcookie", "hpx", "-name"]
    children = []
    with tempfile.TemporaryDirectory() as folder:
        how = {"cwd": folder, "env": environment}
        subprocess.run(["erlc", BENCH / "calls.erl"], check=True, **how)
        try:
            children.append(subprocess.Popen([shutil.which("epmd") or "epmd"], **how))
            time.sleep(0.5)
            children.append(subprocess.Popen([*erl, "number@127.0.0.1", "-run", "calls", "serve"], **how))
            call = [*erl, "caller@127.0.0.1", "-run", "calls", "main", "number@127.0.0.1", str(calls)]
            ran = subprocess.run(call, check=True, capture_output=True, timeout=120, **how)
            return int(ran.stdout) / 1e6
        finally:
            for it in children:
                it.kill()
                it.wait()


def main():
    if len(sys.argv) > 1:
        program = pathlib.Path(sys.argv[1]).resolve()
    else:
        program = CRATE / "out" / "hpx"
        words = ["accumulator", "--hpx:localities=2"]
        subprocess.run(["rt", "run", "--", *words], cwd=CRATE, input=b"", check=True, capture_output=True)
    for processes in (1, 2):
        took = min(session(program, LINES, processes) for _ in range(RUNS))
        print(f"add 1, 2 localities in {processes} processes: {LINES / took:.0f} lines a second, {took / LINES * 1e6:.1f} microseconds a line", flush=True)
    if shutil.which("erl") and shutil.which("erlc"):
        took = min(erlang(LINES) for _ in range(RUNS))
        print(f"Erlang, calls between 2 nodes: {LINES / took:.0f} calls a second, {took / LINES * 1e6:.1f} microseconds a call")
    else:
        print("erl is not here: no call of Erlang was measured")


if __name__ == "__main__":
    main()
