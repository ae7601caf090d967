#!/usr/bin/env python3
"""Runs a short session with each allocation refused in turn, and says what was left each time.

The session is the program crates/hpx_wanting. `rt try --fail-alloc LAST --cases FOLDER` builds it once and runs it once for
each N: its input asks for LAST - N allocations before the session, so that the N-th of the session is refused. Each run has
to end with status 6 or 0. By 6 it says that memory was wanting and, where its world was there by then, that the judge accepted
the journal that was left, a job that was out was handed back, and the session went on from there to its whole text. By 0 it
says that nothing was wanting: the session makes fewer allocations, or did without this one.

Run it anywhere in the repository, with `rt` on the path. It takes about an hour; with words, as in `allocations.py 40 100`, it
begins at that allocation and refuses every hundredth.
"""

import pathlib
import re
import subprocess
import sys
import tempfile

CRATE = pathlib.Path(__file__).resolve().parent.parent / "crates" / "hpx_wanting"
ENDED = re.compile(r"^case=(\d+) run=ended status=(\d+)", re.M)

# More allocations than the session makes.
LAST = 10000


def statuses(numbers):
    """The status of the run with each of these allocations refused."""
    with tempfile.TemporaryDirectory() as folder:
        for n in numbers:
            (pathlib.Path(folder) / str(n)).write_text(f"{LAST - n}\n")
        words = ["rt", "try", "--steps", "1", "--fail-alloc", str(LAST), "--cases", folder]
        ran = subprocess.run(words, cwd=CRATE, stdout=subprocess.DEVNULL, stderr=subprocess.PIPE, text=True)
    told = {int(n): int(status) for n, status in ENDED.findall(ran.stderr)}
    assert sorted(told) == sorted(numbers), ran.stderr[-2000:]
    return [told[n] for n in numbers]


def main():
    first = int(sys.argv[1]) if len(sys.argv) > 1 else 1
    every = int(sys.argv[2]) if len(sys.argv) > 2 else 1
    numbers = range(first, LAST + 1, every)
    ended = statuses(numbers)
    assert set(ended) <= {0, 6}, "what was left is not right"
    assert ended[-1] == 0, "there are more allocations than are counted"
    wanting = [n for n, status in zip(numbers, ended) if status == 6]
    without = [n for n, status in zip(numbers, ended) if status == 0 and n < wanting[-1]]
    print(f"memory was wanting {len(wanting)} times, last at {wanting[-1]}; the session did without {without}")


if __name__ == "__main__":
    main()
