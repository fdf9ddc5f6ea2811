"""Runs a choice text under `once` and `sim 7`, looks at each value, and tells how long the runs took by the clock.

usage: benches/choices.py [RANKS STEPS]. They are 256 and 64 where none are given; elects and tickets take turns. PORTALS_RUN is the program
(crates/portals_run/out/portals_run, which `rt ci` leaves). The status is 0 where all values are right.
"""

import os
import pathlib
import subprocess
import sys
import time

TOP = pathlib.Path(__file__).resolve().parent.parent
PROGRAM = os.environ.get("PORTALS_RUN", str(TOP / "crates/portals_run/out/portals_run"))


def text_of(ranks, steps):
    kinds = ["elect" if step % 2 == 0 else "tickets" for step in range(steps)]
    lines = ["coll 2", f"ranks {ranks}"]
    lines += [f"{kind} s{step}" for step, kind in enumerate(kinds)]
    lines += [f"print s{step}" for step in range(steps)] + ["end"]
    return "\n".join(lines) + "\n", kinds


def is_right(kind, values, ranks):
    if kind == "elect":
        return len(set(values)) == 1 and values[0] in range(ranks)
    return sorted(values) == list(range(ranks))


def steps_due(rank, ranks, kinds):
    """A start; five steps for an elect and three for tickets; and at rank 0 the requests of all ranks."""
    own = sum(5 if kind == "elect" else 3 for kind in kinds)
    served = sum(2 * ranks if kind == "elect" else ranks for kind in kinds) if rank == 0 else 0
    return 1 + own + served


def wrong(lines, ranks, kinds, orders):
    """The first thing that isn't as it should be, if any."""
    for step, kind in enumerate(kinds):
        rows = [line.split(" ") for line in lines[step * ranks : (step + 1) * ranks]]
        if [row[:2] for row in rows] != [[f"s{step}", str(rank)] for rank in range(ranks)]:
            return f"the names and ranks of s{step}"
        if not is_right(kind, [int(row[2]) for row in rows], ranks):
            return f"the values of s{step}"
    rest = lines[ranks * len(kinds) :]
    if rest[0] != "rest" or len(rest) != 1 + (ranks if orders else 0):
        return "the lines behind the values"
    for rank, line in enumerate(rest[1:]):
        words = line.split(" ")
        if words[:2] != ["order", str(rank)] or len(words) - 2 != steps_due(rank, ranks, kinds):
            return f"the order of rank {rank}"
    return None


def main():
    ranks, steps = (int(word) for word in sys.argv[1:3]) if len(sys.argv) > 2 else (256, 64)
    text, kinds = text_of(ranks, steps)
    for words in (["once"], ["sim", "7"]):
        started = time.monotonic()
        ran = subprocess.run([PROGRAM, *words], input=text.encode(), capture_output=True, check=False)
        took = time.monotonic() - started
        lines = ran.stdout.decode().split("\n")
        fault = f"status {ran.returncode}" if ran.returncode else wrong(lines[:-1], ranks, kinds, words[0] == "sim")
        if fault:
            print(f"{' '.join(words)}: {fault}")
            sys.exit(1)
        print(f"{' '.join(words)}: {ranks} ranks and {steps} steps, each value right, {took:.2f} s")


main()
