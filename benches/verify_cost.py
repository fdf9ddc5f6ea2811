#!/usr/bin/env python3
"""What `portals_plan verify` and `verify given` cost on bad and good texts of the worst kinds known, most of them near 32 MiB: processor
seconds, the greatest memory in MB, and the answer. With a built `portals_run` after the word `allgathers`: its `plan` of 60 allgathers on
64 ranks beside what judging that plan costs.

    verify_cost.py PORTALS_PLAN [KIND ..]
    verify_cost.py PORTALS_PLAN allgathers PORTALS_RUN"""
import os
import subprocess
import sys
import tempfile

MOST = 33_554_432
LINKS = 500_000


class Given:
    """A plan's text: cells are (rank, bytes, operation), links (source, bytes, target, kind), and marks follow the done lines."""

    def __init__(self, description, ranks):
        self.head, self.ranks = description, ranks
        self.cells, self.links, self.marks = [], [], []

    def cell(self, rank, length=0, op="-"):
        self.cells.append((rank, length, op))
        return len(self.cells) - 1

    def link(self, source, target, kind="bump", length=0, to=0):
        self.links.append((source, length, target, to, kind))

    def text(self):
        needs, done = [0] * len(self.cells), [0] * self.ranks
        for link in self.links:
            needs[link[2]] += 1
        out = [self.head, f"plan {self.ranks} {len(self.cells)} {len(self.links)} local\n"]
        for n, (rank, length, op) in enumerate(self.cells):
            done[rank] += 1
            out.append(f"cell {n} {rank} u8 {op} {length} {1 if n < self.ranks else needs[n]}\n")
        for n, (source, length, target, to, kind) in enumerate(self.links):
            out.append(f"link {n} {source} 0 {length} {target} {to} {kind}\n")
        out += [f"done {rank} {count}\n" for rank, count in enumerate(done)]
        out += [mark + "\n" for mark in self.marks]
        return "".join(out) + "end\n"


def one_input(ranks, count, steps="", prints="print a\n", kind="u8"):
    data = (" ".join(["1"] * count) + "\n") * ranks
    return f"coll 2\nranks {ranks}\ninput a {kind} {count}\n{data}{steps}{prints}end\n"


def begun(ranks, count, steps=""):
    """A plan whose go cells bump the cells of its input, which are its results too."""
    g = Given(one_input(ranks, count, steps), ranks)
    for rank in range(ranks):
        g.cell(rank)
    for rank in range(ranks):
        g.link(rank, g.cell(rank, count))
        g.marks.append(f"result a {rank} {ranks + rank}")
    return g


def digits():
    return "7" * MOST


def blank():
    return "\n" * MOST


def spaces():
    return " " * MOST


def digits_in_a_plan():
    head = one_input(2, 1) + "plan 2 "
    return head + "7" * (MOST - len(head))


def blank_after_a_plan():
    head = begun(2, 1).text()
    return head + "\n" * (MOST - len(head))


def words_in_a_plan():
    head = one_input(2, 1) + "plan 2 4 2 local"
    return head + " 1" * ((MOST - len(head)) // 2)


def enters():
    g = begun(2, 1, "barrier\n")
    head = g.text()[:-4]
    line = "enter 0 0 0\n"
    return head + line * ((MOST - len(head) - 4) // len(line)) + "end\n"


def cells():
    g = begun(2, 1)
    size = len(g.text())
    while size < MOST - 40:
        size += len(f"cell {len(g.cells)} 0 u8 - 0 0\n")
        g.cell(0)
    return g.text()


def links():
    """As many links as may be, with long numbers, all to one cell."""
    g = begun(2, 1)
    target = [g.cell(0) for _ in range(3)][-1]
    while len(g.links) < LINKS:
        g.link(4, target)
    return g.text()


def links_that_overlap():
    """Puts of one byte, all to one cell, the highest byte first."""
    g = begun(2, 1)
    count = LINKS - len(g.links)
    target = g.cell(1, count)
    for n in range(count):
        g.link(2, target, "put", 1, count - 1 - n)
    return g.text()


def entries(g, ranks, steps):
    """For each barrier and rank a cell that waits for the rank's start."""
    enter = [[g.cell(r) for r in range(ranks)] for _ in range(steps)]
    for row in enter:
        for r, c in enumerate(row):
            g.link(r, c)
    return enter


def chain(spread):
    """64 barriers of 256 ranks, over as many cells and links as there may be: each enter cell leads to each leave cell through a chain
    of cells, each with links from the cells before it."""
    ranks, steps = 256, 64
    g = begun(ranks, 1, "barrier\n" * steps)
    enter = entries(g, ranks, steps)
    middle = g.cell(0)
    for row in enter:
        for c in row:
            g.link(c, middle, "put")
    total = ranks * steps
    room = MOST - len(g.text()) - 4_000_000
    cost = len("cell 123456 0 u8 - 0 1\nlink 123456 123456 0 0 123456 0 put\n")
    count = min(room // cost, LINKS - len(g.links) - total)
    last = middle
    for n in range(count):
        c = g.cell(n % ranks if spread else 0)
        g.link(last, c, "put")
        last = c
    for step in range(steps):
        for r in range(ranks):
            c = g.cell(r)
            g.link(last, c, "put")
            g.marks.append(f"leave {step} {r} {c}")
    for step in range(steps):
        for r in range(ranks):
            g.marks.append(f"enter {step} {r} {enter[step][r]}")
    return g.text()


def barriers():
    return chain(True)


def barriers_far(times=1, count=440_000):
    """The same, with links from far away cells in place of a chain."""
    ranks, steps = 256, 64
    g = begun(ranks, 1, "barrier\n" * steps)
    enter = entries(g, ranks, steps)
    middle = g.cell(0)
    for row in enter:
        for c in row:
            g.link(c, middle, "put")
    seed = 1
    cells = [middle]
    for n in range(count):
        c = g.cell(0)
        for _ in range(times):
            seed = seed * 6364136223846793005 + 1442695040888963407 & (1 << 64) - 1
            g.link(cells[(seed >> 33) % len(cells)], c, "put")
        cells.append(c)
    for step in range(steps):
        for r in range(ranks):
            c = g.cell(r)
            g.link(middle, c, "put")
            g.marks.append(f"leave {step} {r} {c}")
            g.marks.append(f"enter {step} {r} {enter[step][r]}")
    return g.text()


def barriers_twice():
    """The same, with links from two cells each."""
    return barriers_far(2, 225_000)


def bytes_put():
    """Cells with as many bytes together as may be, each of which is put from the one before it."""
    g = begun(2, 4096)
    last = 2
    for _ in range(32_000):
        c = g.cell(0, 4096)
        g.link(last, c, "put", 4096)
        last = c
    return g.text()


def bytes_combined(times=100):
    """A cell with many bytes, to which the one before it comes a hundred times: a text of a few thousand bytes, which is refused."""
    g = begun(2, 1)
    a, b = g.cell(0, 64_000_000, "sum"), g.cell(0, 64_000_000, "sum")
    for _ in range(times):
        g.link(a, b, "atomic", 64_000_000)
    return g.text()


def bytes_carried():
    """The same as often as is evaluated."""
    return bytes_combined(4)


def falling():
    """A hundred thousand atomics into one cell, the greatest of sums, each from a cell before the last one's source."""
    g = begun(2, 1)
    count, lists = 100_000, []
    for n in range(count):
        c = g.cell(0, 1, "sum")
        g.link(2, c, "atomic", 1)
        g.link(2 if n == 0 else c - 1, c, "atomic", 1)
        lists.append(c)
    total = g.cell(0, 1, "max")
    for c in reversed(lists):
        g.link(c, total, "atomic", 1)
    return g.text()


def folds():
    """A tower of sums, each of the two before it: the numbers of how often each input is added grow beyond any bound."""
    g = begun(2, 64)
    cells = [g.cell(0, 64, "sum") for _ in range(2)]
    for c in cells:
        g.link(2, c, "atomic", 64)
    for _ in range(100_000):
        c = g.cell(0, 64, "sum")
        for source in cells[-2:]:
            g.link(source, c, "atomic", 64)
        cells.append(c)
    return g.text()


def ordered_folds():
    """Two operations by turns, so that each cell's fold has the one before it as its member."""
    g = begun(2, 64)
    last = 2
    for n in range(20_000):
        c = g.cell(0, 64, ["min", "sum"][n % 2])
        g.link(last, c, "atomic", 64)
        g.link(2, c, "atomic", 64)
        last = c
    return g.text()


def scans(ranks, kind, count):
    """A description: 28 scans, each of what the one before it gave."""
    steps = "".join(f"scan sum {f'b{n - 1}' if n else 'a'} b{n}\n" for n in range(28))
    return one_input(ranks, count, steps, "print b27\n", kind)


# descriptions, whose plans the program draws
DRAWN = {"scans": (126, "u8", 4096), "scans_of_words": (64, "u64", 512)}
KINDS = [digits, blank, spaces, digits_in_a_plan, blank_after_a_plan, words_in_a_plan, enters, cells, links, links_that_overlap, barriers,
         barriers_far, barriers_twice, bytes_put, bytes_combined, bytes_carried, falling, folds, ordered_folds]


def measured(words, text):
    """The least of three runs: seconds, MB, what was said."""
    best = None
    with tempfile.TemporaryFile() as given, tempfile.TemporaryFile() as said:
        given.write(text.encode())
        for _ in range(3):
            given.seek(0)
            said.seek(0)
            said.truncate()
            # (a child of this process would have its memory counted as its own)
            timed = ["/usr/bin/time", "-q", "-f", "%U %S %M", *words]
            user, system, kilobytes = subprocess.run(timed, stdin=given, stdout=said, stderr=subprocess.PIPE, text=True).stderr.split()[-3:]
            said.seek(0)
            run = float(user) + float(system), float(kilobytes) / 1024, said.read().decode()
            best = min(best or run, run)
    return best


def row(name, text, *forms):
    for words in forms:
        seconds, megabytes, said = measured(words, text)
        said = said.strip() if len(said) < 100 else f"{len(said) / 1e6:.1f} MB"
        print(f"{name:<22}{' '.join(words[1:]):<14}{len(text) / 1e6:7.1f} MB{seconds:8.2f} s{megabytes:7.0f} MB  {said}", flush=True)


def drawn(program, text):
    return text + subprocess.run([program, "draw"], input=text, stdout=subprocess.PIPE, text=True, check=True).stdout


def allgathers(program, portals_run):
    text = one_input(64, 1, "".join(f"allgather a b{n}\n" for n in range(60)), "print a\n" + "".join(f"print b{n}\n" for n in range(60)))
    row("60 allgathers", text, [portals_run, "plan"])
    row("60 allgathers", drawn(program, text), [program, "verify"], [program, "verify", "given"])


def main():
    program, wanted = sys.argv[1], sys.argv[2:]
    if wanted[:1] == ["allgathers"]:
        return allgathers(program, wanted[1])
    for kind in KINDS:
        if not wanted or kind.__name__ in wanted:
            row(kind.__name__, kind(), [program, "verify"], [program, "verify", "given"])
    for name, asked in DRAWN.items():
        if not wanted or name in wanted:
            row(name, drawn(program, scans(*asked)), [program, "verify"], [program, "verify", "given"])


if __name__ == "__main__":
    main()
