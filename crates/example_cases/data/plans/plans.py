"""Writes plans as text, for `portals_plan verify`: a description first, then the plan's cells, links and marks (docs/PLANS.md, section 7).

A program beside this file makes a plan by these calls, in an order in which each cell is made after those that it gets bytes from.
Lengths and offsets are in bytes."""
import os
import sys

WIDTH = {"u8": 1, "i8": 1, "u16": 2, "i16": 2, "u32": 4, "i32": 4, "u64": 8, "i64": 8}


class Plan:
    """The plan of a description with one input of `count` elements a rank: `go[r]` are the go cells, `input[r]` those of the input.
    Where the command line has a number of bytes, the input has so many, as u64."""

    def __init__(self, ranks, kind, count):
        if asked:
            kind, count = "u64", asked // 8
        self.ranks, self.kind, self.count = ranks, kind, count
        self.cells, self.links, self.marks = [], [], []
        self.turned = False
        self.length = count * WIDTH[kind]
        self.go = [self.cell(r, 0, "u8") for r in range(ranks)]
        self.input = [self.cell(r, self.length) for r in range(ranks)]
        for r in range(ranks):
            self.bump(self.go[r], self.input[r])

    def cell(self, rank, length=0, kind=None, op="-"):
        """A cell: bytes in a rank's memory beside a counter. With an operation, what comes there is combined."""
        self.cells.append((rank, kind or self.kind, op, length))
        return len(self.cells) - 1

    def put(self, source, target, length=None, start=0, to=0):
        """Writes bytes of the source cell into the target cell; without a length all of them."""
        self.links.append((target, source, start, self.cells[source][3] if length is None else length, to, "put"))

    def atomic(self, source, target):
        """Combines the whole source cell with the whole target cell."""
        self.links.append((target, source, 0, self.cells[source][3], 0, "atomic"))

    def bump(self, source, target):
        """The target cell, on the same rank, waits for the source cell."""
        self.links.append((target, source, 0, 0, 0, "bump"))

    def copy(self, source, length, start):
        """A cell on the source's rank that holds a part of it."""
        cell = self.cell(self.cells[source][0], length)
        self.put(source, cell, length, start)
        return cell

    def result(self, name, rank, cell):
        self.marks.append(f"result {name} {rank} {cell}")

    def enter(self, step, rank, cell):
        self.marks.append(f"enter {step} {rank} {cell}")

    def leave(self, step, rank, cell):
        self.marks.append(f"leave {step} {rank} {cell}")

    def keep_order(self):
        """Links are numbered as they were made, not by their target: of messages that are ready at once the lower number is sent first."""
        self.turned = True

    def lines(self, needs):
        done = [0] * self.ranks
        yield f"plan {self.ranks} {len(self.cells)} {len(self.links)} local"
        for number, (rank, kind, op, length) in enumerate(self.cells):
            done[rank] += 1
            yield f"cell {number} {rank} {kind} {op} {length} {needs[number]}"
        links = self.links if self.turned else sorted(self.links, key=lambda link: link[0])
        for number, (target, source, start, length, to, what) in enumerate(links):
            yield f"link {number} {source} {start} {length} {target} {to} {what}"
        for rank in range(self.ranks):
            yield f"done {rank} {done[rank]}"
        yield from self.marks
        yield "end"

    def write(self, steps, fewer=None):
        """Writes the description with these steps, then the plan. The cell `fewer` is said to need one less than it does."""
        needs = [0] * len(self.cells)
        for target, *_ in self.links:
            needs[target] += 1
        for rank in self.go:
            needs[rank] = 1
        if fewer is not None:
            needs[fewer] -= 1
        print(f"coll 2\nranks {self.ranks}\ninput a {self.kind} {self.count}")
        for rank in range(self.ranks):
            print(*((rank * 37 + place * 11 + 5) % (10 if asked else 100) for place in range(self.count)))
        print(*steps, "end", *self.lines(needs), sep="\n")


def generators():
    """The names of the programs beside this file that write plans."""
    return sorted(name[:-3] for name in os.listdir(os.path.dirname(os.path.abspath(__file__))) if "_" in name and name.endswith(".py"))


asked = int(sys.argv[2]) if len(sys.argv) == 3 and sys.argv[2].isdigit() else 0


def words():
    """The number of ranks, and whether the wrong twin is asked for: `PROGRAM RANKS [wrong|BYTES]`."""
    if len(sys.argv) not in (2, 3) or not sys.argv[1].isdigit() or not (sys.argv[2:] in ([], ["wrong"]) or asked):
        sys.exit(f"usage: {sys.argv[0]} RANKS [wrong|BYTES]")
    return int(sys.argv[1]), sys.argv[2:] == ["wrong"]
