#!/usr/bin/env python3
"""Random descriptions: random_descriptions.py SEED [MOST_RANKS] writes one, of 2 to MOST_RANKS ranks (16)."""
import random
import sys

TYPES = {f"{sign}{bits}": (sign == "i", bits) for sign in "ui" for bits in (8, 16, 32, 64)}
OPERATIONS = "min max sum prod lor land bor band lxor bxor".split()
STEPS = """barrier broadcast reduce allreduce gather allgather alltoall scan scatter reducescatter exscan gatherv""".split()
WITH_ROOT = {"broadcast", "reduce", "gather", "scatter", "gatherv"}
WITH_OPERATION = {"reduce", "allreduce", "scan", "reducescatter", "exscan"}
MOST_ELEMENTS = 600


class Buffer:
    def __init__(self, name, kind, length, holders):
        self.name, self.kind, self.length, self.holders = name, kind, length, holders


def value(chance, kind):
    is_signed, bits = TYPES[kind]
    least = -(1 << bits - 1) if is_signed else 0
    most = (1 << bits - is_signed) - 1
    return chance.choice([least, most, 0, 1, chance.randint(least, most), chance.randint(max(least, -9), 9)])


def made_by(word, a, root, members):
    """The length and the holders of what the step makes of a; None where a isn't what it asks."""
    size = len(members)
    holds_all = set(members) <= a.holders
    at_root = {members[root]}
    parts = a.length % size == 0
    if word == "broadcast":
        return (a.length, set(members)) if at_root <= a.holders else None
    if word == "scatter":
        return (a.length // size, set(members)) if at_root <= a.holders and parts else None
    if word == "gatherv":
        holding = len(a.holders & set(members))
        return (a.length * holding, at_root) if holding else None
    if not holds_all or (word in ("alltoall", "reducescatter") and not parts):
        return None
    return {
        "reduce": (a.length, at_root),
        "allreduce": (a.length, set(members)),
        "gather": (a.length * size, at_root),
        "allgather": (a.length * size, set(members)),
        "alltoall": (a.length, set(members)),
        "scan": (a.length, set(members)),
        "reducescatter": (a.length // size, set(members)),
        "exscan": (a.length, set(members[1:])),
    }[word]


def step(chance, ranks, groups, buffers, name):
    """A step's line, and the buffer that it makes, if any; None where the draw fits nothing."""
    group = chance.choice([None, *groups]) if groups else None
    members = groups[group] if group else list(range(ranks))
    words = ["on", group] if group else []
    word = chance.choice(STEPS)
    if word == "barrier":
        return " ".join([*words, word]), None
    a = chance.choice(buffers)
    root = chance.randrange(len(members))
    made = made_by(word, a, root, members)
    if not made or not 0 < made[0] <= MOST_ELEMENTS:
        return None
    words += [word, *[str(root)] * (word in WITH_ROOT)]
    words += [chance.choice(OPERATIONS)] * (word in WITH_OPERATION)
    return " ".join([*words, a.name, name]), Buffer(name, a.kind, *made)


def groups_of(chance, ranks):
    return {f"g{i}": sorted(chance.sample(range(ranks), chance.randint(1, ranks))) for i in range(chance.randint(0, 3))}


def inputs_of(chance, ranks, lines):
    buffers = []
    for i in range(chance.randint(1, 3)):
        kind = chance.choice(list(TYPES))
        count = chance.choice([1, 2, ranks, 2 * ranks, chance.randint(1, 20)])
        buffers.append(Buffer(f"a{i}", kind, count, set(range(ranks))))
        lines.append(f"input a{i} {kind} {count}")
        lines += [" ".join(str(value(chance, kind)) for _ in range(count)) for _ in range(ranks)]
    return buffers


def description(seed, most_ranks=16):
    chance = random.Random(seed)
    ranks = chance.randint(2, most_ranks)
    lines = ["coll 2", f"ranks {ranks}"] + ["complete remote"] * chance.randint(0, 1)
    groups = groups_of(chance, ranks)
    lines += [" ".join(["group", name, *map(str, members)]) for name, members in groups.items()]
    buffers = inputs_of(chance, ranks, lines)
    for number in range(chance.randint(1, 8)):
        drawn = None
        while drawn is None:
            drawn = step(chance, ranks, groups, buffers, f"b{number}")
        lines.append(drawn[0])
        if drawn[1]:
            buffers.append(drawn[1])
    printed = chance.sample(buffers, chance.randint(1, len(buffers)))
    lines += [f"print {it.name}" for it in printed]
    return "\n".join([*lines, "end", ""])


if __name__ == "__main__":
    if not 2 <= len(sys.argv) <= 3:
        sys.exit("usage: random_descriptions.py SEED [MOST_RANKS]")
    sys.stdout.write(description(*map(int, sys.argv[1:])))
