"""What a description means and what a plan does in one order of its steps, in few words and apart from the programs of this repository:
`check_plans` and `try_forms` hold `portals_plan` against it. It reads texts that are right (docs/LANGUAGE.md, docs/PLANS.md)."""
WIDTH = {"u8": 1, "i8": 1, "u16": 2, "i16": 2, "u32": 4, "i32": 4, "u64": 8, "i64": 8}
LEAST = {kind: -(1 << 8 * width - 1) if kind[0] == "i" else 0 for kind, width in WIDTH.items()}
MOST = {kind: (1 << 8 * width - (kind[0] == "i")) - 1 for kind, width in WIDTH.items()}
COMBINE = {
    "min": min, "max": max, "sum": lambda x, y: x + y, "prod": lambda x, y: x * y,
    "lor": lambda x, y: int(bool(x or y)), "land": lambda x, y: int(bool(x and y)), "lxor": lambda x, y: int(bool(x) != bool(y)),
    "bor": lambda x, y: x | y, "band": lambda x, y: x & y, "bxor": lambda x, y: x ^ y,
}
FIRST = {"min": MOST, "max": LEAST, "sum": 0, "prod": 1, "lor": 0, "land": 1, "lxor": 0, "bor": 0, "band": -1, "bxor": 0}


def wrapped(value, kind):
    """A number as its type holds it."""
    return (value - LEAST[kind]) % (1 << 8 * WIDTH[kind]) + LEAST[kind]


def elements(data, kind):
    width = WIDTH[kind]
    return [int.from_bytes(data[i:i + width], "little", signed=kind[0] == "i") for i in range(0, len(data), width)]


def packed(values, kind):
    return b"".join(value.to_bytes(WIDTH[kind], "little", signed=kind[0] == "i") for value in values)


def started(op, kind, count):
    first = FIRST[op]
    return [wrapped(first[kind] if isinstance(first, dict) else first, kind)] * count


def combined(op, kind, x, y):
    return [wrapped(COMBINE[op](a, b), kind) for a, b in zip(x, y)]


class Description:
    def __init__(self, text):
        lines = iter(text.splitlines())
        self.inputs, self.steps, self.prints, self.groups = [], [], [], {}
        for words in (line.split(" ") for line in lines):
            if words[0] == "ranks":
                self.ranks = int(words[1])
            elif words[0] == "group":
                self.groups[words[1]] = [int(word) for word in words[2:]]
            elif words[0] == "input":
                rows = [[int(word) for word in next(lines).split(" ")] for _ in range(self.ranks)]
                self.inputs.append((words[1], words[2], rows))
            elif words[0] == "print":
                self.prints.append(words[1])
            elif words[0] not in ("coll", "complete", "end"):
                on = words.pop(0) == "on" and self.groups[words.pop(0)] if words[0] == "on" else list(range(self.ranks))
                self.steps.append((on, words))

    def meaning(self):
        """For each buffer its type and the list at each rank that holds one."""
        held = {name: (kind, dict(enumerate(rows))) for name, kind, rows in self.inputs}
        for on, words in self.steps:
            if words[0] != "barrier":
                kind, lists = held[words[-2]]
                held[words[-1]] = kind, step(on, words, kind, [lists.get(rank, []) for rank in on])
        return held


def step(on, words, kind, lists):
    """The lists that one step leaves, of those that its members bring."""
    what, root, op = words[0], None, None
    for word in words[1:-2]:
        root, op = (int(word), op) if word.isdigit() else (root, word)
    def fold(parts):
        total = started(op, kind, max(map(len, lists)))
        for part in parts:
            total = combined(op, kind, total, part)
        return total
    joined = [value for part in lists for value in part]
    block = max(map(len, lists)) // len(on)
    cut = lambda part, place: part[place * block:(place + 1) * block]
    at = {
        "broadcast": lambda place: lists[root],
        "reduce": lambda place: fold(lists) if place == root else None,
        "allreduce": lambda place: fold(lists),
        "gather": lambda place: joined if place == root else None,
        "gatherv": lambda place: joined if place == root else None,
        "allgather": lambda place: joined,
        "alltoall": lambda place: [value for part in lists for value in cut(part, place)],
        "scan": lambda place: fold(lists[:place + 1]),
        "exscan": lambda place: fold(lists[:place]) if place else None,
        "scatter": lambda place: cut(lists[root], place),
        "reducescatter": lambda place: cut(fold(lists), place),
    }[what]
    return {rank: at(place) for place, rank in enumerate(on) if at(place) is not None}


class Given:
    """A plan with its marks, from its text."""

    def __init__(self, text):
        self.cells, self.links, self.results, self.enters, self.leaves, self.done = [], [], {}, {}, {}, []
        for words in (line.split(" ") for line in text.splitlines()):
            numbers = [int(word) for word in words[1:] if word.isdigit()]
            if words[0] == "plan":
                self.ranks, self.acknowledged = numbers[0], words[4] == "remote"
            elif words[0] == "cell":
                self.cells.append([numbers[1], words[3], words[4], numbers[2], numbers[3]])
            elif words[0] == "link":
                self.links.append(numbers[1:] + [words[7]])
            elif words[0] == "done":
                self.done.append(numbers[1])
            elif words[0] == "result":
                self.results[words[1], numbers[0]] = numbers[1]
            elif words[0] in ("enter", "leave"):
                (self.enters if words[0] == "enter" else self.leaves)[numbers[0], numbers[1]] = numbers[2]

    def text(self):
        yield f"plan {self.ranks} {len(self.cells)} {len(self.links)} {'remote' if self.acknowledged else 'local'}"
        for number, (rank, kind, op, length, needs) in enumerate(self.cells):
            yield f"cell {number} {rank} {kind} {op} {length} {needs}"
        for number, link in enumerate(self.links):
            yield " ".join(["link", str(number), *map(str, link)])
        for rank, threshold in enumerate(self.done):
            yield f"done {rank} {threshold}"
        for word, marks in ("result", self.results), ("enter", self.enters), ("leave", self.leaves):
            for (name, rank), cell in marks.items():
                yield f"{word} {name} {rank} {cell}"
        yield "end"


class Run:
    """One order of a plan's steps. A message that comes before its rank's start waits there; those of a pair keep their order."""

    def __init__(self, given, description, chance):
        self.given, self.chance = given, chance
        self.memory = [self.first_bytes(number, description) for number in range(len(given.cells))]
        self.count, self.went = [0] * len(given.cells), [False] * len(given.cells)
        self.out = [[] for _ in given.cells]
        for link in given.links:
            self.out[link[0]].append(link)
        self.asleep, self.early = set(range(given.ranks)), {rank: [] for rank in range(given.ranks)}
        self.late = {rank for rank in self.asleep if chance.random() < 0.25}
        self.ready, self.lanes, self.told, self.fault = [], {}, [0] * given.ranks, None
        for cell in (number for number, (*_, needs) in enumerate(given.cells) if needs == 0):
            self.reached(cell)

    def first_bytes(self, number, description):
        rank, kind, op, length, _ = self.given.cells[number]
        place = number - self.given.ranks
        if 0 <= place < len(description.inputs) * self.given.ranks:
            return bytearray(packed(description.inputs[place // self.given.ranks][2][rank], kind))
        return bytearray(length) if op == "-" else bytearray(packed(started(op, kind, length // WIDTH[kind]), kind))

    def raised(self, cell):
        """One more at a cell's counter: where it stands at its needs its links are ready."""
        self.count[cell] += 1
        if not self.went[cell] and self.count[cell] >= self.given.cells[cell][4]:
            self.reached(cell)

    def reached(self, cell):
        """A cell has got all that it needs, which may be nothing."""
        self.went[cell] = True
        self.told[self.given.cells[cell][0]] += 1
        self.ready += self.out[cell]
        self.passed(cell)

    def passed(self, cell):
        """Where a cell is one at which a rank enters a barrier, it has started; where it leaves one, all have entered it."""
        for (step, rank), number in self.given.enters.items():
            if number == cell and rank in self.asleep:
                self.fault = f"barrier {step} is entered before rank {rank} starts"
        for (step, _), number in self.given.leaves.items():
            if number == cell and any(not self.went[c] for (s, _), c in self.given.enters.items() if s == step):
                self.fault = f"barrier {step} is left too early"

    def landed(self, target, to, kind, data):
        memory, (_, what, op, length, _) = self.memory[target], self.given.cells[target]
        if kind == "put":
            memory[to:to + len(data)] = data
        elif kind == "atomic":
            memory[:] = packed(combined(op, what, elements(memory, what), elements(data, what)), what)
        self.raised(target)

    def fired(self, link):
        source, start, length, target, to, kind = link
        if kind == "bump":
            return self.raised(target)
        pair = self.given.cells[source][0], self.given.cells[target][0]
        self.lanes.setdefault(pair, []).append((target, to, kind, bytes(self.memory[source][start:start + length])))
        if self.given.acknowledged:
            self.lanes.setdefault((pair[1], pair[0], "acknowledged"), [])
            self.lanes[pair][-1] += (pair,)

    def delivered(self, pair):
        if len(pair) == 3:
            self.lanes[pair].pop(0)
            self.told[pair[1]] += 1
        else:
            message = self.lanes[pair].pop(0)
            if pair[1] in self.asleep:
                self.early[pair[1]].append(message)
            else:
                self.taken(message)

    def taken(self, message):
        self.landed(*message[:4])
        if len(message) == 5:
            self.lanes[message[4][1], message[4][0], "acknowledged"].append(message)

    def begun(self, rank):
        self.asleep.discard(rank)
        for message in self.early[rank]:
            self.taken(message)
        self.raised(rank)

    def to_rest(self):
        """Makes steps in a random order until none is left, and tells what is wrong then, or None. Some ranks begin when nothing else
        goes."""
        while True:
            steps = [(self.begun, rank) for rank in self.asleep - self.late]
            steps += [(self.delivered, pair) for pair, lane in self.lanes.items() if lane]
            if self.ready:
                steps += [(self.fire_any, None)] * min(len(self.ready), 4)
            if not steps and not self.late:
                return self.fault
            if not steps:
                steps = [(self.begun, self.late.pop())]
            step, what = self.chance.choice(steps)
            step(what)

    def fire_any(self, _):
        place = self.chance.randrange(len(self.ready))
        self.ready[place], self.ready[-1] = self.ready[-1], self.ready[place]
        self.fired(self.ready.pop())
