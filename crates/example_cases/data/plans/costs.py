"""The times of a plan under LogGP, by a simulation of events that knows nothing of the program: for `try_forms`. All times are whole
picoseconds. docs/PLANS.md, section 14, says what is simulated, and which lines `portals_plan cost` writes of it."""
import heapq
from collections import namedtuple

Numbers = namedtuple("Numbers", "latency overhead gap byte_gap byte_work")
Times = namedtuple("Times", "reached sent begun counted")
STAYS, SENDS, RECEIVES = range(3)
SPENT = "queued overhead wire latency held work".split()


def simulate(ranks, cells, links, numbers):
    """When each cell is reached, and when each link is sent, its receipt begins, and it is counted. `cells` are ranks, `links` are (source,
    target, length, is an atomic)."""
    left, out = [0] * len(cells), [[] for _ in cells]
    for number, (source, target, *_) in enumerate(links):
        left[target] += 1
        out[source].append(number)
    reached, senders, receivers, events = [0] * len(cells), [0] * ranks, [0] * ranks, []
    sent, begun, counted = ([0] * len(links) for _ in range(3))

    def release(cell):
        for number in out[cell]:
            stays = cells[links[number][1]] == cells[cell]
            heapq.heappush(events, (reached[cell], STAYS if stays else SENDS, number))

    def count(number, begin, time):
        cell = links[number][1]
        begun[number], counted[number] = begin, time
        reached[cell] = max(reached[cell], time)
        left[cell] -= 1
        if not left[cell]:
            release(cell)

    for cell in range(len(cells)):
        if not left[cell]:
            release(cell)
    while events:
        now, what, number = heapq.heappop(events)
        source, target, length, atomic = links[number]
        wire = max(length - 1, 0) * numbers.byte_gap
        if what == STAYS:
            sent[number] = now
            count(number, now, now)
        elif what == SENDS:
            rank = cells[source]
            sent[number] = max(now, senders[rank])
            senders[rank] = sent[number] + max(numbers.overhead, numbers.gap) + wire
            heapq.heappush(events, (sent[number] + numbers.overhead + wire + numbers.latency, RECEIVES, number))
        else:
            rank = cells[target]
            begin = max(now, receivers[rank])
            work = numbers.overhead + (length * numbers.byte_work if atomic else 0)
            receivers[rank] = begin + max(work, numbers.gap + wire)
            count(number, begin, begin + work)
    return Times(reached, sent, begun, counted)


def times(ranks, cells, links, numbers):
    """When each cell is reached."""
    return simulate(ranks, cells, links, numbers).reached


def spent(cells, links, numbers, found, number):
    """What a link takes from its source to its count."""
    source, target, length, atomic = links[number]
    if cells[source] == cells[target]:
        return [0] * len(SPENT)
    wire = max(length - 1, 0) * numbers.byte_gap
    arrived = found.sent[number] + numbers.overhead + wire + numbers.latency
    return [found.sent[number] - found.reached[source], 2 * numbers.overhead, wire, numbers.latency, found.begun[number] - arrived,
            length * numbers.byte_work if atomic else 0]


def lines(ranks, cells, links, numbers):
    """What `portals_plan cost` writes."""
    found = simulate(ranks, cells, links, numbers)
    into = [[] for _ in cells]
    for number, (_, target, *_) in enumerate(links):
        into[target].append(number)
    end = found.reached.index(max(found.reached))
    path, cell = [], end
    while into[cell]:
        path.insert(0, max(into[cell], key=lambda number: (found.counted[number], -number)))
        cell = links[path[0]][0]
    said = lambda row: " ".join(f"{name} {number}" for name, number in zip(SPENT, row))
    rows = [spent(cells, links, numbers, found, number) for number in path]
    yield from (f"cell {cell} {time}" for cell, time in enumerate(found.reached))
    yield from (f"rank {r} {max((t for t, at in zip(found.reached, cells) if at == r), default=0)}" for r in range(ranks))
    yield f"path {cell} rank {cells[cell]} time {found.reached[cell]}"
    for number, row in zip(path, rows):
        target = links[number][1]
        yield f"path {target} rank {cells[target]} time {found.reached[target]} link {number} bytes {links[number][2]} {said(row)}"
    between = [length for source, target, length, _ in links if cells[source] != cells[target]]
    sums = [sum(row) for row in zip([0] * len(SPENT), *rows)]
    yield f"total {found.reached[end]} messages {len(between)} bytes {sum(between)} {said(sums)}"


def read(text):
    """The ranks, cells and links of a plan's text, which may come after a description."""
    text = "\n" + text
    lines = [line.split(" ") for line in text[text.index("\nplan ") + 1:].splitlines()]
    cells = [int(words[2]) for words in lines if words[0] == "cell"]
    links = [(int(words[2]), int(words[5]), int(words[4]), words[7] == "atomic") for words in lines if words[0] == "link"]
    return int(lines[0][1]), cells, links
