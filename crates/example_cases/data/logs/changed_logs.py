#!/usr/bin/env python3
"""Random logs of the built interface, and the same logs with one changed answer.

    changed_logs.py PORTALS_LOG LOGS CHANGES [CALLS]    1 to LOGS are the seeds; 120 lines each

`portals_log fill` answers the random calls of random_logs.py: each such log has to conform. CHANGES times one answer of one of them is
changed, and the log ends behind it. What has to be said then follows from docs/LOG.md alone: the line differs, from the changed word on; or
a device may answer so, and the log conforms; or a message has the name of one under way, and the line is refused.

Status 0: all is as it has to be, and the last line counts. Else the log and what was said of it go to standard error.
"""
import random
import re
import subprocess
import sys
from concurrent.futures import ThreadPoolExecutor

from random_logs import REFUSALS, Draw

STARTS = "put get atomic fetch_atomic swap".split()
LETTERS = {"ct_alloc": "c", "eq_alloc": "q", "md_bind": "d"}
FREES = {"c": "ct_free", "q": "eq_free", "d": "md_release"}
WORDS = [*REFUSALS, *"ok yes no none empty found linked taken matched overflow answered put get link send ack search".split()]
MAY_LACK_MEMORY = ["open", "eq_alloc", "triggered", *STARTS]


class Calls(Draw):
    """Random calls, and which operations were ready where it was asked for one."""

    def __init__(self, seed):
        super().__init__(seed)
        self.ready = {}

    def firing(self, rank):
        if self.below(3) == 0:
            self.ready[len(self.lines)] = [operation.word for operation in self.device.interfaces[rank].ready()]
            self.say(rank, "ready")
        super().firing(rank)


class Answer:
    """An answer of a log: its line, from 0, its call and its words."""

    def __init__(self, log, ready, place):
        self.log, self.place, self.ready = log, place, ready.get(place, [])
        self.head, answer = log[place].split(" -> ")
        self.rank, self.call = self.head.split(" ")[:2]
        self.words = answer.split(" ")

    def column(self, at):
        return len(" ".join([self.head, "->", *self.words[:at]])) + 2

    def names_new(self, at):
        """The letter of the new thing that is named there, if one is."""
        if self.words[at] in REFUSALS or self.words[0] == "none":
            return None
        if self.call in LETTERS:
            return LETTERS[self.call]
        if self.call == "me_append":
            return "m" if self.words[0] == "linked" and at == 1 else None
        if self.call == "deliver":
            return "w" if at == 1 else None
        return "w" if self.call in [*STARTS, "fire"] else None

    def there(self, letter):
        """The names of this kind that stand for something once the call is made."""
        names = set()
        for line in [*self.log[2 : self.place], self.head + " -> ?"]:
            if " -> " not in line:
                continue
            head, answer = line.split(" -> ")
            rank, call, *words = head.split(" ")
            if letter == "w" and call == "deliver" and answer != "Elsewhere":
                names.discard(words[0])
            if letter != "w" and rank == self.rank and call == FREES[letter] and answer == "ok":
                names.discard(words[0])
            if letter == "w" or rank == self.rank:
                new = re.fullmatch(f"(?:[a-z]+ )?({letter}[0-9]+)", answer)
                if new and call not in ("ready", "ready_at"):
                    names.add(new[1])
        return sorted(names)


def other_value(draw, value):
    """Another value than this."""
    if re.fullmatch("[0-9]+", value) and (len(value) < 2 or value[0] != "0"):
        return str(draw.choice([int(value) + 1, max(0, int(value) - 1) if int(value) else 7, int(value) + 2**32]))
    if re.fullmatch("0x[0-9a-f]+", value):
        return hex(int(value, 16) + 1)
    if re.fullmatch("(?:[0-9a-f]{2})+", value):
        at = draw.randrange(len(value))
        return value[:at] + draw.choice([digit for digit in "0123456789abcdef" if digit != value[at]]) + value[at + 1 :]
    return draw.choice([word for word in ["-", "0", "x9", *WORDS] if word != value])


def changed_name(draw, a, at, letter):
    """A new thing has another name."""
    there = a.there(letter) if letter != "m" else []
    if there and draw.randrange(2):
        said = "refused {} {} NameTaken" if letter == "w" else "differs {} {}"
        return at, draw.choice(there), said
    return at, draw.choice(["another", f"{letter}{draw.randrange(10**6, 10**7)}", "0x7f31", "t0"]), None


def changed_word(draw, a, at):
    """One word is another. What is said of it begins so; None: a device is free there."""
    word, differs = a.words[at], "differs {} {}"
    key, equals, value = word.rpartition("=")
    letter = a.names_new(at)
    if letter and draw.randrange(4):
        return changed_name(draw, a, at, letter)
    if a.call == "ready" and len(a.ready) > 1 and draw.randrange(3):
        return at, draw.choice([name for name in a.ready if name != word]), None
    if a.call in MAY_LACK_MEMORY and at == 0 and draw.randrange(4) == 0:
        return at, "NoMemory", None
    if re.fullmatch("[0-9]+", value) and draw.randrange(6) == 0 and a.call != "read":
        return at, key + equals + hex(int(value)), None
    if draw.randrange(8) == 0:
        return at, key + equals + "?", None
    if letter:
        return at, draw.choice(["none", "-", "ok", "x" * 65]), differs
    return at, key + equals + other_value(draw, value), differs


def change(draw, a):
    """The words of another answer, and what is said of it."""
    fields = [at for at, word in enumerate(a.words) if "=" in word]
    kind = draw.randrange(12)
    if kind == 0 and fields:
        at = draw.choice(fields)
        return a.words[:at] + a.words[at + 1 :], None
    if kind == 1 and fields:
        at = draw.choice(fields)
        key, _, value = a.words[at].partition("=")
        if draw.randrange(2):
            return [*a.words, a.words[at]], None
        return [*a.words, f"{key}={other_value(draw, value)}"], f"differs {a.place + 1} {a.column(len(a.words))}"
    if kind == 2 and a.words != ["?"]:
        return ["?"], None
    if kind == 3:
        return [*a.words, "more"], f"differs {a.place + 1} {a.column(len(a.words))}"
    if kind == 4 and len(a.words) > 1 and "=" not in a.words[-1]:
        return a.words[:-1], f"differs {a.place + 1} "
    at, word, said = changed_word(draw, a, draw.randrange(len(a.words)))
    return a.words[:at] + [word] + a.words[at + 1 :], said and said.format(a.place + 1, a.column(at))


def run(program, way, lines):
    return subprocess.run([program, way], input="\n".join([*lines, ""]), capture_output=True, text=True).stdout


def filled(program, seed, calls):
    """A log of the built interface, and which operations were ready where it was asked for one."""
    draw = Calls(seed)
    asked = [line.split(" -> ")[0] for line in draw.log(calls)]
    log = run(program, "fill", asked).splitlines()
    said = run(program, "judge", log).split("\n")[0]
    if not said.startswith("conforms "):
        sys.exit("\n".join([*log, f"seed {seed}: {said}"]))
    return log, draw.ready, int(said.split(" ")[1])


def tried(program, log, ready, seed):
    """Changes one answer of a log; what became of it."""
    draw = random.Random(seed)
    a = Answer(log, ready, draw.choice([place for place, line in enumerate(log) if " -> " in line]))
    words, owed = change(draw, a)
    lines = [*log[: a.place], f"{a.head} -> {' '.join(words)}", "end"]
    said = run(program, "judge", lines).split("\n")[0]
    if not said.startswith(owed or "conforms ") or owed and owed[-1] != " " and said != owed:
        sys.exit("\n".join([*lines, f"{log[a.place]}\nchange {seed}: {said}, but {owed or 'a device is free there'}"]))
    return owed.split(" ")[0] if owed else "free"


def main(program, logs, changes, calls="120"):
    with ThreadPoolExecutor(4) as pool:
        texts = list(pool.map(lambda seed: filled(program, seed, int(calls)), range(1, int(logs) + 1)))
        found = list(pool.map(lambda seed: tried(program, *texts[seed % len(texts)][:2], seed), range(int(changes))))
    calls, differ = sum(text[2] for text in texts), found.count("differs")
    print(f"{logs} logs conform, {calls} calls; of {changes} with one changed answer {differ} differ,")
    print(f"{found.count('refused')} are refused, and in {found.count('free')} a device is free")


main(*sys.argv[1:])
