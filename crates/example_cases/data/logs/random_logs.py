#!/usr/bin/env python3
"""Random calls of the device in Python (device.py), with its answers, judged by portals_log: each log has to conform.

    random_logs.py PORTALS_LOG LOGS [CALLS]    1 to LOGS are the seeds; 200 calls each
    random_logs.py --print SEED [CALLS]        writes one log

Status 0: all conform. A log that doesn't is written to standard error, with the verdict.
"""
import random
import sys

from device import Device, verdict

RANKS, ROOM = 3, 32
OPERATIONS = "min max sum prod lor land bor band lxor bxor".split()
TYPES = "u8 i8 u16 i16 u32 i32 u64 i64".split()
REFUSALS = """
Stale NoSpace OutOfRegion InUse CountFull UnknownRank UnfitLimits TooLong PartialElement
HalvesDiffer AsksAcknowledgement NoRoom OutsideRegion Elsewhere NotReady
""".split()


class Draw:
    """One random log."""

    def __init__(self, seed):
        self.random, self.device, self.lines = random.Random(seed), Device(), ["ni 1", f"ranks {RANKS}"]
        self.device.ranks = RANKS
        self.made = {rank: dict.fromkeys("cqdmt", 0) for rank in range(RANKS)}
        self.sent, self.lanes = 0, []

    def below(self, n):
        return self.random.randrange(n)

    def one(self, *choices):
        return self.random.choice(choices)

    def some(self, rank, kind):
        """The name of one of the last eight things of this kind."""
        made = self.made[rank][kind]
        return f"{kind}{max(0, made - 1 - self.below(8))}"

    def say(self, rank, call, words="", new=""):
        """Makes a call; where it gives something new of this kind, that is counted."""
        name = f"w{self.sent}" if new == "w" else f"{new}{self.made[rank][new]}" if new else ""
        answer = self.device.called(rank, call, words.split(), name)
        self.lines.append(" ".join(f"{rank} {call} {words}".split()) + f" -> {answer}")
        if new and new != "w" and answer.split(" ")[0] not in REFUSALS and not answer.startswith("taken"):
            self.made[rank][new] += 1
        if new == "w" and answer.split(" ")[-1] == name:
            message = self.device.flying[name]
            self.lines.append(f"message {name} {self.device.shown(message)} bytes={message.bytes.hex() or '-'}")
            self.lanes.append(name)
            self.sent += 1
        return answer

    def field(self, rank, key, kind):
        return f" {key}={self.some(rank, kind)}" if self.below(3) else ""

    def flags(self, *names):
        return "".join(f" {name}" for name in names if self.below(2))

    def hiding(self, *names):
        return "".join(f" hide_{name}" for name in names if self.below(4) == 0)

    def open(self, rank):
        tables = " ".join(f"{key}={2 + self.below(6)}" for key in "entries unexpected mds cts eqs pts triggered".split())
        region = bytes(self.below(256) for _ in range(48)).hex()
        self.say(rank, "open", f"{tables} msg={ROOM} atomic=16 fetch=16 region={region}")

    def entry(self, rank):
        amounts = f" start={self.below(44)} length={self.below(12)} bits={self.below(3)} ignore={self.one(0, 0, 1, 3)}"
        source = f" source={self.below(RANKS)}" if self.below(4) == 0 else ""
        flags = self.flags("put", "put", "get", "once", "local", "no_truncate", "comm", "overflow").replace(" put put", " put")
        flags += self.hiding("link", "unlink", "comm", "overflow", "success")
        return f"{amounts} min_free={self.below(4)}{source}{self.field(rank, 'ct', 'c')}{flags}"

    def start(self, rank):
        """A start's words, its call first."""
        call, size = self.one("put", "get", "atomic", "fetch_atomic", "swap"), self.below(8)
        width, length = 2 ** (size // 2), self.below(10)
        if call in ("atomic", "fetch_atomic"):
            length = length // width * width if self.below(8) else length
        if call == "swap":
            length = width if self.below(8) else length
        length = ROOM + 1 if self.below(60) == 0 else length
        op = {"atomic": self.one(*OPERATIONS), "fetch_atomic": self.one(*OPERATIONS), "swap": self.one("swap", "cswap", "mswap")}.get(call)
        words = [call] + ([op, TYPES[size]] if op else []) + [self.some(rank, "d"), f"offset={self.below(6)}", f"length={length}"]
        words += [f"target={RANKS if self.below(40) == 0 else self.below(RANKS)}", f"pt={self.below(3)}", f"bits={self.below(3)}"]
        words += [f"at={self.below(6)}"] + ([f"data={self.below(100)}"] if call != "get" else [])
        if call in ("put", "atomic"):
            words.append(f"ack={self.one('none', 'ct', 'full')}")
        if call in ("fetch_atomic", "swap"):
            words += [f"back={self.some(rank, 'd')}", f"back_offset={self.below(8)}"]
            words += ["back_at=9"] if self.below(40) == 0 else []
        return " ".join(words + ([f"operand={self.below(300)}"] if call == "swap" else []))

    def counting(self, rank):
        ct, by = self.some(rank, "c"), f" {self.below(3)} {self.below(2)}"
        call, words = self.one(("ct_free", ct), ("ct_cancel", ct), ("ct_set", ct + by), ("ct_inc", ct + by), ("ct_get", ct), ("ct_get", ct))
        self.say(rank, "ct_alloc", new="c") if self.below(4) == 0 else self.say(rank, call, words)

    def queues(self, rank):
        if self.below(6) == 0:
            self.say(rank, "eq_alloc", str(self.below(7)), "q")
        else:
            self.say(rank, "eq_get" if self.below(12) else "eq_free", self.some(rank, "q"))

    def lists(self, rank):
        pt, kind = self.below(3), self.below(12)
        if kind < 2:
            self.say(rank, "pt_alloc", f"{pt}{self.field(rank, 'eq', 'q')}")
        elif kind == 2:
            self.say(rank, "pt_free", str(pt))
        elif kind < 8:
            self.say(rank, "me_append", f"{pt} {self.one('priority', 'overflow')}{self.entry(rank)}", "m")
        elif kind == 8:
            self.say(rank, "me_unlink", self.some(rank, "m"))
        elif kind == 9:
            self.say(rank, "me_search", f"{pt} {self.one('keep', 'delete')}{self.entry(rank)}")
        else:
            self.say(rank, *self.one(("headers",), ("header", f"{pt} {self.below(3)}")))

    def descriptors(self, rank):
        if self.below(3) == 0:
            part = f"start={self.below(44)} length={self.below(16)}"
            named = self.field(rank, "eq", "q") + self.field(rank, "ct", "c")
            self.say(rank, "md_bind", part + named + self.flags("send", "reply", "ack") + self.hiding("send", "success"), "d")
        else:
            self.say(rank, *self.one(("md_release", self.some(rank, "d")), ("awaits", self.some(rank, "d")), ("awaits_any",)))

    def starts(self, rank):
        if self.below(3):
            call, _, words = self.start(rank).partition(" ")
            self.say(rank, call, words, "w")
            return
        deed = self.start(rank) if self.below(3) else f"{self.one('inc', 'set')} {self.some(rank, 'c')} {self.below(3)} {self.below(2)}"
        self.say(rank, "triggered", f"t{self.made[rank]['t']} {self.some(rank, 'c')} {self.below(4)} {deed}", "t")

    def firing(self, rank):
        ready = int(self.say(rank, "ready_count"))
        if ready:
            operation = self.say(rank, "ready_at", str(self.below(ready)))
            self.say(rank, "lane_of", operation)
            self.say(rank, "fire", operation, "w")
        else:
            self.say(rank, *self.one(("ready",), ("pending",), ("drops",), ("violations",), ("ready_count_to", "1"), ("ready_at", "0")))

    def deliver(self, _):
        if not self.lanes:
            return
        flying = self.device.flying
        lane = lambda word: (flying[word].source, flying[word].target, flying[word].kind in ("ack", "reply"))
        drawn = self.one(*self.lanes)
        word = next(other for other in self.lanes if lane(other) == lane(drawn))
        target = flying[word].target
        if self.below(30) == 0:
            self.say((target + 1) % RANKS, "deliver", word)
            return
        self.lanes.remove(word)
        self.say(target, "deliver", word, "w")

    def memory(self, rank):
        start, length = self.below(48), self.below(9)
        if self.below(2):
            self.say(rank, "read", f"{start} {length}")
        else:
            self.say(rank, "write", f"{start} {bytes(self.below(256) for _ in range(length)).hex() or '-'}")

    def log(self, calls):
        for rank in range(RANKS):
            self.open(rank)
        steps = [self.counting, self.queues, self.lists, self.lists, self.descriptors, self.starts, self.starts, self.firing, self.deliver,
                 self.deliver, self.deliver, self.memory]
        while len(self.lines) < calls:
            self.one(*steps)(self.below(RANKS))
        return [*self.lines, "end"]


def main(program, logs, calls="200"):
    judged = 0
    for seed in range(1, int(logs) + 1):
        log = Draw(seed).log(int(calls))
        said = verdict(program, log)
        if not said.startswith("conforms "):
            sys.exit("\n".join([*log, f"seed {seed}: {said}"]))
        judged += int(said.split(" ")[1])
    print(f"{logs} logs conform, {judged} calls")


if __name__ == "__main__":
    if sys.argv[1:2] == ["--print"]:
        print("\n".join(Draw(int(sys.argv[2])).log(int((sys.argv[3:4] or ["200"])[0]))))
    else:
        main(*sys.argv[1:])
