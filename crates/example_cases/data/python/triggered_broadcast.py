#!/usr/bin/env python3
"""A broadcast by triggered puts along a tree of eight ranks, on the interfaces that `portals_log serve` answers for.

    triggered_broadcast.py PROGRAM      PROGRAM: the path of portals_log
"""
import subprocess
import sys

RANKS, DATA = 8, "0b0e0a0d"


class Interfaces:
    def __init__(self, program):
        self.pipe = subprocess.Popen([program, "serve"], stdin=subprocess.PIPE, stdout=subprocess.PIPE, text=True)

    def ask(self, line):
        self.pipe.stdin.write(line + "\n")
        self.pipe.stdin.flush()
        answer = self.pipe.stdout.readline().rstrip("\n")
        if answer.split(" ")[0] in ("refused", "differs"):
            sys.exit(f"{line}: {answer}")
        return answer.split(" ")


def children(rank):
    step = 1
    while step <= rank:
        step *= 2
    while rank + step < RANKS:
        yield rank + step
        step *= 2


def main(program):
    ask = Interfaces(program).ask
    ask("ni 1")
    ask(f"ranks {RANKS}")
    for rank in range(RANKS):
        ask(f"{rank} open entries=1 mds=1 cts=1 pts=1 triggered=8 msg=4 region={DATA if rank == 0 else '00000000'}")
        ask(f"{rank} pt_alloc 0")
        ask(f"{rank} ct_alloc")
        ask(f"{rank} me_append 0 priority length=4 put comm ct=c0")
        ask(f"{rank} md_bind length=4")
        for child in children(rank):
            ask(f"{rank} triggered to{child} c0 1 put d0 length=4 target={child}")
    ask("0 ct_inc c0 1 0")
    ready, fired = [0], 0
    while ready:
        rank = ready.pop(0)
        while (operation := ask(f"{rank} ready")[0]) != "none":
            target = int(ask(f"{rank} lane_of {operation}")[0])
            message = ask(f"{rank} fire {operation}")[0]
            assert ask(f"{target} deliver {message}")[0] == "matched"
            ready.append(target)
            fired += 1
    assert fired == RANKS - 1 and all(ask(f"{rank} read 0 4") == [DATA] for rank in range(RANKS))
    print(f"{RANKS} ranks hold {DATA}")


main(sys.argv[1])
