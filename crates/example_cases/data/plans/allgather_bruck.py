"""Bruck's allgather: in round k each rank sends all blocks that it has to the rank 2^k below it; in the end the blocks are turned into
their places, since each rank has its own first.

The wrong twin forgets to turn them."""
from plans import Plan, words

ranks, wrong = words()
plan = Plan(ranks, "i16", 2)
block = plan.length

held, have = list(plan.input), 1
while have < ranks:
    more = min(have, ranks - have)
    before, held = held, [plan.cell(r, (have + more) * block) for r in range(ranks)]
    for r in range(ranks):
        plan.put(before[r], held[r])
        plan.put(before[(r + have) % ranks], held[r], more * block, to=have * block)
    have += more

for r in range(ranks):
    out = plan.cell(r, ranks * block)
    turn = 0 if wrong else r
    plan.put(held[r], out, (ranks - turn) * block, 0, turn * block)
    if turn:
        plan.put(held[r], out, turn * block, (ranks - turn) * block, 0)
    plan.result("b", r, out)
plan.write(["allgather a b", "print b"])
