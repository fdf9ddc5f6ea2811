"""Bruck's alltoall: each rank turns its blocks so that block d is for the rank d above it; in round k all blocks whose d has bit k go on
to the rank 2^k above; in the end block d came from the rank d below.

The wrong twin sends, in the first round, the blocks whose d has not the bit."""
from plans import Plan, words

ranks, wrong = words()
plan = Plan(ranks, "u8", 2 * ranks)
block = plan.length // ranks

held = [[plan.copy(plan.input[r], block, (r + d) % ranks * block) for d in range(ranks)] for r in range(ranks)]
bit = 1
while bit < ranks:
    before, held = held, []
    for r in range(ranks):
        held.append(list(before[r]))
        for d in range(ranks):
            if bool(d & bit) != (wrong and bit == 1):
                held[r][d] = plan.cell(r, block)
                plan.put(before[(r - bit) % ranks][d], held[r][d])
    bit *= 2

for r in range(ranks):
    out = plan.cell(r, plan.length)
    for d in range(ranks):
        plan.put(held[r][d], out, to=(r - d) % ranks * block)
    plan.result("b", r, out)
plan.write(["alltoall a b", "print b"])
