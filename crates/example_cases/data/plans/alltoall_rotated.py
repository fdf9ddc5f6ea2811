"""An alltoall by one put a block, each rank beginning with the rank above it, so that no port gets all blocks at once.

The wrong twin writes each block at the place of the rank that it is for, not of the one that it came from."""
from plans import Plan, words

ranks, wrong = words()
plan = Plan(ranks, "u8", 2 * ranks)
block = plan.length // ranks
plan.keep_order()

out = [plan.cell(r, plan.length) for r in range(ranks)]
for d in range(1, ranks + 1):
    for r in range(ranks):
        to = (r + d) % ranks
        plan.put(plan.input[r], out[to], block, to * block, (to if wrong else r) * block)
for r in range(ranks):
    plan.result("b", r, out[r])
plan.write(["alltoall a b", "print b"])
