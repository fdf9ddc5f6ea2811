"""A reduce-scatter by atomics straight to each block's rank: a rank copies its blocks apart, and each is combined where it belongs.
The ranks begin with the block of the rank above them, so that no port has all blocks at once.

The wrong twin leaves out the block that a rank has for itself."""
from plans import Plan, words

ranks, wrong = words()
plan = Plan(ranks, "u32", 2 * ranks)
block = plan.length // ranks
plan.keep_order()

parts = [[plan.copy(plan.input[r], block, (r + d) % ranks * block) for d in range(ranks)] for r in range(ranks)]
held = [plan.cell(r, block, op="sum") for r in range(ranks)]
for d in range(1, ranks + (not wrong)):
    for r in range(ranks):
        plan.atomic(parts[r][d % ranks], held[(r + d) % ranks])
for r in range(ranks):
    plan.result("b", r, held[r])
plan.write(["reducescatter sum a b", "print b"])
