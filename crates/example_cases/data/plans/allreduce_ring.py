"""An allreduce round a ring: each block of the list is added up as it passes all ranks, then goes round once more, whole.

The wrong twin: a block is passed on when the neighbour's part has come, without waiting for the rank's own (a threshold of one)."""
from plans import Plan, words

ranks, wrong = words()
plan = Plan(ranks, "u32", 2 * ranks)
block = plan.length // ranks
own = [[plan.copy(plan.input[r], block, s * block) for s in range(ranks)] for r in range(ranks)]

# partial[r]: what rank r has of block r - step, from all ranks that it has passed
partial, early = [own[r][r] for r in range(ranks)], None
for step in range(1, ranks):
    before, partial = partial, []
    for r in range(ranks):
        cell = plan.cell(r, block, op="sum")
        plan.atomic(before[r - 1], cell)
        plan.atomic(own[r][(r - step) % ranks], cell)
        partial.append(cell)
    early = partial[0]

# whole[r]: block r + 1 - step, as it comes round
rounds = [partial]
for step in range(1, ranks):
    cells = [plan.cell(r, block) for r in range(ranks)]
    for r in range(ranks):
        plan.put(rounds[-1][r - 1], cells[r])
    rounds.append(cells)

for r in range(ranks):
    out = plan.cell(r, plan.length)
    for step, cells in enumerate(rounds):
        plan.put(cells[r], out, to=(r + 1 - step) % ranks * block)
    plan.result("b", r, out)
plan.write(["allreduce sum a b", "print b"], early if wrong else None)
