"""A broadcast down a chain of ranks in segments: while a rank passes one segment on, the next one comes. The list isn't whole segments,
so the last one is shorter.

The wrong twin takes the number of segments by a division that rounds down, so that the end of the list is never sent."""
from plans import Plan, words

ranks, wrong = words()
plan = Plan(ranks, "u64", 10)
segment = 32
cut = [(start, min(segment, plan.length - start)) for start in range(0, plan.length, segment)]
if wrong:
    cut = cut[:plan.length // segment]

came = [plan.copy(plan.input[0], length, start) for start, length in cut]
for r in range(ranks):
    if r:
        before, came = came, [plan.cell(r, length) for _, length in cut]
        for source, target in zip(before, came):
            plan.put(source, target)
    out = plan.cell(r, plan.length)
    plan.bump(plan.go[r], out)
    for (start, _), cell in zip(cut, came):
        plan.put(cell, out, to=start)
    plan.result("b", r, out)
plan.write(["broadcast 0 a b", "print b"])
