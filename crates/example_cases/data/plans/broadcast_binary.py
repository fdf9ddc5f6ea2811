"""A broadcast down a binary tree in segments: a rank passes each segment on to two others while the next one comes. The list isn't
whole segments, so the last one is shorter.

The wrong twin takes the place of a segment as its number times its own length, which is wrong for the last one."""
from plans import Plan, words

ranks, wrong = words()
plan = Plan(ranks, "u64", 10)
segment = max(32, plan.length // 8)
cut = [(start, min(segment, plan.length - start)) for start in range(0, plan.length, segment)]

came = [[plan.copy(plan.input[0], length, start) for start, length in cut]]
for r in range(1, ranks):
    came.append([plan.cell(r, length) for _, length in cut])
for number in range(len(cut)):
    for r in range(1, ranks):
        plan.put(came[(r - 1) // 2][number], came[r][number])
for r in range(ranks):
    out = plan.cell(r, plan.length)
    plan.bump(plan.go[r], out)
    for number, (start, length) in enumerate(cut):
        plan.put(came[r][number], out, to=number * length if wrong else start)
    plan.result("b", r, out)
plan.write(["broadcast 0 a b", "print b"])
