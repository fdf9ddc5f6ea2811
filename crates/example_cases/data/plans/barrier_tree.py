"""A barrier up and down a tree in which each rank has up to three children, and a broadcast down the same tree after it: each rank waits
for its children, then tells its parent; the root lets all go.

The wrong twin: the root lets go when its own rank and its first child have come."""
from plans import Plan, words

ranks, wrong = words()
plan = Plan(ranks, "i64", 1)
children = [[c for c in range(3 * r + 1, 3 * r + 4) if c < ranks] for r in range(ranks)]

enter = [plan.cell(r, 0, "u8") for r in range(ranks)]
come = [None] * ranks
for r in reversed(range(ranks)):
    plan.bump(plan.go[r], enter[r])
    come[r] = plan.cell(r, 0, "u8")
    plan.bump(enter[r], come[r])
    for c in children[r][:1] if wrong and r == 0 else children[r]:
        plan.put(come[c], come[r])

leave = [plan.cell(r, 0, "u8") for r in range(ranks)]
plan.bump(come[0], leave[0])
for r in range(ranks):
    for c in children[r]:
        plan.put(leave[r], leave[c])

out = [plan.cell(r, plan.length) for r in range(ranks)]
plan.put(plan.input[0], out[0])
for r in range(ranks):
    plan.bump(leave[r], out[r])
    for c in children[r]:
        plan.put(out[r], out[c])
    plan.result("b", r, out[r])
    plan.enter(0, r, enter[r])
    plan.leave(0, r, leave[r])
plan.write(["barrier", "broadcast 0 a b", "print b"])
