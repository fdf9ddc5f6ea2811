"""An allreduce by recursive doubling: in round k each rank exchanges what it has with the rank whose number differs in bit k.
Ranks above the highest power of two hand their list to a partner first, and get the result from it.

The wrong twin: the last round's partner is that of the round before (or the rank itself), so that half of the ranks count twice."""
from plans import Plan, words

ranks, wrong = words()
plan = Plan(ranks, "i32", 3)
power = 1 << (ranks.bit_length() - 1)

held = []
for r in range(power):
    cell = plan.cell(r, plan.length, op="sum")
    plan.atomic(plan.input[r], cell)
    if r + power < ranks:
        plan.atomic(plan.input[r + power], cell)
    held.append(cell)

bits = [1 << k for k in range(power.bit_length() - 1)]
if wrong:
    bits[-1] = bits[-1] // 2
for bit in bits:
    before, held = held, [plan.cell(r, plan.length, op="sum") for r in range(power)]
    for r in range(power):
        plan.atomic(before[r], held[r])
        plan.atomic(before[r ^ bit], held[r])

for r in range(power):
    plan.result("b", r, held[r])
for r in range(power, ranks):
    cell = plan.cell(r, plan.length)
    plan.bump(plan.input[r], cell)
    plan.put(held[r - power], cell)
    plan.result("b", r, cell)
plan.write(["allreduce sum a b", "print b"])
