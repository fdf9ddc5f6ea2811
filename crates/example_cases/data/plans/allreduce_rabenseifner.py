"""An allreduce as Rabenseifner's: the list is halved from round to round and each half summed by the ranks that keep it, until each has
one block whole; then the blocks are gathered by doubling. Ranks above the highest power of two hand their list to a partner first.

The wrong twin: in the last round of the gathering both halves are written at the offset of the lower one."""
from plans import Plan, words

ranks, wrong = words()
power = 1 << (ranks.bit_length() - 1)
plan = Plan(ranks, "u16", 2 * power)

held = []
for r in range(power):
    cell = plan.cell(r, plan.length, op="max")
    plan.atomic(plan.input[r], cell)
    if r + power < ranks:
        plan.atomic(plan.input[r + power], cell)
    held.append(cell)

# held[r] is a part of the list of this length; in each round rank r keeps its lower half where its bit is 0
length, bit = plan.length, power // 2
while bit:
    length //= 2
    parts = [[plan.copy(held[r], length, half * length) for half in (0, 1)] for r in range(power)]
    held = [plan.cell(r, length, op="max") for r in range(power)]
    for r in range(power):
        keeps = 1 if r & bit else 0
        plan.atomic(parts[r][keeps], held[r])
        plan.atomic(parts[r ^ bit][keeps], held[r])
    bit //= 2

bit = 1
while bit < power:
    before, held = held, [plan.cell(r, 2 * length) for r in range(power)]
    for r in range(power):
        for source in (r, r ^ bit):
            upper = source & bit and not (wrong and 2 * bit == power)
            plan.put(before[source], held[r], to=length if upper else 0)
    length, bit = 2 * length, 2 * bit

for r in range(power):
    plan.result("b", r, held[r])
for r in range(power, ranks):
    cell = plan.cell(r, plan.length)
    plan.bump(plan.input[r], cell)
    plan.put(held[r - power], cell)
    plan.result("b", r, cell)
plan.write(["allreduce max a b", "print b"])
