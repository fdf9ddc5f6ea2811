#!/usr/bin/env python3
"""What plans take in time under LogGP, as `portals_plan cost` tells it: the built-in ones beside those of `examples/plans/`, each a row of
docs/COSTS.md, "Which algorithm to take, by LogGP".

    plan_costs.py PORTALS_PLAN [RANKS ..]

L 1 us, o = g = 0.1 us, G 80 ps a byte, O 0. Small: 8 bytes a block. Large: the longest list at a rank has 32 KB, at 256 ranks 8 KB. Times
are in microseconds; of the time of the last cell it is told what the critical path spends on what."""
import pathlib
import subprocess
import sys

PLANS = pathlib.Path(__file__).resolve().parent.parent / "examples" / "plans"
NUMBERS = ["cost", "1000", "100", "100", "80"]
# the step, the bytes of an input where a block has 8 and where the longest list has so many, and generators
COLLECTIVES = {
    "allgather": ("allgather a b", lambda m: 8, lambda m, most: most // m, ["allgather_bruck"]),
    "reducescatter": ("reducescatter sum a b", lambda m: 8 * m, lambda m, most: most, ["reducescatter_direct"]),
    "alltoall": ("alltoall a b", lambda m: 8 * m, lambda m, most: most, ["alltoall_rotated", "alltoall_bruck"]),
    "allreduce": ("allreduce sum a b", lambda m: 8, lambda m, most: most,
                  ["allreduce_doubling", "allreduce_rabenseifner", "allreduce_ring"]),
    "broadcast": ("broadcast 0 a b", lambda m: 8, lambda m, most: most, ["broadcast_binary", "broadcast_chain"]),
    "reduce": ("reduce 0 sum a b", lambda m: 8, lambda m, most: most, []),
    "gather": ("gather 0 a b", lambda m: 8, lambda m, most: most // m, []),
    "scatter": ("scatter 0 a b", lambda m: 8 * m, lambda m, most: most, []),
    "scan": ("scan sum a b", lambda m: 8, lambda m, most: most, []),
    "exscan": ("exscan sum a b", lambda m: 8, lambda m, most: most, []),
    "barrier": ("barrier", lambda m: 0, lambda m, most: 0, []),
}
# these part a list into a block for each rank
BLOCKS = ["allreduce_rabenseifner", "allreduce_ring"]


def said(words, text):
    run = subprocess.run(words, input=text, stdout=subprocess.PIPE, stderr=subprocess.DEVNULL, text=True, check=False)
    if run.returncode:
        sys.exit(f"{words} ends with {run.returncode}: {run.stdout[:200]}")
    return run.stdout


def drawn(program, ranks, step, length):
    """The text of a description, with the program's own plan."""
    lists = [f"input a u64 {length // 8}"] + [" ".join(["1"] * (length // 8))] * ranks if length else []
    prints = ["print b"] if length else []
    text = "\n".join(["coll 2", f"ranks {ranks}", *lists, step, *prints, "end"]) + "\n"
    return text + said([program, "draw"], text)


def cost(program, text):
    words = said([program, *NUMBERS], text).splitlines()[-1].split(" ")
    return int(words[1]), dict(zip(words[2::2], map(int, words[3::2])))


def told(row):
    time, parts = row
    spent = ", ".join(f"{name} {parts[name] / 1e6:.2f}" for name in ("latency", "overhead", "wire", "queued", "held") if parts[name])
    return f"{time / 1e6:.2f} ({spent}; {parts['messages']} messages, {parts['bytes']} bytes)"


def main():
    if len(sys.argv) < 2:
        sys.exit(__doc__)
    program, sizes = sys.argv[1], [int(word) for word in sys.argv[2:]] or [16, 64, 256]
    for name, (step, small, large, generators) in COLLECTIVES.items():
        for ranks in sizes:
            for what, length in [("small", small(ranks)), ("large", large(ranks, 8192 if ranks == 256 else 32768))]:
                own = cost(program, drawn(program, ranks, step, length))
                print(f"{name} {ranks} {what}: built in {told(own)}")
                for generator in generators:
                    if generator in BLOCKS and length < 8 * ranks:
                        continue
                    text = said([sys.executable, str(PLANS / f"{generator}.py"), str(ranks), str(length)], "")
                    best = cost(program, text)
                    print(f"{name} {ranks} {what}: {generator} {told(best)}, {own[0] / best[0]:.1f} times")
                if not length:
                    break


main()
