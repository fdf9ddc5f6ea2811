#!/usr/bin/env python3
"""What one rank a process costs beside MPI's own collectives, on 4 processes; and the memory of a job.

  rank_costs.py [RUNS]
  rank_costs.py memory DESCRIPTION

A row has the medians of RUNS (9): the seconds of the whole command, of examples/mpi/run_ranks and of examples/mpi/collectives.c, and
the microseconds from the start to the end of the last rank, of one step and of each of many one after another. The last rows are
those of MPI's own calls (mpi_times.c) and of the pipes alone (pipe_times.c). With `memory` all ranks are held before their start, and
what the kernel counts of their processes is added up: of the ranks' programs, and of the processes of MPI, shared pages by parts; and
the most that any one rank's program had. Of the environment: what run_ranks takes.
"""
import os
import re
import shlex
import statistics
import subprocess
import sys
import tempfile
import time

TOP = os.path.abspath(f"{os.path.dirname(os.path.abspath(__file__))}/..")
MPIRUN = shlex.split(os.environ.get("MPIRUN", "mpirun"))
RANK = os.environ.get("PORTALS_RANK") or f"{TOP}/crates/portals_rank/out/portals_rank"
RUN_RANKS = f"{TOP}/examples/mpi/run_ranks"
# The step's line, how many elements of 8 bytes, and how many steps stand one after another.
LOADS = {"barrier": ("barrier", 1, 64), "broadcast": ("broadcast 0 a b", 1, 64), "allreduce": ("allreduce sum a b", 4096, 16)}


def description(load, steps):
    step, count, _ = LOADS[load]
    rows = [" ".join(str(r + i) for i in range(count)) for r in range(4)]
    lines = ["coll 1", "ranks 4", f"input a u64 {count}", *rows]
    lines += [step + (str(i) if step.endswith("b") else "") for i in range(steps)]
    return "\n".join([*lines, "end", ""])


def built(room, name, source, compiler):
    path = f"{room}/{name}"
    subprocess.run([*shlex.split(compiler), "-std=c11", "-O2", "-o", path, f"{TOP}/{source}"], check=True)
    return path


def seconds(words):
    begun = time.monotonic()
    subprocess.run(words, check=True, stdout=subprocess.DEVNULL, stderr=subprocess.DEVNULL, stdin=subprocess.DEVNULL)
    return time.monotonic() - begun


def inside(path):
    """The messages of a run, and the microseconds from the start to the last end."""
    it = subprocess.run([RUN_RANKS, "--times", "300", path], check=True, capture_output=True, text=True)
    return map(int, re.search(r"(\d+) messages, (\d+) us", it.stderr).groups())


def costs(room, runs):
    compiler = os.environ.get("MPICC", "mpicc")
    collectives = built(room, "collectives", "examples/mpi/collectives.c", compiler)
    own = built(room, "mpi_times", "benches/mpi_times.c", compiler)
    pipes = built(room, "pipe_times", "benches/pipe_times.c", os.environ.get("CC", "cc"))
    print("load: seconds of run_ranks, of collectives; us inside, messages; us of each of many, how many")
    for load, (_, _, many) in LOADS.items():
        one, row = f"{room}/{load}.coll", f"{room}/{load}s.coll"
        for path, steps in ((one, 1), (row, many)):
            with open(path, "w") as file:
                file.write(description(load, steps))
        whole = [(seconds([RUN_RANKS, one]), seconds([*MPIRUN, "-n", "4", collectives, one])) for _ in range(runs)]
        single, rows = [[*inside(one)] for _ in range(runs)], [[*inside(row)] for _ in range(runs)]
        middle = lambda list: statistics.median(list)
        print(f"{load}: {middle(a for a, _ in whole):.2f} {middle(b for _, b in whole):.2f};",
              f"{middle(t for _, t in single):.0f} {single[0][0]}; {middle(t for _, t in rows) / many:.0f} {many}", flush=True)
    print("MPI's own calls: us of the first, median of single ones, each of 64")
    subprocess.run([*MPIRUN, "-n", "4", own], check=True, stdin=subprocess.DEVNULL)
    print("two pipes: bytes of a frame, us there and back")
    subprocess.run([pipes], check=True)


def number_in(path, word):
    try:
        with open(path) as file:
            found = re.search(rf"^{word}:\s*(\d+) kB", file.read(), re.M)
    except OSError:
        return 0
    return int(found[1]) * 1024 if found else 0


def processes(name):
    for pid in filter(str.isdigit, os.listdir("/proc")):
        try:
            if os.readlink(f"/proc/{pid}/exe") == os.path.realpath(name):
                yield f"/proc/{pid}"
        except OSError:
            continue


def memory(path):
    with open(path) as file:
        ranks = int(file.read().split("\n")[1].split()[1])
    job = subprocess.Popen([RUN_RANKS, "--times", "60000", path], stdout=subprocess.DEVNULL, stderr=subprocess.DEVNULL)
    while len([*processes(RANK)]) < ranks and job.poll() is None:
        time.sleep(0.5)
    time.sleep(10)
    told = {"programs of ranks": RANK, "processes of MPI": os.environ["MPI_RANK"]}
    for what, name in told.items():
        found = [*processes(name)]
        print(f"{what}: {len(found)}, {sum(number_in(f'{it}/smaps_rollup', 'Pss') for it in found) / 1e6:.0f} MB;",
              f"the most of one {max(number_in(f'{it}/status', 'VmHWM') for it in found) / 1e6:.1f} MB", flush=True)
    print(f"status {job.wait()}")


def main():
    with tempfile.TemporaryDirectory() as room:
        if not os.environ.get("MPI_RANK"):
            os.environ["MPI_RANK"] = built(room, "mpi_rank", "examples/mpi/mpi_rank.c", os.environ.get("MPICC", "mpicc"))
        os.environ["OMPI_MCA_rmaps_base_oversubscribe"] = "1"
        if sys.argv[1:2] == ["memory"]:
            memory(sys.argv[2])
        else:
            costs(room, int((sys.argv[1:] or ["9"])[0]))


if __name__ == "__main__":
    main()
