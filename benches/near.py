"""Measures the built program beside `near_world.rs`, a plain program by the same rules, in turns in one run.

usage: near.py [RUNS]         times and greatest memory, medians of so many runs (9)
       near.py check [SEEDS]  whether both write the same: `once`, and `sim X` for so many seeds (5), of more texts

It is run at the top of the repository; PORTALS_RUN names another program. It needs rustc and /usr/bin/time. The status is 1 where both
programs write different texts, or a run that is measured ends with another status than 0.
"""

import glob
import os
import statistics
import subprocess
import sys
import tempfile
import time

from measure import PROGRAM, allgathers, lines, megabytes, output, values


def rows(ranks, count):
    """The data lines of one input of bytes."""
    return [" ".join(str((r * count + i) % 256) for i in range(count)) for r in range(ranks)]


def texts():
    """Names and descriptions that are measured."""
    alltoalls = [f"alltoall a b{k}" for k in range(7)]
    return {
        "60 allgathers on 64": allgathers("print b59"),
        "64 barriers on 256": lines("coll 2", "ranks 256", *["barrier"] * 64, "end"),
        "7 alltoalls on 256": lines("coll 2", "ranks 256", "input a u8 256", *rows(256, 256), *alltoalls, "print b6", "end"),
        "allreduce of 4096 u64": values("allreduce sum a b", "print b", "end"),
        "alltoall of 4096 u64": values("alltoall a b", "print b", "end"),
    }


def remote(text):
    """The same description with acknowledgements."""
    head, ranks, rest = text.split("\n", 2)
    return "\n".join([head, ranks, "complete remote", rest])


def compared():
    """Names and descriptions that are compared: the measured ones, and the examples that have a plan, with acknowledgements too."""
    yield from texts().items()
    for path in sorted(glob.glob("examples/*.coll")):
        with open(path) as source:
            text = source.read()
        if os.path.basename(path) in ("choice.coll", "refused.coll"):
            continue
        yield path, text
        if "complete remote" not in text:
            yield f"{path}, remote", remote(text)


def build(folder):
    program = f"{folder}/near_world"
    subprocess.run(["rustc", "--edition", "2024", "-O", "-o", program, "benches/near_world.rs"], check=True)
    return program


def seconds(words, text):
    """The processor time of one run, and its time by the clock."""
    with open(text, "rb") as source, open(os.devnull, "wb") as sink:
        begun = time.perf_counter()
        started = subprocess.Popen(words, stdin=source, stdout=sink)
        _, status, usage = os.wait4(started.pid, 0)
        ended = time.perf_counter()
    started.returncode = os.waitstatus_to_exitcode(status)
    if started.returncode != 0:
        sys.exit(f"{' '.join(words)} ended with {started.returncode}")
    return usage.ru_utime + usage.ru_stime, ended - begun


def pairs(values):
    """Both medians, and their ratio."""
    built, near = map(statistics.median, zip(*values))
    return [built, near, built / max(near, 1e-9)]


def measure(near, folder, runs):
    columns = ["cpu s", "near", "ratio", "clock s", "near", "ratio", "MB", "near", "ratio"]
    print(f"{'':30}" + " ".join(f"{column:>8}" for column in columns))
    text = f"{folder}/text.coll"
    same = True
    for name, description in texts().items():
        with open(text, "w") as sink:
            sink.write(description)
        for words in ["once"], ["sim", "1"]:
            both = [[PROGRAM, *words], [near, *words]]
            title = f"{' '.join(words)}, {name}"
            if output(both[0], text) != output(both[1], text):
                print(f"{title}: THE OUTPUTS DIFFER")
                same = False
                continue
            times = [[seconds(program, text) for program in both] for _ in range(runs)]
            memory = [[megabytes(program, text) for program in both] for _ in range(min(3, runs))]
            cpu, clock = ([[time[i] for time in each] for each in times] for i in range(2))
            row = [f"{value:8.3f}" for value in pairs(cpu) + pairs(clock)] + [f"{value:8.2f}" for value in pairs(memory)]
            print(f"{title:30}" + " ".join(row), flush=True)
    return same


def check(near, folder, seeds):
    text = f"{folder}/text.coll"
    same = different = 0
    for name, description in compared():
        with open(text, "w") as sink:
            sink.write(description)
        for words in [["once"], *(["sim", str(seed)] for seed in range(seeds))]:
            if output([PROGRAM, *words], text) == output([near, *words], text):
                same += 1
            else:
                different += 1
                print(f"{' '.join(words)}, {name}: THE OUTPUTS DIFFER")
    print(f"{same} outputs are the same, {different} differ")
    return different == 0


def main():
    words = sys.argv[1:]
    with tempfile.TemporaryDirectory() as folder:
        near = build(folder)
        if words[:1] == ["check"]:
            same = check(near, folder, int(words[1]) if words[1:] else 5)
        else:
            same = measure(near, folder, int(words[0]) if words else 9)
    sys.exit(0 if same else 1)


if __name__ == "__main__":
    main()
