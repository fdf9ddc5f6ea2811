"""Measures the built program beside programs in plain Rust that do the same work: `measure.sh` builds those and calls this.

usage: measure.py PLAIN_FOLDER [RUNS]. It is run at the top of the repository; PORTALS_RUN names another program. The status is 1 where both
programs write different texts, or a run ends with another status than is due.
"""

import os
import statistics
import subprocess
import sys
import tempfile

PROGRAM = os.environ.get("PORTALS_RUN", "crates/portals_run/out/portals_run")
MEANING = "crates/small_programs/out/small_programs"
REFUSED = 3


def lines(*texts):
    return "".join(text + "\n" for text in texts)


def allgathers(*prints):
    """60 allgathers of one byte on 64 ranks: one more would be refused."""
    steps = [f"allgather a b{k}" for k in range(60)]
    return lines("coll 1", "ranks 64", "input a u8 1", *map(str, range(64)), *steps, *prints, "end")


def groups():
    """An allgather of one byte on each of 64 groups of 61 ranks, of 256."""
    members = [" ".join(str(3 * k + i) for i in range(61)) for k in range(64)]
    named = [f"group g{k} {ranks}" for k, ranks in enumerate(members)]
    steps = [f"on g{k} allgather a b{k}" for k in range(64)]
    return lines("coll 2", "ranks 256", *named, "input a u8 1", *map(str, range(256)), *steps, "end")


def values(*steps):
    """4096 elements of eight bytes on 64 ranks, nearly a megabyte of text, and some steps."""
    data = [" ".join(str((r * 4096 + i) * 7 % 1000) for i in range(4096)) for r in range(64)]
    return lines("coll 1", "ranks 64", "input a u64 4096", *data, *steps)


def cases(plain):
    """Names, words of the built program, words of the plain one, texts, and the status that both end with."""
    plan, world = f"{plain}/plain_plan", f"{plain}/plain_world"
    yield "read 1 MB", ["plan"], [plan], values("nothing"), REFUSED
    yield "plan, 60 allgathers", ["plan"], [plan], allgathers(), 0
    yield "plan, 64 groups", ["plan"], [plan], groups(), 0
    worlds = {
        "60 allgathers": allgathers("print b59"),
        "allreduce": values("allreduce sum a b", "print b", "end"),
        "barrier on 256": lines("coll 2", "ranks 256", "barrier", "end"),
    }
    for name, text in worlds.items():
        yield f"once, {name}", ["once"], [world, "once"], text, 0
        yield f"sim 1, {name}", ["sim", "1"], [world, "sim", "1"], text, 0


def output(words, text):
    """What one run writes, and its status."""
    with open(text, "rb") as source:
        ran = subprocess.run(words, stdin=source, capture_output=True)
    return ran.stdout, ran.returncode


def seconds(words, text, status):
    """The processor time of one run, which has to end with the status."""
    with open(text, "rb") as source, open(os.devnull, "wb") as sink:
        started = subprocess.Popen(words, stdin=source, stdout=sink)
        _, ended, usage = os.wait4(started.pid, 0)
    started.returncode = os.waitstatus_to_exitcode(ended)
    if started.returncode != status:
        sys.exit(f"{' '.join(words)} ended with {started.returncode}, not {status}")
    return usage.ru_utime + usage.ru_stime


def megabytes(words, text):
    """The greatest memory of one run, as /usr/bin/time says: a child of this program would count this one's."""
    with open(text, "rb") as source:
        told = subprocess.run(["/usr/bin/time", "-f", "%M", *words], stdin=source, capture_output=True).stderr
    return int(told.split()[-1]) / 1024


def compare(name, built, plain, text, runs, status):
    """Writes a row; whether both programs write the same."""
    if output(built, text) != output(plain, text):
        print(f"{name}: THE OUTPUTS DIFFER")
        return False
    times = [(seconds(built, text, status), seconds(plain, text, status)) for _ in range(runs)]
    (a, b), (x, y) = map(min, zip(*times)), map(statistics.median, zip(*times))
    m, n = megabytes(built, text), megabytes(plain, text)
    row = [a, b, a / b, x, y, x / y, m, n, m / n] if b and y else [a, b, 0, x, y, 0, m, n, m / n]
    print(f"{name:24}" + " ".join(f"{value:8.3f}" for value in row[:6]) + " ".join(f"{value:8.1f}" for value in row[6:]))
    return True


def main():
    plain = sys.argv[1]
    runs = int(sys.argv[2]) if len(sys.argv) > 2 else 9
    columns = ["least", "plain", "ratio", "median", "plain", "ratio", "MB", "plain", "ratio"]
    print(f"{'':24}" + " ".join(f"{column:>8}" for column in columns))
    same = True
    with tempfile.TemporaryDirectory() as folder:
        text = f"{folder}/text.coll"
        for name, words, plain_words, description, status in cases(plain):
            with open(text, "w") as sink:
                sink.write(description)
            same &= compare(name, [PROGRAM, *words], plain_words, text, runs, status)
        if os.path.exists(MEANING):
            cells = (1 + 2 * 31) * 64 * 4096 * 8 / 2**20
            peak = megabytes([MEANING, "meaning"], os.devnull)
            print(f"meaning: {peak:.1f} MB, {peak / cells:.2f} times the {cells:.0f} MB of its cells")
    sys.exit(0 if same else 1)


if __name__ == "__main__":
    main()
