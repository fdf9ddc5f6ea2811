#!/usr/bin/env python3
"""What judging a log costs, beside the calls alone.

    log_cost.py PORTALS_LOG [FOLDER [RUNS]]    the program, c/build's folder (else c/out), and how often each is run (else 5)

1. A million calls: `log_calls` makes them and prints nothing; `portals_log judge` reads the log of the same calls. Least processor
   seconds of each, and the ratio.
2. A log of about 1 GB by a pipe, and 64 MB of what is no log or only the beginning of one: processor seconds and the greatest memory.
"""
import os
import subprocess
import sys
import tempfile

HERE = os.path.dirname(os.path.abspath(__file__))
NOISE = 64 << 20


def run(words, stdin=None):
    """Processor seconds, memory in MB, and the first line that is written."""
    with tempfile.NamedTemporaryFile("r") as used:
        timed = ["/usr/bin/time", "-q", "-o", used.name, "-f", "%U %S %M", *words]
        said = subprocess.run(timed, stdin=stdin, stdout=subprocess.PIPE, stderr=subprocess.DEVNULL).stdout
        user, system, memory = used.read().split()
        return float(user) + float(system), int(memory) / 1024, said.decode().split("\n")[0]


def noise(folder):
    """Texts of 64 MB by what they are."""
    begun = b"ni 1\nranks 1\n"
    opened = begun + b"0 open cts=1 triggered=1 -> ok\n"
    for name, head, piece in (("random bytes", b"", None), ("one line", begun, b"a"), ("comments", begun, b"# a comment\n"),
                              ("settled again and again", opened, b"settle\n"), ("questions", opened, b"0 pending -> 0\n"),
                              ("an answer as long as a line", opened + b"0 read 0 0 -> ", b"0")):
        with open(f"{folder}/noise", "wb") as file:
            file.write(head)
            file.write(os.urandom(NOISE) if piece is None else piece * (NOISE // len(piece)))
        yield name, f"{folder}/noise"


def main(program, out=os.path.join(HERE, "..", "c", "out"), runs="5"):
    with tempfile.TemporaryDirectory() as folder:
        calls = f"{folder}/log_calls"
        subprocess.run(["gcc", "-std=c11", "-O2", f"-I{out}", f"{HERE}/log_calls.c", f"-L{out}", "-lsinfreddy", "-o", calls], check=True)
        with open(f"{folder}/log", "wb") as log:
            subprocess.run([calls, "1000000", "print"], stdout=log, check=True)
        alone, judged = [], []
        for _ in range(int(runs)):
            alone.append(run([calls, "1000000"])[0])
            with open(f"{folder}/log", "rb") as log:
                judged.append(run([program, "judge"], log))
        least = min(judged)
        print(f"{least[2]}: {least[0]:.3f} s, {least[1]:.1f} MB; the calls alone {min(alone):.3f} s, {least[0] / min(alone):.1f} times")
        pipe = subprocess.Popen([calls, "31000000", "print"], stdout=subprocess.PIPE)
        print("by a pipe: {2}: {0:.1f} s, {1:.1f} MB".format(*run([program, "judge"], pipe.stdout)))
        pipe.wait()
        for name, path in noise(folder):
            with open(path, "rb") as text:
                print(f"64 MB, {name}: " + "{2}: {0:.2f} s, {1:.1f} MB".format(*run([program, "judge"], text)))


main(*sys.argv[1:])
