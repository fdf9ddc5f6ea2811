"""Measures the built program by workers beside itself on one thread: `once`, `run 1`, `run 4`, in turns, by the clock.

usage: benches/workers.py [RUNS [huge]]. It is run at the top of the repository, on a machine with nothing else to do. With `huge` the C
library asks the kernel for large pages, and for 16 MB at a time, in all forms alike: a run touches some ten thousand pages of 4 KB.

Each run is measured from before the process is made, until the last byte of its result has come through a pipe, and until its end is known:
between these two the kernel takes the process's pages back, one after the other on one processor. All forms have to write the same bytes.

Its first and last line tell how many times the work of one process as many processes do as there are processors, in a loop that needs no
memory: by medians, and by the most that each did. Where processors share cores, one alone may be faster at times than each of several at
once, and where other machines use them too, some are withheld at times: the figures between these lines are no better than that.
"""

import fcntl
import os
import select
import statistics
import struct
import subprocess
import sys
import tempfile
import termios
import time

from measure import PROGRAM, allgathers, values


LARGE_PAGES = "glibc.malloc.hugetlb=1:glibc.malloc.top_pad=16777216"


# As much as a pipe holds for a program without privileges.
PIPE_ROOM = 1 << 20


def waiting(reader):
    """How many bytes are in a pipe."""
    return struct.unpack("i", fcntl.ioctl(reader, termios.FIONREAD, b"\0" * 4))[0]


def receive(reader, size):
    """Waits until so many bytes have come. They stay in the pipe while it has room, so that reading takes no time of the program's."""
    select.select([reader], [], [])
    got = 0
    while got + waiting(reader) < size:
        # An empty pipe that can be read has ended: the run wrote less.
        has_ended = select.select([reader], [], [], 0)[0] and waiting(reader) == 0
        if has_ended or waiting(reader) > PIPE_ROOM // 2:
            piece = os.read(reader, PIPE_ROOM)
            if not piece:
                sys.exit(f"{PROGRAM}: {got} of {size} bytes")
            got += len(piece)
        time.sleep(0.00005)


def clock(words, text, environment, size):
    """The milliseconds of one run, until the last byte of its result has come and until its end is known."""
    reader, writer = os.pipe2(os.O_CLOEXEC)
    fcntl.fcntl(writer, fcntl.F_SETPIPE_SZ, PIPE_ROOM)
    with open(text, "rb") as source:
        ends = [(os.POSIX_SPAWN_DUP2, source.fileno(), 0), (os.POSIX_SPAWN_DUP2, writer, 1)]
        started = time.monotonic()
        child = os.posix_spawn(PROGRAM, [PROGRAM, *words], environment, file_actions=ends)
        os.close(writer)
        receive(reader, size)
        came = time.monotonic()
        _, status = os.waitpid(child, 0)
        ended = time.monotonic()
    os.close(reader)
    if status != 0:
        sys.exit(f"{PROGRAM} {' '.join(words)}: status {status}")
    return (came - started) * 1000, (ended - started) * 1000


def output(words, text):
    """What a run writes."""
    with open(text, "rb") as source:
        return subprocess.run([PROGRAM, *words], stdin=source, capture_output=True, check=True).stdout


def spin(begin, seconds):
    """How many rounds of a loop a process makes in this time from this moment on."""
    while time.monotonic() < begin:
        pass
    rounds = 0
    while time.monotonic() < begin + seconds:
        for _ in range(1000):
            rounds += 1
    return rounds


def rounds_together(processes, seconds=0.02):
    """How many rounds so many processes make at once, together."""
    begin = time.monotonic() + 0.01
    children = []
    for _ in range(processes):
        reader, writer = os.pipe()
        child = os.fork()
        if child == 0:
            os.write(writer, str(spin(begin, seconds)).encode())
            os._exit(0)
        os.close(writer)
        children.append((child, reader))
    rounds = 0
    for child, reader in children:
        rounds += int(os.read(reader, 64))
        os.close(reader)
        os.waitpid(child, 0)
    return rounds


def processors(turns=15):
    """How many times the work of one process as many do as there are processors, in turns: by medians, and by the most that each did."""
    many = os.cpu_count()
    alone, together = [], []
    for _ in range(turns):
        alone.append(rounds_together(1))
        together.append(rounds_together(many))
    median = statistics.median(together) / statistics.median(alone)
    most = max(together) / max(alone)
    return f"{many} processes do {median:.1f} times the work of one by medians, {most:.1f} times by the most that each did"


def ratio(took, above, below):
    """How often the first form took the time of the second: of the least times, and of the medians."""
    least = min(took[above]) / min(took[below])
    median = statistics.median(took[above]) / statistics.median(took[below])
    return f"{above} / {below} {least:.2f} {median:.2f}"


def cases():
    """Names, texts, and whether the words are those of the generated description instead."""
    yield "allreduce, 4096 u64", values("allreduce sum a b", "print b", "end"), False
    yield "60 allgathers", allgathers("print b59"), False
    yield "alltoall, 4096 u64", values("alltoall a b", "print b", "end"), False
    yield "large 1", "", True


def forms(is_large):
    if is_large:
        return {"run 1": ["large", "1", "1"], "run 4": ["large", "1", "4"]}
    return {"once": ["once"], "run 1": ["run", "1"], "run 4": ["run", "4"]}


def row(name, took):
    """The times of each form, and their ratios."""
    times = "  ".join(f"{form} {min(each):.1f} {statistics.median(each):.1f}" for form, each in took.items())
    ratios = ratio(took, "run 1", "run 4")
    if "once" in took:
        ratios += ", " + ratio(took, "run 1", "once")
    print(f"{name:20} {times}  {ratios}")


def measure(name, text, is_large, runs, environment):
    """Runs each form so often, in turns, and prints the times of both ends."""
    written = {output(words, text) for words in forms(is_large).values()}
    if len(written) != 1:
        sys.exit(f"{name}: the forms write different texts")
    size = len(written.pop())
    came = {form: [] for form in forms(is_large)}
    ended = {form: [] for form in forms(is_large)}
    for _ in range(runs):
        for form, words in forms(is_large).items():
            result, end = clock(words, text, environment, size)
            came[form].append(result)
            ended[form].append(end)
    row(name, came)
    row("  and until the end", ended)


def main():
    runs = int(sys.argv[1]) if len(sys.argv) > 1 else 5
    environment = dict(os.environ)
    if "huge" in sys.argv[2:]:
        environment["GLIBC_TUNABLES"] = LARGE_PAGES
    print(processors())
    print(f"{os.cpu_count()} processors; milliseconds, least and median of {runs}; ratios of the least and of the medians")
    with tempfile.TemporaryDirectory() as folder:
        text = f"{folder}/text.coll"
        for name, description, is_large in cases():
            with open(text, "w") as sink:
                sink.write(description)
            measure(name, text, is_large, runs, environment)
    print(processors())


main()
