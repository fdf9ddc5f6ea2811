#!/usr/bin/env python3
"""Changes one answer of a log, again and again, and has portals_log say where the log first differs: it has to be at that word.

    changed_answers.py PORTALS_LOG CHANGES SEED < LOG

A name that is given to what is new is changed to what is no name, since a device may choose it.
"""
import random
import re
import subprocess
import sys


def other(word):
    """A word that isn't what is owed where this one is."""
    key, equals, value = word.rpartition("=")
    if re.fullmatch("[0-9]+", value):
        return f"{key}{equals}{int(value) + 1}"
    if re.fullmatch("[cqdmw][0-9]+", word):
        return "none"
    if re.fullmatch("t[0-9]+", word):
        return word + "0"
    return "Stale" if word != "Stale" else "ok"


def main(program, changes, seed):
    lines = sys.stdin.read().split("\n")
    draw = random.Random(int(seed))
    calls = [place for place, line in enumerate(lines) if " -> " in line]
    for _ in range(int(changes)):
        place = draw.choice(calls)
        head, answer = lines[place].split(" -> ")
        words = answer.split(" ")
        at = draw.randrange(len(words))
        column = len(" ".join([head, "->", *words[:at]])) + 2
        words[at] = other(words[at])
        log = lines[:place] + [f"{head} -> {' '.join(words)}"] + lines[place + 1:]
        said = subprocess.run([program, "judge"], input="\n".join(log), capture_output=True, text=True).stdout.split("\n")[0]
        if said != f"differs {place + 1} {column}":
            sys.exit(f"{log[place]}\nline {place + 1}, column {column}: {said}")


main(*sys.argv[1:])
