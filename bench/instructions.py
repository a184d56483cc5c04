"""Instructions of each job, by valgrind's callgrind: repeatable, whatever else the machine does.

    instructions.py TIMING DIRECTORY [--growth]    the tables of docs/SPEED.md, in thousands of instructions

Each job is done m and 2m times, and the difference divided by m, so that starting the program and reading the inputs count nothing.
"""

import os
import re
import subprocess
import sys
import tempfile

GRAMMARS = ["a", "b", "routing", "policy"]
# Each with its heading, as timing.rs names them.
ENGINES = {"ordinary": "ordinary", "proved": "proved", "gearley": "gearley", "gearley_bare": "without its forest"}
# How often. The first sentences of a reload differ: as many as this are taken.
JOBS = {"check": 20, "start": 20, "empty": 20, "one": 20, "finished": 20, "reload": 50, "long": 1, "kinds": 1}
# What runs today does these alone: it has no check, and nothing to ask of a parse.
TODAY = {"start", "reload", "long", "kinds"}


class Counts:
    def __init__(self, timing, directory):
        self.timing, self.directory = timing, directory

    def whole(self, engine, grammar, job, count):
        """The instructions of the whole program."""
        with tempfile.TemporaryDirectory() as scratch:
            words = ["valgrind", "--tool=callgrind", f"--callgrind-out-file={os.path.join(scratch, 'out')}", self.timing, self.directory, engine,
                     grammar, job, str(count)]
            done = subprocess.run(words, capture_output=True, text=True)
        told = re.search(r"Collected : (\d+)", done.stderr)
        if done.returncode != 0 or told is None:
            sys.exit(f"{' '.join(words)} failed:\n{done.stderr.strip()}")
        return int(told[1])

    def of(self, grammar, job):
        """Thousands a job by engine, None where it cannot do it."""
        count = JOBS[job]
        told = []
        for engine in ENGINES:
            if engine.startswith("gearley") and job not in TODAY:
                told.append(None)
            else:
                once, twice = (self.whole(engine, grammar, job, times) for times in (count, 2 * count))
                told.append((twice - once) / count / 1000)
        return told

    def length(self, grammar):
        with open(os.path.join(self.directory, grammar + ".long")) as tokens:
            return len(tokens.read().split())


def of_tokens(long, start, empty, length):
    """A token of a long run: less the start, and less the checks and the table of a run."""
    return [(whole - begun - (checked or 0)) / length for whole, begun, checked in zip(long, start, empty)]


def heading(title):
    ordinary, *others = ENGINES.values()
    print(f"\n| {title} | {ordinary} | {' | ratio | '.join(others)} | ratio |\n|---|---|---|---|---|---|---|---|", flush=True)


def row(label, told):
    """The proved library's ratio to each of the others."""
    ordinary, proved, *today = told
    number = lambda value: "" if value is None else f"{value:.3f}"
    ratio = lambda other: "" if other is None else f"{proved / other:.2f}"
    cells = [number(ordinary), number(proved), ratio(ordinary)]
    for other in today:
        cells += [number(other), ratio(other)]
    print(f"| {label} | {' | '.join(cells)} |", flush=True)


def report(counts):
    for grammar in GRAMMARS:
        heading(f"{grammar}, thousand instructions")
        spent = {}
        for job in JOBS:
            spent[job] = counts.of(grammar, job)
            row(job, spent[job])
        for label, job in ("a token of the long run", "long"), ("a position of several kinds", "kinds"):
            row(label, of_tokens(spent[job], spent["start"], spent["empty"], counts.length(grammar)))


def growth(counts):
    heading("a token, thousand instructions")
    with open(os.path.join(counts.directory, "growth")) as names:
        for name in names.read().split():
            row(name, of_tokens(*(counts.of(name, job) for job in ("long", "start", "empty")), counts.length(name)))
    heading("a call, thousand instructions")
    for grammar in GRAMMARS:
        for job in ("check", "start", "empty", "one"):
            row(f"{grammar}: {job}", counts.of(grammar, job))


def main():
    timing, directory, *option = sys.argv[1:]
    (growth if option == ["--growth"] else report)(Counts(timing, directory))


main()
