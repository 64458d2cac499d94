#!/usr/bin/env python3
"""Times the solver beside minisat on the benchmark's formulas, and prints tables in Markdown.

Seconds are the processor time of the whole process, reading included.
"""

import argparse
import resource
import shutil
import subprocess
import sys
import tempfile
from pathlib import Path

from generate import instances

TOP = Path(__file__).resolve().parent.parent
CRATE = TOP / "crates" / "sat_bench"
PROGRAM = CRATE / "out" / "sat_bench"
ANSWERS = {"s SATISFIABLE": "sat", "s UNSATISFIABLE": "unsat", "s UNKNOWN": "unknown"}
MINISAT_ANSWERS = {"SATISFIABLE": "sat", "UNSATISFIABLE": "unsat"}
HEAD = ["Formula", "Answer", "Conflicts", "Seconds", "µs each", "minisat: conflicts", "seconds", "µs each"]
HEAD += ["time: times minisat's", "time a conflict: times minisat's"]

# Formulas of many conflicts, and the budgets at which their time is taken.
LONG = ["random-250-2", "pigeonhole-9-8", "pausing-9-short"]
BUDGETS = [2500, 5000, 10000, 20000, 40000]

# Formulas of which one kept solver is asked many queries, each under some literals, and how many queries.
KEPT = ["random-150-1", "factoring-8-product", "counter-10-reached"]
QUERIES = [1000, 9000, 10000]


class Run:
    """What a solver answered, from how many conflicts, and in how many seconds. No answer: it ran out of time."""

    def __init__(self, answer, conflicts, seconds):
        self.answer = answer
        self.conflicts = conflicts
        self.seconds = seconds

    def each(self):
        """Microseconds a conflict, where there are enough conflicts to tell."""
        return self.seconds / self.conflicts * 1e6 if self.answer and self.conflicts >= 1000 else None


def build():
    """Proves and builds the program."""
    with open(CRATE / "stdin") as text:
        subprocess.run(["rt", "run"], cwd=CRATE, stdin=text, stdout=subprocess.DEVNULL, check=True)


def used():
    """The processor time of all processes that have ended."""
    usage = resource.getrusage(resource.RUSAGE_CHILDREN)
    return usage.ru_utime + usage.ru_stime


def timed(words, path, limit):
    """The lines that a program writes of a formula, and its processor time, which is limited."""

    def set_limit():
        resource.setrlimit(resource.RLIMIT_CPU, (limit, limit + 1))

    before = used()
    with open(path) as text:
        done = subprocess.run(words, stdin=text, capture_output=True, text=True, preexec_fn=set_limit)
    return done.stdout.splitlines(), used() - before


def ours(path, limit, budget=10**9):
    lines, seconds = timed([PROGRAM, str(budget)], path, limit)
    if not lines:
        return Run(None, None, seconds)
    return Run(ANSWERS[lines[0]], int(lines[1].split()[-1]), seconds)


def minisat(path, limit):
    lines, seconds = timed(["minisat", path], path, limit)
    answer = MINISAT_ANSWERS.get(lines[-1]) if lines else None
    if answer is None:
        return Run(None, None, seconds)
    conflicts = next(line for line in lines if line.startswith("conflicts"))
    return Run(answer, int(conflicts.split()[2]), seconds)


def cells(run):
    """Conflicts, seconds, and microseconds a conflict."""
    if run is None:
        return ["", "", ""]
    if run.answer is None:
        return ["", "no answer", ""]
    return [str(run.conflicts), f"{run.seconds:.2f}", f"{run.each():.1f}" if run.each() else ""]


def ratios(mine, other):
    """How many times minisat's the time is, and the time a conflict."""
    if not (other and mine.answer and other.answer):
        return ["", ""]
    time = f"{mine.seconds / other.seconds:.1f}" if other.seconds >= 0.02 else ""
    each = f"{mine.each() / other.each():.1f}" if mine.each() and other.each() else ""
    return [time, each]


def print_row(entries):
    print("| " + " | ".join(entries) + " |", flush=True)


def print_head(entries):
    print_row(entries)
    print_row(["---"] * len(entries))


def print_sum(kind, pairs):
    """A row of the sums over the formulas that both solvers answered."""
    both = [(mine, other) for mine, other in pairs if other and mine.answer and other.answer]
    if not both:
        return
    mine, other = (Run("all", sum(r.conflicts for r in side), sum(r.seconds for r in side)) for side in zip(*both))
    print_row([f"all {kind}", f"{len(both)} of {len(pairs)}", *cells(mine), *cells(other), *ratios(mine, other)])


def compare(paths, limit):
    """Prints a row for each formula, and the sums of each kind. The formulas whose answers differ."""
    beside = shutil.which("minisat") is not None
    if not beside:
        print("minisat is not installed: its columns stay empty", file=sys.stderr)
    kinds, differ = {}, []
    print_head(HEAD)
    for path in paths:
        mine, other = ours(path, limit), minisat(path, limit) if beside else None
        print_row([path.stem, mine.answer or "", *cells(mine), *cells(other), *ratios(mine, other)])
        kinds.setdefault(path.stem.split("-")[0], []).append((mine, other))
        if other and mine.answer and other.answer and mine.answer != other.answer:
            differ.append(path.stem)
    for kind, pairs in kinds.items():
        print_sum(kind, pairs)
    return differ


def grow(paths, limit):
    """Prints the time for a number of conflicts, on formulas that need more."""
    print_head(["Seconds for so many conflicts", *map(str, BUDGETS)])
    for path in paths:
        if path.stem in LONG:
            runs = [ours(path, limit, budget) for budget in BUDGETS]
            print_row([path.stem, *(f"{run.seconds:.2f}" if run.answer else "no answer" for run in runs)])


def keep(paths, limit):
    """Prints what the first thousand queries of a kept solver take, and the last thousand of ten thousand."""
    print("| Formula | first 1000 queries, seconds | last 1000 of 10000 |")
    print("| --- | --- | --- |")
    for path in paths:
        if path.stem not in KEPT:
            continue
        seconds = [timed([PROGRAM, "1000000000000", str(count)], path, limit)[1] for count in QUERIES]
        print(f"| {path.stem} | {seconds[0]:.2f} | {seconds[2] - seconds[1]:.2f} |")


def main():
    parser = argparse.ArgumentParser(description=__doc__)
    parser.add_argument("--limit", type=int, default=60, help="seconds for each run")
    parser.add_argument("--only", default="", help="only formulas whose names have this in them")
    parser.add_argument("--kept", action="store_true", help="many queries of one kept solver, and no minisat")
    words = parser.parse_args()
    build()
    with tempfile.TemporaryDirectory() as folder:
        paths = []
        for name, formula in instances():
            if words.only in name:
                paths.append(Path(folder) / f"{name}.cnf")
                formula.write(paths[-1])
        if words.kept:
            keep(paths, words.limit)
            return
        differ = compare(paths, words.limit)
        print()
        grow(paths, words.limit)
    if differ:
        sys.exit(f"the answers differ: {', '.join(differ)}")


if __name__ == "__main__":
    main()
