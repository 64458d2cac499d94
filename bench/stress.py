#!/usr/bin/env python3
"""Checks some models again and again with several numbers of workers.

    stress.py [N] [--workers 1,2,4,64] [--only WORDS] [--program FILE] [WORDS OF check ..]

Each of three models is checked N times, 1000 where nothing is said, with each number of workers. The models are one with an invariant
that holds, one with an invariant that is broken, and one with a claim in time. The verdicts of a report are the answers of its records,
in their order. They have to be the same each time; which run or certificate is printed may differ. It prints a line for each model and
number of workers: how many reports have other verdicts than the first one of that model, and the seconds of processor time and by the
clock of all runs. At the end it says how many differ in all.

With --only, only the models whose names hold one of these words, between commas. Further words, as --conflicts 5000, are handed to
`smvcheck check`. Ends with status 1 where verdicts differ, or where a run ends with another status than that of its verdicts.
"""
import argparse
import os
import sys
import tempfile

HERE = os.path.dirname(os.path.abspath(__file__))
sys.path.insert(0, os.path.join(HERE, "models"))
import generate  # noqa: E402
import liveness  # noqa: E402
from programs import BUILT, head, records, row, shown, timed  # noqa: E402

# The models, each with the module that writes it.
MODELS = [("arbiter-16", generate), ("lock-20-4-false", generate), ("live-handshake", liveness)]
# So many seconds of processor time has a run.
LIMIT = 60


def status_of(answers):
    """The status that belongs to these answers."""
    if "false" in answers:
        return 1
    return 0 if all(answer == "true" for answer in answers) else 2


def verdicts(run):
    """What a run says of each specification, or in which way it went wrong."""
    if not run.ended():
        return ["no end"]
    answers = records(run.out)
    if not answers:
        return [f"no record, status {run.status}"]
    return answers if run.status == status_of(answers) else [*answers, f"status {run.status}"]


def again_and_again(options, name, text, workers, first):
    """Prints the line of one model and number of workers; gives its first verdicts and how many differ."""
    command = [options.program, "check", "--workers", str(workers), *options.words]
    differing, seconds, wall, others = 0, 0.0, 0.0, set()
    for _ in range(options.runs):
        run = timed(command, LIMIT, text)
        said = verdicts(run)
        first = first or said
        seconds += run.seconds or 0.0
        wall += run.wall or 0.0
        if said != first or any("status" in word or word == "no end" for word in said):
            differing += 1
            others.add(", ".join(said))
    kinds = " / ".join(sorted(others)) or "-"
    row(f"`{name}`", workers, ", ".join(first), options.runs, differing, kinds, shown(seconds), shown(wall))
    return first, differing


def read_options():
    parser = argparse.ArgumentParser(description=__doc__, formatter_class=argparse.RawDescriptionHelpFormatter)
    parser.add_argument("runs", type=int, nargs="?", default=1000)
    parser.add_argument("--workers", default="1,2,4,64")
    parser.add_argument("--only", default="")
    parser.add_argument("--program", default=BUILT)
    options, words = parser.parse_known_args()
    options.words = words
    options.workers = [int(count) for count in options.workers.split(",")]
    options.only = [word for word in options.only.split(",") if word]
    return options


def main():
    options = read_options()
    total, runs = 0, 0
    head("Model", "workers", "verdicts", "runs", "that differ", "what they say", "s", "s by the clock")
    with tempfile.TemporaryDirectory() as folder:
        for name, module in MODELS:
            if options.only and not any(word in name for word in options.only):
                continue
            module.write(folder, [name])
            with open(os.path.join(folder, name + ".smv"), "rb") as file:
                text = file.read()
            first = None
            for workers in options.workers:
                first, differing = again_and_again(options, name, text, workers, first)
                total += differing
                runs += options.runs
    print(f"\nOf {runs} reports, {total} differ.")
    if total:
        sys.exit(1)


if __name__ == "__main__":
    main()
