#!/usr/bin/env python3
"""Runs smvcheck on the models of bench/models, and Berkeley ABC's pdr beside it where it is installed.

    bench/models.py [--live | --words] [--only WORDS] [--limit SECONDS] [--runs N] [--program FILE] [--folder FOLDER] [WORDS OF check ..]
    bench/models.py --recheck [--live | --words | --examples] [..]
    bench/models.py --by-workers 1,2,4 [--live | --words] [..]
    bench/models.py --clauses [--words] [..]

The first prints a line for each model: the answers, the seconds of processor time of each (those of the run of N that has the least),
our seconds by the clock, and the ratio of the processor times; then the geometric mean of the ratios, with times below a hundredth of a
second taken as that. The models are boolean ones with an invariant, or with --live those of bench/models/liveness.py, or with --words
those of bench/models/words.py. For --live the number of signals is shown that the certificate counts (its `counter`), and ABC's model is
that after the transformation from liveness to safety.

The second runs `check`, `check --cert`, and `recheck` of what that printed, and prints the times and what was shown. It goes through all
models and examples, or through those that are named.

The third runs `check` with each of these numbers of workers. It prints the processor time and the time by the clock of each, and the
geometric means of how many times the time by the clock of the first number the others take.

The fourth prints the variables and clauses of the step of each model, beside those that ABC writes of the same circuit (`strash; comb;
write_cnf`), and the geometric means of their ratios. Ours have a variable for each bit of the next state, and clauses for bad states and
for good ones. They are counted by an unproved program, which `rt try` builds in some minutes.

With --only, only the models whose names hold one of these words, between commas. With --folder the models are written to that folder,
and stay there; those of words.py are taken from it where they are there.
Further words, as --frames 60, are handed to `smvcheck check`. Ends with status 1 where an answer is wrong by the model's name, where the
two differ, or where a record that says true or false is not shown by `recheck`.
"""
import argparse
import os
import re
import sys
import tempfile

HERE = os.path.dirname(os.path.abspath(__file__))
sys.path.insert(0, os.path.join(HERE, "models"))
import clauses  # noqa: E402
import generate  # noqa: E402
import liveness  # noqa: E402
import words as word_models  # noqa: E402
from programs import (  # noqa: E402
    BUILT, EXAMPLES, abc, answer_of, answer_of_abc, geometric_mean, has_abc, has_yosys, head, is_decided, least, ratio, records, row, shown, timed,
)


def text_of(path):
    with open(path, "rb") as file:
        return file.read()


def check(options, text, *more):
    """The fastest of so many runs of `check`."""
    command = [options.program, "check", *more, *options.words]
    return least(options.runs, lambda: timed(command, options.limit, text))


# Beside ABC.


def counter_in(out):
    """How many signals of fairness the certificate of an LTLSPEC counts."""
    found = re.search(r"^--% cert \d+ spec \d+ counter (\w+)", out, re.MULTILINE)
    return found.group(1) if found else "-"


def signals(options, text, answer):
    """The counter of a true claim's certificate; how many states the lasso of a false one has."""
    if answer == "true":
        run = check(options, text, "--cert")
        return "k " + (counter_in(run.out) if run.ended() else "no end")
    if answer == "false":
        out = check(options, text).out or ""
        return f"{out.count('--@ state ')} states"
    return "-"


def beside_abc(options, path):
    """ABC's answer and time on the model, where it is installed and the model has an AIGER form."""
    if not has_abc() or not os.path.exists(path + ".aig"):
        return "-", None
    run = least(options.runs, lambda: abc(path + ".aig", options.limit))
    answer = answer_of_abc(run)
    return answer, run.seconds if is_decided(answer) else None


def compared(options, folder, name):
    """One line of the table: both answers, our times and ABC's or None, and what else is shown."""
    path = os.path.join(folder, name)
    text = text_of(path + ".smv")
    run = check(options, text)
    ours = answer_of(run)
    seconds, wall = (run.seconds, run.wall) if is_decided(ours) else (None, None)
    theirs, their_seconds = beside_abc(options, path)
    more = [signals(options, text, ours)] if options.live else []
    return ours, seconds, wall, theirs, their_seconds, more


def is_wrong(name, *answers):
    """Whether one of the answers is not the one that the model's name says."""
    truth = "false" if name.endswith("-false") else "true"
    return any(is_decided(answer) and answer != truth for answer in answers)


def compare(options, folder, names):
    """Prints the table beside ABC, and gives the names of the models that were answered wrong."""
    wrong, ratios, solved, missed = [], [], [0, 0], []
    head("Model", "smvcheck", "s", "s by the clock", "ABC pdr", "s", "ratio", *(["k or length"] if options.live else []))
    for name in names:
        ours, seconds, wall, theirs, their_seconds, more = compared(options, folder, name)
        if is_wrong(name, ours, theirs):
            wrong.append(name)
        solved[0] += seconds is not None
        solved[1] += their_seconds is not None
        if seconds is None and their_seconds is not None:
            missed.append(name)
        both = seconds is not None and their_seconds is not None
        if both:
            ratios.append(ratio(seconds, their_seconds))
        times = [theirs, shown(their_seconds), f"{ratios[-1]:.2f}" if both else "-"]
        row(f"`{name}`", ours, shown(seconds), shown(wall), *times, *more)
    print(f"\nOf {len(names)} models, decided: {solved[0]} by smvcheck, {solved[1]} by ABC.")
    if missed:
        print("Decided by ABC alone: " + ", ".join(missed) + ".")
    if ratios:
        print(f"Geometric mean of the ratio, of the {len(ratios)} that both decided: {geometric_mean(ratios):.2f}")
    return wrong


# With several workers.


def by_workers(options, folder, names):
    """Prints the table of so many workers, and gives the names of the models that were answered wrong."""
    wrong, ratios = [], [[] for _ in options.by_workers]
    head("Model", "smvcheck", *(f"{part}, workers: {count}" for count in options.by_workers for part in ("s", "s by the clock")))
    for name in names:
        text = text_of(os.path.join(folder, name + ".smv"))
        runs = [check(options, text, "--workers", str(count)) for count in options.by_workers]
        answers = [answer_of(run) for run in runs]
        if is_wrong(name, *answers):
            wrong.append(name)
        if all(is_decided(answer) for answer in answers):
            for run, group in zip(runs, ratios):
                group.append(ratio(run.wall, runs[0].wall))
        row(f"`{name}`", ", ".join(sorted(set(answers))), *(shown(time) for run in runs for time in (run.seconds, run.wall)))
    if ratios[0]:
        means = "; ".join(f"{count}: {geometric_mean(group):.2f}" for count, group in zip(options.by_workers, ratios))
        print(f"\nGeometric means of the time by the clock, over {len(ratios[0])} models, in times of the first, by workers: {means}.")
    return wrong


# Clauses.


def count_clauses(folder, names):
    """Prints the variables and clauses of each model beside ABC's."""
    if not has_abc():
        sys.exit("Berkeley ABC is not installed (apt-get install berkeley-abc)")
    paths = [os.path.join(folder, name) for name in names]
    mine = clauses.ours([text_of(path + ".smv") for path in paths])
    others = [clauses.theirs(path + ".aig") for path in paths]
    head("Model", "variables", "clauses", "ABC: variables", "clauses", "variables: times ABC's", "clauses: times ABC's")
    ratios = [[own / other for own, other in zip(*both)] for both in zip(mine, others)]
    for name, own, other, times in zip(names, mine, others, ratios):
        row(f"`{name}`", *own, *other, *(f"{value:.2f}" for value in times))
    means = [geometric_mean(group) for group in zip(*ratios)]
    print(f"\nGeometric means over {len(names)} models: {means[0]:.2f} times the variables, {means[1]:.2f} times the clauses.")


# Judged again.


def claimed(out):
    """What each record claims: true, false, or unknown."""
    return [answer if is_decided(answer) else "unknown" for answer in records(out)]


def judged(out):
    """What `recheck` says of each record: true, false, nothing, or its whole line where it rejects."""
    said = []
    for line in out.split("\n"):
        if " is shown " in line:
            said.append(line.rsplit(" ", 1)[1])
        elif " has nothing shown" in line:
            said.append("unknown")
        elif line:
            said.append(line)
    return said


def brief(answers):
    """Answers in short: how many of each."""
    kinds = [kind for kind in ("true", "false", "unknown") if kind in answers]
    return ", ".join(kind if len(answers) == 1 else f"{answers.count(kind)} {kind}" for kind in kinds) or "-"


def report_of(text, printed):
    """A model with a report behind it, whose lines begin at column 1."""
    return text + (b"" if text.endswith(b"\n") else b"\n") + printed.encode()


class Sums:
    """Times of `check`, `check --cert` and `recheck` over the models of which all three ended."""

    def __init__(self):
        self.models = 0
        self.times = [0.0, 0.0, 0.0]

    def add(self, times):
        self.models += 1
        self.times = [total + time for total, time in zip(self.times, times)]

    def show(self, of):
        plain, cert, again = self.times
        if self.models and plain > 0:
            print(
                f"{of}: {self.models} models; check {plain:.2f} s, check --cert {cert:.2f} s ({cert / plain:.2f} times), "
                f"recheck {again:.2f} s ({again / plain:.2f} times)."
            )


def judge_again(options, name, text, sums):
    """Checks one model with certificates, judges the report, prints a line, and gives whether each record is shown."""
    plain = check(options, text)
    cert = check(options, text, "--cert")
    if not plain.ended() or not cert.ended():
        row(f"`{name}`", "no end", shown(plain.seconds), shown(cert.seconds), "-", "-", "-")
        return True
    again = timed([options.program, "recheck"], options.limit, report_of(text, cert.out))
    if not again.ended():
        row(f"`{name}`", brief(claimed(cert.out)), shown(plain.seconds), shown(cert.seconds), "no end", "-", "-")
        return True
    right = judged(again.out) == claimed(cert.out) if claimed(cert.out) else again.out == cert.out
    lines = sum(line.startswith("--%") for line in cert.out.split("\n"))
    said = "all" if right else " / ".join(judged(again.out))[:200]
    row(f"`{name}`", brief(claimed(cert.out)), shown(plain.seconds), shown(cert.seconds), shown(again.seconds), lines, said)
    of = claimed(cert.out)
    if of and "unknown" not in of:
        for group in sums:
            group.add((plain.seconds, cert.seconds, again.seconds))
    return right


def recheck_all(options, sets):
    """Goes through the sets of models, and gives the names of those of which a record is not shown."""
    unshown, total = [], Sums()
    head("Model", "answers", "check: s", "check --cert: s", "recheck: s", "lines of certificates", "shown")
    each = []
    for title, models in sets:
        sums = Sums()
        for name, path in models:
            if is_asked_for(options.only, name) and not judge_again(options, name, text_of(path), (sums, total)):
                unshown.append(name)
        each.append((title, sums))
    print("\nWhere all three ended, and nothing is unknown:")
    for title, sums in each + [("All", total)]:
        sums.show(title)
    return unshown


# Sets of models.


def is_asked_for(only, name):
    return not only or any(word in name for word in only)


def written(module, folder, only):
    return module.write(folder, only)


def set_of(title, module, folder, only):
    return title, [(name, os.path.join(folder, name + ".smv")) for name in written(module, folder, only)]


def examples():
    names = sorted(name for name in os.listdir(EXAMPLES) if name.endswith(".smv"))
    return "Examples", [("examples/" + name, os.path.join(EXAMPLES, name)) for name in names]


def sets_of(options, folder):
    """The sets that are asked for, or all."""
    every = not (options.live or options.words_set or options.examples)
    sets = []
    if every:
        sets.append(set_of("Boolean", generate, folder, options.only))
    if every or options.live:
        sets.append(set_of("Liveness", liveness, folder, options.only))
    if every and not has_yosys():
        print("The models of words.py are left out, since yosys is not installed.\n")
    elif every or options.words_set:
        sets.append(set_of("Words", word_models, folder, options.only))
    if every or options.examples:
        sets.append(examples())
    return sets


def read_options():
    parser = argparse.ArgumentParser(description=__doc__, formatter_class=argparse.RawDescriptionHelpFormatter)
    parser.add_argument("--only", default="")
    parser.add_argument("--limit", type=int, default=20)
    parser.add_argument("--runs", type=int, default=1)
    parser.add_argument("--live", action="store_true")
    parser.add_argument("--words", dest="words_set", action="store_true")
    parser.add_argument("--examples", action="store_true")
    parser.add_argument("--recheck", action="store_true")
    parser.add_argument("--by-workers", default="")
    parser.add_argument("--clauses", action="store_true")
    parser.add_argument("--program", default=BUILT)
    parser.add_argument("--folder")
    options, words = parser.parse_known_args()
    options.words = words
    options.by_workers = [int(count) for count in options.by_workers.split(",") if count]
    options.only = [word for word in options.only.split(",") if word]
    return options


def main():
    options = read_options()
    with tempfile.TemporaryDirectory() as made:
        folder = options.folder or made
        if options.recheck:
            unshown = recheck_all(options, sets_of(options, folder))
            if unshown:
                sys.exit("not shown: " + " ".join(unshown))
            return
        module = liveness if options.live else word_models if options.words_set else generate
        if options.clauses:
            count_clauses(folder, written(module, folder, options.only))
            return
        table = by_workers if options.by_workers else compare
        wrong = table(options, folder, written(module, folder, options.only))
        if wrong:
            sys.exit("wrong: " + " ".join(wrong))


if __name__ == "__main__":
    main()
