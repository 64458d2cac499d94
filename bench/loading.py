#!/usr/bin/env python3
"""Loads models with one large part, and prints what that takes.

    loading.py [--count N | --large | --gates] [--runs N] [--program FILE]

The parts have N members, 10,000 where nothing is said: an enumeration of so many symbols, a `case` of so many branches, a set of so many
members, a chain of so many definitions, of which a specification follows 1000. For each it prints the seconds of processor time of
`flat` and the most memory in use, in MB, the least of so many runs. Ends with status 1 where a model is refused, or takes more than 2
seconds or 1000 MB.

With --large the parts are a specification of a million operands, 60,000 variables with an `init` and a `next`, and an array of 65,536
elements; there is no limit. With --gates they are boolean models of 25,000, 50,000 and 100,000 gates: definitions of two operands each
in 100 levels over latches. Then `check --frames 0 --conflicts 0` is run too, which makes the clauses and asks nothing. There is no limit,
and the seconds and MB are shown in proportion to 100,000 gates too, so that equal figures say that the cost is linear.
"""
import argparse
import os
import random
import subprocess
import sys
import tempfile

from programs import BUILT, head, row

SECONDS = 2.0
MEGABYTES = 1000
# So many definitions of the chain are followed from its specification; more than 2000 levels are refused by 310.
FOLLOWED = 1000
# How many levels of gates there are.
LEVELS = 100
GATES = (25000, 50000, 100000)
# What makes the clauses of a model, and asks nothing.
ASKING_NOTHING = ["check", "--frames", "0", "--conflicts", "0"]


def enumeration(count):
    symbols = ", ".join(f"symbol{k}" for k in range(count))
    return f"MODULE main\nVAR x : {{{symbols}}};\nASSIGN init(x) := symbol0; next(x) := x;\nINVARSPEC x = symbol0\n"


def branches(count):
    lines = "".join(f"  x = {k} : {(k + 7) % count};\n" for k in range(count))
    return (
        f"MODULE main\nVAR x : 0..{count - 1};\nASSIGN init(x) := 0;\nnext(x) := case\n{lines}  TRUE : 0;\nesac;\n"
        "INVARSPEC x >= 0\n"
    )


def members(count):
    numbers = ", ".join(str(2 * k) for k in range(count))
    return f"MODULE main\nVAR x : 0..{2 * count};\nINIT x in {{{numbers}}}\nASSIGN next(x) := x;\nINVARSPEC x >= 0\n"


def chain(count):
    lines = "".join(f"  d{k} := d{k - 1};\n" for k in range(1, count))
    return f"MODULE main\nVAR x : boolean;\nDEFINE\n  d0 := x;\n{lines}ASSIGN init(x) := TRUE; next(x) := x;\nINVARSPEC d{min(count, FOLLOWED) - 1}\n"


def operands(count):
    text = " & ".join(["x"] * count)
    return f"MODULE main\nVAR x : boolean;\nASSIGN init(x) := TRUE; next(x) := x;\nINVARSPEC {text}\n"


def variables(count):
    declared = "".join(f"  x{k} : boolean;\n" for k in range(count))
    assigned = "".join(f"  init(x{k}) := FALSE;\n  next(x{k}) := x{(k + 1) % count};\n" for k in range(count))
    return f"MODULE main\nVAR\n{declared}ASSIGN\n{assigned}INVARSPEC !x0\n"


def elements(count):
    return f"MODULE main\nVAR a : array 0..{count - 1} of boolean;\nINIT !a[0]\nTRANS next(a[0]) = a[0]\nINVARSPEC !a[0]\n"


def gates(count):
    """So many definitions of two operands each, in levels, over latches that take the last level."""
    width = count // LEVELS
    picked = random.Random(count)
    below = [f"x{k}" for k in range(width)]
    lines = []
    for level in range(LEVELS):
        for k in range(width):
            left, right = (picked.choice(["", "!"]) + picked.choice(below) for _ in range(2))
            lines.append(f"  g{level}_{k} := {left} {picked.choice('&|')} {right};\n")
        below = [f"g{level}_{k}" for k in range(width)]
    declared = "".join(f"  x{k} : boolean;\n" for k in range(width))
    assigned = "".join(f"  init(x{k}) := FALSE;\n  next(x{k}) := {below[k]};\n" for k in range(width))
    return f"MODULE main\nVAR\n{declared}DEFINE\n{''.join(lines)}ASSIGN\n{assigned}INVARSPEC !x0 | !x1\n"


PARTS = [
    ("symbols of an enumeration", enumeration),
    ("branches of a `case`", branches),
    ("members of a set", members),
    ("definitions, each the one before", chain),
]


LARGE = [
    ("a specification of a million operands", operands, 1000000),
    ("60,000 variables with `init` and `next`", variables, 60000),
    ("65,536 elements of an array", elements, 65536),
]


def loaded(words, path):
    """One run: its status, its seconds of processor time, and its greatest memory in MB."""
    with open(path, "rb") as model:
        run = subprocess.Popen(words, stdin=model, stdout=subprocess.DEVNULL)
        _, state, usage = os.wait4(run.pid, 0)
    run.returncode = os.waitstatus_to_exitcode(state)
    return run.returncode, usage.ru_utime + usage.ru_stime, usage.ru_maxrss / 1024


def least(options, words, folder, text):
    """The status, and the least of seconds and MB of so many runs with this model."""
    path = os.path.join(folder, "model.smv")
    with open(path, "w") as file:
        file.write(text)
    results = [loaded([options.program, *words], path) for _ in range(options.runs)]
    return [choose(result[k] for result in results) for k, choose in enumerate((max, min, min))]


def measure(options, folder, name, text):
    """Prints one line, and gives whether the part is loaded, and within both limits where they hold."""
    status, seconds, megabytes = least(options, ["flat"], folder, text)
    within = options.large or (seconds <= SECONDS and megabytes <= MEGABYTES)
    right = status == 0 and within
    row(name, f"{len(text) // 1000} kB", status, f"{seconds:.2f}", f"{megabytes:.0f}", "yes" if right else "NO")
    return right


def load_gates(options, folder):
    """Prints a line for each command and number of gates, and gives what failed."""
    failed = []
    head("gates", "text", "command", "s", "MB", "s in proportion to 100,000", "MB")
    for count in GATES:
        text = gates(count)
        for words in (["flat"], ASKING_NOTHING):
            status, seconds, megabytes = least(options, words, folder, text)
            command = " ".join(words)
            each = [f"{seconds:.2f}", f"{megabytes:.0f}", f"{seconds * 100000 / count:.2f}", f"{megabytes * 100000 / count:.0f}"]
            row(count, f"{len(text) // 1000} kB", f"`{command}`", *each)
            # Nothing is known of the specification with no ticket.
            if status != (0 if words == ["flat"] else 2):
                failed.append(f"{command} of {count} gates")
    return failed


def load_parts(options, folder):
    """Prints a line for each part, and gives those that are not within the limits."""
    failed = []
    parts = LARGE if options.large else [(name, make, options.count) for name, make in PARTS]
    head("part" if options.large else f"{options.count}", "text", "status", "s", "MB", "right" if options.large else "within")
    for name, make, count in parts:
        if not measure(options, folder, name, make(count)):
            failed.append(name)
    return failed


def main():
    parser = argparse.ArgumentParser(description=__doc__, formatter_class=argparse.RawDescriptionHelpFormatter)
    parser.add_argument("--count", type=int, default=10000)
    parser.add_argument("--large", action="store_true")
    parser.add_argument("--gates", action="store_true")
    parser.add_argument("--runs", type=int, default=3)
    parser.add_argument("--program", default=BUILT)
    options = parser.parse_args()
    with tempfile.TemporaryDirectory() as folder:
        failed = load_gates(options, folder) if options.gates else load_parts(options, folder)
    if failed:
        sys.exit("not as it should be: " + "; ".join(failed))


if __name__ == "__main__":
    main()
