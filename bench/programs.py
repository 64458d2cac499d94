"""Runs of smvcheck and of Berkeley ABC's pdr, with their answers, their processor times, and their times by the clock."""
import math
import os
import resource
import shutil
import subprocess
import time

HERE = os.path.dirname(os.path.abspath(__file__))
BUILT = os.path.join(HERE, "..", "crates", "smvcheck", "out", "smvcheck")
EXAMPLES = os.path.join(HERE, "..", "examples")

# Times below this are taken as this in a ratio, in seconds.
FLOOR = 0.01
# A run that sleeps or waits is stopped after so many times its limit of processor time.
PATIENCE = 100


class Run:
    """What a run printed, its processor time and its time by the clock in seconds, and its status.

    `out` is None where it did not end in time, and then so are the others.
    """

    def __init__(self, out=None, seconds=None, status=None, wall=None):
        self.out = out
        self.seconds = seconds
        self.status = status
        self.wall = wall

    def ended(self):
        return self.out is not None


def timed(command, limit, given=b""):
    """Runs a command with these bytes as its input, and at most so many seconds of processor time."""

    def bound():
        resource.setrlimit(resource.RLIMIT_CPU, (limit, limit + 1))

    before = resource.getrusage(resource.RUSAGE_CHILDREN)
    begun = time.monotonic()
    try:
        run = subprocess.run(
            command, input=given, stdout=subprocess.PIPE, stderr=subprocess.STDOUT, preexec_fn=bound, timeout=PATIENCE * limit
        )
    except subprocess.TimeoutExpired:
        return Run()
    wall = time.monotonic() - begun
    after = resource.getrusage(resource.RUSAGE_CHILDREN)
    seconds = after.ru_utime + after.ru_stime - before.ru_utime - before.ru_stime
    if run.returncode < 0 or seconds >= limit:
        return Run()
    return Run(run.stdout.decode(errors="replace"), seconds, run.returncode, wall)


def least(runs, run):
    """The run with the least time of so many; the first, where that did not end."""
    results = [run() for _ in range(runs)]
    ended = [result for result in results if result.ended()]
    return min(ended, key=lambda result: result.seconds) if ended else results[0]


def abc(path, limit):
    """A run of ABC's pdr on an AIGER file."""
    return timed(["berkeley-abc", "-c", f"read_aiger {path}; pdr"], limit)


def has_abc():
    return shutil.which("berkeley-abc") is not None


def has_yosys():
    return shutil.which("yosys") is not None


def answer_of_abc(run):
    if not run.ended():
        return "no end"
    if "Property proved" in run.out:
        return "true"
    return "false" if "was asserted" in run.out else "unknown"


def records(out):
    """The answers of a report, in the order of its records: true, false, or unknown with its cause."""
    answers = []
    for line in out.split("\n"):
        if line.startswith("-- spec ") and " is " in line:
            answers.append(line.split(" is ", 1)[1])
    return answers


def answer_of(run):
    """The answer of a model with one specification; its first line where that is no record."""
    if not run.ended():
        return "no end"
    answers = records(run.out)
    return answers[0] if answers else run.out.split("\n", 1)[0][:60]


def is_decided(answer):
    return answer in ("true", "false")


def ratio(ours, theirs):
    return max(ours, FLOOR) / max(theirs, FLOOR)


def geometric_mean(ratios):
    return math.exp(sum(math.log(value) for value in ratios) / len(ratios))


def shown(seconds):
    return "-" if seconds is None else f"{seconds:.2f}"


def row(*cells):
    print("| " + " | ".join(str(cell) for cell in cells) + " |", flush=True)


def head(*names):
    row(*names)
    print("|" + "---|" * len(names), flush=True)
