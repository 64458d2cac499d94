#!/usr/bin/env python3
"""Times the claims of IC3 on boolean models, early and late in a run.

    bench/queries.py [--only WORDS] [--seconds N] [--tickets N]

For each model one worker plays the book alone, over the system of its AIGER file, until it is closed, or so many tickets are drawn. A ticket is
one query or one clause that a query learns. A line has the claims, the tickets and the lemmas in the end, the tickets a second, and the
microseconds a ticket in the first thousand tickets after 200 and after 20,000. Times are of what is asked for claims alone: not of what the
book does between them.

The program stands here as a text, as that of clauses.py does. It is built by `rt try`, unproved, without optimization and with checks of
memory, so that its times are some hundred times those of an optimized build: compare them with one another alone. 21,000 tickets may take
it ten minutes a model.
"""
import argparse
import os
import re
import subprocess
import sys
import tempfile

HERE = os.path.dirname(os.path.abspath(__file__))
sys.path.insert(0, os.path.join(HERE, "models"))
import clauses  # noqa: E402
import generate  # noqa: E402
from programs import head, row  # noqa: E402

# The name of the program's crate, and what stands on all that it needs.
NAME = "query_times"
USED = ("frame_claims", "frame_book", "frame_core", "frame_history", "frame_query", "effort_purse", "clause_core")
# The models that are timed where none is named.
MODELS = ("modulo-16-50000-60000", "fifo-8", "shift-150")

PROGRAM = r"""//! Plays a book alone over each system that is read, and prints what its claims cost. Numbers are read: of each system those of
//! its state bits and of all bits, then of init, step and bad the number of clauses, and of each clause its length and its literals.
use clause_core::{Clause, Clauses, Lit, Parts, System};
use effort_purse::{Draw, PlainPurse, Purse};
use frame_book::{Book, Claim, ClaimOutcome, Claiming, Unsettled};
use frame_claims::ask;
use frame_core::Frames;
use frame_history::Limits;
use frame_query::FrameSolver;
use std::alloc::{AllocError, Global};
use std::io;
use std::io::{ErrorKind, Read};
use std::marker::Brand;
use std::slice::from_ref;
use std::sync::ledger::{Blank, Ledger, Share};
use std::time::Instant;

// A purse that counts what is drawn.
#[derive(Drop)]
struct Counting {
    inner: PlainPurse,
    drawn: u64,
}

impl Purse for Counting {
    ghost use Rattle.effort_purse.specs.Drawing.{numbers_below};
    ghost use Rattle.effort_purse.specs.Plain.{plain_budget, plain_count, plain_spent};
    ghost use Rattle.std.specs.Prelude.{◌≡◌};
    ghost use Rattle.std.proofs.Common.{refl, ◌∙◌};

    ghost tickets = { λ p. numbers_below (plain_count p.inner) };

    ghost budget = { λ p. plain_budget p.inner };

    ghost spent = { λ p. plain_spent p.inner };

    ghost ready = { λ _. Unit {0} };

    ghost kept = { λ p q. plain_budget q.inner ≡ plain_budget p.inner };

    ghost kept_refl = { λ _. refl };

    ghost kept_trans = { λ _ _ _ first second. second ∙ first };

    fn draw(&mut self) -> Draw {
        self.drawn += 1;
        self.inner.draw()
    }
}

// The claims and their time; in two windows how many tickets were drawn, and how long that took.
#[derive(Drop)]
struct Tally {
    claims: u64,
    nanos: u64,
    early: u64,
    early_nanos: u64,
    late: u64,
    late_nanos: u64,
}

fn note(tally: &mut Tally, from: u64, to: u64, nanos: u64) {
    tally.claims += 1;
    tally.nanos += nanos;
    if 200 <= from && from < 1200 {
        tally.early += to - from;
        tally.early_nanos += nanos;
    }
    if 20000 <= from && from < 21000 {
        tally.late += to - from;
        tally.late_nanos += nanos;
    }
}

// What was found for a claim, and how long that took.
struct Asked<'a> {
    outcome: ClaimOutcome<'a>,
    nanos: u64,
}

fn asked<'a>(
    rt: &HostRuntime,
    alloc: Global,
    book: &Book<'a, Brand>,
    solver: &mut FrameSolver<'a>,
    purse: &mut Counting,
    claim: &Claim,
) -> io::Result<Asked<'a>> {
    let begun = Instant::now(rt)?;
    solver.follow(book.frames().all_lemmas())?;
    let outcome = ask(alloc, book.systems(), solver, claim, purse)?;
    let nanos = begun.elapsed(rt)?.as_nanos() as u64;
    Ok(Asked { outcome, nanos })
}

fn settle<'a>(
    book: &mut Book<'a, Brand>,
    share: &mut Share<Brand>,
    claim: Claim,
    outcome: ClaimOutcome<'a>,
) -> io::Result<()> {
    match book.settle(claim, outcome, share) {
        Ok(_) => Ok(()),
        Err(Unsettled { claim, outcome: _ }) => {
            book.give_back(claim);
            Err(io::Error::from(ErrorKind::OutOfMemory))
        }
    }
}

fn play<'a>(
    rt: &HostRuntime,
    alloc: Global,
    book: &mut Book<'a, Brand>,
    share: &mut Share<Brand>,
    solver: &mut FrameSolver<'a>,
    purse: &mut Counting,
    most: u64,
) -> io::Result<Tally> {
    let mut tally = Tally {
        claims: 0,
        nanos: 0,
        early: 0,
        early_nanos: 0,
        late: 0,
        late_nanos: 0,
    };
    loop {
        if purse.drawn >= most {
            return Ok(tally);
        }
        match book.claim(0)? {
            Claiming::Task(claim) => {
                let from = purse.drawn;
                match asked(rt, alloc, book, solver, purse, &claim) {
                    Ok(Asked { outcome, nanos }) => {
                        note(&mut tally, from, purse.drawn, nanos);
                        settle(book, share, claim, outcome)?;
                    }
                    Err(error) => {
                        book.give_back(claim);
                        return Err(error);
                    }
                }
            }
            Claiming::Idle => return Ok(tally),
            Claiming::Closed => return Ok(tally),
        }
    }
}

// The numbers of a text.
fn numbers_of(alloc: Global, text: &[u8]) -> Result<Vec<usize>, AllocError> {
    let mut numbers = Vec::new(alloc);
    let mut number: usize = 0;
    let mut is_one = false;
    for k in 0..text.len() {
        let byte = text[k];
        if b'0' <= byte && byte <= b'9' {
            number = number * 10 + usize::from(byte - b'0');
            is_one = true;
        } else {
            if is_one {
                numbers.push(number)?;
            }
            number = 0;
            is_one = false;
        }
    }
    Ok(numbers)
}

// The number at the place, which goes one further.
fn next(numbers: &[usize], at: &mut usize) -> usize {
    let number = numbers[*at];
    *at += 1;
    number
}

fn clauses_of(alloc: Global, numbers: &[usize], at: &mut usize) -> Result<Clauses, AllocError> {
    let mut clauses = Clauses::new(alloc);
    for _ in 0..next(numbers, at) {
        let mut clause = Vec::new(alloc);
        for _ in 0..next(numbers, at) {
            let literal = next(numbers, at);
            clause.push(Lit::new(literal / 2, literal % 2 == 0))?;
        }
        clauses.push(&clause)?;
    }
    Ok(clauses)
}

fn system_of(alloc: Global, numbers: &[usize], at: &mut usize) -> Result<System, AllocError> {
    let state_bits = next(numbers, at);
    let all_bits = next(numbers, at);
    let init = clauses_of(alloc, numbers, at)?;
    let step = clauses_of(alloc, numbers, at)?;
    let bad = clauses_of(alloc, numbers, at)?;
    Ok(System::new(Parts {
        state_bits,
        all_bits,
        init,
        step,
        bad,
        good: Clauses::new(alloc),
        fair: Clause::from_vec(Vec::new(alloc)),
        defs: Clauses::new(alloc),
    }))
}

fn timed(rt: &HostRuntime, alloc: Global, system: &System, most: u64) -> io::Result<String> {
    let systems = from_ref(system);
    let (ledger, mut share) = Blank::new(1).open::<Brand>();
    let frames = Frames::new(alloc, systems)?;
    let mut solver = FrameSolver::new(alloc, systems)?;
    let mut book = Book::new(alloc, frames, Limits { frames: 1000000 }, ledger)?;
    let mut purse = Counting {
        inner: PlainPurse::new(most + 1000000),
        drawn: 0,
    };
    let tally = play(
        rt,
        alloc,
        &mut book,
        &mut share,
        &mut solver,
        &mut purse,
        most,
    )?;
    let claims = tally.claims;
    let drawn = purse.drawn;
    let lemmas = book.frames().lemmas();
    let nanos = tally.nanos;
    let early = tally.early;
    let early_nanos = tally.early_nanos;
    let late = tally.late;
    let late_nanos = tally.late_nanos;
    Ok(format!(in alloc; "timed {claims} {drawn} {lemmas} {nanos} {early} {early_nanos} {late} {late_nanos}")?)
}

fn main(rt: HostRuntime) -> io::Result<()> {
    let alloc = rt.alloc();
    let mut text = Vec::new(alloc);
    rt.stdin().read_to_end(&mut text)?;
    let numbers = numbers_of(alloc, &text)?;
    let mut at = 0;
    while at < numbers.len() {
        let system = system_of(alloc, &numbers, &mut at)?;
        let line = timed(&rt, alloc, &system, MOST)?;
        rt.println(line)?;
    }
    Ok(())
}
"""


def delta(data, at):
    """A number of the binary AIGER format, and the place behind it."""
    number, shift = 0, 0
    while data[at] & 128:
        number |= (data[at] & 127) << shift
        shift += 7
        at += 1
    return number | data[at] << shift, at + 1


def read_aiger(data):
    """The inputs, the next literals of the latches, the first output, and the gates of an AIGER file."""
    end = data.index(b"\n")
    _, inputs, latches, outputs, gates = (int(word) for word in data[:end].split()[1:6])
    lines, at = [], end + 1
    for _ in range(latches + outputs):
        end = data.index(b"\n", at)
        lines.append(int(data[at:end].split()[0]))
        at = end + 1
    ands = []
    for k in range(gates):
        gate = 2 * (inputs + latches + k + 1)
        first, at = delta(data, at)
        second, at = delta(data, at)
        ands.append((gate, gate - first, gate - first - second))
    return inputs, lines[:latches], lines[latches], ands


def numbers(data):
    """The system of an AIGER file whose latches are false at first, as numbers that the program reads."""
    inputs, latches, output, ands = read_aiger(data)
    count = len(latches)
    true = 2 * count + inputs + len(ands)

    def literal(edge):
        """Twice a variable's number, and one more where it is negated."""
        variable = edge // 2
        if variable == 0:
            return 2 * true + (1 - edge % 2)
        if variable <= inputs:
            place = 2 * count + variable - 1
        elif variable <= inputs + count:
            place = variable - inputs - 1
        else:
            place = count + variable - 1
        return 2 * place + edge % 2

    gates = [[2 * true]]
    for gate, a, b in ands:
        g, a, b = literal(gate), literal(a), literal(b)
        gates += [[g ^ 1, a], [g ^ 1, b], [g, a ^ 1, b ^ 1]]
    moves = []
    for k, edge in enumerate(latches):
        after, value = 2 * (count + k), literal(edge)
        moves += [[after ^ 1, value], [after, value ^ 1]]
    groups = ([[2 * k + 1] for k in range(count)], gates + moves, gates + [[literal(output)]])
    words = [count, true + 1]
    for group in groups:
        words.append(len(group))
        for clause in group:
            words += [len(clause)] + clause
    return (" ".join(str(word) for word in words) + " ").encode()


def timed(texts, seconds, tickets):
    """The numbers that the program prints of each model."""
    with tempfile.TemporaryDirectory() as folder, tempfile.TemporaryFile() as given:
        program = PROGRAM.replace("MOST", str(tickets))
        clauses.write_repository(folder, NAME, USED, program)
        for text in texts:
            given.write(text)
        given.seek(0)
        run = subprocess.run(
            ["rt", "try", "--steps", "1", "--seconds", str(seconds)],
            cwd=os.path.join(folder, "crates", NAME), stdin=given, stdout=subprocess.PIPE, stderr=subprocess.PIPE, text=True,
        )
    found = [[int(number) for number in line.split()] for line in re.findall(r"timed ([\d ]+)", run.stdout)]
    if len(found) != len(texts):
        raise SystemExit(f"{len(found)} of {len(texts)} models were timed: {(run.stdout + run.stderr)[-2000:]}")
    return found


def data_of(path):
    with open(path, "rb") as file:
        return file.read()


def each(nanos, count):
    """Microseconds for one of so many, or a dash."""
    return f"{nanos / count / 1000:.0f}" if count else "-"


def main():
    parser = argparse.ArgumentParser(description=__doc__, formatter_class=argparse.RawDescriptionHelpFormatter)
    parser.add_argument("--only", default="")
    parser.add_argument("--seconds", type=int, default=600)
    parser.add_argument("--tickets", type=int, default=21000)
    options = parser.parse_args()
    words = [word for word in options.only.split(",") if word] or list(MODELS)
    with tempfile.TemporaryDirectory() as folder:
        names = generate.write(folder, words)
        texts = [numbers(data_of(os.path.join(folder, name + ".aig"))) for name in names]
    head("Model", "claims", "tickets", "lemmas", "tickets a second", "us a ticket after 200", "after 20,000")
    for name, (claims, drawn, lemmas, nanos, early, early_nanos, late, late_nanos) in zip(names, timed(texts, options.seconds, options.tickets)):
        row(f"`{name}`", claims, drawn, lemmas, f"{drawn / nanos * 1e9:.0f}" if nanos else "-", each(early_nanos, early), each(late_nanos, late))


if __name__ == "__main__":
    main()
