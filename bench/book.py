#!/usr/bin/env python3
"""Prints what claims and settlements of a book cost while it grows.

    book.py [--keep FOLDER]

A book of one system of 200 state bits takes 10,000 random lemmas of 20 literals, and as many obligations of random states, at level 1.
Then its top is opened, each lemma is pushed without success, and the obligations are blocked one level up by as many lemmas more. For
each kind of claim and settlement it prints the nanoseconds of processor time of one call, over the first thousand and over the last.

The program stands here as a text, since the gate wants each `.rt` file to be proved. `rt try` runs it unproved and with checks, in a copy
of the repository. What is shown to the book is made up: the program calls what a proof would forbid. With --keep the copy stays in this
folder, so that another build of it can be run.
"""
import argparse
import os
import subprocess
import sys
import tempfile

from clauses import write_repository

# The name of the program's crate.
NAME = "book_cost"
# What stands on these crates has what the program needs.
USED = ("frame_book", "frame_history", "frame_core", "clause_core")
# So many seconds may the program run.
SECONDS = 1800

PROGRAM = r"""//! Prints what a claim and a settlement of a book cost, by kind: over the first thousand rounds and over the last.
use clause_core::{Bits, Clause, Clauses, Lit, System};
use frame_book::{Book, Claim, ClaimOutcome, Claiming, Returning, Settling, Unsettled};
use frame_core::{Clear, Frames, Proved, StateWitness, Step};
use frame_history::{Limits, Subject};
use std::alloc::{AllocError, Global};
use std::io;
use std::marker::Brand;
use std::sync::ledger::{Blank, Ledger, Share};
use std::time::{CpuClock, Duration};

const STATE_BITS: usize = 200;
const ALL_BITS: usize = 400;
const LITERALS: usize = 20;
const ROUNDS: usize = 10000;
const SHOWN: usize = 1000;

// Numbers that look random.
#[derive(Drop)]
struct Random {
    state: u64,
}

impl Random {
    fn next(&mut self) -> u64 {
        self.state = self
            .state
            .wrapping_mul(6364136223846793005)
            .wrapping_add(1442695040888963407);
        self.state >> 33
    }
}

// What a claim took, and its settlement, in nanoseconds, and whether a lemma was to be pushed or an obligation blocked.
#[derive(Clone, Copy)]
struct Turn {
    claim: u64,
    settle: u64,
    blocks: bool,
}

// What turns of one kind took, in nanoseconds.
#[derive(Drop)]
struct Costs {
    claims: Vec<u64>,
    settles: Vec<u64>,
}

fn nanos(took: Duration) -> u64 {
    took.as_secs() * 1000000000 + took.subsec_nanos() as u64
}

// The mean of the first so many, and of the last.
fn means(times: &[u64]) -> (u64, u64) {
    let mut first = 0;
    let mut last = 0;
    for k in 0..times.len() {
        if k < SHOWN {
            first += times[k];
        }
        if k + SHOWN >= times.len() {
            last += times[k];
        }
    }
    (first / SHOWN as u64, last / SHOWN as u64)
}

impl Costs {
    fn new(alloc: Global) -> Costs {
        Costs {
            claims: Vec::new(alloc),
            settles: Vec::new(alloc),
        }
    }

    fn note(&mut self, turn: Turn) -> Result<(), AllocError> {
        self.claims.push(turn.claim)?;
        self.settles.push(turn.settle)?;
        Ok(())
    }
}

fn random_values(alloc: Global, random: &mut Random) -> Result<Bits, AllocError> {
    let mut values = Vec::new(alloc);
    for _i in 0..ALL_BITS {
        values.push(random.next() % 2 == 1)?;
    }
    Ok(Bits::from_vec(values))
}

// A clause of so many literals that is false at these values.
fn random_clause(alloc: Global, random: &mut Random, values: &[bool]) -> Result<Clause, AllocError> {
    let mut lits: Vec<Lit> = Vec::new(alloc);
    let step = STATE_BITS / LITERALS;
    for k in 0..LITERALS {
        let var = k * step + random.next() as usize % step;
        lits.push(Lit::new(var, !values[var]))?;
    }
    Ok(Clause::from_vec(lits))
}

fn proof<'a>(alloc: Global, system: &'a System, random: &mut Random, claim: &Claim) -> Result<Proved<'a>, AllocError> {
    let clause = random_clause(alloc, random, claim.values().as_slice())?;
    let part = Clause::from_slice(alloc, clause.as_slice())?;
    Ok(Proved::new(system, clause, part, claim.level(), Vec::new(alloc)))
}

// What is answered to a claim: a state without its proof, a clause, a step; or, where `clear` says so, no bad state.
fn outcome_of<'a>(alloc: Global, system: &'a System, random: &mut Random, claim: &Claim, clear: bool) -> Result<ClaimOutcome<'a>, AllocError> {
    match claim.subject() {
        Subject::Bad(_) => {
            if clear {
                Ok(ClaimOutcome::Clear(Clear::new(system, claim.level(), Vec::new(alloc))))
            } else {
                let values = random_values(alloc, random)?;
                Ok(ClaimOutcome::Found(StateWitness::new(system, values, false, false)))
            }
        }
        Subject::Block(_) => {
            let proof = proof(alloc, system, random, claim)?;
            Ok(ClaimOutcome::Proved(proof))
        }
        Subject::Push(_) => {
            let values = random_values(alloc, random)?;
            Ok(ClaimOutcome::Step(Step::new(system, values)))
        }
    }
}

fn failed() -> io::Error {
    io::Error::from(io::ErrorKind::InvalidData)
}

fn is_back<L: Ledger>(book: &mut Book<L>, claim: Claim) -> bool {
    book.give_back(claim) == Returning::Back
}

fn settled<'a, L: Ledger, R: CpuClock>(rt: &R, book: &mut Book<'a, L>, claim: Claim, outcome: ClaimOutcome<'a>, share: &mut Share<L>) -> io::Result<u64> {
    let begun = rt.thread_cpu_time();
    match book.settle(claim, outcome, share) {
        Ok(Settling::Settled) => {
            let ended = rt.thread_cpu_time()?;
            Ok(nanos(ended - begun?))
        }
        Ok(Settling::NotOut(_)) => Err(failed()),
        Err(Unsettled { claim, outcome: _ }) => {
            let _back = is_back(book, claim);
            Err(failed())
        }
    }
}

// Takes a claim, and settles it.
fn turn<'a, L: Ledger, R: CpuClock>(rt: &R, alloc: Global, system: &'a System, random: &mut Random, book: &mut Book<'a, L>, share: &mut Share<L>, clear: bool) -> io::Result<Turn> {
    let begun = rt.thread_cpu_time()?;
    match book.claim(0)? {
        Claiming::Task(claim) => {
            let ended = rt.thread_cpu_time();
            let blocks = matches!(claim.subject(), Subject::Block(_));
            match outcome_of(alloc, system, random, &claim, clear) {
                Err(_) => {
                    let _back = is_back(book, claim);
                    Err(failed())
                }
                Ok(outcome) => {
                    let settle = settled(rt, book, claim, outcome, share)?;
                    Ok(Turn { claim: nanos(ended? - begun), settle, blocks })
                }
            }
        }
        Claiming::Idle => Err(failed()),
        Claiming::Closed => Err(failed()),
    }
}

fn print_costs<R: Print>(rt: &R, alloc: Global, kind: &str, costs: &Costs) -> io::Result<()> {
    let (a, b) = means(&costs.claims);
    let (c, d) = means(&costs.settles);
    let turns = costs.claims.len();
    let line = format!(in alloc; "{kind}: {turns} turns, claim {a} {b}, settlement {c} {d}\n")?;
    print!(rt; "{line}")?;
    Ok(())
}

fn play<'a, L: Ledger, R: CpuClock + Print>(rt: &R, alloc: Global, system: &'a System, book: &mut Book<'a, L>, share: &mut Share<L>) -> io::Result<()> {
    let mut random = Random { state: 1 };
    let _first = turn(rt, alloc, system, &mut random, book, share, true)?;
    let mut bad = Costs::new(alloc);
    let mut block = Costs::new(alloc);
    while block.claims.len() < ROUNDS {
        let turn = turn(rt, alloc, system, &mut random, book, share, false)?;
        if turn.blocks {
            block.note(turn)?;
        } else {
            bad.note(turn)?;
        }
    }
    print_costs(rt, alloc, "a frame, a bad state", &bad)?;
    print_costs(rt, alloc, "an obligation, a lemma", &block)?;
    let _second = turn(rt, alloc, system, &mut random, book, share, true)?;
    let mut push = Costs::new(alloc);
    let mut again = Costs::new(alloc);
    while again.claims.len() < ROUNDS {
        let turn = turn(rt, alloc, system, &mut random, book, share, false)?;
        if turn.blocks {
            again.note(turn)?;
        } else {
            push.note(turn)?;
        }
    }
    print_costs(rt, alloc, "a lemma, a step", &push)?;
    print_costs(rt, alloc, "an obligation one level up, a lemma", &again)
}

fn run<L: Ledger, R: CpuClock + Print>(rt: &R, alloc: Global, system: &System, blank: Blank) -> io::Result<()> {
    let (ledger, mut share) = blank.open::<L>();
    let frames = Frames::of_one(alloc, system)?;
    let mut book = Book::new(alloc, frames, Limits { frames: 5 }, ledger)?;
    play(rt, alloc, system, &mut book, &mut share)
}

fn main(rt: HostRuntime) -> io::Result<()> {
    let alloc = rt.alloc();
    let system = System::plain(alloc, STATE_BITS, ALL_BITS, Clauses::new(alloc), Clauses::new(alloc), &[])?;
    run::<Brand, HostRuntime>(&rt, alloc, &system, Blank::new(1))
}
"""


def run(folder):
    write_repository(folder, NAME, USED, PROGRAM)
    return subprocess.run(
        ["rt", "try", "--steps", "1", "--seconds", str(SECONDS)], cwd=os.path.join(folder, "crates", NAME), stdout=subprocess.PIPE,
        stderr=subprocess.STDOUT, text=True,
    ).stdout


def main():
    words = argparse.ArgumentParser(description=__doc__, formatter_class=argparse.RawDescriptionHelpFormatter)
    words.add_argument("--keep", metavar="FOLDER", help="keeps the copy of the repository in this folder")
    keep = words.parse_args().keep
    if keep:
        os.makedirs(keep)
        out = run(keep)
    else:
        with tempfile.TemporaryDirectory() as folder:
            out = run(folder)
    lines = [line for line in out.splitlines() if "settlement" in line]
    if len(lines) != 4:
        raise SystemExit(f"the program did not end: {out[-2000:]}")
    print("\n".join(lines))


if __name__ == "__main__":
    sys.exit(main())
