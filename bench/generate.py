#!/usr/bin/env python3
"""Writes the benchmark's formulas, in DIMACS CNF, to a folder. The same formulas each time."""

import random
import sys
from pathlib import Path


class Formula:
    """Clauses over numbered variables, with the usual gates (Tseitin 1968)."""

    def __init__(self):
        self.vars = 0
        self.clauses = []

    def new_var(self):
        self.vars += 1
        return self.vars

    def add(self, *literals):
        self.clauses.append(literals)

    def constant(self, value):
        var = self.new_var()
        self.add(var if value else -var)
        return var

    def conjunction(self, a, b):
        out = self.new_var()
        self.add(-out, a)
        self.add(-out, b)
        self.add(out, -a, -b)
        return out

    def exclusive_or(self, a, b):
        out = self.new_var()
        self.add(-out, a, b)
        self.add(-out, -a, -b)
        self.add(out, -a, b)
        self.add(out, a, -b)
        return out

    def majority(self, a, b, c):
        out = self.new_var()
        for x, y in ((a, b), (a, c), (b, c)):
            self.add(-out, x, y)
            self.add(out, -x, -y)
        return out

    def set_number(self, word, number):
        for place, bit in enumerate(word):
            self.add(bit if number >> place & 1 else -bit)

    def write(self, path):
        with open(path, "w") as file:
            file.write(f"p cnf {self.vars} {len(self.clauses)}\n")
            for clause in self.clauses:
                file.write(" ".join(map(str, clause)) + " 0\n")


def random_3sat(count, seed):
    """Random clauses of three literals at 4.26 clauses a variable, where about half are satisfiable."""
    chance = random.Random(f"{count} {seed}")
    formula = Formula()
    formula.vars = count
    for _ in range(round(4.26 * count)):
        chosen = chance.sample(range(1, count + 1), 3)
        formula.add(*(var if chance.random() < 0.5 else -var for var in chosen))
    return formula


def pigeonhole(pigeons, holes):
    """Each pigeon in a hole, and no two in one: unsatisfiable where there are more pigeons."""
    formula = Formula()
    place = [[formula.new_var() for _ in range(holes)] for _ in range(pigeons)]
    for row in place:
        formula.add(*row)
    for hole in range(holes):
        for pigeon in range(pigeons):
            for other in range(pigeon):
                formula.add(-place[pigeon][hole], -place[other][hole])
    return formula


def product(formula, left, right):
    """The word of a product, by rows of full adders."""
    no = formula.constant(False)
    total = [no] * (len(left) + len(right))
    for place, factor in enumerate(right):
        carry = no
        for index, bit in enumerate(left):
            term = formula.conjunction(bit, factor)
            at = place + index
            half = formula.exclusive_or(total[at], term)
            next_carry = formula.majority(total[at], term, carry)
            total[at] = formula.exclusive_or(half, carry)
            carry = next_carry
        total[place + len(left)] = carry
    return total


def factoring(width, number):
    """Two factors of so many bits, both above 1: satisfiable where the number has such factors."""
    formula = Formula()
    left = [formula.new_var() for _ in range(width)]
    right = [formula.new_var() for _ in range(width)]
    formula.set_number(product(formula, left, right), number)
    formula.add(*left[1:])
    formula.add(*right[1:])
    return formula


def counter(width, steps, pauses):
    """A counter from 0 that is at its greatest number after so many steps.

    Each step adds one; or, where the counter pauses, an input that says whether it does.
    """
    formula = Formula()
    word = [formula.new_var() for _ in range(width)]
    formula.set_number(word, 0)
    for _ in range(steps):
        carry = formula.new_var() if pauses else formula.constant(True)
        following = []
        for bit in word:
            following.append(formula.exclusive_or(bit, carry))
            carry = formula.conjunction(bit, carry)
        word = following
    formula.set_number(word, 2**width - 1)
    return formula


def prime_at_most(number):
    """The greatest prime up to a number."""
    while any(number % factor == 0 for factor in range(2, int(number**0.5) + 1)):
        number -= 1
    return number


def factorings(width):
    """Of a product of two primes of so many bits, and of the greatest prime below it."""
    product_of_primes = prime_at_most(2**width * 8 // 10) * prime_at_most(2**width * 6 // 10)
    yield f"factoring-{width}-product", factoring(width, product_of_primes)
    yield f"factoring-{width}-prime", factoring(width, prime_at_most(product_of_primes - 1))


def counters(kind, width, pauses):
    """To the greatest number in just enough steps, and in one fewer."""
    yield f"{kind}-{width}-reached", counter(width, 2**width - 1, pauses)
    yield f"{kind}-{width}-short", counter(width, 2**width - 2, pauses)


def instances():
    """Each formula by its name, whose first part is its kind."""
    for count in (150, 200, 250):
        for seed in range(1, 6):
            yield f"random-{count}-{seed}", random_3sat(count, seed)
    for holes in range(5, 9):
        yield f"pigeonhole-{holes + 1}-{holes}", pigeonhole(holes + 1, holes)
    for width in (8, 10, 12, 16):
        yield from factorings(width)
    for width in (8, 10, 12):
        yield from counters("counter", width, pauses=False)
    for width in (8, 9):
        yield from counters("pausing", width, pauses=True)


def main():
    folder = Path(sys.argv[1] if len(sys.argv) > 1 else "instances")
    folder.mkdir(parents=True, exist_ok=True)
    for name, formula in instances():
        formula.write(folder / f"{name}.cnf")


if __name__ == "__main__":
    main()
