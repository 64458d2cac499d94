#!/usr/bin/env python3
"""Writes boolean models, each as SMV and as AIGER: generate.py FOLDER [WORD ..].

With words, only the models whose names hold one of them. Each model has one invariant; its name ends in `-false` where a run breaks
it. NAME.smv is in the language that smvcheck reads today. NAME.aig is AIGER's binary form with one output, which is true in a bad
state; latches begin at 0, so a latch that begins at TRUE stands there negated.
"""
import os
import sys


class Signal:
    """A node of a circuit; equal nodes are one object."""

    made = {}

    def __new__(cls, kind, *operands):
        key = (kind,) + tuple(id(o) if isinstance(o, Signal) else o for o in operands)
        found = cls.made.get(key)
        if found is None:
            found = object.__new__(cls)
            found.kind = kind
            found.operands = operands
            cls.made[key] = found
        return found

    def __invert__(self):
        if self.kind == "constant":
            return constant(not self.operands[0])
        return self.operands[0] if self.kind == "not" else Signal("not", self)

    def __and__(self, other):
        for a, b in ((self, other), (other, self)):
            if a.kind == "constant":
                return b if a.operands[0] else a
        if self is other:
            return self
        return Signal("and", self, other)

    def __or__(self, other):
        return ~(~self & ~other)

    def __xor__(self, other):
        for a, b in ((self, other), (other, self)):
            if a.kind == "constant":
                return ~b if a.operands[0] else b
        return Signal("xor", self, other)


def constant(value):
    return Signal("constant", bool(value))


FALSE = constant(False)
TRUE = constant(True)


def same(a, b):
    return ~(a ^ b)


def choose(condition, a, b):
    if condition.kind == "constant":
        return a if condition.operands[0] else b
    return a if a is b else Signal("choose", condition, a, b)


def all_of(signals):
    total = TRUE
    for signal in signals:
        total = total & signal
    return total


def any_of(signals):
    return ~all_of(~signal for signal in signals)


class Model:
    def __init__(self, name):
        self.name = name
        self.inputs = []
        self.latches = []
        self.invariant = TRUE

    def claimed(self):
        """The signals that its specification reads."""
        return [self.invariant]

    def of_states(self):
        """Those among them that speak of a state alone, and of no input."""
        return self.claimed()

    def specification(self, text):
        """The lines that claim something of it, by the texts of its signals."""
        return [f"INVARSPEC {text(self.invariant)}\n"]

    def input(self, name):
        signal = Signal("variable", self.name, name)
        self.inputs.append((name, signal))
        return signal

    def word(self, name, width, value=0):
        """Latches for a number, its lowest bit first, that begins at this value."""
        return [self.latch(f"{name}{k}", value >> k & 1) for k in range(width)]

    def latch(self, name, first=False):
        signal = Signal("variable", self.name, name)
        self.latches.append([name, signal, bool(first), None])
        return signal

    def next(self, latch, value):
        for entry in self.latches:
            if entry[1] is latch:
                entry[3] = value

    def next_word(self, word, values):
        for latch, value in zip(word, values):
            self.next(latch, value)


# Numbers as lists of signals, the lowest bit first.


def number(value, width):
    return [constant(value >> k & 1) for k in range(width)]


def add(a, b, carry=FALSE):
    total = []
    for x, y in zip(a, b):
        total.append(x ^ y ^ carry)
        carry = (x & y) | (carry & (x ^ y))
    return total, carry


def plus_one(a):
    return add(a, number(0, len(a)), TRUE)[0]


def minus_one(a):
    return add(a, number((1 << len(a)) - 1, len(a)))[0]


def equal(a, b):
    return all_of(same(x, y) for x, y in zip(a, b))


def less(a, b):
    below = FALSE
    for x, y in zip(a, b):
        below = choose(x ^ y, y, below)
    return below


def pick(condition, a, b):
    return [choose(condition, x, y) for x, y in zip(a, b)]


def at_most_one(signals):
    seen, twice = FALSE, FALSE
    for signal in signals:
        twice = twice | (seen & signal)
        seen = seen | signal
    return ~twice


# The models.


def modulo_counter(width, limit, target):
    """Counts to limit - 1 and begins again; is it ever at target?"""
    m = Model(f"modulo-{width}-{limit}-{target}" + ("-false" if target < limit else ""))
    c = m.word("c", width)
    m.next_word(c, pick(equal(c, number(limit - 1, width)), number(0, width), plus_one(c)))
    m.invariant = ~equal(c, number(target, width))
    return m


def enabled_counter(width, target):
    """Counts where an input says so, up to its greatest number, where it stays."""
    m = Model(f"enabled-{width}-{target}-false")
    go = m.input("go")
    c = m.word("c", width)
    full = equal(c, number((1 << width) - 1, width))
    m.next_word(c, pick(go & ~full, plus_one(c), c))
    m.invariant = ~equal(c, number(target, width))
    return m


def shift_register(length):
    """A token is put in where none is in the register."""
    m = Model(f"shift-{length}")
    put = m.input("put")
    r = m.word("r", length)
    m.next(r[0], put & ~any_of(r[:-1]))
    for k in range(1, length):
        m.next(r[k], r[k - 1])
    m.invariant = at_most_one(r)
    return m


def fifo(width):
    """Two pointers and a count of what is between them."""
    m = Model(f"fifo-{width}")
    push, pop = m.input("push"), m.input("pop")
    head, tail, count = m.word("head", width), m.word("tail", width), m.word("count", width + 1)
    full, empty = count[width], equal(count, number(0, width + 1))
    put, take = push & ~full, pop & ~empty
    m.next_word(head, pick(put, plus_one(head), head))
    m.next_word(tail, pick(take, plus_one(tail), tail))
    m.next_word(count, pick(put & ~take, plus_one(count), pick(take & ~put, minus_one(count), count)))
    m.invariant = equal(add(tail, count[:width])[0], head) & ~(full & any_of(count[:width]))
    return m


def fifo_that_overflows(width):
    """The count is not looked at when an item comes in."""
    m = Model(f"fifo-overflow-{width}-false")
    push, pop = m.input("push"), m.input("pop")
    count = m.word("count", width + 1)
    empty = equal(count, number(0, width + 1))
    take = pop & ~empty
    m.next_word(count, pick(push & ~take, plus_one(count), pick(take & ~push, minus_one(count), count)))
    m.invariant = ~(count[width] & count[0])
    return m


def arbiter(clients):
    """A token goes round; who has it and asks is granted, and stays granted while it asks."""
    m = Model(f"arbiter-{clients}")
    asks = [m.input(f"ask{k}") for k in range(clients)]
    token = [m.latch(f"token{k}", k == 0) for k in range(clients)]
    grants = [m.latch(f"grant{k}") for k in range(clients)]
    busy = any_of(g & a for g, a in zip(grants, asks))
    for k in range(clients):
        m.next(token[k], choose(busy, token[k], token[k - 1]))
        m.next(grants[k], asks[k] & choose(busy, grants[k], token[k]))
    m.invariant = at_most_one(grants)
    return m


def gray_counter(width):
    """A Gray code beside a counter, by which two neighbours differ in one bit."""
    m = Model(f"gray-{width}")
    go = m.input("go")
    c, g, last = m.word("c", width), m.word("g", width), m.word("last", width)
    step = pick(go, plus_one(c), c)
    code = [a ^ b for a, b in zip(step, step[1:] + [FALSE])]
    m.next_word(c, step)
    m.next_word(g, code)
    m.next_word(last, g)
    m.invariant = at_most_one(a ^ b for a, b in zip(g, last))
    return m


def johnson_ring(length):
    """A ring that takes in the negation of its end: it has 2 * length states."""
    m = Model(f"johnson-{length}")
    r = m.word("r", length)
    m.next(r[0], ~r[-1])
    for k in range(1, length):
        m.next(r[k], r[k - 1])
    changes = [r[k] ^ r[k - 1] for k in range(1, length)]
    m.invariant = at_most_one(changes)
    return m


def token_ring(length):
    """A token that each cell hands on when it likes to."""
    m = Model(f"ring-{length}")
    goes = [m.input(f"go{k}") for k in range(length)]
    t = [m.latch(f"t{k}", k == 0) for k in range(length)]
    for k in range(length):
        m.next(t[k], (t[k] & ~goes[k]) | (t[k - 1] & goes[k - 1]))
    m.invariant = at_most_one(t) & any_of(t)
    return m


TAPS = {8: (7, 5, 4, 3), 12: (11, 5, 3, 0), 16: (15, 14, 12, 3), 24: (23, 22, 21, 16), 32: (31, 21, 1, 0)}


def feedback_register(width):
    """A linear feedback shift register never comes to 0."""
    m = Model(f"lfsr-{width}")
    r = m.word("r", width, 1)
    back = FALSE
    for tap in TAPS[width]:
        back = back ^ r[tap]
    m.next(r[0], back)
    for k in range(1, width):
        m.next(r[k], r[k - 1])
    m.invariant = any_of(r)
    return m


def two_feedback_registers(width):
    """One shifts twice where the other does once in two steps; by turns they are the same."""
    m = Model(f"lfsr-pair-{width}")
    go = m.input("go")
    a, b = m.word("a", width, 1), m.word("b", width, 1)

    def shifted(r):
        back = FALSE
        for tap in TAPS[width]:
            back = back ^ r[tap]
        return [back] + r[:-1]

    m.next_word(a, pick(go, shifted(a), a))
    m.next_word(b, pick(go, shifted(b), b))
    m.invariant = equal(a, b)
    return m


def peterson(count):
    """Pairs of processes that enter by Peterson's rule, each pair for a lock of its own, at any speeds."""
    m = Model(f"peterson-{count}")
    wrong = FALSE
    for pair in range(count):
        run, who = m.input(f"run{pair}"), m.input(f"who{pair}")
        turn = m.latch(f"turn{pair}")
        states = [[m.latch(f"s{pair}_{p}_{k}") for k in range(2)] for p in range(2)]

        def at(p, value):
            return equal(states[p], number(value, 2))

        turn_next = turn
        for p in range(2):
            moves = run & (who if p else ~who)
            other_in = ~at(1 - p, 0)
            may = ~other_in | (turn if p else ~turn)
            state = states[p]
            step = pick(at(p, 0), number(1, 2), pick(at(p, 1), number(2, 2), pick(at(p, 2), pick(may, number(3, 2), state), number(0, 2))))
            m.next_word(state, pick(moves, step, state))
            turn_next = choose(moves & at(p, 0), constant(p == 0), turn_next)
        m.next(turn, turn_next)
        wrong = wrong | (at(0, 3) & at(1, 3))
    m.invariant = ~wrong
    return m


def semaphore(count):
    """Processes that enter where none is in, one at a time by an input; a lock bit says whether one is in."""
    m = Model(f"semaphore-{count}")
    chosen = [m.input(f"chosen{k}") for k in range(count)]
    lock = m.latch("lock")
    inside = [m.latch(f"in{k}") for k in range(count)]
    first = FALSE
    enters, leaves = [], []
    for k in range(count):
        mine = chosen[k] & ~first
        first = first | chosen[k]
        enters.append(mine & ~lock & ~inside[k])
        leaves.append(mine & inside[k])
        m.next(inside[k], choose(mine, choose(inside[k], FALSE, ~lock), inside[k]))
    m.next(lock, choose(any_of(enters), TRUE, choose(any_of(leaves), FALSE, lock)))
    m.invariant = at_most_one(inside)
    return m


def pipeline(stages, width):
    """A word goes down a pipeline that may stall, and a copy of it by another way; they come out alike."""
    m = Model(f"pipeline-{stages}-{width}")
    stall = m.input("stall")
    data = [m.input(f"d{k}") for k in range(width)]
    one = [m.word(f"a{s}_", width) for s in range(stages)]
    other = [m.word(f"b{s}_", width) for s in range(stages)]
    for rows, flip in ((one, False), (other, True)):
        before = [~d if flip else d for d in data]
        for row in rows:
            m.next_word(row, pick(stall, row, before))
            before = row
    valid = [m.latch(f"v{s}") for s in range(stages)]
    before = TRUE
    for v in valid:
        m.next(v, choose(stall, v, before))
        before = v
    m.invariant = ~valid[-1] | all_of(a ^ b for a, b in zip(one[-1], other[-1]))
    return m


def sums(width):
    """Two sums of the same inputs: by adding each, and by adding each pair."""
    m = Model(f"sums-{width}")
    data = [m.input(f"d{k}") for k in range(width)]
    phase = m.latch("phase")
    slow, fast, kept = m.word("slow", width), m.word("fast", width), m.word("kept", width)
    m.next(phase, ~phase)
    m.next_word(slow, add(slow, data)[0])
    m.next_word(kept, pick(phase, number(0, width), data))
    m.next_word(fast, pick(phase, add(add(fast, kept)[0], data)[0], fast))
    m.invariant = phase | equal(slow, fast)
    return m


def locks(steps, width):
    """A combination lock: the right word at each of so many steps opens it."""
    m = Model(f"lock-{steps}-{width}-false")
    data = [m.input(f"d{k}") for k in range(width)]
    bits = max(1, steps.bit_length())
    at = m.word("at", bits)
    right = FALSE
    for s in range(steps):
        code = (s * 37 + 11) % (1 << width)
        right = right | (equal(at, number(s, bits)) & equal(data, number(code, width)))
    done = equal(at, number(steps, bits))
    m.next_word(at, pick(done, at, pick(right, plus_one(at), number(0, bits))))
    m.invariant = ~done
    return m


def two_counters(width):
    """Two counters that the same input moves, one of which counts down."""
    m = Model(f"counters-{width}")
    go, back = m.input("go"), m.input("back")
    up, down = m.word("up", width), m.word("down", width, (1 << width) - 1)
    m.next_word(up, pick(go, pick(back, minus_one(up), plus_one(up)), up))
    m.next_word(down, pick(go, pick(back, plus_one(down), minus_one(down)), down))
    m.invariant = all_of(a ^ b for a, b in zip(up, down))
    return m


def bounded_counter(width, limit):
    """A counter up and down that stops at a limit that is no power of two."""
    m = Model(f"bounded-{width}-{limit}")
    go, back = m.input("go"), m.input("back")
    c = m.word("c", width)
    low, high = equal(c, number(0, width)), equal(c, number(limit, width))
    m.next_word(c, pick(go & ~back & ~high, plus_one(c), pick(back & ~go & ~low, minus_one(c), c)))
    m.invariant = ~less(number(limit, width), c)
    return m


def handshake(links):
    """Links with request and acknowledge in four phases; what is requested and acknowledged is there."""
    m = Model(f"handshake-{links}")
    goes = [m.input(f"go{k}") for k in range(2 * links)]
    request = [m.latch(f"req{k}") for k in range(links)]
    answer = [m.latch(f"ack{k}") for k in range(links)]
    full = [m.latch(f"full{k}") for k in range(links)]
    wrong = FALSE
    for k in range(links):
        r, a, f = request[k], answer[k], full[k]
        m.next(r, choose(goes[2 * k], choose(r, ~a, ~a), r))
        m.next(a, choose(goes[2 * k + 1], r, a))
        m.next(f, choose(r & ~a, TRUE, choose(~r & a, FALSE, f)))
        wrong = wrong | (a & r & ~f)
    m.invariant = ~wrong
    return m


def elevator(floors):
    """A car that moves where the door is closed; the door opens at a floor that was asked for."""
    m = Model(f"elevator-{floors}")
    asks = [m.input(f"ask{k}") for k in range(floors)]
    up = m.input("up")
    at = [m.latch(f"at{k}", k == 0) for k in range(floors)]
    wanted = [m.latch(f"want{k}") for k in range(floors)]
    door, moving = m.latch("door"), m.latch("moving")
    here = any_of(a & w for a, w in zip(at, wanted))
    m.next(door, ~door & here & ~moving)
    m.next(moving, ~door & ~here & any_of(wanted))
    go = moving & ~door
    for k in range(floors):
        below = at[k - 1] if k > 0 else FALSE
        above = at[k + 1] if k + 1 < floors else FALSE
        stays = at[k] & ~(go & choose(up, constant(k + 1 < floors), constant(k > 0)))
        m.next(at[k], stays | (go & choose(up, below, above)))
        m.next(wanted[k], (wanted[k] | asks[k]) & ~(door & at[k]))
    m.invariant = at_most_one(at) & any_of(at) & ~(door & moving)
    return m


def cache_lines(caches):
    """A line that caches hold as shared or as their own, by a bus that serves one of them at a time."""
    m = Model(f"cache-{caches}")
    write = m.input("write")
    chosen = [m.input(f"chosen{k}") for k in range(caches)]
    shared = [m.latch(f"shared{k}") for k in range(caches)]
    own = [m.latch(f"own{k}") for k in range(caches)]
    first = FALSE
    turns = []
    for k in range(caches):
        turns.append(chosen[k] & ~first)
        first = first | chosen[k]
    for k in range(caches):
        others = any_of(turns[j] for j in range(caches) if j != k)
        m.next(own[k], choose(turns[k], write | own[k], own[k] & ~others))
        m.next(shared[k], choose(turns[k], ~write & ~own[k], choose(others & write, FALSE, shared[k] | (others & own[k]))))
    pairs = TRUE
    seen = FALSE
    for k in range(caches):
        pairs = pairs & ~(own[k] & shared[k])
        seen = seen | shared[k]
    m.invariant = at_most_one(own) & pairs & ~(any_of(own) & seen)
    return m


def models():
    return [
        modulo_counter(8, 200, 250), modulo_counter(12, 3000, 3500), modulo_counter(16, 50000, 60000),
        modulo_counter(6, 60, 40), modulo_counter(8, 250, 200),
        enabled_counter(5, 20), enabled_counter(6, 40), enabled_counter(7, 100),
        shift_register(20), shift_register(60), shift_register(150),
        fifo(4), fifo(6), fifo(8), fifo_that_overflows(4), fifo_that_overflows(6),
        arbiter(6), arbiter(16), arbiter(40),
        gray_counter(6), gray_counter(10),
        johnson_ring(20), johnson_ring(80), johnson_ring(250),
        token_ring(16), token_ring(48), token_ring(128),
        feedback_register(16), feedback_register(32), two_feedback_registers(32),
        peterson(1), peterson(4), peterson(16),
        semaphore(8), semaphore(24), semaphore(64),
        pipeline(4, 8), pipeline(8, 16), pipeline(10, 24),
        sums(4), sums(6), sums(8),
        locks(20, 4), locks(60, 6), locks(200, 8),
        two_counters(8), two_counters(24), bounded_counter(8, 180), bounded_counter(12, 2900),
        handshake(6), handshake(40), elevator(8), elevator(24), cache_lines(4), cache_lines(12),
    ]


# How a model is written.


def below(roots):
    """The nodes that the roots lead to, operands first."""
    order, seen = [], set()
    pending = [(root, False) for root in reversed(roots)]
    while pending:
        node, done = pending.pop()
        if done:
            order.append(node)
        elif id(node) not in seen:
            seen.add(id(node))
            pending.append((node, True))
            pending.extend((o, False) for o in node.operands if isinstance(o, Signal))
    return order


def as_smv(model):
    order = below([entry[3] for entry in model.latches] + model.claimed())
    uses = {}
    for node in order:
        for operand in node.operands:
            if isinstance(operand, Signal):
                uses[id(operand)] = uses.get(id(operand), 0) + 1
    texts, heights, defines = {}, {}, []
    for node in order:
        parts = [texts[id(o)] for o in node.operands if isinstance(o, Signal)]
        height = 1 + max([heights[id(o)] for o in node.operands if isinstance(o, Signal)], default=0)
        if node.kind == "constant":
            text = "TRUE" if node.operands[0] else "FALSE"
        elif node.kind == "variable":
            text = node.operands[1]
        elif node.kind == "not":
            text = "!" + parts[0]
        elif node.kind == "and":
            text = f"({parts[0]} & {parts[1]})"
        elif node.kind == "xor":
            text = f"({parts[0]} xor {parts[1]})"
        else:
            text = f"({parts[0]} ? {parts[1]} : {parts[2]})"
        if node.kind in ("and", "xor", "choose") and (uses.get(id(node), 0) > 1 or height > 12):
            name = f"part{len(defines)}"
            defines.append(f"  {name} := {text};\n")
            text, height = name, 1
        texts[id(node)], heights[id(node)] = text, height
    # Neither an invariant nor JUSTICE reads an input in SMV: one that they read is a variable that nothing is asked of.
    read = {id(node) for node in below(model.of_states())}
    inputs = [name for name, signal in model.inputs if id(signal) not in read]
    free = [name for name, signal in model.inputs if id(signal) in read]
    lines = ["MODULE main\n"]
    if inputs:
        lines.append("IVAR\n" + "".join(f"  {name} : boolean;\n" for name in inputs))
    lines.append("VAR\n" + "".join(f"  {name} : boolean;\n" for name in free + [entry[0] for entry in model.latches]))
    if defines:
        lines.append("DEFINE\n" + "".join(defines))
    lines.append("ASSIGN\n")
    for name, _, first, value in model.latches:
        lines.append(f"  init({name}) := {'TRUE' if first else 'FALSE'};\n  next({name}) := {texts[id(value)]};\n")
    lines += model.specification(lambda signal: texts[id(signal)])
    return "".join(lines)


def as_aiger(model):
    latches = model.latches
    literals = {}
    variable = 0
    for _, signal in model.inputs:
        variable += 1
        literals[id(signal)] = 2 * variable
    for _, signal, first, _ in latches:
        variable += 1
        literals[id(signal)] = 2 * variable + (1 if first else 0)
    gates, table = [], {}

    def conjunction(a, b):
        nonlocal variable
        a, b = max(a, b), min(a, b)
        if b == 0 or a == b ^ 1:
            return 0
        if b == 1 or a == b:
            return a
        if (a, b) not in table:
            variable += 1
            table[a, b] = 2 * variable
            gates.append((2 * variable, a, b))
        return table[a, b]

    def disjunction(a, b):
        return conjunction(a ^ 1, b ^ 1) ^ 1

    for node in below([entry[3] for entry in latches] + [model.invariant]):
        parts = [literals[id(o)] for o in node.operands if isinstance(o, Signal)]
        if node.kind == "constant":
            literals[id(node)] = 1 if node.operands[0] else 0
        elif node.kind == "not":
            literals[id(node)] = parts[0] ^ 1
        elif node.kind == "and":
            literals[id(node)] = conjunction(*parts)
        elif node.kind == "xor":
            a, b = parts
            literals[id(node)] = disjunction(conjunction(a, b ^ 1), conjunction(a ^ 1, b))
        elif node.kind == "choose":
            c, a, b = parts
            literals[id(node)] = disjunction(conjunction(c, a), conjunction(c ^ 1, b))
    out = bytearray()
    out += f"aig {variable} {len(model.inputs)} {len(latches)} 1 {len(gates)}\n".encode()
    for _, _, first, value in latches:
        out += f"{literals[id(value)] ^ (1 if first else 0)}\n".encode()
    out += f"{literals[id(model.invariant)] ^ 1}\n".encode()
    for gate, a, b in gates:
        for delta in (gate - a, a - b):
            while delta >= 128:
                out.append(delta & 127 | 128)
                delta >>= 7
            out.append(delta)
    return bytes(out)


def write(folder, words=()):
    os.makedirs(folder, exist_ok=True)
    names = []
    for model in models():
        if words and not any(word in model.name for word in words):
            continue
        with open(os.path.join(folder, model.name + ".smv"), "w") as file:
            file.write(as_smv(model))
        with open(os.path.join(folder, model.name + ".aig"), "wb") as file:
            file.write(as_aiger(model))
        names.append(model.name)
    return names


if __name__ == "__main__":
    if len(sys.argv) < 2:
        sys.exit(__doc__)
    print("\n".join(write(sys.argv[1], sys.argv[2:])))
