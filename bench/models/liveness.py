#!/usr/bin/env python3
"""Writes boolean models with a temporal claim, each as SMV and as AIGER: liveness.py FOLDER [WORD ..].

With words, only the models whose names hold one of them. Each model claims that something is answered, `G (a -> F b)`, where its
fairness conditions are JUSTICE; its name ends in `-false` where a fair lasso violates it. NAME.smv has the claim as LTLSPEC. NAME.aig is
the model after the transformation from liveness to safety (Biere, Artho and Schuppan 2002), which this script makes itself: its
output is true where a state comes again that was saved, with `a` unanswered and each fairness condition met in between.
"""
import os
import sys

from generate import (
    FALSE, TRUE, Model, all_of, any_of, as_aiger, as_smv, choose, constant, equal, number, pick, plus_one, same,
)


class LiveModel(Model):
    """Each state with `when` is followed, sooner or later, by one with `then`, if each of `justice` holds again and again."""

    def __init__(self, name):
        super().__init__(name)
        self.justice = []
        self.when = TRUE
        self.then = TRUE
        # Another way to write the claim in SMV, by the texts of its signals, as with past operators.
        self.written = None
        self.also = []

    def claimed(self):
        return self.justice + [self.when, self.then] + self.also

    def of_states(self):
        return self.justice

    def specification(self, text):
        lines = [f"JUSTICE {text(j)}\n" for j in self.justice]
        if self.written is not None:
            claim = self.written(text)
        elif self.when is TRUE:
            claim = f"G F {text(self.then)}"
        else:
            claim = f"G ({text(self.when)} -> F {text(self.then)})"
        return lines + [f"LTLSPEC {claim}\n"]


def as_safety(live):
    """The model whose bad states end a lasso that violates the claim."""
    m = Model(live.name)
    m.inputs = list(live.inputs)
    m.latches = [list(entry) for entry in live.latches]
    arm, save = m.input("arm_"), m.input("save_")
    armed, saved = m.latch("armed_"), m.latch("saved_")
    waits = (armed | (arm & live.when)) & ~live.then
    m.next(armed, waits)
    keeps = (saved | (save & armed)) & waits
    m.next(saved, keeps)
    begins = save & armed & ~saved
    same_again = TRUE
    for name, signal, first, _ in live.latches:
        copy = m.latch(name + "_saved_")
        m.next(copy, choose(begins, signal, copy))
        same_again = same_again & same(signal, copy)
    seen_all = TRUE
    for k, justice in enumerate(live.justice):
        seen = m.latch(f"seen{k}_")
        m.next(seen, keeps & ((saved & seen) | justice))
        seen_all = seen_all & seen
    m.invariant = ~(saved & armed & same_again & seen_all)
    return m


# The models.


def requests(m, count, served):
    """Requests that are made by inputs, and stand until they are served."""
    asks = [m.input(f"ask{k}") for k in range(count)]
    waiting = [m.latch(f"waiting{k}") for k in range(count)]
    for k in range(count):
        m.next(waiting[k], (waiting[k] | asks[k]) & ~served(waiting)[k])
    return waiting


def round_robin(count):
    """A token goes round, and whoever has it and waits is served."""
    m = LiveModel(f"live-round-robin-{count}")
    token = [m.latch(f"token{k}", k == 0) for k in range(count)]
    for k in range(count):
        m.next(token[k], token[k - 1])
    waiting = requests(m, count, lambda waiting: [w & t for w, t in zip(waiting, token)])
    m.when, m.then = waiting[1], waiting[1] & token[1]
    return m


def by_priority(count, fair):
    """The first that waits is served; the last one starves, but where the others rest again and again."""
    m = LiveModel(f"live-priority-{count}" + ("" if fair else "-false"))

    def served(waiting):
        return [w & ~any_of(waiting[:k]) for k, w in enumerate(waiting)]

    waiting = requests(m, count, served)
    if fair:
        m.justice = [~any_of(waiting[:-1])]
    m.when, m.then = waiting[-1], ~waiting[-1]
    return m


def token_ring(count, fair):
    """Cells hand a token on when a free choice says so."""
    m = LiveModel(f"live-ring-{count}" + ("" if fair else "-false"))
    go = m.input("go")
    cell = [m.latch(f"cell{k}", k == 0) for k in range(count)]
    for k in range(count):
        m.next(cell[k], choose(go, cell[k - 1], cell[k]))
    if fair:
        m.justice = [go]
    m.then = cell[count // 2]
    return m


def ring_of_tokens(count):
    """Two tokens go round in step."""
    m = LiveModel(f"live-tokens-{count}")
    cell = [m.latch(f"cell{k}", k in (0, count // 2)) for k in range(count)]
    for k in range(count):
        m.next(cell[k], cell[k - 1])
    m.then = cell[1] & cell[1 + count // 2]
    return m


def elevator(floors):
    """A cabin goes up and down without rest; a call stands until the cabin is there."""
    m = LiveModel(f"live-elevator-{floors}")
    at = [m.latch(f"at{k}", k == 0) for k in range(floors)]
    up = m.latch("up", True)
    rises = (up & ~at[-1]) | at[0]
    m.next(up, rises)
    for k in range(floors):
        from_below = at[k - 1] & rises if k > 0 else FALSE
        from_above = at[k + 1] & ~rises if k + 1 < floors else FALSE
        m.next(at[k], from_below | from_above)
    calls = [m.latch(f"call{k}") for k in range(floors)]
    for k in range(floors):
        m.next(calls[k], (calls[k] | m.input(f"press{k}")) & ~at[k])
    m.when, m.then = calls[-1], at[-1]
    return m


def bus(tries, fair):
    """A transfer is tried again while the bus is busy, after a pause that grows; it succeeds when the bus is free."""
    m = LiveModel(f"live-bus-{tries}" + ("" if fair else "-false"))
    ask, busy = m.input("ask"), m.input("busy")
    wants = m.latch("wants")
    pause = [m.latch(f"pause{k}") for k in range(tries)]
    waits = any_of(pause)
    done = wants & ~waits & ~busy
    fails = wants & ~waits & busy
    m.next(wants, (wants | ask) & ~done)
    for k in range(tries):
        m.next(pause[k], fails if k == tries - 1 else pause[k + 1])
    # Free again and again; or free when it is tried.
    m.justice = [~(wants & busy & ~waits)] if not fair else [~wants | done]
    m.when, m.then = wants, ~wants
    return m


def peterson(fair):
    """Two processes of Peterson's protocol, of which one moves at each step."""
    m = LiveModel("live-peterson" + ("" if fair else "-false"))
    run = m.input("run")
    ask = [m.input(f"ask{k}") for k in range(2)]
    flag = [m.latch(f"flag{k}") for k in range(2)]
    inside = [m.latch(f"inside{k}") for k in range(2)]
    turn = m.latch("turn")
    moves = [~run, run]
    turned = turn
    for k in range(2):
        other = 1 - k
        mine = turn if k == 1 else ~turn
        enters = moves[k] & flag[k] & ~inside[k] & (~flag[other] | mine)
        begins = moves[k] & ~flag[k] & ask[k]
        leaves = moves[k] & inside[k]
        m.next(flag[k], (flag[k] | begins) & ~leaves)
        m.next(inside[k], (inside[k] | enters) & ~leaves)
        turned = choose(begins, constant(other == 1), turned)
    m.next(turn, turned)
    if fair:
        m.justice = moves
    m.when, m.then = flag[0], inside[0]
    return m


def semaphore(count):
    """Whoever is chosen takes the semaphore when it is free: nobody is sure to get it."""
    m = LiveModel(f"live-semaphore-{count}-false")
    chosen = [m.input(f"choose{k}") for k in range(count)]
    wants = [m.latch(f"wants{k}") for k in range(count)]
    holds = [m.latch(f"holds{k}") for k in range(count)]
    free = ~any_of(holds)
    before = FALSE
    for k in range(count):
        takes = wants[k] & free & chosen[k] & ~before
        before = before | (wants[k] & chosen[k])
        m.next(holds[k], takes)
        m.next(wants[k], (wants[k] | m.input(f"ask{k}")) & ~takes)
    m.justice = [free]
    m.when, m.then = wants[0], holds[0]
    return m


def fifo(depth):
    """What is put into a queue comes out, if the queue is read again and again."""
    m = LiveModel(f"live-fifo-{depth}")
    put, mark, take = m.input("put"), m.input("mark"), m.input("take")
    full = [m.latch(f"full{k}") for k in range(depth)]
    marked = [m.latch(f"marked{k}") for k in range(depth)]
    fits = ~full[-1]
    for k in range(depth):
        # After a take all go one place down; what is put stands behind the last.
        stays = choose(take, full[k + 1] if k + 1 < depth else FALSE, full[k])
        tagged = choose(take, marked[k + 1] if k + 1 < depth else FALSE, marked[k])
        below_it = TRUE if k == 0 else choose(take, full[k], full[k - 1])
        comes = put & fits & ~stays & below_it
        m.next(full[k], stays | comes)
        m.next(marked[k], choose(comes, mark, tagged))
    m.justice = [take]
    m.when, m.then = marked[-1], marked[0]
    return m


def handshake():
    """Request and acknowledgement in four phases."""
    m = LiveModel("live-handshake")
    begin, answer = m.input("begin"), m.input("answer")
    request, acknowledge = m.latch("request"), m.latch("acknowledge")
    m.next(request, choose(request, ~acknowledge, begin & ~acknowledge))
    m.next(acknowledge, choose(request, acknowledge | answer, acknowledge & ~answer))
    m.justice = [answer]
    m.when, m.then = request, ~request & ~acknowledge
    return m


def counter(width):
    """Counts where a free choice says so, round and round."""
    m = LiveModel(f"live-counter-{width}")
    go = m.input("go")
    c = m.word("c", width)
    m.next_word(c, pick(go, plus_one(c), c))
    m.justice = [go]
    m.then = equal(c, number((1 << width) - 1, width))
    return m


def philosophers(count, fair):
    """Who is hungry takes both forks at once, when both lie there, and puts them back."""
    m = LiveModel(f"live-philosophers-{count}" + ("" if fair else "-false"))
    hungry = [m.latch(f"hungry{k}") for k in range(count)]
    eats = [m.latch(f"eats{k}") for k in range(count)]
    # Where it is fair, a step lies between two turns, so that forks are back.
    pace = 2 if fair else 1
    turn = [m.latch(f"turn{k}", k == 0) for k in range(pace * count)]
    for k in range(count):
        forks = ~eats[k - 1] & ~eats[(k + 1) % count]
        takes = hungry[k] & forks & turn[pace * k]
        m.next(eats[k], takes)
        m.next(hungry[k], (hungry[k] | m.input(f"ask{k}")) & ~takes)
    for k in range(pace * count):
        m.next(turn[k], turn[k - 1])
    m.when, m.then = hungry[0], eats[0]
    return m


def remembered(count):
    """A grant comes after a request alone: past operators under the future."""
    m = LiveModel(f"live-remembered-{count}")
    ask = m.input("ask")
    stage = [m.latch(f"stage{k}") for k in range(count)]
    m.next(stage[0], ask)
    for k in range(1, count):
        m.next(stage[k], stage[k - 1])
    m.also = [ask, stage[-1], stage[0]]
    m.when, m.then = TRUE, TRUE
    m.written = lambda text: f"G ({text(stage[-1])} -> " + "Y " * count + f"{text(ask)})"
    return m


def models():
    return [
        round_robin(4), round_robin(10), by_priority(6, True), by_priority(6, False), by_priority(20, False),
        token_ring(8, True), token_ring(14, True), token_ring(40, False), ring_of_tokens(24),
        elevator(4), elevator(7), bus(3, True), bus(6, True), bus(4, False), peterson(True), peterson(False),
        semaphore(6), semaphore(20), fifo(4), fifo(12), handshake(), counter(3), counter(4),
        philosophers(5, True), philosophers(5, False), remembered(4), remembered(30),
    ]


def write(folder, words=()):
    os.makedirs(folder, exist_ok=True)
    names = []
    for model in models():
        if words and not any(word in model.name for word in words):
            continue
        with open(os.path.join(folder, model.name + ".smv"), "w") as file:
            file.write(as_smv(model))
        if model.written is None:
            with open(os.path.join(folder, model.name + ".aig"), "wb") as file:
                file.write(as_aiger(as_safety(model)))
        names.append(model.name)
    return names


if __name__ == "__main__":
    if len(sys.argv) < 2:
        sys.exit(__doc__)
    print("\n".join(write(sys.argv[1], sys.argv[2:])))
