#!/usr/bin/env python3
"""Random small models of the language of values, judged by an explicit search that shares nothing with smvcheck.

judge.py --exe CMD [--count N] [--seed S] [--keep DIR] [--recheck]

Each model has few slots (booleans, ranges, enumerations, words, arrays of them), definitions, assignments, constraints and specifications,
and perhaps a module with parameters. The judge evaluates them over all states: it knows which items fault and at which valuations, which
states are reached, and which formulas some fair lasso violates. It compares the verdicts and what `flat` lists, replays each
counterexample, and looks at each refusal (rule, place, valuation).
"""
import argparse, itertools, os, random, shlex, subprocess, sys


class Fault(Exception):
    def __init__(self, rule, place):
        self.rule, self.place = rule, place


NAMES = {601: 'CaseOpen', 602: 'OutOfRange', 603: 'IndexOutside', 604: 'DivisorZero', 605: 'ShiftTooFar'}


# values: True/False, ('i', n), ('s', name), ('w', signed, width, bits)
def show(v):
    if v is True or v is False:
        return 'TRUE' if v else 'FALSE'
    if v[0] == 'i':
        return str(v[1])
    if v[0] == 's':
        return v[1]
    return '0%sd%d_%d' % ('s' if v[1] else 'u', v[2], v[3])


def word(signed, width, n):
    return ('w', signed, width, n & ((1 << width) - 1))


def number(v):
    if v[0] == 'i':
        return v[1]
    _, signed, width, bits = v
    return bits - (1 << width) if signed and bits >> (width - 1) else bits


class N:
    """A node: op, operands, extra; place is its operator's, first that of its first token."""
    def __init__(self, op, *args, extra=None):
        self.op, self.args, self.extra = op, list(args), extra


BIN = {'&', '|', 'xor', 'xnor', '->', '<->', '=', '!=', '<', '>', '<=', '>=', '+', '-', '*', '/', 'mod', '<<', '>>', '::', 'union', 'in', 'U', 'V', 'S', 'T'}

# operators with bounds: the operand, and the nodes of the two bounds
BOUNDED = {'BF', 'BG', 'BO', 'BH'}


class Out:
    def __init__(self):
        self.text, self.line, self.col = [], 1, 1

    def here(self):
        return (self.line, self.col)

    def put(self, s):
        for c in s:
            self.text.append(c)
            if c == '\n':
                self.line, self.col = self.line + 1, 1
            else:
                self.col += 1


def enclosed(o, n):
    """Writes an expression in parentheses."""
    o.put('(')
    write(o, n)
    o.put(')')


def write(o, n):
    """Writes the expression with parentheses around each operator; sets the places of its nodes. Returns the place of the first token."""
    op = n.op
    if op in ('const', 'name'):
        n.first = n.place = o.here()
        o.put(n.extra if op == 'name' else show(n.extra))
        return n.first
    if op == 'index':
        n.first = write(o, n.args[0])
        n.place = o.here()
        o.put('[')
        write(o, n.args[1])
        o.put(']')
        return n.first
    if op in BOUNDED:
        n.first = n.place = o.here()
        o.put(op[1] + ' [')
        write(o, n.args[1])
        o.put(', ')
        write(o, n.args[2])
        o.put('] ')
        enclosed(o, n.args[0])
        return n.first
    if op == 'paren':
        first = o.here()
        o.put('(')
        write(o, n.args[0])
        o.put(')')
        n.first = first
        n.place = n.args[0].place
        return first
    if op == 'set':
        n.first = n.place = o.here()
        o.put('{')
        for k, a in enumerate(n.args):
            if k:
                o.put(', ')
            write(o, a)
        o.put('}')
        return n.first
    if op == 'range':
        n.first = o.here()
        o.put(str(n.extra[0]))
        n.place = o.here()
        o.put('..' + str(n.extra[1]))
        return n.first
    if op == 'case':
        n.first = n.place = o.here()
        o.put('case ')
        for k in range(0, len(n.args), 2):
            write(o, n.args[k])
            o.put(' : ')
            write(o, n.args[k + 1])
            o.put('; ')
        o.put('esac')
        return n.first
    if op in ('next', 'abs', 'max', 'min', 'count', 'word1', 'bool', 'signed', 'unsigned', 'extend', 'resize', 'sizeof', 'uwconst', 'swconst'):
        n.first = n.place = o.here()
        o.put(op + '(')
        for k, a in enumerate(n.args):
            if k:
                o.put(', ')
            write(o, a)
        o.put(')')
        return n.first
    if op in ('!', 'neg', 'X', 'F', 'G', 'Y', 'Z', 'O', 'H'):
        n.first = n.place = o.here()
        o.put({'neg': '-', '!': '!'}.get(op, op + ' '))
        enclosed(o, n.args[0])
        return n.first
    if op == 'select':
        n.first = o.here()
        enclosed(o, n.args[0])
        n.place = o.here()
        o.put('[%d:%d]' % n.extra)
        return n.first
    if op == '?':
        n.first = o.here()
        o.put('(')
        write(o, n.args[0])
        o.put(') ')
        n.place = o.here()
        o.put('? (')
        write(o, n.args[1])
        o.put(') : (')
        write(o, n.args[2])
        o.put(')')
        return n.first
    assert op in BIN, op
    n.first = o.here()
    o.put('(')
    write(o, n.args[0])
    o.put(') ')
    n.place = o.here()
    o.put(op + ' (')
    write(o, n.args[1])
    o.put(')')
    return n.first


def cdiv(a, b):
    q = abs(a) // abs(b)
    return q if (a < 0) == (b < 0) else -q


class Model:
    pass


def one(vs):
    assert len(vs) == 1, vs
    return vs[0]


def ev(m, n, s, u, t):
    """The values of the expression in state s with inputs u and next state t (dicts by slot); raises Fault."""
    op = n.op
    if op == 'const':
        return [n.extra]
    if op == 'named':
        return ev(m, n.args[0], s, u, t)
    if op == 'slot':
        return [s[n.extra] if n.extra in s else u[n.extra]]
    if op == 'index':
        name, dims = element(m, n, s, u, t)
        assert not dims, name
        return [s[name] if name in s else u[name]]
    if op == 'paren':
        return ev(m, n.args[0], s, u, t)
    if op == 'next':
        return ev(m, n.args[0], t, None, None)
    if op == 'set' or op == 'union':
        out = []
        for a in n.args:
            out += ev(m, a, s, u, t)
        return out
    if op == 'range':
        return [('i', k) for k in range(n.extra[0], n.extra[1] + 1)]
    if op == 'in':
        a = one(ev(m, n.args[0], s, u, t))
        return [a in ev(m, n.args[1], s, u, t)]
    if op == 'case':
        for k in range(0, len(n.args), 2):
            if one(ev(m, n.args[k], s, u, t)):
                return ev(m, n.args[k + 1], s, u, t)
        raise Fault(601, n.place)
    if op == '?':
        c = one(ev(m, n.args[0], s, u, t))
        return ev(m, n.args[1 if c else 2], s, u, t)
    vs = [one(ev(m, a, s, u, t)) for a in n.args]
    return [apply(n, op, vs)]


def element(m, n, s, u, t):
    """The array or element that a name with indices leads to, with the dimensions that are left."""
    if n.op == 'array':
        return n.extra, m.dims[n.extra]
    if n.op in ('named', 'paren'):
        return element(m, n.args[0], s, u, t)
    name, dims = element(m, n.args[0], s, u, t)
    _, k = one(ev(m, n.args[1], s, u, t))
    lo, hi = dims[0]
    if not lo <= k <= hi:
        raise Fault(603, n.place)
    return '%s[%d]' % (name, k), dims[1:]


def apply(n, op, vs):
    a = vs[0]
    isw = isinstance(a, tuple) and a[0] == 'w'
    if op == '!':
        return (not a) if not isw else word(a[1], a[2], ~a[3])
    if op in ('&', '|', 'xor', 'xnor', '->', '<->'):
        b = vs[1]
        f = {'&': lambda x, y: x & y, '|': lambda x, y: x | y, 'xor': lambda x, y: x ^ y, 'xnor': lambda x, y: ~(x ^ y), '->': lambda x, y: ~x | y, '<->': lambda x, y: ~(x ^ y)}[op]
        if isw:
            return word(a[1], a[2], f(a[3], b[3]))
        return bool(f(int(a), int(b)) & 1)
    if op == '=':
        return a == vs[1]
    if op == '!=':
        return a != vs[1]
    if op in ('<', '>', '<=', '>='):
        x, y = number(a), number(vs[1])
        return {'<': x < y, '>': x > y, '<=': x <= y, '>=': x >= y}[op]
    if op == 'neg':
        return word(a[1], a[2], -a[3]) if isw else ('i', -a[1])
    if op in ('+', '-', '*', '/', 'mod'):
        x, y = number(a), number(vs[1])
        if op in ('/', 'mod') and y == 0:
            raise Fault(604, n.place)
        r = {'+': lambda: x + y, '-': lambda: x - y, '*': lambda: x * y, '/': lambda: cdiv(x, y), 'mod': lambda: x - y * cdiv(x, y)}[op]()
        return word(a[1], a[2], r) if isw else ('i', r)
    if op in ('<<', '>>'):
        k = number(vs[1])
        if k < 0 or k > a[2]:
            raise Fault(605, n.place)
        return word(a[1], a[2], a[3] << k) if op == '<<' else word(a[1], a[2], number(a) >> k)
    if op == '::':
        b = vs[1]
        return word(False, a[2] + b[2], a[3] << b[2] | b[3])
    if op == 'select':
        h, l = n.extra
        return word(False, h - l + 1, a[3] >> l)
    if op == 'abs':
        return ('i', abs(a[1]))
    if op in ('max', 'min'):
        return ('i', (max if op == 'max' else min)(a[1], vs[1][1]))
    if op == 'count':
        return ('i', sum(1 for v in vs if v))
    if op == 'word1':
        return word(False, 1, int(a))
    if op == 'bool':
        return a[3] == 1
    if op in ('signed', 'unsigned'):
        return word(op == 'signed', a[2], a[3])
    if op == 'extend':
        return word(a[1], a[2] + vs[1][1], number(a))
    if op == 'resize':
        return word(a[1], vs[1][1], number(a))
    if op == 'sizeof':
        return ('i', a[2])
    if op in ('uwconst', 'swconst'):
        return word(op == 'swconst', vs[1][1], a[1])
    raise AssertionError(op)


def constant(n):
    """The integer that an expression is, if it is a constant."""
    if n.op == 'const':
        return n.extra[1] if n.extra not in (True, False) and n.extra[0] == 'i' else None
    if n.op in ('named', 'paren'):
        return constant(n.args[0])
    if n.op not in ('neg', '+', '-', '*', '/', 'mod'):
        return None
    vs = [constant(a) for a in n.args]
    if None in vs or (n.op in ('/', 'mod') and vs[1] == 0):
        return None
    return apply(n, n.op, [('i', v) for v in vs])[1]


def elements(m, n, under, now, later):
    """The elements that a name with indices may lead to, and the dimensions that are left; notes what occurs in the indices."""
    if n.op == 'array':
        return [n.extra], m.dims[n.extra]
    if n.op in ('named', 'paren'):
        return elements(m, n.args[0], under, now, later)
    names, dims = elements(m, n.args[0], under, now, later)
    occurring(m, n.args[1], under, now, later)
    k, (lo, hi) = constant(n.args[1]), dims[0]
    which = range(lo, hi + 1) if k is None else [k] if lo <= k <= hi else []
    return ['%s[%d]' % (name, i) for name in names for i in which], dims[1:]


def occurring(m, n, under, now, later):
    op = n.op
    if op == 'slot':
        (later if under else now).add(n.extra)
        return
    if op == 'index':
        (later if under else now).update(elements(m, n, under, now, later)[0])
        return
    if op in ('const', 'range'):
        return
    for a in n.args:
        occurring(m, a, under or op == 'next', now, later)


def domain(ty):
    if ty == 'boolean':
        return [False, True]
    if ty[0] == 'range':
        return [('i', k) for k in range(ty[1], ty[2] + 1)]
    if ty[0] == 'enum':
        return list(ty[1])
    return [('w', ty[1], ty[2], k) for k in range(1 << ty[2])]


def type_text(ty):
    if ty == 'boolean':
        return 'boolean'
    if ty[0] == 'range':
        return '%d..%d' % (ty[1], ty[2])
    if ty[0] == 'enum':
        return '{' + ', '.join(show(v) for v in ty[1]) + '}'
    return ('signed word[%d]' if ty[1] else 'unsigned word[%d]') % ty[2]


class Variable:
    """A variable with its section, its dimensions (and the nodes of their bounds), and the type of it or of each element."""
    def __init__(self, section, name, ty, dims=(), bounds=()):
        self.section, self.name, self.type, self.dims, self.bounds = section, name, ty, list(dims), list(bounds)

    def targets(self):
        """What may be assigned: the slots, each as it is written and named."""
        out = []
        for c in combinations(self.dims):
            n = N('name', extra=self.name)
            for k in c:
                n = N('index', n, N('const', extra=('i', k)))
            out.append((n, self.name + subscripts(c)))
        return out


def combinations(dims):
    return itertools.product(*[range(lo, hi + 1) for lo, hi in dims])


def subscripts(c):
    return ''.join('[%d]' % k for k in c)


class Module:
    def __init__(self, name):
        self.name, self.params, self.variables = name, [], []
        self.constants, self.defines, self.items, self.specs = [], [], [], []


class Entry:
    """What an expression may name in its module: a value, or an array. Of a variable of the module `slots` names its slots."""
    def __init__(self, name, kind, is_input, dims=(), variable=False):
        self.name, self.kind, self.is_input, self.dims = name, kind, is_input, list(dims)
        self.slots = [name + subscripts(c) for c in combinations(self.dims)] if variable else None


class Gen:
    def __init__(self, rng):
        self.r = rng
        self.entries, self.constants, self.only, self.of_step, self.nested = [], {}, None, False, 0

    def pick(self, *xs):
        return self.r.choice(xs)

    def model(self):
        r, m = self.r, Model()
        self.m, self.size = m, 1
        main = Module('main')
        m.modules, m.instances, m.types = [main], [], []
        for k in range(r.choice([0, 0, 1, 2])):
            value = r.choice([0, 1, 1, 2, -1])
            main.constants.append(('k%d' % k, N('const', extra=('i', value))))
            self.constants['k%d' % k] = value
        for k in range(r.randint(1, 4)):
            self.declare(main, 'xyzvw'[k], 1, 0.35)
        if not main.variables:
            main.variables.append(Variable('VAR', 'x', 'boolean'))
            m.types.append('boolean')
        self.entries = [self.entry(v) for v in main.variables]
        given = set()
        sub = self.submodule(given) if r.random() < 0.4 else None
        for k in range(r.randint(0, 2)):
            kind = self.kind()
            main.defines.append(('d%d' % k, self.gen(kind, 2, next=False, inputs=False)))
            self.entries.append(Entry('d%d' % k, kind, False))
        self.fill(main, [x for v in main.variables for x in self.assignable(v) if x[1] not in given])
        if sub:
            self.entries, self.constants = sub.entries, sub.known
            self.fill(sub, [x for v in sub.variables for x in self.assignable(v)] + sub.handed)
        return m

    def declare(self, module, name, copies, arrays):
        """Declares a variable or an array, of which there will be so many copies, if the states do not get too many."""
        r = self.r
        section = self.pick('VAR', 'VAR', 'VAR', 'VAR', 'IVAR', 'FROZENVAR')
        ty, dims = self.type(), []
        if r.random() < arrays:
            ty = ty if r.random() < 0.3 else self.pick('boolean', 'boolean', 'boolean', ('range', 0, 1), ('range', -1, 1), ('enum', (('s', 'a'), ('s', 'b'))))
            for _ in range(self.pick(1, 1, 1, 2, 2)):
                lo = r.choice([0, 0, 0, 0, 1, -1, -2])
                dims.append((lo, lo + r.choice([0, 1, 1, 1, 2, 3])))
        states = len(domain(ty)) ** (len(list(combinations(dims))) * copies)
        if self.size * states > (48 if section != 'IVAR' else 96):
            return
        self.size *= states
        self.m.types.append(ty)
        module.variables.append(Variable(section, name, ty, dims, [(self.constant(lo), self.constant(hi)) for lo, hi in dims]))

    def entry(self, v, prefix=''):
        return Entry(prefix + v.name, self.kind_of(v.type), v.section == 'IVAR', v.dims, not prefix)

    def assignable(self, v):
        return [] if v.section == 'IVAR' else [(n, slot, v.section, v.type) for n, slot in v.targets()]

    def submodule(self, given):
        """A module with parameters, and one instance of it or two. Slots of `main` that it assigns are added to those given."""
        r, m = self.r, self.m
        sub = Module('sub')
        names = ['s0', 's1'] if r.random() < 0.3 else ['s0']
        actuals = {name: [] for name in names}
        sub.entries, sub.known, sub.handed = [], {}, []
        for k in range(r.randint(1, 2)):
            self.hand(sub, 'p%d' % k, list(actuals.values()), given)
        outer, self.constants = self.constants, sub.known
        for k in range(r.randint(0, 2)):
            self.declare(sub, 'fg'[k], len(names), 0.5)
        self.constants = outer
        sub.entries = [self.entry(v) for v in sub.variables] + sub.entries
        for name in names:
            self.entries += [self.entry(v, name + '.') for v in sub.variables]
        m.modules.append(sub)
        m.instances = list(actuals.items())
        return sub

    def hand(self, sub, name, rows, given):
        """Gives a parameter an array, a part of one, a value or a constant."""
        r = self.r
        arrays = [e for e in self.entries if e.dims]
        how = r.random()
        sub.params.append(name)
        if how < 0.7 and arrays:
            e = r.choice(arrays)
            rest = r.choice([e.dims] + [e.dims[k:] for k in range(1, len(e.dims) + 1)])
            taken = len(e.dims) - len(rest)
            for row in rows:
                node, chosen = N('name', extra=e.name), []
                for lo, hi in e.dims[:taken]:
                    k = r.randint(lo, hi)
                    chosen.append(k)
                    node = N('index', node, self.constant(k) if r.random() < 0.7 else self.index(lo, hi, k, False, False))
                row.append(node)
            sub.entries.append(Entry(name, e.kind, e.is_input, rest))
            v = next(v for v in self.m.modules[0].variables if v.name == e.name)
            fixed = all(self.is_fixed(n) for n in index_nodes(node))
            if len(rows) == 1 and fixed and v.section != 'IVAR' and r.random() < 0.5:
                self.hand_targets(sub, name, v, rest, chosen, given)
        elif how < 0.85:
            value = r.choice([0, 1, 1, 2])
            sub.known[name] = value
            for row in rows:
                row.append(self.constant(value))
        else:
            values = [e for e in self.entries if not e.dims]
            e = r.choice(values) if values else None
            sub.entries.append(Entry(name, e.kind if e else 'bool', e.is_input if e else False))
            for row in rows:
                row.append(N('name', extra=e.name) if e else N('const', extra=True))

    def hand_targets(self, sub, name, v, rest, chosen, given):
        """The slots of an array of `main` that the module may assign through its parameter."""
        for c in combinations(rest):
            slot = v.name + subscripts(chosen) + subscripts(c)
            if slot in given:
                continue
            node = N('name', extra=name)
            for k in c:
                node = N('index', node, N('const', extra=('i', k)))
            given.add(slot)
            sub.handed.append((node, None, v.section, v.type))

    def fill(self, module, targets):
        """Assignments of these slots, constraints and specifications."""
        r = self.r
        for node, slot, section, ty in targets:
            how = r.random()
            if section == 'FROZENVAR':
                if how < 0.6:
                    module.items.append(('init', node, self.rhs(node, slot, ty, False, acyclic=r.random() < 0.9)))
            elif how < 0.15:
                module.items.append(('now', node, self.rhs(node, slot, ty, False, acyclic=True)))
            else:
                if how < 0.85:
                    module.items.append(('init', node, self.rhs(node, slot, ty, False, acyclic=True)))
                if r.random() < 0.85:
                    self.of_step = r.random() < 0.2
                    module.items.append(('next', node, self.rhs(node, slot, ty, True)))
                    self.of_step = False
        for kind, chance in (('INIT', 0.2), ('INVAR', 0.2), ('TRANS', 0.25), ('JUSTICE', 0.2)):
            if r.random() < chance:
                self.of_step = kind == 'TRANS'
                module.items.append((kind, None, self.gen('bool', 3 if self.of_step else 2, self.of_step, self.of_step)))
                self.of_step = False
        for _ in range(r.randint(1 if module.name == 'main' else 0, 3 if module.name == 'main' else 1)):
            if r.random() < 0.6:
                module.specs.append(('INVARSPEC', self.gen('bool', 3, False, False)))
            else:
                module.specs.append(('LTLSPEC', self.ltl(2)))

    def constant(self, value):
        """A constant of this value, of what may stand in a bound of a type."""
        r = self.r
        names = [name for name, v in self.constants.items() if v == value]
        k = r.random()
        if names and k < 0.5:
            return N('name', extra=r.choice(names))
        if k < 0.8:
            return N('const', extra=('i', value))
        a = r.choice([0, 1, 2, 3])
        if k < 0.9:
            return N('+', N('const', extra=('i', value - a)), N('const', extra=('i', a)))
        return N('-', N('const', extra=('i', value + a)), N('const', extra=('i', a)))

    def is_fixed(self, n):
        return n.op == 'const' or n.extra in self.constants or (n.op in ('+', '-') and all(self.is_fixed(a) for a in n.args))

    def index(self, lo, hi, value, next, inputs):
        """An index: mostly this constant, or what is computed; sometimes it is outside."""
        r = self.r
        k = r.random()
        if k < 0.45 or self.nested > 1:
            return self.constant(value)
        if k < 0.46:
            return self.constant(r.choice([lo - 1, hi + 1]))
        self.nested += 1
        e = self.gen('int', 1, next, inputs)
        self.nested -= 1
        if k < 0.49:
            return e
        e = N('mod', N('abs', e), N('const', extra=('i', hi - lo + 1)))
        return e if lo == 0 else N('+', e, N('const', extra=('i', lo)))

    def element(self, e, next, inputs):
        """An element of an array; None where none may be read."""
        chosen = list(combinations(e.dims))
        if self.only is not None:
            allowed = [c for c in chosen if e.name + subscripts(c) in self.only]
            if not allowed:
                return None
            if len(allowed) < len(chosen):
                node = N('name', extra=e.name)
                for k in self.r.choice(allowed):
                    node = N('index', node, N('const', extra=('i', k)))
                return node
        c = self.r.choice(chosen)
        node = N('name', extra=e.name)
        if self.r.random() < 0.03:
            node = N('paren', node)
        for (lo, hi), k in zip(e.dims, c):
            node = N('index', node, self.index(lo, hi, k, next, inputs))
        return node

    def type(self):
        r = self.r
        k = r.random()
        if k < 0.35:
            return 'boolean'
        if k < 0.6:
            lo = r.choice([0, 0, 0, 1, -2, -1, 3])
            return ('range', lo, lo + r.randint(0, 4))
        if k < 0.8:
            pool = [('s', 'a'), ('s', 'b'), ('s', 'c'), ('i', 1), ('i', -1), ('i', 4)]
            r.shuffle(pool)
            return ('enum', tuple(pool[:r.randint(1, 4)]))
        return ('word', r.random() < 0.4, r.randint(1, 3))

    def kind_of(self, ty):
        if ty == 'boolean':
            return 'bool'
        if ty[0] == 'word':
            return ('word', ty[1], ty[2])
        if ty[0] == 'range' or all(v[0] == 'i' for v in ty[1]):
            return 'int'
        return 'disc'

    def kind(self):
        return self.pick('bool', 'bool', 'int', 'disc', ('word', False, 2), ('word', True, 3), ('word', False, 1))

    def rhs(self, node, slot, ty, is_next, acyclic=False):
        kind, r = self.kind_of(ty), self.r
        k = r.random()
        self.only = self.before(slot) if acyclic else None
        if k < 0.35 and kind in ('int', 'disc', 'bool'):
            vs = domain(ty)
            n = r.randint(1, min(3, len(vs)))
            e = N('set', *[N('const', extra=v) for v in r.sample(vs, n)]) if r.random() < 0.8 or kind != 'int' else N('range', extra=(vs[0][1], vs[-1][1]) if kind == 'int' and ty[0] == 'range' and vs[0][1] >= 0 else (0, 1))
            if r.random() < 0.4:
                e = N('case', self.gen('bool', 1, is_next, is_next), e, N('const', extra=True), self.leaf(kind, is_next, is_next, ty))
        elif k < 0.7:
            args = []
            for _ in range(r.randint(0, 2)):
                args += [self.gen('bool', 1, is_next, is_next), self.gen(kind, 1, is_next, is_next, ty)]
            if r.random() < 0.9 or not args:
                args += [N('const', extra=True), self.leaf(kind, is_next, is_next, ty)]
            e = N('case', *args)
        elif k < 0.85:
            e = self.gen(kind, 2, is_next, is_next, ty)
        else:
            e = self.leaf(kind, is_next, is_next, ty)
            if kind == 'int' and ty[0] == 'range' and r.random() < 0.7:
                w = ty[2] - ty[1] + 1
                x = copied(node) if is_next else N('const', extra=('i', ty[1]))
                e = N('+', N('mod', N('+', N('-', x, N('const', extra=('i', ty[1]))), N('const', extra=('i', 1))), N('const', extra=('i', w))), N('const', extra=('i', ty[1])))
                e = e if ty[1] >= 0 else x
        self.only = None
        return e

    def before(self, slot):
        """The slots of the module that stand before this one."""
        slots = [s for e in self.entries if e.slots for s in e.slots]
        return set(slots[:slots.index(slot)] if slot in slots else [])

    def vars_of(self, want, next, inputs):
        """What may be named here and has values of this kind."""
        out = []
        for e in self.entries:
            if e.is_input and not inputs:
                continue
            if self.only is not None and not (e.slots and any(s in self.only for s in e.slots)):
                continue
            if e.kind == want or (want == 'disc' and e.kind == 'int'):
                out.append(e)
        return out

    def read(self, e, next, inputs):
        return self.element(e, next, inputs) if e.dims else N('name', extra=e.name)

    def leaf(self, kind, next, inputs, ty=None):
        r = self.r
        names = self.vars_of(kind, next, inputs)
        if names and r.random() < 0.65:
            e = r.choice(names)
            if next and self.of_step and not e.is_input and r.random() < 0.3:
                return N('next', self.read(e, False, False))
            return self.read(e, next, inputs)
        if ty is not None:
            return N('const', extra=r.choice(domain(ty)))
        if kind == 'bool':
            return N('const', extra=r.random() < 0.5)
        if kind == 'int':
            return N('const', extra=('i', r.choice([0, 1, 1, 2, 3, 4])))
        if kind == 'disc':
            syms = sorted({v for t in self.m.types if t != 'boolean' and t[0] == 'enum' for v in t[1] if v[0] == 's'})
            return N('const', extra=r.choice(syms)) if syms and r.random() < 0.8 else N('const', extra=('i', r.choice([0, 1, 4])))
        return N('const', extra=('w', kind[1], kind[2], r.randrange(1 << kind[2])))

    def gen(self, kind, depth, next, inputs, ty=None):
        r = self.r
        if depth <= 0 or r.random() < 0.15:
            return self.leaf(kind, next, inputs, ty)
        g = lambda k, d=depth - 1: self.gen(k, d, next, inputs)
        if r.random() < 0.1:
            return N('?', g('bool'), self.gen(kind, depth - 1, next, inputs, ty), self.gen(kind, depth - 1, next, inputs, ty))
        if r.random() < 0.07:
            args = [g('bool'), g(kind)] * r.randint(1, 1)
            if r.random() < 0.8:
                args += [N('const', extra=True), g(kind)]
            return N('case', *args)
        if kind == 'bool':
            k = r.random()
            if k < 0.3:
                return N(self.pick('&', '|', 'xor', 'xnor', '->', '<->', '=', '!='), g('bool'), g('bool'))
            if k < 0.4:
                return N('!', g('bool'))
            if k < 0.6:
                return N(self.pick('=', '!=', '<', '>', '<=', '>='), g('int'), g('int'))
            if k < 0.72:
                return N(self.pick('=', '!='), g('disc'), g('disc'))
            if k < 0.82:
                kk = self.pick('disc', 'bool')
                sets = [N('set', *[g(kk) for _ in range(r.randint(1, 3))]), N('range', extra=(r.randint(0, 2), r.randint(0, 4))) if kk == 'disc' else N('set', g('bool')), N('union', g(kk), N('set', g(kk)))]
                return N('in', g(kk), r.choice(sets))
            w = ('word', r.random() < 0.4, r.randint(1, 3))
            if k < 0.95:
                return N(self.pick('=', '!=', '<', '>', '<=', '>='), g(w), g(w))
            return N('bool', g(('word', False, 1)))
        if kind == 'int':
            k = r.random()
            if k < 0.5:
                return N(self.pick('+', '-', '*', '+', '-'), g('int'), g('int'))
            if k < 0.68:
                return N(self.pick('/', 'mod'), g('int'), g('int') if r.random() < 0.4 else N('const', extra=('i', r.choice([1, 2, 3, 5]))))
            if k < 0.76:
                return N('neg', g('int'))
            if k < 0.82:
                return N('abs', g('int'))
            if k < 0.9:
                return N(self.pick('max', 'min'), g('int'), g('int'))
            if k < 0.97:
                return N('count', *[g('bool') for _ in range(r.randint(1, 3))])
            return N('sizeof', g(('word', False, 2)))
        if kind == 'disc':
            return self.leaf(kind, next, inputs, ty)
        _, signed, width = kind
        k = r.random()
        if k < 0.4:
            return N(self.pick('+', '-', '*', '&', '|', 'xor', 'xnor', '->', '<->'), g(kind), g(kind))
        if k < 0.5:
            return N(self.pick('/', 'mod'), g(kind), g(kind))
        if k < 0.6:
            return N(self.pick('neg', '!'), g(kind))
        if k < 0.7:
            amount = g(('word', False, r.randint(1, 2))) if r.random() < 0.5 else N('const', extra=('i', r.randint(0, width)))
            return N(self.pick('<<', '>>'), g(kind), amount)
        if k < 0.78:
            return N('signed' if signed else 'unsigned', g(('word', not signed, width)))
        if not signed:
            if k < 0.85 and width > 1:
                hi = r.randint(1, width - 1)
                return N('::', g(('word', r.random() < 0.3, hi)), g(('word', r.random() < 0.3, width - hi)))
            if k < 0.92:
                extra = r.randint(0, 2)
                lo = r.randint(0, extra)
                return N('select', g(('word', r.random() < 0.3, width + extra)), extra=(lo + width - 1, lo))
            if width == 1 and k < 0.96:
                return N('word1', g('bool'))
        less = r.randint(1, width)
        if k < 0.96:
            return N('extend', g(('word', signed, less)), N('const', extra=('i', width - less)))
        if signed:
            return N('resize', g(('word', True, less)), N('const', extra=('i', width)))
        return N('resize', g(('word', False, r.randint(1, 4))), N('const', extra=('i', width)))

    def ltl(self, depth):
        r = self.r
        if depth == 0 or r.random() < 0.1:
            return self.gen('bool', 2, False, r.random() < 0.3)
        k = r.random()
        if k < 0.15:
            low = r.choice([0, 0, 1, 2])
            return N(self.pick('BF', 'BG', 'BO', 'BH'), self.ltl(depth - 1), self.constant(low), self.constant(low + r.choice([0, 1, 1, 2])))
        if k < 0.65:
            return N(self.pick('X', 'F', 'G', 'G', 'F', 'Y', 'Z', 'O', 'H'), self.ltl(depth - 1))
        if k < 0.8:
            return N(self.pick('U', 'V', 'S', 'T'), self.ltl(depth - 1), self.ltl(depth - 1))
        return N(self.pick('&', '|', '->', '<->', 'xor'), self.ltl(depth - 1), self.ltl(depth - 1))


def copied(n):
    return N(n.op, *[copied(a) for a in n.args], extra=n.extra)


def index_nodes(n):
    return index_nodes(n.args[0]) + [n.args[1]] if n.op == 'index' else []


def declaration(o, v):
    o.put('%s %s : ' % (v.section, v.name))
    for low, high in v.bounds:
        o.put('array ')
        write(o, low)
        o.put('..')
        write(o, high)
        o.put(' of ')
    o.put(type_text(v.type) + ';\n')


def item_text(o, kind, target, e):
    """Writes an item, and gives its place."""
    if kind in ('init', 'next', 'now'):
        o.put('ASSIGN ')
        at = o.here()
        if kind != 'now':
            o.put(kind + '(')
        write(o, target)
        o.put(' := ' if kind == 'now' else ') := ')
    else:
        at = o.here()
        o.put(kind + ' ')
    write(o, e)
    o.put(';\n')
    return at


def module_text(o, module, instances):
    o.put('MODULE %s%s\n' % (module.name, '(%s)' % ', '.join(module.params) if module.params else ''))
    for name, e in module.constants:
        o.put('DEFINE %s := ' % name)
        write(o, e)
        o.put(';\n')
    for v in module.variables:
        declaration(o, v)
    for name, actuals in instances:
        o.put('VAR %s : sub(' % name)
        for k, e in enumerate(actuals):
            if k:
                o.put(', ')
            write(o, e)
        o.put(');\n')
    for d, e in module.defines:
        o.put('DEFINE %s := ' % d)
        write(o, e)
        o.put(';\n')
    module.placed = [(kind, target, e, item_text(o, kind, target, e)) for kind, target, e in module.items + [(k, None, e) for k, e in module.specs]]


class Scope:
    """An instance: what its names lead to."""
    def __init__(self, m, module, prefix, actuals=(), owner=None):
        self.m, self.module, self.prefix, self.owner = m, module, prefix, owner
        self.given = dict(zip(module.params, actuals))
        self.defined = dict(module.constants + module.defines)

    def variable(self, name, place):
        op = 'array' if name in self.m.dims else 'slot'
        out = N(op, extra=name)
        out.first = out.place = place
        return out

    def resolved(self, n):
        """A copy of the expression in which names are what they lead to."""
        if n.op != 'name':
            out = N(n.op, *[self.resolved(a) for a in n.args], extra=n.extra)
            out.first, out.place = n.first, n.place
            if n.op in BOUNDED:
                out.window = (constant(out.args[1]), constant(out.args[2]))
                out.args = out.args[:1]
            return out
        if n.extra in self.given:
            out = N('named', self.owner.resolved(self.given[n.extra]))
        elif n.extra in self.defined:
            out = N('named', self.resolved(self.defined[n.extra]))
        else:
            return self.variable(self.prefix + n.extra, n.place)
        out.first, out.place = n.first, n.place
        return out


def text_of(m):
    o = Out()
    main, subs = m.modules[0], m.modules[1:]
    before = len(main.variables) % 2 == 0
    for module in subs + [main] if before else [main] + subs:
        module_text(o, module, m.instances if module is main else [])
    m.slots, m.kinds, m.order, m.dims = {}, {}, [], {}
    scopes = [Scope(m, main, '')]
    scopes += [Scope(m, subs[0], name + '.', actuals, scopes[0]) for name, actuals in m.instances]
    for scope in scopes:
        for v in scope.module.variables:
            if v.dims:
                m.dims[scope.prefix + v.name] = v.dims
            for c in combinations(v.dims):
                name = scope.prefix + v.name + subscripts(c)
                m.slots[name], m.kinds[name] = v.type, v.section
                m.order.append(name)
    m.listed = []
    for scope in scopes:
        for kind, target, e, at in scope.module.placed:
            slot = None if target is None else target_slot(m, scope.resolved(target))
            m.listed.append((kind, slot, scope.resolved(e), at, scope.prefix[:-1] or 'main'))
    return ''.join(o.text)


def target_slot(m, n):
    """The slot that a left side leads to; its indices are constants."""
    while n.op == 'named':
        n = n.args[0]
    return element(m, n, {}, {}, {})[0] if n.op == 'index' else n.extra


TEMP = {'X', 'F', 'G', 'Y', 'Z', 'O', 'H', 'U', 'V', 'S', 'T'} | BOUNDED


def temporal(n):
    return n.op in TEMP or any(temporal(a) for a in n.args)


def formulas(n):
    """The operands of an operator over formulas, without its bounds."""
    return n.args[:1] if n.op in BOUNDED else n.args


def parts(n):
    """The propositional parts of a formula, left to right."""
    if n.op in TEMP or n.op in ('!', '&', '|', 'xor', 'xnor', '->', '<->'):
        if temporal(n) or n.op in TEMP or n.op in ('!', '&', '|', 'xor', 'xnor', '->', '<->'):
            out = []
            for a in formulas(n):
                out += parts(a)
            return out
    return [n]


def item_value(m, item, s, u, t):
    kind, name, e, *_ = item
    if kind == 'LTLSPEC':
        for p in parts(e):
            ev(m, p, s, u, None)
        return
    if kind in ('next', 'TRANS'):
        vs = ev(m, e, s, u, t)
    else:
        vs = ev(m, e, s, {}, None)
    if kind in ('init', 'next', 'now'):
        dom = domain(m.slots[name])
        if any(v not in dom for v in vs):
            raise Fault(602, e.first)


def valuations(m, names):
    return itertools.product(*[domain(m.slots[n]) for n in names])


def states_of(m):
    names = [n for n in m.order if m.kinds[n] != 'IVAR']
    return [dict(zip(names, vs)) for vs in valuations(m, names)]


def inputs_of(m):
    names = [n for n in m.order if m.kinds[n] == 'IVAR']
    return [dict(zip(names, vs)) for vs in valuations(m, names)]


def faults_of(m, item):
    """All faults of the item: (rule, place) with whether it comes at a valuation."""
    now, later = set(), set()
    occurring(m, item[2], False, now, later)
    now, later = [n for n in m.order if n in now], [n for n in m.order if n in later]
    out = []
    for vs in valuations(m, now):
        for ws in valuations(m, later):
            s = dict(zip(now, vs))
            t = dict(zip(later, ws))
            u = {k: v for k, v in s.items() if m.kinds[k] == 'IVAR'}
            st = {k: v for k, v in s.items() if m.kinds[k] != 'IVAR'}
            try:
                item_value(m, item, st, u, t)
            except Fault as f:
                out.append((f.rule, f.place, s, t))
    return now, later, out


def is_true(m, e, s, u, t):
    return one(ev(m, e, s, u, t))


def allowed(m, s, when):
    for kind, name, e, *_ in m.listed:
        if kind == 'now' or (kind == 'init' and when == 'first'):
            if s[name] not in ev(m, e, s, {}, None):
                return False
        if kind == 'INVAR' or (kind == 'INIT' and when == 'first'):
            if not is_true(m, e, s, {}, None):
                return False
    return True


def step_ok(m, s, u, t):
    for n in s:
        if m.kinds[n] == 'FROZENVAR' and s[n] != t[n]:
            return False
    for kind, name, e, *_ in m.listed:
        if kind == 'next' and t[name] not in ev(m, e, s, u, t):
            return False
        if kind == 'TRANS' and not is_true(m, e, s, u, t):
            return False
    return True


class Graph:
    def __init__(self, m):
        self.m = m
        self.states = [s for s in states_of(m) if allowed(m, s, 'always')]
        self.first = [i for i, s in enumerate(self.states) if allowed(m, s, 'first')]
        self.inputs = inputs_of(m)
        self.next = {}
        seen, todo = set(self.first), list(self.first)
        while todo:
            i = todo.pop()
            out = []
            for k, u in enumerate(self.inputs):
                for j, t in enumerate(self.states):
                    if step_ok(m, self.states[i], u, t):
                        out.append((k, j))
                        if j not in seen:
                            seen.add(j)
                            todo.append(j)
            self.next[i] = out
        self.reached = seen


def unfolded(n):
    """The formula without bounds: `F [0,b] f` is `f | X F [0,b-1] f`, and so on."""
    if not temporal(n):
        return n
    if n.op not in BOUNDED:
        out = N(n.op, *[unfolded(a) for a in n.args])
        return out
    f = unfolded(n.args[0])
    low, high = n.window
    step = {'BF': 'X', 'BG': 'X', 'BO': 'Y', 'BH': 'Z'}[n.op]
    join = '|' if n.op in ('BF', 'BO') else '&'
    out = f
    for _ in range(high - low):
        out = N(join, f, N(step, out))
    for _ in range(low):
        out = N(step, out)
    return out


def violated(g, f):
    """Whether some fair lasso violates the formula: a tableau over (state, input, one bit for each temporal node)."""
    m, f = g.m, unfolded(f)
    nodes = []

    def collect(n):
        if temporal(n):
            for a in n.args:
                collect(a)
        if n.op in TEMP and not any(n is x for x in nodes):
            nodes.append(n)
    collect(f)
    index = {id(n): k for k, n in enumerate(nodes)}
    truth_cache = {}

    def truth(n, i, k, bits):
        if id(n) in index:
            return bits[index[id(n)]]
        if temporal(n):
            vs = [truth(a, i, k, bits) for a in n.args]
            return apply(n, n.op, vs)
        key = (id(n), i, k)
        if key not in truth_cache:
            truth_cache[key] = one(ev(m, n, g.states[i], g.inputs[k], None))
        return truth_cache[key]

    moments = {}
    for i in g.reached:
        for k in sorted({k for k, _ in g.next[i]}):
            moments[(i, k)] = [j for kk, j in g.next[i] if kk == k]
    allbits = list(itertools.product([False, True], repeat=len(nodes)))
    if len(moments) * len(allbits) > 6000:
        return None

    def starts(v):
        i, k, b = v
        for n in nodes:
            x = b[index[id(n)]]
            a = [truth(c, i, k, b) for c in n.args]
            if n.op == 'Y' and x: return False
            if n.op == 'Z' and not x: return False
            if n.op in 'OH' and x != a[0]: return False
            if n.op in 'ST' and x != a[1]: return False
        return True

    def steps(v, w):
        (i, k, b), (j, l, c) = v, w
        for n in nodes:
            x, y = b[index[id(n)]], c[index[id(n)]]
            a = [truth(q, i, k, b) for q in n.args]
            d = [truth(q, j, l, c) for q in n.args]
            if n.op == 'X': ok = x == d[0]
            elif n.op == 'F': ok = x == (a[0] or y)
            elif n.op == 'G': ok = x == (a[0] and y)
            elif n.op == 'U': ok = x == (a[1] or (a[0] and y))
            elif n.op == 'V': ok = x == (a[1] and (a[0] or y))
            elif n.op in 'YZ': ok = y == a[0]
            elif n.op == 'O': ok = y == (d[0] or x)
            elif n.op == 'H': ok = y == (d[0] and x)
            elif n.op == 'S': ok = y == (d[1] or (d[0] and x))
            elif n.op == 'T': ok = y == (d[1] and (d[0] or x))
            if not ok: return False
        return True

    succ = {}
    first = [(i, k, b) for i in g.first for k in sorted({k for k, _ in g.next[i]}) for b in allbits if starts((i, k, b)) and not truth(f, i, k, b)]
    seen, todo = set(first), list(first)
    while todo:
        v = todo.pop()
        out = []
        for j in moments[(v[0], v[1])]:
            for l in sorted({k for k, _ in g.next[j]}):
                for c in allbits:
                    w = (j, l, c)
                    if steps(v, w):
                        out.append(w)
                        if w not in seen:
                            seen.add(w)
                            todo.append(w)
        succ[v] = out
    fair = [lambda v, e=e: is_true(m, e, g.states[v[0]], {}, None) for kind, _, e, *_ in m.listed if kind == 'JUSTICE']
    for n in nodes:
        q = index[id(n)]
        if n.op == 'F': fair.append(lambda v, n=n, q=q: (not v[2][q]) or truth(n.args[0], *v))
        if n.op == 'U': fair.append(lambda v, n=n, q=q: (not v[2][q]) or truth(n.args[1], *v))
        if n.op == 'G': fair.append(lambda v, n=n, q=q: v[2][q] or not truth(n.args[0], *v))
        if n.op == 'V': fair.append(lambda v, n=n, q=q: v[2][q] or not truth(n.args[1], *v))
    for scc in sccs(seen, succ):
        if len(scc) == 1 and scc[0] not in succ[scc[0]]:
            continue
        if all(any(t(v) for v in scc) for t in fair):
            return True
    return False


def sccs(vertices, succ):
    index, low, on, stack, out, n = {}, {}, set(), [], [], 0
    for root in vertices:
        if root in index:
            continue
        work = [(root, iter(succ[root]))]
        index[root] = low[root] = n
        n += 1
        stack.append(root)
        on.add(root)
        while work:
            v, it = work[-1]
            for w in it:
                if w not in index:
                    index[w] = low[w] = n
                    n += 1
                    stack.append(w)
                    on.add(w)
                    work.append((w, iter(succ[w])))
                    break
                elif w in on:
                    low[v] = min(low[v], index[w])
            else:
                work.pop()
                if work:
                    low[work[-1][0]] = min(low[work[-1][0]], low[v])
                if low[v] == index[v]:
                    c = []
                    while True:
                        w = stack.pop()
                        on.discard(w)
                        c.append(w)
                        if w == v:
                            break
                    out.append(c)
    return out


def read_values(m, text, names):
    out = {}
    if text.strip():
        for part in text.strip().split(', '):
            k, v = part.split(' = ')
            out[k] = next((x for x in domain(m.slots[k]) if show(x) == v), None)
            assert out[k] is not None, part
    assert list(out) == names, (list(out), names)
    return out


def truth_on(m, f, states, inputs, start):
    """Truth of the formula at time 0 of a lasso, by unrolling past's height."""
    n, p = len(states), len(states) - start

    def height(x):
        own = x.window[1] if x.op in ('BO', 'BH') else 1 if x.op in ('Y', 'Z', 'O', 'H', 'S', 'T') else 0
        return max([height(a) for a in x.args], default=0) + own
    h = height(f)
    total = n + (h + 1) * p
    at = lambda i: i if i < n else start + (i - start) % p
    last = total - p

    def table(x):
        if not temporal(x):
            return [one(ev(m, x, states[at(i)], inputs[at(i)], None)) for i in range(total)]
        vs = [table(a) for a in formulas(x)]
        if x.op not in TEMP:
            return [apply(x, x.op, [v[i] for v in vs]) for i in range(total)]
        nxt = lambda i: i + 1 if i + 1 < total else last
        if x.op == 'X':
            return [vs[0][nxt(i)] for i in range(total)]
        if x.op in ('BF', 'BG'):
            def later(i, k):
                for _ in range(k):
                    i = nxt(i)
                return i
            which = any if x.op == 'BF' else all
            return [which(vs[0][later(i, k)] for k in range(x.window[0], x.window[1] + 1)) for i in range(total)]
        if x.op in ('BO', 'BH'):
            which = any if x.op == 'BO' else all
            return [which(vs[0][i - k] for k in range(x.window[0], x.window[1] + 1) if k <= i) for i in range(total)]
        if x.op in ('F', 'G', 'U', 'V'):
            a = vs[0]
            b = vs[1] if len(vs) > 1 else vs[0]
            r = [x.op in ('G', 'V')] * total
            for _ in range(2):
                for i in range(total - 1, -1, -1):
                    y = r[nxt(i)]
                    r[i] = {'F': b[i] or y, 'G': b[i] and y, 'U': b[i] or (a[i] and y), 'V': b[i] and (a[i] or y)}[x.op]
            return r
        r = []
        for i in range(total):
            a = vs[0]
            b = vs[1] if len(vs) > 1 else vs[0]
            y = r[i - 1] if i else None
            if x.op == 'Y': r.append(a[i - 1] if i else False)
            elif x.op == 'Z': r.append(a[i - 1] if i else True)
            elif x.op == 'O': r.append(a[i] or bool(y))
            elif x.op == 'H': r.append(a[i] and (y if i else True))
            elif x.op == 'S': r.append(b[i] or (a[i] and bool(y)))
            elif x.op == 'T': r.append(b[i] and (a[i] or (y if i else True)) if i else b[i])
        return r
    return table(f)[0]


def check_trace(m, lines, spec):
    names = [n for n in m.order if m.kinds[n] != 'IVAR']
    ins = [n for n in m.order if m.kinds[n] == 'IVAR']
    states, inputs, loop = [], [], None
    for line in lines:
        if line.startswith('--@ state '):
            states.append(read_values(m, line.split(':', 1)[1], names))
        elif line.startswith('--@ input '):
            inputs.append(read_values(m, line.split(':', 1)[1], ins))
        elif line.startswith('--@ loop '):
            loop = int(line.split()[2])
    if not ins:
        inputs = [{}] * len(states)
    if not (allowed(m, states[0], 'first') and all(allowed(m, s, 'always') for s in states)):
        return 'no initial state, or an invariant is broken'
    for i in range(len(states) - 1):
        if not step_ok(m, states[i], inputs[i], states[i + 1]):
            return 'no step %d' % i
    kind, _, e, *_ = spec
    if kind == 'INVARSPEC':
        return None if is_true(m, e, states[-1], {}, None) is False else 'the last state is not bad'
    if not step_ok(m, states[-1], inputs[-1], states[loop]):
        return 'no step back'
    for k, _, j, *_ in m.listed:
        if k == 'JUSTICE' and not any(is_true(m, j, s, {}, None) for s in states[loop:]):
            return 'unfair'
    return 'the formula holds' if truth_on(m, e, states, inputs, loop) else None


def call(cmd, words, text):
    return subprocess.run(cmd + words, input=text.encode(), stdout=subprocess.PIPE, stderr=subprocess.PIPE, timeout=300)


def listing(m):
    """What `flat` prints."""
    sections = {'VAR': 'state', 'IVAR': 'input', 'FROZENVAR': 'frozen'}
    out = ['-- slot %d %s %s : %s' % (k, sections[m.kinds[n]], n, type_text(m.slots[n])) for k, n in enumerate(m.order)]
    items = [x for x in m.listed if x[0] not in ('INVARSPEC', 'LTLSPEC')]
    return out + ['-- item %d %s at %d:%d of %s' % (k, x[0], x[3][0], x[3][1], x[4]) for k, x in enumerate(items)]


def wrong_listing(m, text, cmd):
    out = call(cmd, ['flat'], text).stdout.decode().split('\n')
    want = listing(m) + ['']
    return None if out == want else next('flat: %r, not %r' % (x, y) for x, y in itertools.zip_longest(out, want) if x != y)


def wrong_again(text, cmd, words):
    """The report with certificates, judged by `recheck`."""
    report = call(cmd, words + ['--cert'], text).stdout.decode()
    out = call(cmd, ['recheck'], text + report).stdout.decode().split('\n')
    said = [x for x in report.split('\n') if x.startswith('-- spec ')]
    shown = {'true': 'is shown true', 'false': 'is shown false'}
    want = [' '.join(x.split(' ')[:4]) + ' ' + shown.get(x.split(' is ')[1], 'has nothing shown') for x in said]
    return None if out == want + [''] else 'recheck: %r' % out[:4]


def assigned_twice(m):
    """How the first assignment of a slot that another one has assigned is refused."""
    before = []
    for kind, slot, _, at, _ in m.listed:
        if slot is None:
            continue
        if any(slot == other and (kind == k or 'now' in (kind, k)) for k, other in before):
            return '-- refused 501 AssignedTwice at %d:%d: %s' % (at[0], at[1], slot)
        before.append((kind, slot))
    return None


def dependences(m, time):
    """Of initial values or of next ones: what each slot depends on, and where it is assigned."""
    graph, places = {}, {}
    for kind, slot, e, at, _ in m.listed:
        if kind not in ('now', time):
            continue
        now, later = set(), set()
        occurring(m, e, False, now, later)
        graph[slot], places[slot] = later if kind == 'next' else now, at
    return graph, places


def has_cycle(graph):
    succ = {slot: [t for t in after if t in graph] for slot, after in graph.items()}
    return any(len(c) > 1 or c[0] in succ[c[0]] for c in sccs(list(succ), succ))


def wrong_assignments(m, line):
    """Whether the refusal of assignments that meet, or of a cycle of them, is right; and that there is one where it must be."""
    said = line if line.startswith('-- refused 50') else None
    twice = assigned_twice(m)
    if twice:
        return None if said == twice else 'not: ' + twice
    for graph, places in (dependences(m, 'init'), dependences(m, 'next')):
        if not has_cycle(graph):
            continue
        head, _, detail = (said or '').partition(': ')
        path = detail.split(', ')
        at = places.get(path[0], (0, 0))
        right = head == '-- refused 502 AssignCycle at %d:%d' % at and path[0] == path[-1] and len(path) > 1
        right = right and len(set(path)) == len(path) - 1 and all(b in graph[a] for a, b in zip(path, path[1:]))
        return None if right and min(path, key=m.order.index) == path[0] else 'a cycle of assignments'
    return 'no cycle' if said else None


def judge(m, text, cmd, words, again=False):
    p = call(cmd, words, text)
    out = p.stdout.decode().split('\n')
    if p.returncode in (5, 6, 7) or p.stderr:
        return 'status %d %r' % (p.returncode, p.stderr[-200:]), out
    order = [x for x in m.listed if x[0] not in ('INVARSPEC', 'LTLSPEC')] + [x for x in m.listed if x[0] in ('INVARSPEC', 'LTLSPEC')]
    refused = out[0].startswith('-- refused ')
    why = None if out[0].startswith(('-- refused 2', '-- refused 3', '-- refused 4')) else wrong_assignments(m, out[0])
    if why:
        return why, out
    if refused and not out[0].startswith('-- refused 6'):
        return 'refusal', out
    why = wrong_listing(m, text, cmd)
    if why:
        return why, out
    for item in order:
        now, later, fs = faults_of(m, item)
        if fs:
            if not refused:
                return 'item at %s faults: %s' % (item[3], fs[0]), out
            head, _, detail = out[0].partition(': ')
            for rule, place, s, t in fs:
                want = '-- refused %d %s at %d:%d' % (rule, NAMES[rule], place[0], place[1])
                said = ', '.join(['%s = %s' % (k, show(s[k])) for k in now] + ['next(%s) = %s' % (k, show(t[k])) for k in later])
                if head == want and said == detail and p.returncode == 3:
                    return None, ['refused']
            return 'wrong refusal, e.g. %s %s %s %s' % fs[0], out
    if refused:
        return 'refused without a fault', out
    g = Graph(m)
    k, summary, statuses = 0, [], set()
    for i, spec in enumerate(x for x in m.listed if x[0] in ('INVARSPEC', 'LTLSPEC')):
        line = out[k]
        k += 1
        head = '-- spec %d %s is ' % (i + 1, spec[0])
        if not line.startswith(head):
            return 'line %r' % line, out
        said = line[len(head):]
        trace = []
        while k < len(out) and out[k].startswith('--@'):
            trace.append(out[k])
            k += 1
        if spec[0] == 'INVARSPEC':
            bad = any(not is_true(m, spec[2], g.states[j], {}, None) for j in g.reached)
        else:
            bad = violated(g, spec[2])
        summary.append(said.split(':')[0] + ('?' if bad is None else ''))
        statuses.add(said.split(':')[0])
        if said == 'true' and bad:
            return 'spec %d is false' % (i + 1), out
        if said == 'false':
            if bad is False:
                return 'spec %d is true' % (i + 1), out
            why = check_trace(m, trace, spec)
            if why:
                return 'trace of spec %d: %s' % (i + 1, why), out
        if said.startswith('unknown') and spec[0] == 'INVARSPEC':
            return 'spec %d unknown' % (i + 1), out
    want = 1 if 'false' in statuses else 2 if 'unknown' in statuses else 0
    if p.returncode != want:
        return 'status %d' % p.returncode, out
    return (wrong_again(text, cmd, words) if again else None), summary


def main():
    a = argparse.ArgumentParser()
    a.add_argument('--exe', required=True)
    a.add_argument('--count', type=int, default=200)
    a.add_argument('--seed', type=int, default=1)
    a.add_argument('--words', default='check')
    a.add_argument('--keep', default='/tmp/judged')
    a.add_argument('--recheck', action='store_true')
    a = a.parse_args()
    cmd = shlex.split(a.exe)
    os.makedirs(a.keep, exist_ok=True)
    tally, wrong = {}, 0
    for k in range(a.count):
        seed = a.seed * 1000003 + k
        m = Gen(random.Random(seed)).model()
        try:
            text = text_of(m)
        except Fault:
            tally['left out'] = tally.get('left out', 0) + 1    # a parameter that is assigned was given an element outside its array
            continue
        try:
            why, out = judge(m, text, cmd, shlex.split(a.words), a.recheck)
        except subprocess.TimeoutExpired:
            why, out = 'no answer in time', []
        if why == 'refusal':
            key = out[0].split(' at ')[0]
            tally[key] = tally.get(key, 0) + 1
            continue
        if why:
            wrong += 1
            name = '%s/%d.smv' % (a.keep, seed)
            open(name, 'w').write(text)
            print('WRONG %s: %s\n   %s' % (name, why, '\n   '.join(out[:6])), flush=True)
            continue
        for s in out:
            tally[s] = tally.get(s, 0) + 1
    print('%d models, %d wrong' % (a.count, wrong), tally)
    return 1 if wrong else 0


if __name__ == '__main__':
    sys.exit(main())
