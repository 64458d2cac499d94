#!/usr/bin/env python3
"""Texts of models, most of them broken, judged by a second reading of the language that shares nothing with smvcheck.

texts.py --exe CMD [--count N] [--seed S] [--seconds N] [--keep DIR] [--only KIND] [--strict] [--words WORDS]
         [--text FILE]

The judge reads a text on its own: tokens, phrases, names, instances, depths, types, kinds, assignments, cycles and
sizes, in the order in which the language's rules stand. It says which rule is broken first, where, and with which
detail, or else what `flat` lists. The program's `flat` has to say the same, byte for byte, with the right status.
Where assignments depend on each other in a circle, each simple circle that begins with its least slot is right.

Texts are of five kinds:

- `given`: the examples, and the texts in this file that together use every construct of the language;
- `changed`: these with random changes of tokens, lines, sections and bytes;
- `made`: random models that mostly break just one or two rules;
- `spelled`: the beginning of a text with a row of pieces of tokens behind it;
- `mixed`: random items over the names of one model, which has names of all sorts.

A text on which the two differ is made smaller while they differ in the same way, and kept.

Some departures of the program are known (DEPARTURES); texts that show them are counted, and with `--strict` kept.

With `--words check` or `--words recheck` these are asked, which refuse the same texts for the same reasons. Of a text
that is accepted it is only asked that they refuse it by none of these rules.

What is left out: faults at valuations (rules 601 to 605), which `flat` does not ask, and reports (701, 702).
"""
import argparse
import collections
import os
import random
import re
import shlex
import subprocess
import sys
import threading
import time

RULES = {
    101: 'BadByte', 102: 'OpenComment', 103: 'BadWordConstant', 104: 'IntTooLarge', 105: 'SourceTooLarge',
    201: 'Unexpected', 202: 'TooDeep', 203: 'Unsupported', 301: 'NoMain', 302: 'MainHasParameters',
    303: 'DuplicateModule', 304: 'UnknownName', 305: 'DuplicateName', 306: 'UnknownModule', 307: 'ArgumentCount',
    308: 'ModuleCycle', 309: 'DefineCycle', 310: 'UnfoldedDepth', 311: 'TooManyInstances', 312: 'TooManySlots',
    401: 'TypeMismatch', 402: 'WordWidth', 403: 'EmptyRange', 404: 'NotConstant', 405: 'SetHere', 406: 'NextHere',
    407: 'InputHere', 408: 'TemporalHere', 409: 'IntWidth', 410: 'DuplicateElement', 411: 'NotAssignable',
    412: 'BadSelection', 413: 'BadBound', 501: 'AssignedTwice', 502: 'AssignCycle', 511: 'TooManyBits',
}

SOURCE_LIMIT = 16777216
INTEGER_LIMIT = 2147483647
LEVEL_LIMIT = 256
DEPTH_LIMIT = 2000
INSTANCE_LIMIT = 100000
SLOT_LIMIT = 65536
BIT_LIMIT = 65536
WIDTH_LIMIT = 128
BOUND_LIMIT = 255
WIDE = ' * '.join(['2147483647'] * 5)


class Refused(Exception):
    """A broken rule, its place (line, column) and its detail, if it has one."""

    def __init__(self, rule, place, detail=None):
        super().__init__(rule)
        self.rule, self.place, self.detail = rule, place, detail

    def line(self):
        """The line that is printed."""
        said = '-- refused %d %s at %d:%d' % (self.rule, RULES[self.rule], self.place[0], self.place[1])
        return said if self.detail is None else '%s: %s' % (said, self.detail)


# --- tokens -----------------------------------------------------------------------------------------------------------

RESERVED = set('''MODULE VAR IVAR FROZENVAR DEFINE CONSTANTS ASSIGN INIT INVAR TRANS JUSTICE FAIRNESS INVARSPEC LTLSPEC
NAME boolean word unsigned signed array of self next init case esac mod union in xor xnor TRUE FALSE word1 bool extend
resize sizeof uwconst swconst X F G U V Y Z O H S T'''.split())
UNSUPPORTED = set('''process COMPASSION PSLSPEC COMPUTE PRED MIRROR ISA MDEFINE integer real toint SPEC CTLSPEC A E AX
AF AG EX EF EG BU ABF ABG EBF EBG'''.split())
SYMBOLS = sorted('( ) [ ] { } , ; : . .. := :: = != < > <= >= + - * / & | ! ? -> <-> << >>'.split(),
                 key=len, reverse=True)
SYMBOLS_OF = collections.defaultdict(list)
for _symbol in SYMBOLS:
    SYMBOLS_OF[ord(_symbol[0])].append(_symbol.encode())

WHITE = re.compile(rb'[ \t\n\v\f\r]+')
IDENTIFIER = re.compile(rb'[A-Za-z_][A-Za-z0-9_$#-]*')
INTEGER = re.compile(rb'[0-9]+')
WORD_BEGINS = re.compile(rb'0[us]?[bodhBODH]')
WORD_CONSTANT = re.compile(rb'0([us]?)([bodhBODH])([0-9]*)_([A-Za-z0-9_]*)')
BASES = {'b': (2, 1), 'o': (8, 3), 'd': (10, None), 'h': (16, 4)}


class Token:
    """A token: `fixed` (a symbol or reserved word), `name`, `integer`, `word` or `end`; its text and place."""
    __slots__ = ('kind', 'text', 'place', 'value')

    def __init__(self, kind, text, place, value=None):
        self.kind, self.text, self.place, self.value = kind, text, place, value


def word_constant(source, at):
    """The end of the word constant that begins here, its sign and its width; None if it is malformed."""
    found = WORD_CONSTANT.match(source, at)
    if not found:
        return None
    base, bits = BASES[found.group(2).decode().lower()]
    digits = found.group(4).decode().replace('_', '')
    if not digits:
        return None
    allowed = '0123456789abcdef'[:base]
    if any(digit not in allowed for digit in digits.lower()):
        return None
    if found.group(3):
        if len(found.group(3).lstrip(b'0')) > 6:
            return None
        width = int(found.group(3).lstrip(b'0') or b'0')
    elif bits is None:
        return None
    else:
        width = bits * len(digits)
    if not 1 <= width <= WIDTH_LIMIT:
        return None
    counted = digits.lstrip('0') or '0'
    if len(counted) > 200 or int(counted, base) >= 1 << width:
        return None
    return found.end(), found.group(1) == b's', width


def tokens_of(source):
    """The tokens of a source with the end behind them, or the first rule of 101 to 105 that is broken."""
    if len(source) > SOURCE_LIMIT:
        raise Refused(105, (1, 1))
    found, at, line, line_begins, size = [], 0, 1, 0, len(source)

    def passed(until):
        nonlocal at, line, line_begins
        feeds = source.count(b'\n', at, until)
        if feeds:
            line += feeds
            line_begins = source.rfind(b'\n', at, until) + 1
        at = until

    while at < size:
        white = WHITE.match(source, at)
        if white:
            passed(white.end())
            continue
        place = (line, at - line_begins + 1)
        if source.startswith(b'--', at):
            feed = source.find(b'\n', at)
            at = size if feed < 0 else feed
            continue
        if source.startswith(b'/--', at):
            closing = source.find(b'--/', at + 3)
            if closing < 0:
                raise Refused(102, place)
            passed(closing + 3)
            continue
        name = IDENTIFIER.match(source, at)
        if name:
            text = name.group().decode()
            fixed = text in RESERVED or text in UNSUPPORTED
            found.append(Token('fixed' if fixed else 'name', text, place))
            at = name.end()
            continue
        if WORD_BEGINS.match(source, at):
            constant = word_constant(source, at)
            if constant is None:
                raise Refused(103, place)
            found.append(Token('word', source[at:constant[0]].decode(), place, constant[1:]))
            at = constant[0]
            continue
        digits = INTEGER.match(source, at)
        if digits:
            text = digits.group().decode()
            counted = text.lstrip('0') or '0'
            if len(counted) > 10 or int(counted) > INTEGER_LIMIT:
                raise Refused(104, place)
            found.append(Token('integer', text, place, int(counted)))
            at = digits.end()
            continue
        symbol = next((s for s in SYMBOLS_OF.get(source[at], ()) if source.startswith(s, at)), None)
        if symbol is None:
            raise Refused(101, place)
        found.append(Token('fixed', symbol.decode(), place))
        at += len(symbol)
    found.append(Token('end', 'end', (line, at - line_begins + 1)))
    return found


# --- phrases ----------------------------------------------------------------------------------------------------------

class Node:
    """An expression: what it is, its place, its operands, what belongs to it, and how many parentheses stand round it.

    The forms: integer, truth, word, name, range, set, case, call, next, unary, timed (a temporal operator before its
    operand, perhaps with bounds), binary, choice (`? :`), index, select.
    """
    __slots__ = ('form', 'place', 'operands', 'value', 'bounds', 'wraps')

    def __init__(self, form, place, operands=(), value=None, bounds=()):
        self.form, self.place, self.operands, self.value = form, place, list(operands), value
        self.bounds, self.wraps = list(bounds), 0

    def parts(self):
        """The operands in the order of the text, bounds among them."""
        return self.bounds + self.operands


class Type:
    """A declared type: boolean, word, enumeration, range, array or module."""
    __slots__ = ('form', 'place', 'signed', 'limits', 'elements', 'element', 'name', 'arguments')

    def __init__(self, form, place):
        self.form, self.place, self.signed, self.limits, self.elements = form, place, False, [], []
        self.element, self.name, self.arguments = None, None, []

    def expressions(self):
        """All expressions of the type, in the order of the text."""
        found = list(self.limits) + list(self.arguments)
        return found + (self.element.expressions() if self.element else [])

    def inmost(self):
        """What the elements of an array of arrays are; else the type itself."""
        return self.element.inmost() if self.element else self


Declaration = collections.namedtuple('Declaration', 'section name place type')
Definition = collections.namedtuple('Definition', 'name place body')
Constants = collections.namedtuple('Constants', 'names')
Assignment = collections.namedtuple('Assignment', 'kind place target indices body')
Constraint = collections.namedtuple('Constraint', 'kind place body')


class Module:
    """A module: its name and parameters with their places, and what it declares and asks in the order of the text."""

    def __init__(self, place, name, name_place):
        self.place, self.name, self.name_place, self.parameters, self.entries = place, name, name_place, [], []

    def declarations(self):
        """The declared variables, instances and arrays."""
        return [entry for entry in self.entries if isinstance(entry, Declaration)]


BINARY_LEVELS = [('|', 'xor', 'xnor'), ('&',), ('U', 'V', 'S', 'T'), ('=', '!=', '<', '>', '<=', '>='), ('in',),
                 ('union',), ('<<', '>>'), ('+', '-'), ('*', '/', 'mod')]
TIMED_LEVEL, RELATION_LEVEL, PRODUCT_LEVEL = 2, 3, 8
TIMED = ('X', 'F', 'G', 'Y', 'Z', 'O', 'H')
BOUNDED = ('F', 'G', 'O', 'H')
CALLS = ('word1', 'bool', 'signed', 'unsigned', 'extend', 'resize', 'sizeof', 'uwconst', 'swconst')
NAMED_CALLS = ('abs', 'max', 'min', 'count')
DECLARING = ('VAR', 'IVAR', 'FROZENVAR')
CONSTRAINING = ('INIT', 'INVAR', 'TRANS', 'JUSTICE', 'FAIRNESS')
SPECIFYING = ('INVARSPEC', 'LTLSPEC')


class Reader:
    """Reads phrases from tokens; each token is refused where no program begins so."""

    def __init__(self, tokens):
        self.tokens, self.at, self.levels = tokens, 0, 0

    # tokens
    @property
    def token(self):
        return self.tokens[self.at]

    def sees(self, *texts):
        """Whether the next token is one of these symbols or reserved words."""
        token = self.tokens[self.at]
        return token.kind == 'fixed' and token.text in texts

    def refuse(self):
        """The next token is unexpected."""
        raise Refused(201, self.token.place, self.token.text)

    def step(self):
        token = self.tokens[self.at]
        self.at += 1
        return token

    def take(self, *texts):
        """Reads one of these symbols or reserved words."""
        if not self.sees(*texts):
            self.refuse()
        return self.step()

    def identifier(self):
        if self.token.kind != 'name':
            self.refuse()
        return self.step()

    def open(self, *texts):
        """Reads a token that opens a level."""
        if texts and not self.sees(*texts):
            self.refuse()
        if self.levels == LEVEL_LIMIT:
            raise Refused(202, self.token.place)
        self.levels += 1
        return self.step()

    def close(self, *texts):
        """Ends a level, with this token if there is one."""
        if texts:
            self.take(*texts)
        self.levels -= 1

    # modules
    def program(self):
        modules = []
        while self.sees('MODULE'):
            modules.append(self.module())
        if self.token.kind != 'end':
            self.refuse()
        return modules

    def listed(self, read, found):
        """Reads what stands between commas in parentheses, if there are any."""
        if not self.sees('('):
            return
        self.open()
        if not self.sees(')'):
            found.append(read())
            while self.sees(','):
                self.step()
                found.append(read())
        self.close(')')

    def module(self):
        place = self.step().place
        name = self.identifier()
        module = Module(place, name.text, name.place)
        self.listed(self.identifier, module.parameters)
        while True:
            if self.sees(*DECLARING):
                section = self.step().text
                while self.token.kind == 'name':
                    name = self.step()
                    self.take(':')
                    module.entries.append(Declaration(section, name.text, name.place, self.type()))
                    self.take(';')
            elif self.sees('DEFINE'):
                self.step()
                while self.token.kind == 'name':
                    name = self.step()
                    self.take(':=')
                    module.entries.append(Definition(name.text, name.place, self.expression()))
                    self.take(';')
            elif self.sees('CONSTANTS'):
                self.step()
                names = [self.identifier().text]
                while self.sees(','):
                    self.step()
                    names.append(self.identifier().text)
                self.take(';')
                module.entries.append(Constants(names))
            elif self.sees('ASSIGN'):
                self.step()
                while self.token.kind == 'name' or self.sees('self', 'init', 'next'):
                    module.entries.append(self.assignment())
            elif self.sees(*CONSTRAINING) or self.sees(*SPECIFYING):
                keyword = self.step()
                if keyword.text in SPECIFYING and self.sees('NAME'):
                    self.step()
                    self.identifier()
                    self.take(':=')
                kind = 'JUSTICE' if keyword.text == 'FAIRNESS' else keyword.text
                module.entries.append(Constraint(kind, keyword.place, self.expression()))
                if self.sees(';'):
                    self.step()
            else:
                return module

    def assignment(self):
        place, kind = self.token.place, 'now'
        if self.sees('init', 'next'):
            kind = self.step().text
            self.open('(')
        target, indices = self.name(), []
        while self.sees('['):
            bracket = self.open()
            indices.append((bracket.place, self.expression()))
            self.close(']')
        if kind != 'now':
            self.close(')')
        self.take(':=')
        body = self.expression()
        self.take(';')
        return Assignment(kind, place, target, indices, body)

    def name(self):
        """A name with dots, beginning with an identifier or `self`."""
        first = self.step() if self.sees('self') else self.identifier()
        parts = [first]
        while self.sees('.'):
            self.step()
            parts.append(self.identifier())
        return Node('name', first.place, value=parts)

    # types
    def type(self):
        token = self.token
        if self.sees('boolean'):
            self.step()
            return Type('boolean', token.place)
        if self.sees('word', 'unsigned', 'signed'):
            found = Type('word', token.place)
            if not self.sees('word'):
                found.signed = self.step().text == 'signed'
            self.take('word')
            self.open('[')
            found.limits = [self.limit()]
            self.close(']')
            return found
        if self.sees('{'):
            found = Type('enumeration', token.place)
            self.open()
            found.elements.append(self.element())
            while self.sees(','):
                self.step()
                found.elements.append(self.element())
            self.close('}')
            return found
        if self.sees('array'):
            found = Type('array', token.place)
            self.open()
            found.limits = self.limits()
            self.take('of')
            found.element = self.type()
            self.close()
            return found
        after = self.tokens[self.at + 1] if token.kind == 'name' else None
        if after and (after.kind == 'end' or after.kind == 'fixed' and after.text in ('(', ';')):
            found = Type('module', token.place)
            found.name = self.step().text
            self.listed(self.expression, found.arguments)
            return found
        found = Type('range', token.place)
        found.limits = self.limits()
        return found

    def limits(self):
        low = self.limit()
        self.take('..')
        return [low, self.limit()]

    def element(self):
        """An element of an enumeration: its value (a symbol is text), the text and the place."""
        token = self.token
        if self.sees('-'):
            self.open()
            if self.token.kind != 'integer':
                self.refuse()
            number = self.step()
            self.close()
            return -number.value, '-' + number.text, token.place
        if token.kind not in ('name', 'integer'):
            self.refuse()
        self.step()
        return (token.text if token.kind == 'name' else token.value), token.text, token.place

    def limit(self):
        """A constant as types and bounds have it."""
        return self.left_chain(('+', '-'), lambda: self.left_chain(('*', '/', 'mod'), self.limit_sign))

    def limit_sign(self):
        if self.sees('-'):
            place = self.open().place
            operand = self.limit_sign()
            self.close()
            return Node('unary', place, [operand], '-')
        if self.token.kind == 'integer':
            token = self.step()
            return Node('integer', token.place, value=token.value)
        if self.sees('('):
            self.open()
            inner = self.limit()
            self.close(')')
            inner.wraps += 1
            return inner
        return self.name()

    # expressions
    def left_chain(self, operators, operand):
        """Operands with operators of one level between, which associate to the left."""
        found = operand()
        while self.sees(*operators):
            operator = self.step()
            found = Node('binary', operator.place, [found, operand()], operator.text)
        return found

    def expression(self):
        left = self.left_chain(('<->',), self.choice)
        if not self.sees('->'):
            return left
        place = self.open().place
        right = self.expression()
        self.close()
        return Node('binary', place, [left, right], '->')

    def choice(self):
        condition = self.chain(0)
        if not self.sees('?'):
            return condition
        place = self.open().place
        first = self.expression()
        self.take(':')
        second = self.choice()
        self.close()
        return Node('choice', place, [condition, first, second])

    def chain(self, level):
        if level == TIMED_LEVEL:
            return self.left_chain(BINARY_LEVELS[level], self.timed)
        if level == PRODUCT_LEVEL:
            return self.left_chain(BINARY_LEVELS[level], self.minus)
        return self.left_chain(BINARY_LEVELS[level], lambda: self.chain(level + 1))

    def timed(self):
        ahead = self.at
        while self.tokens[ahead].kind == 'fixed' and self.tokens[ahead].text == '!':
            ahead += 1
        if self.tokens[ahead].kind != 'fixed' or self.tokens[ahead].text not in TIMED:
            return self.chain(RELATION_LEVEL)
        negations = []
        while self.sees('!'):
            negations.append(self.open().place)
        operator, bounds = self.open(), []
        if operator.text in BOUNDED and self.sees('['):
            self.open()
            bounds.append(self.limit())
            self.take(',')
            bounds.append(self.limit())
            self.close(']')
        found = Node('timed', operator.place, [self.timed()], operator.text, bounds)
        self.close()
        for place in reversed(negations):
            found = Node('unary', place, [found], '!')
            self.close()
        return found

    def minus(self):
        if not self.sees('-'):
            return self.left_chain(('::',), self.negated)
        place = self.open().place
        operand = self.minus()
        self.close()
        return Node('unary', place, [operand], '-')

    def negated(self):
        if not self.sees('!'):
            return self.selected()
        place = self.open().place
        operand = self.negated()
        self.close()
        return Node('unary', place, [operand], '!')

    def selected(self):
        found = self.primary()
        while self.sees('['):
            place = self.open().place
            first = self.expression()
            if self.sees(':'):
                self.step()
                found = Node('select', place, [found, first, self.expression()])
            else:
                found = Node('index', place, [found, first])
            self.close(']')
        return found

    def arguments(self):
        """Expressions in parentheses, at least one."""
        self.open('(')
        found = [self.expression()]
        while self.sees(','):
            self.step()
            found.append(self.expression())
        self.close(')')
        return found

    def primary(self):
        token = self.token
        if self.sees('TRUE', 'FALSE'):
            self.step()
            return Node('truth', token.place, value=token.text == 'TRUE')
        if token.kind == 'integer':
            self.step()
            if not self.sees('..'):
                return Node('integer', token.place, value=token.value)
            place = self.step().place
            if self.token.kind != 'integer':
                self.refuse()
            return Node('range', place, value=(token.value, self.step().value))
        if token.kind == 'word':
            self.step()
            return Node('word', token.place, value=token.value)
        if self.sees('('):
            self.open()
            inner = self.expression()
            self.close(')')
            inner.wraps += 1
            return inner
        if self.sees('{'):
            self.open()
            elements = [self.expression()]
            while self.sees(','):
                self.step()
                elements.append(self.expression())
            self.close('}')
            return Node('set', token.place, elements)
        if self.sees('case'):
            self.open()
            operands = []
            while not operands or not self.sees('esac'):
                operands.append(self.expression())
                self.take(':')
                operands.append(self.expression())
                self.take(';')
            self.close('esac')
            return Node('case', token.place, operands)
        if self.sees('next'):
            self.step()
            self.open('(')
            operand = self.expression()
            self.close(')')
            return Node('next', token.place, [operand])
        if self.sees(*CALLS):
            self.step()
            return Node('call', token.place, self.arguments(), token.text)
        if token.kind == 'name' and token.text in NAMED_CALLS:
            after = self.tokens[self.at + 1]
            if after.kind == 'fixed' and after.text == '(':
                self.step()
                return Node('call', token.place, self.arguments(), token.text)
        return self.name()


# --- names ------------------------------------------------------------------------------------------------------------

class Instance:
    """An instance: its path, its module, what its parameters were given with the instance that gives it, and those
    that it declares."""

    def __init__(self, path, module, arguments, owner):
        self.path, self.module, self.arguments, self.owner = path, module, arguments, owner
        self.children = {}
        self.parameters = {token.text: number for number, token in enumerate(module.parameters)}
        self.members = {}
        for entry in module.entries:
            if isinstance(entry, (Declaration, Definition)):
                self.members[entry.name] = entry

    def named(self, name):
        """The name of one of its slots."""
        return name if self.owner is None else '%s.%s' % (self.path, name)


Meaning = collections.namedtuple('Meaning', 'what of value followed')
"""What a name leads to: `instance` (value), `variable` or `definition` (an entry, of an instance), `parameter` (the
number of one, of an instance), `symbol`; and how many levels of names were followed before its last dot."""


def leaves_of(node):
    """The names of an expression in the order of the text."""
    waiting = [node]
    while waiting:
        node = waiting.pop()
        if node.form == 'name':
            yield node
        waiting.extend(reversed(node.parts()))


# --- kinds ------------------------------------------------------------------------------------------------------------

Kind = collections.namedtuple('Kind', 'form signed width low high symbols set')
"""What an expression is: boolean, word (a sign and a width), discrete (perhaps integers from low to high, perhaps
symbols), array or instance; and whether it is a set. Of an array `width` is its declared type."""


def kind_of(form, signed=False, width=None, low=None, high=None, symbols=False, is_set=False):
    return Kind(form, signed, width, low, high, symbols, is_set)


BOOLEAN = kind_of('boolean')
INSTANCE = kind_of('instance')


def integers(low, high):
    return kind_of('discrete', low=low, high=high)


def is_integer(kind):
    return kind.form == 'discrete' and not kind.symbols and not kind.set


def is_boolean(kind):
    return kind.form == 'boolean' and not kind.set


def is_plain(kind):
    return kind.form in ('boolean', 'word', 'discrete') and not kind.set


def same_word(first, second):
    return first.form == second.form == 'word' and (first.signed, first.width) == (second.signed, second.width)


def hull(kinds):
    """The kind of which all these values are, or None: all boolean, all discrete, all words of one type."""
    first = kinds[0]
    if first.form == 'word':
        return first if all(same_word(first, kind) for kind in kinds) else None
    if first.form not in ('boolean', 'discrete') or any(kind.form != first.form for kind in kinds):
        return None
    lows = [kind.low for kind in kinds if kind.low is not None]
    highs = [kind.high for kind in kinds if kind.high is not None]
    return kind_of(first.form, low=min(lows, default=None), high=max(highs, default=None),
                   symbols=any(kind.symbols for kind in kinds), is_set=any(kind.set for kind in kinds))


def truncated(left, right):
    """The quotient, rounded towards zero."""
    quotient = abs(left) // abs(right)
    return quotient if (left < 0) == (right < 0) else -quotient


def interval(operator, left, right):
    """The interval that the rules give to an operator over two integers."""
    if operator in ('+', '-', '*', 'max', 'min'):
        act = {'+': lambda a, b: a + b, '-': lambda a, b: a - b, '*': lambda a, b: a * b, 'max': max, 'min': min}
        corners = [act[operator](a, b) for a in (left.low, left.high) for b in (right.low, right.high)]
        return integers(min(corners), max(corners))
    if operator == '/':
        greatest = max(abs(left.low), abs(left.high))
        return integers(-greatest, greatest)
    greatest = max(abs(right.low), abs(right.high))
    return integers(-(greatest - 1), greatest - 1) if greatest else integers(0, 0)


Context = collections.namedtuple('Context', 'next inputs temporal sets')
"""What may stand at a place: `next`, inputs, temporal operators, sets."""

CONTEXTS = {
    'INIT': Context(False, False, False, False), 'INVAR': Context(False, False, False, False),
    'JUSTICE': Context(False, False, False, False), 'INVARSPEC': Context(False, False, False, False),
    'TRANS': Context(True, True, False, False), 'LTLSPEC': Context(False, True, True, False),
    'init': Context(False, False, False, True), 'now': Context(False, False, False, True),
    'next': Context(True, True, False, True),
}
LEFT = Context(False, True, False, False)
GIVEN = Context(False, True, False, True)
LOGICAL = ('&', '|', 'xor', 'xnor', '->', '<->')
RELATIONS = ('<', '>', '<=', '>=')
ARITHMETIC = ('+', '-', '*', '/', 'mod')
ARITY = {'abs': 1, 'max': 2, 'min': 2, 'word1': 1, 'bool': 1, 'signed': 1, 'unsigned': 1, 'extend': 2, 'resize': 2,
         'sizeof': 1, 'uwconst': 2, 'swconst': 2}


# --- the judge --------------------------------------------------------------------------------------------------------

DEPARTURES = {
    'brackets': 'a text with more than 2000 `[ ]` one over another, on either side of `:=`, ends with status 7',
}
"""Where the program is known to read the rules otherwise than this judge. A difference that one of these explains is
counted by its name, and kept with `--strict` alone."""


def brackets_over(tokens):
    """How many `[ ]` stand one over another at most: each stands over those in it and over all that it is behind."""
    most, over, row, closed = 0, 0, 0, []
    for token in reversed(tokens):
        text = token.text if token.kind == 'fixed' else ''
        if text in (']', ')', '}', 'esac'):
            if text == ']':
                row += 1
            closed.append((over, row if text == ']' else 0))
            over, row = over + row, 0
            most = max(most, over)
        elif text in ('[', '(', '{', 'case'):
            over, row = closed.pop() if closed else (0, 0)
        else:
            row = 0
    return most


class Judge:
    """Judges one text. `verdict` gives the refusal, `listing` else what `flat` prints. Where assignments form a circle,
    `circle` tells the graph, its places and the order of the slots, since several answers are right. `known` names the
    departures that are taken over. Where no rule decides, the judge reads it as follows:

    - an instance or an array that a parameter was given is refused under an operator at the operator (401);
    - indices on the left may hold inputs, which are no constants (404), and no sets (405);
    - a definition on the left is 411 as it stands, and with an index it is judged as a value;
    - a set as a bound of a selection or as an amount is an operand of the wrong kind (401)."""

    def __init__(self, source, known=()):
        self.source, self.known, self.circle, self.slots = source, known, None, []

    def verdict(self):
        """The refusal, or None with the listing made."""
        try:
            self.judge()
        except Refused as refused:
            return refused
        return None

    def judge(self):
        tokens = tokens_of(self.source)
        for token in tokens:
            if token.kind == 'fixed' and token.text in UNSUPPORTED:
                raise Refused(203, token.place, token.text)
        if 'brackets' in self.known and brackets_over(tokens) > DEPTH_LIMIT:
            raise Refused(0, (1, 1))
        self.modules = Reader(tokens).program()
        self.check_modules()
        self.make_instances()
        self.check_names()
        self.check_definitions()
        self.check_depth()
        self.check_types()
        self.check_slots()
        self.check_items()
        self.check_assignments()
        self.check_bits()

    # modules and instances
    def check_modules(self):
        by_name = {}
        for module in self.modules:
            if module.name in by_name:
                raise Refused(303, module.place, module.name)
            by_name[module.name] = module
        self.by_name = by_name
        if 'main' not in by_name:
            raise Refused(301, (1, 1))
        main = by_name['main']
        if main.parameters:
            raise Refused(302, main.parameters[0].place)
        for module in self.modules:
            seen = set()
            declared = [(token.text, token.place) for token in module.parameters]
            declared += [(entry.name, entry.place) for entry in module.entries
                         if isinstance(entry, (Declaration, Definition))]
            for name, place in declared:
                if name in seen:
                    raise Refused(305, place, name)
                seen.add(name)
        reached = self.reached_from('main')
        named = [(module, entry) for module in self.modules if module.name in reached
                 for entry in module.declarations() if entry.type.inmost().form == 'module']
        for _, entry in named:
            if entry.type.inmost().name not in by_name:
                raise Refused(306, entry.type.inmost().place, entry.type.inmost().name)
        for module, entry in named:
            if entry.type.form == 'module' and module.name in self.reached_from(entry.type.name):
                raise Refused(308, entry.place, entry.name)
        for _, entry in named:
            given = entry.type.inmost()
            if len(given.arguments) != len(by_name[given.name].parameters):
                raise Refused(307, given.place, given.name)
        counts = {}

        def count(name):
            if name not in counts:
                counts[name] = 1 + sum(count(entry.type.name) for entry in by_name[name].declarations()
                                       if entry.type.form == 'module')
            return counts[name]

        if count('main') > INSTANCE_LIMIT:
            raise Refused(311, main.name_place)
        self.symbols = set()
        for module in self.modules:
            if module.name in reached:
                for entry in module.entries:
                    if isinstance(entry, Constants):
                        self.symbols.update(entry.names)
                    if isinstance(entry, Declaration):
                        elements = entry.type.inmost().elements
                        self.symbols.update(value for value, _, _ in elements if isinstance(value, str))

    def reached_from(self, name):
        """The modules that a module reaches by the direct types of its variables, itself among them."""
        reached, waiting = set(), [name]
        while waiting:
            name = waiting.pop()
            if name not in reached and name in self.by_name:
                reached.add(name)
                waiting.extend(entry.type.name for entry in self.by_name[name].declarations()
                               if entry.type.form == 'module')
        return reached

    def make_instances(self):
        self.instances = []
        waiting = [(None, None, Instance('main', self.by_name['main'], [], None))]
        while waiting:
            parent, name, instance = waiting.pop()
            self.instances.append(instance)
            if parent:
                parent.children[name] = instance
            below = [(instance, entry.name, Instance(instance.named(entry.name), self.by_name[entry.type.name],
                                                     entry.type.arguments, instance))
                     for entry in instance.module.declarations() if entry.type.form == 'module']
            waiting.extend(reversed(below))

    def entries(self, *classes):
        """All entries of these classes with their instances, in the order of items."""
        return [(instance, entry) for instance in self.instances for entry in instance.module.entries
                if isinstance(entry, classes)]

    def member(self, instance, name):
        """What the name of a variable, an instance or a definition leads to, or None."""
        entry = instance.members.get(name)
        if entry is None:
            return None
        if name in instance.children:
            return Meaning('instance', instance, instance.children[name], 0)
        return Meaning('definition' if isinstance(entry, Definition) else 'variable', instance, entry, 0)

    def meaning(self, instance, node):
        """What a name leads to; names of parameters before a dot are followed."""
        parts = node.value
        first, followed = parts[0], 0
        if first.text == 'self':
            found = Meaning('instance', instance, instance, 0)
        elif first.text in instance.parameters:
            found = Meaning('parameter', instance, instance.parameters[first.text], 0)
        else:
            found = self.member(instance, first.text)
            if found is None and first.text in self.symbols:
                found = Meaning('symbol', instance, first.text, 0)
        if found is None:
            raise Refused(304, first.place, first.text)
        for before, part in zip(parts, parts[1:]):
            leads, levels = self.leads_to_instance(found)
            if leads is None:
                raise Refused(304, before.place, before.text)
            followed += levels
            found = self.member(leads, part.text)
            if found is None:
                raise Refused(304, part.place, part.text)
        return found._replace(followed=followed)

    def leads_to_instance(self, found):
        """The instance that a name leads to, directly or by parameters that were given names, with the levels."""
        levels = 0
        while found.what == 'parameter':
            given = found.of.arguments[found.value]
            if given.form != 'name':
                return None, levels
            levels += 1 + given.wraps
            found = self.meaning(found.of.owner, given)
            levels += found.followed
        return (found.value, levels) if found.what == 'instance' else (None, levels)

    def check_names(self):
        for instance, entry in self.entries(Declaration, Definition, Assignment, Constraint):
            if isinstance(entry, Declaration):
                expressions = entry.type.expressions()
            elif isinstance(entry, Assignment):
                expressions = [entry.target] + [index for _, index in entry.indices] + [entry.body]
            else:
                expressions = [entry.body]
            for expression in expressions:
                for leaf in leaves_of(expression):
                    self.meaning(instance, leaf)

    def check_definitions(self):
        """No definition leads to itself."""
        leads = {}

        def targets(instance, body):
            found, waiting, seen = set(), [(instance, body)], set()
            while waiting:
                inside, node = waiting.pop()
                for leaf in leaves_of(node):
                    meaning = self.meaning(inside, leaf)
                    if meaning.what == 'definition':
                        found.add((meaning.of, meaning.value.name))
                    elif meaning.what == 'parameter' and (meaning.of, meaning.value) not in seen:
                        seen.add((meaning.of, meaning.value))
                        waiting.append((meaning.of.owner, meaning.of.arguments[meaning.value]))
            return found

        def direct(key):
            if key not in leads:
                leads[key] = targets(key[0], key[0].members[key[1]].body)
            return leads[key]

        harmless = set()
        for instance, entry in self.entries(Definition):
            begin = (instance, entry.name)
            seen, waiting = set(), [begin]
            while waiting:
                key = waiting.pop()
                for target in direct(key):
                    if target == begin:
                        raise Refused(309, entry.place, entry.name)
                    if target not in seen and target not in harmless:
                        seen.add(target)
                        waiting.append(target)
            harmless.add(begin)

    # depth
    def check_depth(self):
        self.heights = {}
        for instance, entry in self.entries(Assignment, Constraint):
            height = self.height(instance, entry.body)
            if isinstance(entry, Assignment):
                left = self.height(instance, entry.target)
                left = max([left] + [1 + self.height(instance, index) for _, index in entry.indices])
                height = max(height, left + (entry.kind != 'now'))
            if height > DEPTH_LIMIT:
                raise Refused(310, entry.place)

    def height(self, instance, node):
        """How many levels are open at most within an expression, with one for each name that is followed."""
        most, outer = 0, 0
        while True:
            outer += node.wraps
            most = max(most, outer)
            form = node.form
            if form == 'binary':
                right = self.height(instance, node.operands[1])
                most = max(most, outer + right + (node.value == '->'))
                node = node.operands[0]
                continue
            if form == 'choice':
                most = max([most] + [outer + 1 + self.height(instance, part) for part in node.operands[1:]])
                node = node.operands[0]
                continue
            if form in ('index', 'select'):
                most = max([most] + [outer + 1 + self.height(instance, part) for part in node.operands[1:]])
                node = node.operands[0]
                continue
            break
        if form == 'name':
            return max(most, outer + self.height_of_name(instance, node))
        inner = [self.height(instance, part) for part in node.operands]
        inner += [1 + self.height(instance, part) for part in node.bounds]
        if form in ('set', 'case', 'call', 'next', 'unary', 'timed'):
            return max(most, outer + 1 + max(inner))
        return most

    def height_of_name(self, instance, node):
        meaning = self.meaning(instance, node)
        if meaning.what == 'definition':
            key, inside, body = (meaning.of, meaning.value.name), meaning.of, meaning.value.body
        elif meaning.what == 'parameter':
            key, inside = (meaning.of, meaning.value), meaning.of.owner
            body = meaning.of.arguments[meaning.value]
        else:
            return meaning.followed
        if key not in self.heights:
            self.heights[key] = self.height(inside, body)
        return meaning.followed + 1 + self.heights[key]

    # constants and types
    def constant(self, instance, node):
        """The value of a constant expression, or None."""
        if node.form == 'integer':
            return node.value
        if node.form == 'name':
            meaning = self.meaning(instance, node)
            if meaning.what == 'definition':
                return self.constant(meaning.of, meaning.value.body)
            if meaning.what == 'parameter':
                return self.constant(meaning.of.owner, meaning.of.arguments[meaning.value])
            return None
        if node.form == 'unary' and node.value == '-':
            value = self.constant(instance, node.operands[0])
            return None if value is None else -value
        if node.form == 'binary' and node.value in ARITHMETIC:
            spine = []
            while node.form == 'binary' and node.value in ARITHMETIC:
                spine.append(node)
                node = node.operands[0]
            value = self.constant(instance, node)
            for node in reversed(spine):
                right = self.constant(instance, node.operands[1])
                if value is None or right is None or right == 0 and node.value in ('/', 'mod'):
                    return None
                if node.value in ('/', 'mod'):
                    quotient = truncated(value, right)
                    value = quotient if node.value == '/' else value - quotient * right
                else:
                    value = {'+': value + right, '-': value - right, '*': value * right}[node.value]
            return value
        return None

    def check_types(self):
        """Declared types; within one declaration the rules come in the order 401, 404, 403, 402, 410, 409."""
        self.types = {}
        for instance, entry in self.entries(Declaration):
            broken = []
            resolved = self.resolve(instance, entry, entry.type, broken, False)
            if broken:
                rule = next(rule for rule in (401, 404, 403, 402, 410, 409) if any(b.rule == rule for b in broken))
                raise min((b for b in broken if b.rule == rule), key=lambda b: b.place)
            self.types[instance, entry.name] = resolved

    def resolve(self, instance, entry, type_, broken, inside):
        """The type with its constants known; what it breaks is added to `broken`."""
        if type_.form == 'module':
            if inside or entry.section != 'VAR':
                broken.append(Refused(401, type_.place))
            return ('module',)
        values = [self.constant(instance, limit) for limit in type_.limits]
        for limit, value in zip(type_.limits, values):
            if value is None:
                broken.append(Refused(404, limit.place))
        if type_.form == 'boolean':
            return ('boolean',)
        if type_.form == 'enumeration':
            seen = set()
            for value, text, place in type_.elements:
                if value in seen:
                    broken.append(Refused(410, place, text))
                seen.add(value)
            return ('enumeration', [value for value, _, _ in type_.elements])
        if type_.form == 'word':
            if values[0] is not None and not 1 <= values[0] <= WIDTH_LIMIT:
                broken.append(Refused(402, type_.limits[0].place, str(values[0])))
            return ('word', type_.signed, values[0])
        if None not in values and values[0] > values[1]:
            broken.append(Refused(403, type_.limits[0].place))
        for limit, value in zip(type_.limits, values):
            if value is not None and not -INTEGER_LIMIT - 1 <= value <= INTEGER_LIMIT:
                broken.append(Refused(409, limit.place))
        if type_.form == 'range':
            return ('range', values[0], values[1])
        return ('array', values[0], values[1], self.resolve(instance, entry, type_.element, broken, True))

    def check_slots(self):
        total = 0
        for instance, entry in self.entries(Declaration):
            total += self.slots_in(self.types[instance, entry.name])
        if total > SLOT_LIMIT:
            raise Refused(312, (1, 1))

    def slots_in(self, resolved):
        if resolved[0] == 'array':
            return (resolved[2] - resolved[1] + 1) * self.slots_in(resolved[3])
        return 0 if resolved[0] == 'module' else 1

    def type_kind(self, resolved):
        """The kind of what has this type."""
        if resolved[0] == 'boolean':
            return BOOLEAN
        if resolved[0] == 'word':
            return kind_of('word', resolved[1], resolved[2])
        if resolved[0] == 'range':
            return integers(resolved[1], resolved[2])
        if resolved[0] == 'enumeration':
            numbers = [value for value in resolved[1] if not isinstance(value, str)]
            return kind_of('discrete', low=min(numbers, default=None), high=max(numbers, default=None),
                           symbols=len(numbers) < len(resolved[1]))
        return kind_of('array', width=resolved)

    # items
    def check_items(self):
        self.judged = {}
        for instance, entry in self.entries(Assignment, Constraint):
            context = CONTEXTS[entry.kind]
            if isinstance(entry, Assignment):
                left = self.judge_left(instance, entry)
                right = self.kind(instance, entry.body, context)
                if right.form != left.form or right.form not in ('boolean', 'word', 'discrete') \
                        or right.form == 'word' and not same_word(left, right):
                    raise Refused(401, entry.place)
            else:
                self.kind(instance, entry.body, context, is_root=True)

    def judge_left(self, instance, entry):
        """The kind of what is assigned; refuses what is not assignable."""
        meaning = self.meaning(instance, entry.target)
        kind = self.kind_of_left_name(meaning, bool(entry.indices))
        for place, index in entry.indices:
            limits = self.indexed(kind, self.kind(instance, index, LEFT), place)
            self.demand_element(place, self.constant(instance, index), limits)
            kind = limits[2]
        if kind.form in ('array', 'instance'):
            raise Refused(401, entry.place)
        section = self.assigned_section(meaning)
        if section == 'VAR' or section == 'FROZENVAR' and entry.kind == 'init':
            return kind
        raise Refused(411, entry.place)

    @staticmethod
    def demand_element(place, value, limits):
        """An index on the left is a constant and one of the array."""
        if value is None:
            raise Refused(404, place)
        if not limits[0] <= value <= limits[1]:
            raise Refused(412, place)

    def kind_of_left_name(self, meaning, has_index):
        """The kind of what the name on the left leads to; what a parameter was given is judged."""
        if meaning.what == 'instance':
            return INSTANCE
        if meaning.what == 'variable':
            return self.type_kind(self.types[meaning.of, meaning.value.name])
        if meaning.what == 'parameter':
            return self.kind(meaning.of.owner, meaning.of.arguments[meaning.value], GIVEN)
        if meaning.what == 'symbol' or not has_index:
            return kind_of('discrete', symbols=True)
        return self.kind_of_definition(meaning, LEFT)

    def assigned_section(self, meaning):
        """The section of the variable that a name on the left leads to, or None where nothing can be assigned."""
        while meaning.what == 'parameter':
            node, owner = meaning.of.arguments[meaning.value], meaning.of.owner
            while node.form == 'index':
                limits = self.indexed(self.kind(owner, node.operands[0], GIVEN), integers(0, 0), node.place)
                value = self.constant(owner, node.operands[1])
                if value is None or not limits[0] <= value <= limits[1]:
                    return None
                node = node.operands[0]
            if node.form != 'name':
                return None
            meaning = self.meaning(owner, node)
        return meaning.value.section if meaning.what == 'variable' else None

    def indexed(self, base, number, place):
        """The limits of an array and the kind of its elements."""
        if base.form != 'array' or not is_integer(number):
            raise Refused(401, place)
        return base.width[1], base.width[2], self.type_kind(base.width[3])

    def kind(self, instance, node, context, is_root=False):
        """The kind of an expression at a place where the context stands; operands before their operator. `is_root`
        says that a constraint or a specification is asked, which has to be boolean."""
        spine = []
        while node.form == 'binary':
            below = self.context_below(node, context)
            spine.append((node, context, is_root))
            node, context, is_root = node.operands[0], below, False
        kind = self.kind_of_node(instance, node, context, is_root)
        for node, context, is_root in reversed(spine):
            below = self.context_below(node, context)
            if node.value == 'in':
                below = below._replace(sets=True)
            right = self.kind(instance, node.operands[1], below)
            kind = self.kind_of_binary(node, kind, right, context, is_root)
        return kind

    @staticmethod
    def context_below(node, context):
        """What may stand under an operator: temporal ones stand only under logical and temporal ones."""
        logical = node.form == 'binary' and node.value in LOGICAL + BINARY_LEVELS[TIMED_LEVEL] \
            or node.form == 'unary' and node.value == '!' or node.form == 'timed'
        return context if logical else context._replace(temporal=False)

    @staticmethod
    def demand(condition, rule, node):
        if not condition:
            raise Refused(rule, node.place)

    def finish(self, node, kind, is_root):
        """The last rules at a node: a root has to be boolean, integers have 32 bits."""
        self.demand(not is_root or is_boolean(kind), 401, node)
        if kind.form == 'discrete' and not kind.set and kind.low is not None:
            self.demand(-INTEGER_LIMIT - 1 <= kind.low and kind.high <= INTEGER_LIMIT, 409, node)
        return kind

    def no_root(self, node, is_root):
        """A word, which is not boolean, is no root."""
        self.demand(not is_root, 401, node)

    def kind_of_binary(self, node, left, right, context, is_root):
        operator = node.value
        if operator in BINARY_LEVELS[TIMED_LEVEL]:
            self.demand(context.temporal, 408, node)
            self.demand(is_boolean(left) and is_boolean(right), 401, node)
            return self.finish(node, BOOLEAN, is_root)
        if operator == 'union':
            self.demand(context.sets, 405, node)
            kind = hull([left, right])
            self.demand(kind is not None and kind.form != 'word', 401, node)
            return self.finish(node, kind._replace(set=True), is_root)
        if operator == 'in':
            self.demand(is_plain(left), 401, node)
            self.demand(right.form == left.form and (left.form != 'word' or same_word(left, right)), 401, node)
            return self.finish(node, BOOLEAN, is_root)
        if operator == '<<' or operator == '>>':
            self.demand(left.form == 'word', 401, node)
            self.demand(is_integer(right) or right.form == 'word' and not right.signed, 401, node)
            return self.finish(node, left, is_root)
        if operator == '::':
            self.demand(left.form == right.form == 'word', 401, node)
            self.no_root(node, is_root)
            self.demand(left.width + right.width <= WIDTH_LIMIT, 402, node)
            return self.finish(node, kind_of('word', False, left.width + right.width), is_root)
        words = same_word(left, right)
        if operator in LOGICAL:
            self.demand(words or is_boolean(left) and is_boolean(right), 401, node)
            return self.finish(node, left, is_root)
        if operator in ('=', '!='):
            plain = is_plain(left) and is_plain(right) and left.form == right.form
            self.demand(words or plain and left.form != 'word', 401, node)
            return self.finish(node, BOOLEAN, is_root)
        self.demand(words or is_integer(left) and is_integer(right), 401, node)
        if operator in RELATIONS:
            return self.finish(node, BOOLEAN, is_root)
        return self.finish(node, left if words else interval(operator, left, right), is_root)

    def kind_of_node(self, instance, node, context, is_root):
        form = node.form
        if form == 'integer':
            return self.finish(node, integers(node.value, node.value), is_root)
        if form == 'truth':
            return BOOLEAN
        if form == 'word':
            return self.finish(node, kind_of('word', node.value[0], node.value[1]), is_root)
        if form == 'name':
            return self.finish(node, self.kind_of_name(instance, node, context), is_root)
        if form == 'range':
            self.demand(context.sets, 405, node)
            self.demand(not is_root, 401, node)
            low, high = node.value
            return integers(min(low, high), max(low, high))._replace(set=True)
        below = self.context_below(node, context)
        if form == 'next':
            kind = self.kind(instance, node.operands[0], below._replace(next=False, inputs=False))
            self.demand(context.next, 406, node)
            self.demand(is_plain(kind), 401, node)
            return self.finish(node, kind, is_root)
        if form == 'index':
            base = self.kind(instance, node.operands[0], below)
            number = self.kind(instance, node.operands[1], below)
            return self.finish(node, self.indexed(base, number, node.place)[2], is_root)
        kinds = [self.kind(instance, operand, below) for operand in node.operands]
        if form == 'set':
            self.demand(context.sets, 405, node)
            kind = hull(kinds)
            self.demand(kind is not None and kind.form != 'word', 401, node)
            return self.finish(node, kind._replace(set=True), is_root)
        if form in ('case', 'choice'):
            conditions = kinds[0::2] if form == 'case' else kinds[:1]
            branches = kinds[1::2] if form == 'case' else kinds[1:]
            self.demand(all(is_boolean(kind) for kind in conditions), 401, node)
            kind = hull(branches)
            self.demand(kind is not None, 401, node)
            return self.finish(node, kind, is_root)
        if form == 'unary' and node.value == '!':
            self.demand(is_boolean(kinds[0]) or kinds[0].form == 'word', 401, node)
            return self.finish(node, kinds[0], is_root)
        if form == 'unary':
            self.demand(is_integer(kinds[0]) or kinds[0].form == 'word', 401, node)
            negated = integers(-kinds[0].high, -kinds[0].low) if kinds[0].form == 'discrete' else kinds[0]
            return self.finish(node, negated, is_root)
        if form == 'timed':
            return self.kind_of_timed(instance, node, kinds[0], context)
        if form == 'select':
            self.demand(kinds[0].form == 'word' and not any(kind.set for kind in kinds[1:]), 401, node)
            self.no_root(node, is_root)
            high, low = (self.constant(instance, operand) for operand in node.operands[1:])
            self.demand(high is not None and low is not None, 404, node)
            self.demand(0 <= low <= high < kinds[0].width, 412, node)
            return self.finish(node, kind_of('word', False, high - low + 1), is_root)
        return self.kind_of_call(instance, node, kinds, is_root)

    def kind_of_timed(self, instance, node, kind, context):
        values = [self.constant(instance, bound) for bound in node.bounds]
        self.demand(context.temporal, 408, node)
        self.demand(is_boolean(kind), 401, node)
        if node.bounds:
            self.demand(None not in values, 404, node)
            if not 0 <= values[0] <= values[1] <= BOUND_LIMIT:
                raise Refused(413, node.place, '%d,%d' % tuple(values))
        return BOOLEAN

    def kind_of_name(self, instance, node, context):
        meaning = self.meaning(instance, node)
        if meaning.what == 'instance':
            return INSTANCE
        if meaning.what == 'symbol':
            return kind_of('discrete', symbols=True)
        if meaning.what == 'variable':
            kind = self.type_kind(self.types[meaning.of, meaning.value.name])
            self.demand(context.inputs or meaning.value.section != 'IVAR', 407, node)
            return kind
        below = context._replace(next=False, temporal=False)
        key = (meaning.of, meaning.what, meaning.value, below)
        if key not in self.judged:
            if meaning.what == 'definition':
                kind = self.kind_of_definition(meaning, below)
            else:
                kind = self.kind(meaning.of.owner, meaning.of.arguments[meaning.value], below)
            self.judged[key] = kind
        return self.judged[key]

    def kind_of_definition(self, meaning, context):
        """The kind of a definition's value; an instance or an array is refused where it stands in the definition."""
        kind = self.kind(meaning.of, meaning.value.body, context)
        self.demand(is_plain(kind) or kind.set, 401, meaning.value.body)
        return kind

    def kind_of_call(self, instance, node, kinds, is_root):
        name = node.value
        if name == 'count':
            self.demand(all(is_boolean(kind) for kind in kinds), 401, node)
            return self.finish(node, integers(0, len(kinds)), is_root)
        self.demand(len(kinds) == ARITY[name], 401, node)
        first = kinds[0]
        if name in ('abs', 'max', 'min'):
            self.demand(all(is_integer(kind) for kind in kinds), 401, node)
            if name == 'abs':
                return self.finish(node, integers(0, max(abs(first.low), abs(first.high))), is_root)
            return self.finish(node, interval(name, first, kinds[1]), is_root)
        if name == 'word1':
            self.demand(is_boolean(first), 401, node)
            return self.finish(node, kind_of('word', False, 1), is_root)
        if name in ('uwconst', 'swconst'):
            self.demand(not any(kind.set for kind in kinds), 401, node)
            self.no_root(node, is_root)
            value, width = (self.constant(instance, operand) for operand in node.operands)
            if width is not None:
                self.demand(1 <= width <= WIDTH_LIMIT, 402, node)
                if value is not None:
                    least, count = (0, 1 << width) if name == 'uwconst' else (-1 << width - 1, 1 << width - 1)
                    self.demand(least <= value < count, 402, node)
            self.demand(width is not None and value is not None, 404, node)
            return self.finish(node, kind_of('word', name == 'swconst', width), is_root)
        self.demand(first.form == 'word', 401, node)
        if name == 'bool':
            self.demand(first.width == 1, 401, node)
            return BOOLEAN
        if name == 'sizeof':
            return self.finish(node, integers(first.width, first.width), is_root)
        if name in ('signed', 'unsigned'):
            return self.finish(node, first._replace(signed=name == 'signed'), is_root)
        self.demand(not kinds[1].set, 401, node)
        self.no_root(node, is_root)
        amount = self.constant(instance, node.operands[1])
        self.demand(amount is not None, 404, node)
        width = amount if name == 'resize' else first.width + amount
        self.demand(name == 'resize' or amount >= 0, 402, node)
        self.demand(1 <= width <= WIDTH_LIMIT, 402, node)
        self.demand(name != 'resize' or not first.signed or width >= first.width, 402, node)
        return self.finish(node, first._replace(width=width), is_root)

    # assignments
    def elements(self, instance, node):
        """The slots (with their types) that an expression of a variable and indices may lead to, and the index
        expressions on the way with the instances that they stand in."""
        if node.form == 'index':
            bases, indices = self.elements(instance, node.operands[0])
            value = self.constant(instance, node.operands[1])
            found = []
            for name, resolved in bases:
                numbers = range(resolved[1], resolved[2] + 1)
                if value is not None:
                    numbers = [value] if value in numbers else []
                found += [('%s[%d]' % (name, number), resolved[3]) for number in numbers]
            return found, indices + [(instance, node.operands[1])]
        meaning = self.meaning(instance, node)
        if meaning.what == 'parameter':
            return self.elements(meaning.of.owner, meaning.of.arguments[meaning.value])
        return [(meaning.of.named(meaning.value.name), self.types[meaning.of, meaning.value.name])], []

    def occurring(self, instance, node):
        """The slots that occur in an expression: those of the current state, and those of the next one."""
        now, later, seen, waiting = set(), set(), set(), [(instance, node, False)]
        while waiting:
            inside, node, is_next = waiting.pop()
            if node.form == 'next':
                waiting.append((inside, node.operands[0], True))
                continue
            if node.form == 'index':
                found, indices = self.elements(inside, node)
                (later if is_next else now).update(name for name, _ in found)
                waiting.extend((where, index, is_next) for where, index in indices)
                continue
            if node.form != 'name':
                waiting.extend((inside, part, is_next) for part in node.parts())
                continue
            meaning = self.meaning(inside, node)
            if meaning.what == 'variable':
                (later if is_next else now).add(meaning.of.named(meaning.value.name))
            elif meaning.what in ('definition', 'parameter'):
                key = (meaning.of, meaning.what, meaning.value, is_next)
                if key not in seen:
                    seen.add(key)
                    if meaning.what == 'definition':
                        waiting.append((meaning.of, meaning.value.body, is_next))
                    else:
                        waiting.append((meaning.of.owner, meaning.of.arguments[meaning.value], is_next))
        return now, later

    def check_assignments(self):
        assigned, order = collections.defaultdict(dict), []
        for instance, entry in self.entries(Assignment):
            node = entry.target
            for place, index in entry.indices:
                node = Node('index', place, [node, index])
            found, _ = self.elements(instance, node)
            slot = found[0][0]
            kinds = assigned[slot]
            if entry.kind in kinds or entry.kind == 'now' and kinds or 'now' in kinds:
                raise Refused(501, entry.place, slot)
            kinds[entry.kind] = entry
            order.append((slot, instance, entry))
        self.make_slots()
        number = {name: place for place, (name, _, _) in enumerate(self.slots)}
        for first in (True, False):
            graph, places = collections.defaultdict(set), {}
            for slot, instance, entry in order:
                if entry.kind == ('next' if first else 'init'):
                    continue
                now, later = self.occurring(instance, entry.body)
                graph[slot] |= later if entry.kind == 'next' else now
                places[slot] = entry.place
            if has_circle(graph):
                self.circle = (graph, places, number)
                raise Refused(502, (0, 0), 'a circle of assignments')

    def make_slots(self):
        """The slots in their order: name, type, section."""
        self.slots = []
        for instance, entry in self.entries(Declaration):
            waiting = [(instance.named(entry.name), self.types[instance, entry.name])]
            while waiting:
                name, resolved = waiting.pop()
                if resolved[0] == 'array':
                    numbers = reversed(range(resolved[1], resolved[2] + 1))
                    waiting.extend(('%s[%d]' % (name, number), resolved[3]) for number in numbers)
                elif resolved[0] != 'module':
                    self.slots.append((name, resolved, entry.section))

    def check_bits(self):
        total = 0
        for _, resolved, _ in self.slots:
            if resolved[0] == 'boolean':
                total += 1
            elif resolved[0] == 'word':
                total += resolved[2]
            else:
                count = len(resolved[1]) if resolved[0] == 'enumeration' else resolved[2] - resolved[1] + 1
                total += (count - 1).bit_length()
        if total > BIT_LIMIT:
            raise Refused(511, (1, 1))

    def listing(self):
        """The lines that `flat` prints of an accepted text."""
        lines, sections = [], {'VAR': 'state', 'FROZENVAR': 'frozen', 'IVAR': 'input'}
        for number, (name, resolved, section) in enumerate(self.slots):
            if resolved[0] == 'boolean':
                text = 'boolean'
            elif resolved[0] == 'word':
                text = '%s word[%d]' % ('signed' if resolved[1] else 'unsigned', resolved[2])
            elif resolved[0] == 'range':
                text = '%d..%d' % resolved[1:]
            else:
                text = '{%s}' % ', '.join(str(value) for value in resolved[1])
            lines.append('-- slot %d %s %s : %s' % (number, sections[section], name, text))
        items = [(instance, entry) for instance, entry in self.entries(Assignment, Constraint)
                 if entry.kind not in SPECIFYING]
        for number, (instance, entry) in enumerate(items):
            lines.append('-- item %d %s at %d:%d of %s' % (number, entry.kind, *entry.place, instance.path))
        return lines


def has_circle(graph):
    """Whether a graph (a set of successors of each node) has a circle."""
    state = {}
    for begin in list(graph):
        if begin in state:
            continue
        state[begin] = 1
        waiting = [(begin, iter(graph[begin]))]
        while waiting:
            node, successors = waiting[-1]
            for successor in successors:
                if state.get(successor) == 1:
                    return True
                if successor not in state:
                    state[successor] = 1
                    waiting.append((successor, iter(graph.get(successor, ()))))
                    break
            else:
                state[node] = 2
                waiting.pop()
    return False


def right_circle(said, circle):
    """Whether a refusal line names a simple circle of the graph that begins with its least slot, at its assignment."""
    graph, places, number = circle
    head, _, detail = said.partition(': ')
    path = detail.split(', ')
    if path[0] not in places or head != '-- refused 502 AssignCycle at %d:%d' % places[path[0]]:
        return False
    if len(path) < 2 or path[0] != path[-1] or len(set(path)) != len(path) - 1:
        return False
    return all(after in graph.get(before, ()) for before, after in zip(path, path[1:])) \
        and min(path, key=number.get) == path[0]


class Verdict:
    """What is to be printed of a text: the text, or a circle of assignments; the status, and the rule."""

    def __init__(self, source, known=()):
        judge = Judge(source, known)
        refused = judge.verdict()
        self.circle, self.status, self.rule = judge.circle, 3 if refused else 0, 'accepted'
        if refused and not refused.rule:
            self.status, self.text = 7, ''
        elif refused:
            self.rule = '%d %s' % (refused.rule, RULES[refused.rule])
            self.text = refused.line() + '\n'
        else:
            self.text = ''.join(line + '\n' for line in judge.listing())

    def allows(self, said, status):
        """Whether this text and status are right."""
        if status != self.status:
            return False
        if self.circle:
            return said.count('\n') == 1 and right_circle(said[:-1], self.circle)
        return said == self.text


# --- texts that are given ---------------------------------------------------------------------------------------------

SEEDS = '''
MODULE main
VAR x : boolean;
ASSIGN init(x) := FALSE; next(x) := !x;
INVARSPEC !x
====
MODULE main
VAR c : 0..7; up : boolean;
ASSIGN
  init(c) := 0;
  next(c) := case up & c < 7 : c + 1; !up & c > 0 : c - 1; TRUE : c; esac;
INVARSPEC NAME small := c <= 7;
LTLSPEC NAME again := G F (c = 0) -> F up;
====
MODULE cell(prev, start)
VAR t : boolean;
ASSIGN init(t) := start; next(t) := prev.t;
MODULE main
VAR c0 : cell(c1, TRUE); c1 : cell(c0, FALSE);
INVARSPEC !(c0.t & c1.t)
LTLSPEC G F c0.t
====
MODULE main
IVAR request : boolean; data : 0..3;
VAR busy : boolean; kept : 0..3;
FROZENVAR mode : {slow, fast, 7};
ASSIGN init(mode) := {slow, fast}; init(busy) := FALSE; next(busy) := request & !busy;
  next(kept) := request ? data : kept;
TRANS request -> next(kept) = data
JUSTICE busy
FAIRNESS !busy
LTLSPEC G (request -> O busy | X busy)
====
MODULE main
VAR w : word[8]; u : unsigned word[4]; s : signed word[8];
DEFINE both := w :: u; high := w[7:4]; low := s[3:0];
ASSIGN init(w) := 0ud8_255; next(w) := w + 0ub8_1; next(s) := signed(w) >> 2;
INVAR high = low | bool(u[0:0]) | word1(TRUE) = 0b_1
INVARSPEC sizeof(both) = 12 & extend(u, 4) = resize(w, 8) & unsigned(s) != w
INVARSPEC swconst(-3, 8) < s | uwconst(3, 4) >= u | (w << u) = (w >> 3)
====
MODULE main
VAR a : array 0..3 of boolean; m : array -1..0 of array 1..2 of 0..5; i : 0..3;
ASSIGN init(a[0]) := TRUE; next(a[1]) := a[i]; a[2] := a[0] xor a[3]; init(m[-1][2]) := 3;
INVAR m[0][1] = m[-1][1] -> a[3]
INVARSPEC count(a[0], a[1], a[2]) <= 3 & max(i, 2) >= min(i, 2) & abs(i - 3) < 4
====
MODULE main
VAR p : boolean; q : boolean;
LTLSPEC p U q
LTLSPEC p V q
LTLSPEC (p S q) & (p T q)
LTLSPEC G (Y p -> Z q) & H O p
LTLSPEC F [1,3] p | G [0, 2] q | O [2,2] p | H [0,1+1] q
LTLSPEC ! ! X p xnor !F q <-> p
====
MODULE main
CONSTANTS red, green;
VAR light : {red, yellow, green}; n : {1, 2, -3};
DEFINE stop := light in {red, yellow}; some := {red, green} union {yellow};
ASSIGN init(light) := some; next(light) := case stop : green; TRUE : {red, yellow}; esac;
  init(n) := 1..2;
INVARSPEC light in some -> n in {1, 2} union {-3}
====
MODULE inv(a)
DEFINE o := !a;
MODULE main
VAR x : boolean; g : inv(x);
ASSIGN init(x) := FALSE; next(x) := g.o;
INVARSPEC !x
====
MODULE leaf(p, k)
VAR v : 0..k;
ASSIGN init(p) := TRUE; next(v) := v < k ? v + 1 : 0;
INVAR v <= k
MODULE branch(q)
VAR l : leaf(q, 3); r : leaf(self.b, 2 * 2);
  b : boolean;
DEFINE sum := l.v + r.v;
MODULE main
VAR x : boolean; t : branch(x); u : branch(y); y : boolean;
INVARSPEC t.sum + u.l.v <= 20 & (self.t.b | !self.x)
====
-- a comment
MODULE main /-- another
   one --/
VAR x : boolean; /----/ y : boolean; -- end
INIT x -- no semicolon
INVAR y; TRANS next(x) = y /-- x --/ ; INVARSPEC x | y
====
MODULE main
DEFINE d := e + 1; e := f * 2; f := 3;
VAR x : 0..d; y : word[d]; z : array f..d - 1 of e..d;
INIT x = d & z[f] = e & y[d - 1 : f] = y[d - f - 1:0]
====
MODULE m(a, b)
VAR x : boolean;
ASSIGN init(x) := a; next(x) := b; next(a) := x;
JUSTICE x = a
MODULE main
VAR p : boolean; q : boolean; one : m(p, q); two : m(q, p & one.x);
TRANS next(p) -> q
====
MODULE ram(cells, at, on)
ASSIGN next(cells[0]) := on ? cells[at] : cells[1];
INVAR cells[at] | !on
MODULE main
IVAR write : boolean;
VAR c : array 0..3 of boolean; k : 0..3; r : ram(c, k, c[k]);
LTLSPEC write -> F c[0]
====
MODULE main
VAR abs : 0..3; max : boolean; min : word[2]; count : {a, b};
INVARSPEC abs(abs - 3) >= 0 & max(abs, 1) > 0 & min (abs, 2) < 3 & count(max) = 1
====
MODULE main
FROZENVAR f : boolean; g : array 0..1 of 0..3;
ASSIGN init(f) := TRUE; init(g[0]) := {1, 2}; init(g[1]) := 3;
INVARSPEC f & g[0] + g[1] > 0
====
MODULE main
VAR x : -5..5; y : -2147483647 - 1 .. 2147483647; z : 0..0;
INIT -x + 3 * x / 2 mod 4 - (x mod 3) = 0
INVAR x / 3 >= -2 & x * x <= 25 & y = y
====
MODULE main
VAR s : signed word[4]; t : signed word[4];
INVARSPEC s * t / t mod s - -s = t | s < t | s <= t & !(s = t) | (s & t) != (s | !t)
INVARSPEC (s xor t) = (s xnor t) | (s -> t) = (s <-> t)
====
MODULE main
VAR x : 0..3; y : 0..3; b : boolean;
ASSIGN init(x) := b ? {1, 2} : 3; next(x) := case b : {x, y}; x = y : next(y) union 0; TRUE : 0..3; esac;
====
MODULE main
VAR b : boolean; c : boolean;
INIT b -> c -> b <-> c | b xor c xnor b & c ? b : c ? b : c
INVAR ((b)) & !((!c))
TRANS next(b) & next(b | c) -> next(b = c)
====
MODULE counter(reset)
VAR n : 0..15;
ASSIGN init(n) := 0; next(n) := reset ? 0 : (n + 1) mod 16;
DEFINE full := n = 15; half := n >= 8;
MODULE main
IVAR go : boolean;
VAR a : counter(b.full); b : counter(FALSE); z : boolean;
ASSIGN z := a.half & b.half; 
LTLSPEC G (a.full -> X a.n = 0 | go)
====
MODULE main
VAR x : boolean; y : boolean; z : boolean;
ASSIGN x := y; y := z; next(z) := next(x) | FALSE;
====
MODULE main
VAR x : boolean; y : boolean;
ASSIGN init(x) := y; next(y) := next(x); init(y) := TRUE; next(x) := x;
====
MODULE main
VAR a : array 0..2 of 0..2; i : 0..2;
ASSIGN a[0] := a[1]; a[1] := a[2]; init(a[2]) := i; next(a[2]) := next(i); i := 0;
====
MODULE pair(l, r)
DEFINE both := l & r; any := l | r; first := l;
MODULE main
VAR x : boolean; y : boolean; p : pair(x, q.any); q : pair(y, r.first); r : pair(x, TRUE);
INVARSPEC p.both -> q.both
====
MODULE main
VAR w : unsigned word[128]; v : word[1];
INVARSPEC w = 0uh128_ffffffffffffffffffffffffffffffff + 0uh128_1 | w[127:0] = w[63:0] :: w[127:64] | bool(v)
====
MODULE main
INVARSPEC -7 / 5 = -1 & -7 mod 5 = -2
INVARSPEC 0sb4_1010 >> 1 = 0sb4_1101
INVARSPEC 0sB4_1000 / 0so4_17 = 0sd4_1
====
MODULE main
INVARSPEC 0b_1 :: 0o_7 = 0h_f & 0uh8_fF = 0ud8_2__55 & 0sh_8 = signed(0b4_1000)
====
MODULE a
VAR x : boolean;
MODULE b(y)
VAR i : a; j : array 0..1 of boolean;
ASSIGN next(i.x) := y.x; next(j[1]) := self.i.x;
MODULE main
VAR k : b(l); l : a; n : b(k.i);
LTLSPEC G (k.i.x -> F n.i.x)
====
MODULE main()
VAR m : sub(); o : sub;
MODULE sub()
VAR v : {on, off};
ASSIGN init(v) := on; next(v) := v = on ? off : on;
MODULE unused(p) VAR z : nothing; q : array 0..x of y(1, 2); INIT p.q.r
====
MODULE main
VAR
DEFINE
ASSIGN
VAR x : boolean;
INVARSPEC TRUE;
LTLSPEC FALSE
====
MODULE main
IVAR i : array 0..1 of boolean; n : 0..1;
VAR x : boolean;
ASSIGN next(x) := i[n];
TRANS i[0] | x & next(x)
LTLSPEC G i[1] | n = 0
====
MODULE m(p)
ASSIGN init(p) := 1;
MODULE main
VAR a : array 0..2 of array 0..1 of 0..3; k : m(a[1][0]); l : m(a[z][1]); 
DEFINE z := 2;
====
MODULE main
VAR x : 0..10; b : boolean;
DEFINE big := x > 5; next_x := big ? 0 : x + 1; set := {next_x, 0};
ASSIGN init(x) := 0; next(x) := set;
INVAR x in set -> x in {next_x} -> b in {TRUE, big}
====
MODULE main
VAR s : {a, b}; t : {b, c, 3}; x : 0..3;
INVARSPEC s = t | s in {b, c} | t in 1..3 | (x = 3 ? s : t) = b | (x = 0 ? 1 : t) != 2
====
MODULE main
VAR x : boolean;
LTLSPEC G (x -> !(F !x & X (x U (x S Y x))) | (x V x) T Z x)
LTLSPEC X X X X x <-> H [1,2] O [0,0] x
LTLSPEC G F [1,1] x & F [0,255] x
====
MODULE main
VAR n : 0..5; w : word[4];
INVARSPEC (0ub4_1010 >> n) != w << (w >> 1) << 2
====
MODULE stage(data, ready)
VAR full : boolean; value : word[4];
DEFINE take := !full & ready; out := full ? value : 0ud4_0;
ASSIGN init(full) := FALSE; next(full) := take | full & !ready; next(value) := take ? data : value;
MODULE main
IVAR in_data : word[4]; in_ready : boolean;
VAR one : stage(in_data, in_ready); two : stage(one.out, one.full); three : stage(two.out, two.full);
LTLSPEC G (one.full -> F three.full)
INVARSPEC three.out[3:2] = 0ub2_00 | three.full
====
MODULE main
VAR x : boolean; y : boolean;
ASSIGN x := TRUE; init(y) := x; next(y) := next(x) & x;
INIT x INVAR y TRANS x JUSTICE y FAIRNESS x INVARSPEC y LTLSPEC x
====
MODULE main
VAR self_ : boolean; a$ : boolean; b#1 : boolean; c-d : boolean; _ : boolean;
INIT a$ & b#1 & c-d & self_ & self._ & self . self_
====
MODULE main
VAR a : 0..3; b : 0..3;
DEFINE c := a; d := c + b; e := case d > 3 : 3; TRUE : d; esac;
ASSIGN init(a) := 0; next(a) := e; init(b) := {c, 1}; next(b) := (a in {1, 2} ? 1 : 2);
LTLSPEC G F e = 3
====
MODULE m(x)
DEFINE d := x; e := d;
VAR i : n(e);
MODULE n(y)
INVAR y
VAR z : boolean;
ASSIGN init(z) := y; next(z) := !y;
MODULE main
VAR b : boolean; k : m(b); l : m(k.e & b); o : m(l.i.z);
====
MODULE main
VAR t : array 0..1 of {idle, run, 2}; f : array 0..1 of signed word[3];
ASSIGN init(t[1]) := t[0] = idle ? run : 2; next(f[0]) := f[1] + 0sd3_7; init(f[0]) := -f[1];
INVARSPEC t[0] in {idle} & f[0][2:2] = 0b_1
====
MODULE m(v, limit, flag)
ASSIGN init(v) := 0; next(v) := v < limit ? v + 1 : (flag ? 0 : v);
INVARSPEC v <= limit
MODULE main
IVAR reset : boolean;
VAR x : 0..4; y : 0..9; a : m(x, 4, reset); b : m(y, 3 * 3, x = 4);
====
MODULE main
VAR x : 0..1; y : 0..1;
INIT (x + y) * 2 - x / 1 mod 2 > -(1) & x - -1 >= 0
INIT x = y = (y = x)
INIT (x = 1) = (y = 1)
INIT x < 1 = TRUE
====
MODULE main
VAR b : boolean;
INIT case b : TRUE; !b : case TRUE : b; esac; esac
INIT (case b : 1; TRUE : 2; esac) + (b ? 1 : 2) = 3
TRANS case next(b) : b; TRUE : next(b); esac
====
MODULE main
VAR i : 0..3; a : array 0..3 of 0..3;
INVARSPEC a[a[a[i]]] = i & a[i mod 4] >= 0 & a[(i + 1) mod 4] in {a[0], a[1]} union a[2]
ASSIGN init(a[3]) := i; next(a[1]) := next(a[i]) + a[next(i)] mod 2;
====
MODULE lock(me, other)
VAR state : {out, wait, crit};
ASSIGN init(state) := out;
  next(state) := case
    state = out : {out, wait};
    state = wait & other.state != crit & me : crit;
    state = crit : {crit, out};
    TRUE : state;
  esac;
JUSTICE state != crit
MODULE main
VAR turn : boolean; a : lock(turn, b); b : lock(!turn, a);
INVARSPEC !(a.state = crit & b.state = crit)
LTLSPEC G (a.state = wait -> F a.state = crit)
====
MODULE main
CONSTANTS one, two;
DEFINE k := one; s := {one, two};
VAR c : {two, one};
ASSIGN init(c) := k; next(c) := s;
====
MODULE main
VAR u : m(v); v : m(u);
MODULE m(o)
VAR b : boolean;
DEFINE d := o.b; e := o.d;
INVAR e = b
====
MODULE main
VAR w : word[3];
INVARSPEC resize(w, 2) = w[1:0] & extend(w, 0) = w & resize(signed(w), 3) = signed(w) & sizeof(w :: w) = 6
INVARSPEC resize(w, 128)[127:3] = uwconst(0, 125) & extend(signed(w), 125)[2:0] = w
====
MODULE main
VAR a : boolean; b : boolean; c : boolean; d : boolean;
ASSIGN init(a) := b; init(b) := c; init(c) := d; next(d) := next(a); next(a) := next(b);
====
MODULE deep(k) VAR d : deeper(k - 1); INIT k > 0 MODULE deeper(k) VAR d : deepest(k - 1); MODULE deepest(k)
VAR x : k..k + 2; a : array k..k of word[k + 1]; INVARSPEC x >= k & a[k][k:0] = a[k]
MODULE main VAR d : deep(3); e : deep(2 + 2);
====
MODULE main
VAR x : boolean; y : 0..3;
DEFINE unused := 1 + TRUE; other := next(x); set := {1, 2}; more := set union 3;
INVARSPEC y in more & (y in set | x)
====
MODULE main
IVAR i : 0..3;
VAR x : 0..7;
DEFINE sum := x + i; set := {sum, 0};
TRANS next(x) = sum - i
ASSIGN next(x) := sum > 7 ? 0 : set;
LTLSPEC G (sum >= x)
====
MODULE main
VAR b : boolean;
INIT b <-> b -> b
INIT b ? b : b -> b
INIT (b -> b) ? (b ? b : b) : b
INVAR b | b & b | !b xor b
====
MODULE m(r)
VAR x : boolean;
ASSIGN init(x) := r.y; next(r.y) := x; r.z[0] := FALSE; init(r.z[1]) := r.d;
MODULE main
VAR y : boolean; z : array 0..1 of boolean; a : m(self);
DEFINE d := y;
====
MODULE main
VAR x : boolean; e : {p, q};
LTLSPEC (x & e = p) U (e in {q, p})
LTLSPEC case x : e = p; TRUE : e = q; esac -> F (x ? x : !x)
LTLSPEC count(x, e = p) = 1 S word1(x) = 0b_0
====
MODULE main VAR x : boolean; INIT x; INIT x INIT x ; INVARSPEC x ; LTLSPEC NAME n := x INVARSPEC NAME o := x ;
'''.strip('\n').split('====\n')


def chained(count):
    """Definitions, each of which is the next."""
    return ' '.join('d%d := d%d;' % (number, number + 1) for number in range(count))


def doubled(count, last):
    """Modules, each with two instances of the next."""
    modules = ['MODULE main VAR a : m1; b : m1;']
    modules += ['MODULE m%d VAR a : m%d; b : m%d;' % (number, number + 1, number + 1) for number in range(1, count)]
    return '\n'.join(modules + ['MODULE m%d %s' % (count, last)])


def limits():
    """Texts at and past the limits."""
    main = 'MODULE main\n'
    for count in (255, 256, 257):
        yield main + 'INIT ' + '(' * count + 'TRUE' + ')' * count
        yield main + 'INIT ' + '!' * count + 'TRUE'
        yield main + 'INIT ' + '- ' * count + '1 = 1'
        yield main + 'INIT ' + 'TRUE -> ' * count + 'TRUE'
        yield main + 'INIT ' + 'TRUE ? TRUE : ' * count + 'TRUE'
        yield main + 'INIT ' + 'FALSE ? ' * count + 'TRUE' + ' : FALSE' * count
        yield main + 'INIT ' + 'case TRUE : ' * count + 'TRUE' + '; esac' * count
        yield main + 'LTLSPEC ' + 'X ' * count + 'TRUE'
        yield main + 'LTLSPEC ' + '!X ' * (count // 2) + '!' * (count % 2) + 'TRUE'
        yield main + 'INIT 1 in ' + '{' * count + '1' + '}' * count
        yield main + 'VAR x : ' + 'array 0..0 of ' * count + 'boolean;'
        yield main + 'VAR x : ' + 'array 0..0 of ' * (count - 1) + '{-1};'
        yield main + 'VAR x : 0..' + '(' * count + '1' + ')' * count + ';'
        yield main + 'LTLSPEC F [0,' + '(' * (count - 2) + '1' + ')' * (count - 2) + '] TRUE'
        yield main + 'INIT ' + 'abs(' * count + '1' + ')' * count + ' = 1'
        yield main + 'VAR a : array 0..0 of 0..0; INIT ' + 'a[' * count + '0' + ']' * count + ' = 0'
        yield main + 'VAR m : sub' + '(' * count + '1' + ')' * count + '; MODULE sub(p)'
    for count in (1998, 1999, 2000, 2001):
        yield main + 'DEFINE ' + chained(count) + ' d%d := TRUE;\nINIT d0' % count
        yield main + 'DEFINE ' + chained(count) + ' d%d := TRUE;\nINVARSPEC (d0)' % count
        yield main + 'DEFINE ' + chained(count) + ' d%d := !TRUE;\nINIT d0 INIT d1' % count
        yield main + 'DEFINE ' + chained(count) + ' d%d := 1;\nVAR x : 0..d0;' % count
        yield main + 'VAR x : boolean; DEFINE ' + chained(count) + ' d%d := x;\nASSIGN init(x) := d1;' % count
        yield main + 'DEFINE ' + chained(count) + ' d%d := d0;' % count
    yield main + 'INIT ' + 'TRUE & ' * 3000 + 'TRUE'
    yield main + 'VAR w : word[8]; INIT w' + '[0:0]' * 2000 + ' = 0b_1'
    yield main + 'VAR w : word[8]; INIT w' + '[0:0]' * 2001 + ' = 0b_1'
    for count in (1000, 1001):
        yield main + 'VAR w : word[8]; INIT (w' + '[0:0]' * 1000 + ')' + '[0:0]' * count + ' = 0b_1'
        yield main + 'VAR a : array 0..0 of 0..0; INIT a[a' + '[0]' * 1000 + ']' + '[0]' * (count - 1) + ' = 0'
    for count in (2000, 2001):
        yield main + 'VAR a : array 0..0 of boolean; ASSIGN a' + '[0]' * count + ' := TRUE;'
        yield main + 'VAR a : array 0..0 of boolean; ASSIGN init(a[a' + '[0]' * (count - 1) + ']) := TRUE;'
    yield main + 'VAR a : array 0..0 of boolean; ASSIGN a' + '[0]' * 100000 + ' := TRUE;'
    yield main + 'INIT ' + '1 + ' * 3000 + '1 = 1'
    yield doubled(15, 'VAR x : boolean;')
    yield doubled(16, '')
    yield doubled(15, 'VAR x : 3..2;')
    yield doubled(15, 'VAR x : boolean; y : boolean; z : boolean;')
    for count in (65535, 65536):
        yield main + 'VAR x : array 0..%d of boolean;' % count
        yield main + 'VAR x : array 1..%d of boolean; y : boolean;' % count
    for slots in (511, 512):
        yield main + 'VAR x : array 1..%d of word[128]; y : 0..0;' % slots
        yield main + 'VAR x : array 1..%d of word[128]; IVAR y : boolean;' % slots
        yield main + 'VAR x : array 1..%d of word[128]; IVAR y : array 1..64 of 0..3;' % slots
    for power in (2, 3, 5, 9, 40):
        wide = ' * '.join(['2147483647'] * power)
        given = main + 'DEFINE p := %s; q := p - 2147483646; ' % wide
        for low, high in (('0', 'p mod 7'), ('p', '0'), ('p', 'p'), ('0', '-p'), ('-p', '0'), ('0', 'p / p'), ('p / -p', '0'),
                          ('-p mod 1000', '-p / p'), ('0', 'p mod -1000'), ('-q / p', 'q / p'), ('p / q', 'q mod 65537'),
                          ('-q mod 65537', '-q mod -65537'), ('q * q / p / p', '1'), ('p - p', 'p - q - 2147483646'),
                          ('p * q - q * p', '-(p - q) + 2147483647'), ('0', 'p / (p - p)'), ('0', 'p mod (q - q)')):
            yield given + 'VAR x : %s..%s;' % (low, high)
            yield given + 'VAR x : array %s..%s of boolean;' % (low, high)
            yield given + 'LTLSPEC F [%s, %s] TRUE' % (low, high)
        for width in ('p', '-p', 'q', '-p * q', 'p / p', 'p mod 129', '-q mod 200', 'p - q', 'q / (p / 100)', 'p / 0'):
            yield given + 'VAR x : word[%s];' % width
    yield main + 'VAR x : array -2147483647 - 1..2147483647 of array -2147483647 - 1..2147483647 of boolean;'
    yield ' ' * SOURCE_LIMIT
    yield ' ' * (SOURCE_LIMIT + 1)
    yield ''
    yield '\n\n'
    for text in ('/--/', '/--/ --/', 'MODULE main --', 'MODULE main /--', 'MODULE', 'main', 'EX', '\0',
                 '\xef\xbb\xbfMODULE main'):
        yield text


# --- texts that are changed -------------------------------------------------------------------------------------------

PIECES = re.compile(r'--[^\n]*|/--[\s\S]*?--/|[A-Za-z_][\w$#-]*|0[us]?[bodh]\d*_\w+|\d+'
                    r'|:=|::|\.\.|!=|<->|<=|>=|<<|>>|->|\s+|.', re.ASCII)
SECTION_WORDS = ('VAR', 'IVAR', 'FROZENVAR', 'DEFINE', 'CONSTANTS', 'ASSIGN') + CONSTRAINING + SPECIFYING
OPERATORS = [['&', '|', 'xor', 'xnor', '->', '<->', '=', '!='], ['<', '>', '<=', '>=', '=', '!='],
             ['+', '-', '*', '/', 'mod', '<<', '>>', '::', 'union'], ['U', 'V', 'S', 'T', '&', '|'],
             ['in', '=', 'union'],
             ['X', 'F', 'G', 'Y', 'Z', 'O', 'H', '!', '-', 'F [0,1]', 'H [2,1]', 'G [n,3]']]
ALL_OPERATORS = sorted({operator for group in OPERATORS for operator in group})
NUMBERS = [
    '0', '1', '2', '3', '5', '7', '8', '12', '64', '127', '128', '129', '255', '256', '007', '2147483647',
    '2147483648', '-1', '1 - 2', '65536', '0ub4_1010', '0sd8_255', '0b_1', '0h_fF', '0ub129_0', '0d_1', '0o_8',
    '99999999999999999999']
TYPES = [
    'boolean', '0..3', '-2..2', '3..1', 'word[8]', 'word[1]', 'signed word[4]', 'unsigned word[129]', 'word[0]',
    '{a, b}', '{a, 1, -2}', '{x, x}', '{1, 01}', 'array 0..1 of boolean', 'array 0..3 of 0..3',
    'array -1..0 of array 0..1 of word[4]', 'array 1..0 of boolean', 'main', 'm', 'm(x)', 'self..1', 'n..3', '0..n',
    '0..2147483647 + 1', '1 / 0..3', 'array 0..1 of m', '{TRUE}', '0..7 mod 4', '(1)..(2 * 2)', 'word[n]',
    'array 0..70000 of boolean', 'array 0..1 of {a, a}']
OPERANDS = [
    'TRUE', 'FALSE', '1', '-1', '0', '{1, 2}', '{TRUE}', '1..2', 'next(%s)', '!%s', '-%s', '(%s)', 'F %s', '(X %s)',
    '(%s U %s)', '%s + 1', '%s & TRUE', '%s = %s', '%s in {1, 2}', '%s in {%s}', '%s union %s', '%s[0]', '%s[1]',
    '%s[%s]', '%s[1:0]', '%s[3:1]', '%s.%s', 'self.%s', 'self', 'abs(%s)', 'max(%s, 1)', 'min(%s, %s)',
    'count(%s, %s)', 'word1(%s)', 'bool(%s)', 'signed(%s)', 'unsigned(%s)', 'extend(%s, 2)', 'resize(%s, 3)',
    'sizeof(%s)', 'uwconst(%s, 4)', 'swconst(%s, %s)', 'extend(%s, %s)', '(TRUE ? %s : %s)',
    'case %s : %s; TRUE : %s; esac', '0ud4_3', '0sd4_3', '%s :: %s', '%s << 1', '(%s)[0]', 'count(%s)', 'max(%s)',
    'abs(%s, 1)', '2147483647 + %s', '%s / 0', '%s * 1000000 * 1000000', '((%s))', '%s - %s', 'next(next(%s))',
    '(%s xor %s)', '(%s -> %s)', '{%s, %s} union {%s}', '(F [1,2] %s)', '(O [%s,3] %s)', 'resize(%s, %s)', '%s[%s:%s]']
ENTRIES = [
    'VAR %s : boolean;', 'IVAR %s : boolean;', 'FROZENVAR %s : 0..3;', 'DEFINE %s := %s;', 'DEFINE %s := %s & %s;',
    'CONSTANTS %s;', 'INIT %s', 'INVAR %s = %s', 'TRANS next(%s) = %s', 'JUSTICE %s', 'FAIRNESS !%s', 'INVARSPEC %s',
    'LTLSPEC G F %s', 'LTLSPEC %s U %s', 'ASSIGN init(%s) := %s;', 'ASSIGN next(%s) := %s;', 'ASSIGN %s := %s;',
    'ASSIGN next(%s) := next(%s);', 'ASSIGN init(%s[0]) := %s;', 'ASSIGN %s[%s] := %s;',
    'ASSIGN next(%s) := {%s, %s};', 'VAR %s : main;', 'VAR %s : m(%s);', 'MODULE %s', 'MODULE %s(%s)',
    'DEFINE %s := next(%s);', 'DEFINE %s := {%s, 1};', 'VAR %s : array 0..1 of %s;', 'VAR %s : %s..%s;',
    'VAR %s : word[%s];', 'VAR %s : {%s, %s};', 'DEFINE %s := F %s;', 'INVARSPEC NAME %s := %s;', 'VAR %s : %s;',
    'VAR %s : %s(%s);', 'ASSIGN %s.%s := %s;', 'ASSIGN init(self.%s) := %s;', 'INIT %s.%s', 'INIT %s[%s]',
    'LTLSPEC F [%s,2] %s', 'INIT %s in %s']
BYTES = [
    b'\0', b'\r', b'\r\n', b'\t', b'\v', b'\f', b'\xc3\xa9', b'\xff', b'@', b'$', b'#', b'-', b'"', b'\\', b'%', b'.',
    b'--', b'/--', b'--/', b'/', b'\x1a', b'\xc2\xa0', b' ', b'\n', b'0', b'_', b'>', b'=', b':', b'~', b'^', b'\x7f']


def is_white(piece):
    return piece.isspace() or piece.startswith(('--', '/--'))


def is_read(text):
    """Whether a text is a program by its tokens and phrases."""
    try:
        Reader(tokens_of(text.encode('latin-1', 'replace'))).program()
    except Refused:
        return False
    return True


class Changer:
    """Makes random changes of a text; mostly such that it still can be read."""

    def __init__(self, chooser, others):
        self.chooser, self.others = chooser, others
        self.changes = [
            (2, self.delete), (2, self.insert), (2, self.duplicate), (2, self.swap), (10, self.other_name),
            (8, self.other_operator), (6, self.other_number), (6, self.other_type), (14, self.other_operand),
            (2, self.swap_lines), (2, self.delete_line), (3, self.copy_line), (3, self.move_section),
            (3, self.steal_section), (3, self.rename), (2, self.circle), (8, self.add_entry), (2, self.white),
            (3, self.wrap), (2, self.exchange), (1, self.keyword), (2, self.renumber)]

    def changed(self, source):
        """The text with one to four changes, of tokens, sections, lines or bytes."""
        text = source.decode('latin-1')
        for _ in range(self.chooser.choice((1, 1, 1, 2, 2, 3, 4))):
            self.pieces = PIECES.findall(text)
            self.tokens = [number for number, piece in enumerate(self.pieces) if not is_white(piece)]
            if not self.tokens:
                break
            for _ in range(8):
                kept = list(self.pieces)
                self.chooser.choices([act for _, act in self.changes], [weight for weight, _ in self.changes])[0]()
                changed = ''.join(self.pieces)
                if self.chooser.random() < 0.1 or is_read(changed):
                    break
                self.pieces = kept
            text = changed
        source = text.encode('latin-1', 'replace')
        if self.chooser.random() < 0.06:
            source = self.changed_bytes(source)
        return source

    def changed_bytes(self, source):
        at = self.chooser.randrange(len(source) + 1)
        how = self.chooser.randrange(4)
        if how == 0:
            return source[:at]
        if how == 1:
            return source[:at] + self.chooser.choice(BYTES) + source[at:]
        if how == 2:
            return source[:at] + bytes([self.chooser.randrange(256)]) + source[at + 1:]
        return source[:at] + source[at + self.chooser.randrange(1, 4):]

    # choices
    def any_token(self):
        return self.chooser.choice(self.tokens)

    def names(self):
        return [self.pieces[number] for number in self.tokens if self.is_name(self.pieces[number])] or ['x']

    @staticmethod
    def is_name(piece):
        return bool(re.match('[A-Za-z_]', piece)) and piece not in RESERVED and piece not in UNSUPPORTED

    def name(self):
        return self.chooser.choice(self.names()) if self.chooser.random() < 0.95 \
            else self.chooser.choice(['x', 'self', 'a-1', 'unknown', 'main'])

    def filled(self, pattern, *given):
        """A pattern with names of the text in its gaps, the given ones first."""
        given = list(given)
        while '%s' in pattern:
            pattern = pattern.replace('%s', given.pop(0) if given else self.name(), 1)
        return pattern

    def where(self, condition):
        """A random token of this sort, or None."""
        found = [number for number in self.tokens if condition(self.pieces[number])]
        return self.chooser.choice(found) if found else None

    def sections(self):
        """Where sections and modules begin, and the end."""
        found = [number for number in self.tokens if self.pieces[number] in SECTION_WORDS + ('MODULE',)]
        return found + [len(self.pieces)]

    # changes
    def delete(self):
        self.pieces[self.any_token()] = ' '

    def insert(self):
        words = sorted(RESERVED | UNSUPPORTED) + SYMBOLS + NUMBERS
        word = self.chooser.choice(words) if self.chooser.random() < 0.5 else self.pieces[self.any_token()]
        self.pieces.insert(self.any_token(), ' %s ' % word)

    def duplicate(self):
        at = self.any_token()
        self.pieces[at] += ' ' + self.pieces[at]

    def swap(self):
        first = self.chooser.randrange(len(self.tokens))
        second = min(first + 1, len(self.tokens) - 1)
        if self.chooser.random() < 0.4:
            second = self.chooser.randrange(len(self.tokens))
        first, second = self.tokens[first], self.tokens[second]
        self.pieces[first], self.pieces[second] = self.pieces[second], self.pieces[first]

    def other_name(self):
        at = self.where(self.is_name)
        if at is not None:
            self.pieces[at] = self.name()

    def other_operator(self):
        at = self.where(lambda piece: piece in ALL_OPERATORS)
        if at is not None:
            groups = [group for group in OPERATORS if self.pieces[at] in group]
            choice = self.chooser.choice(groups) if self.chooser.random() < 0.8 else ALL_OPERATORS
            self.pieces[at] = ' %s ' % self.chooser.choice(choice)

    def other_number(self):
        at = self.where(lambda piece: piece[0].isdigit())
        if at is not None:
            self.pieces[at] = self.chooser.choice(NUMBERS)

    def renumber(self):
        at = self.where(lambda piece: piece.isdigit())
        if at is not None:
            self.pieces[at] = str(max(0, int(self.pieces[at]) + self.chooser.choice((-1, 1, -2, 2, 10))))

    def other_type(self):
        found = [at for at, after in zip(self.tokens, self.tokens[1:]) if self.pieces[at] == ':']
        if found:
            begin = self.chooser.choice(found)
            end = begin + 1
            while end < len(self.pieces) and self.pieces[end] != ';':
                end += 1
            self.pieces[begin + 1:end] = [' ' + self.chooser.choice(TYPES)]

    def other_operand(self):
        at = self.where(lambda piece: self.is_name(piece) or piece[0].isdigit() or piece in ('TRUE', 'FALSE'))
        if at is not None:
            self.pieces[at] = self.filled(self.chooser.choice(OPERANDS), self.pieces[at])

    def lines(self):
        return ''.join(self.pieces).split('\n')

    def swap_lines(self):
        lines = self.lines()
        first, second = self.chooser.randrange(len(lines)), self.chooser.randrange(len(lines))
        lines[first], lines[second] = lines[second], lines[first]
        self.pieces = ['\n'.join(lines)]

    def delete_line(self):
        lines = self.lines()
        del lines[self.chooser.randrange(len(lines))]
        self.pieces = ['\n'.join(lines)]

    def copy_line(self):
        lines = self.lines()
        lines.insert(self.chooser.randrange(len(lines) + 1), self.chooser.choice(lines))
        self.pieces = ['\n'.join(lines)]

    def cut_section(self):
        """Takes a section out and gives it."""
        begins = self.sections()
        if len(begins) < 3:
            return []
        number = self.chooser.randrange(len(begins) - 1)
        section = self.pieces[begins[number]:begins[number + 1]]
        if self.chooser.random() < 0.7:
            del self.pieces[begins[number]:begins[number + 1]]
        return section

    def move_section(self):
        section = self.cut_section()
        self.put_section(section)

    def put_section(self, section):
        self.tokens = [number for number, piece in enumerate(self.pieces) if not is_white(piece)]
        at = self.chooser.choice(self.sections())
        self.pieces[at:at] = ['\n'] + section + ['\n']

    def steal_section(self):
        other = Changer(self.chooser, self.others)
        other.pieces = PIECES.findall(self.chooser.choice(self.others).decode('latin-1'))
        other.tokens = [number for number, piece in enumerate(other.pieces) if not is_white(piece)]
        self.put_section(other.cut_section())

    def rename(self):
        """Renames an identifier everywhere, to another of the text, to a keyword or to a new one."""
        old = self.name()
        new = self.chooser.choice(['main', 'self', 'max', 'abs', 'count', 'new', 'F', 'in', 'A', 'next', self.name(),
                                   self.name(), self.name(), self.name()])
        self.pieces = [new if piece == old else piece for piece in self.pieces]

    def keyword(self):
        at = self.any_token()
        self.pieces[at] = self.chooser.choice(sorted(RESERVED | UNSUPPORTED))

    def circle(self):
        names = ['c%d' % number for number in range(self.chooser.randrange(1, 4))]
        bodies = [self.filled(self.chooser.choice(['%s', '!%s', '%s & %s', '%s + %s', '%s ? %s : %s']), after)
                  for after in names[1:] + names[:1]]
        if self.chooser.random() < 0.5:
            text = 'DEFINE ' + ' '.join('%s := %s;' % pair for pair in zip(names, bodies))
        else:
            text = 'VAR %s ASSIGN %s' % (' '.join('%s : boolean;' % name for name in names), ' '.join(
                '%s := %s;' % (self.chooser.choice(['init(%s)', 'next(%s)', '%s']) % name, body)
                for name, body in zip(names, bodies)))
        self.put_section([text])

    def add_entry(self):
        self.put_section([self.filled(self.chooser.choice(ENTRIES))])

    def white(self):
        at = self.any_token()
        self.pieces[at] += self.chooser.choice(
            [' ', '\n', '\t', '\r\n', ' -- comment\n', '/-- x --/', '\f', ' /--/ --/ '])

    def wrap(self):
        at = self.any_token()
        before, after = self.chooser.choice([('(', ')'), ('{', '}'), ('[', ']'), ('next(', ')'), ('(', ''), ('', ')')])
        end = self.chooser.choice([number for number in self.tokens if number >= at][:6])
        self.pieces[at] = before + self.pieces[at]
        self.pieces[end] += after

    def exchange(self):
        """An expression of a section's end in place of another's."""
        first, second = self.any_token(), self.any_token()
        size = self.chooser.randrange(1, 6)
        self.pieces[first:first + size] = [' '] + self.pieces[second:second + size] + [' ']


# --- texts that are made ----------------------------------------------------------------------------------------------

Known = collections.namedtuple('Known', 'text role flags')
"""A name that an expression may use: how it is written, its role, and flags: input, frozen, constant, target."""

BOOL, NUMBER, SYMBOL = ('bool',), ('number',), ('symbol',)


class Maker:
    """Makes a random model of one to four modules. Where chance says so, it writes something that breaks a rule."""

    def __init__(self, chooser):
        self.chooser = chooser
        self.wrongs = chooser.choice((0, 1, 1, 1, 1, 2, 2, 3))
        self.chance = chooser.choice((0.01, 0.03, 0.06, 0.12))
        self.modules, self.fresh = [], 0

    def wrong(self, times=1):
        """Whether a rule is to be broken here."""
        if self.wrongs and self.chooser.random() < self.chance * times:
            self.wrongs -= 1
            return True
        return False

    def pick(self, *choices):
        return self.chooser.choice(choices)

    def new(self, stem):
        self.fresh += 1
        return '%s%d' % (stem, self.fresh)

    def made(self):
        texts = [self.module(number) for number in range(self.chooser.randrange(0, 4))]
        texts.append(self.module(None))
        if self.wrong(0.5):
            texts.append(self.pick(texts[0], 'MODULE main', 'MODULE m0', 'MODULE m0(a, b)', 'MODULE other(p, p)',
                                   'MODULE m0 VAR x : main;', 'VAR x : boolean;', 'MODULE'))
        if self.chooser.random() < 0.5:
            self.chooser.shuffle(texts)
        text = '\n'.join(texts)
        if self.wrong(0.3):
            text = text.replace('MODULE main', self.pick('MODULE main(a)', 'MODULE Main', 'MODULE main()', 'MODULE'), 1)
        spaces = self.chooser.random() * 0.2
        text = ''.join(self.pick('\n', '\t', ' -- say\n', ' /-- it --/ ', '  ', '\r\n')
                       if character == ' ' and self.chooser.random() < spaces else character for character in text)
        return text.encode('latin-1')

    # modules
    def module(self, number):
        """The text of a module; `main` without a number. Its interface is kept for those behind it."""
        self.names, self.symbols, self.sections, parameters = [], [], [], []
        self.assigned, self.instances = set(), []
        if number is not None:
            for _ in range(self.chooser.randrange(0, 4)):
                role = self.pick(BOOL, BOOL, NUMBER, self.word_role(), ('array', BOOL), ('instance', None), SYMBOL,
                                 NUMBER)
                if role[0] == 'instance':
                    if not self.modules:
                        continue
                    role = ('instance', self.chooser.choice(self.modules))
                flags = ()
                if role[0] in ('bool', 'number', 'word'):
                    flags = self.pick((), (), ('target',), ('constant',) if role == NUMBER else ())
                parameters.append(Known(self.new('p'), role, flags))
            self.names += parameters
        own = []
        for _ in range(self.chooser.randrange(1, 5)):
            own += self.declarations()
        for _ in range(self.chooser.randrange(0, 4)):
            own += self.definition()
        for _ in range(self.chooser.randrange(0, 4)):
            self.assignment()
        for _ in range(self.chooser.randrange(0, 4)):
            self.constraint()
        if self.wrong(0.5):
            form = self.pick('VAR %s : boolean;', 'DEFINE %s := TRUE;', 'CONSTANTS %s;', 'ASSIGN %s := TRUE;',
                             'INIT %s', 'INIT %s.x', 'VAR %s : main;', 'DEFINE %s := %s;', 'INVARSPEC NAME %s := TRUE')
            self.sections.append(form.replace('%s', self.any_name()))
        if self.chooser.random() < 0.4:
            self.chooser.shuffle(self.sections)
        name = 'main' if number is None else 'm%d' % number
        if self.wrong(0.3) and parameters:
            parameters.append(parameters[0])
        head = 'MODULE %s%s' % (name, '(%s)' % ', '.join(known.text for known in parameters) if parameters else '')
        self.modules.append((name, parameters, own))
        return '\n'.join([head] + self.sections)

    def any_name(self):
        return self.chooser.choice([known.text for known in self.names] or ['x'])

    def word_role(self):
        return ('word', self.pick(False, False, True), self.pick(1, 2, 4, 8))

    def number(self, least=-3, greatest=9):
        value = self.chooser.randint(least, greatest)
        return str(value)

    def constant(self, depth=1):
        """A constant as a limit."""
        if self.wrong():
            return self.pick('x', self.any_name(), '1 / 0', '5 mod 0', '-' + self.any_name(), '2147483647 + 1',
                             '1 + ' + self.any_name(), '2147483647 * 2147483647', '9 - 20', '300',
                             '-' + WIDE, WIDE, '3 * (%s) / (%s)' % (WIDE, WIDE), WIDE + ' mod -5')
        named = [known.text for known in self.names if known.role == NUMBER and 'constant' in known.flags]
        if named and self.chooser.random() < 0.4:
            return self.chooser.choice(named)
        if depth and self.chooser.random() < 0.3:
            right = self.pick('1', '2', '(1)', '- -1')
            return '%s %s %s' % (self.constant(0), self.pick('+', '*', '-', '/', 'mod'), right)
        return self.number(0, 6)

    def declared_type(self, depth=1):
        """A type as it is written, and the role of its values."""
        if self.wrong():
            return self.chooser.choice(TYPES), self.pick(BOOL, NUMBER)
        how = self.chooser.randrange(9 if depth else 7)
        if how < 3:
            return 'boolean', BOOL
        if how < 5:
            low = self.pick('0', '-2', '1 - 2', '0', '1')
            high = self.constant() if self.chooser.random() < 0.2 else self.pick('3', '7', '2 + 3', '9')
            return '%s..%s' % (low, high), NUMBER
        if how == 5:
            role = self.word_role()
            width = str(role[2])
            sign = 'signed ' if role[1] else self.pick('', 'unsigned ')
            return '%sword[%s]' % (sign, width), role
        if how == 6:
            elements = [self.pick('red', 'green', 'blue', 's%d' % self.chooser.randrange(4)) for _ in range(3)]
            elements = sorted(set(elements)) + ['1'] * self.pick(0, 0, 1)
            self.symbols += [element for element in elements if element != '1']
            return '{%s}' % ', '.join(elements), SYMBOL
        text, role = self.declared_type(depth - 1)
        low = self.pick('0', '0', '-1', '1 - 1')
        return 'array %s..%s of %s' % (low, self.pick('1', '2', '3'), text), ('array', role)

    def declarations(self):
        if self.modules and self.chooser.random() < 0.45:
            return self.instance()
        section = self.pick('VAR', 'VAR', 'VAR', 'VAR', 'IVAR', 'FROZENVAR')
        found, parts = [], []
        for _ in range(self.chooser.randrange(1, 4)):
            text, role = self.declared_type()
            flags = {'VAR': ('target',), 'IVAR': ('input',), 'FROZENVAR': ('frozen',)}[section]
            known = Known(self.new('v') if not self.wrong(0.2) else self.any_name(), role, flags)
            found.append(known)
            parts.append('%s : %s;' % (known.text, text))
        self.names += found
        self.sections.append('%s %s' % (section, ' '.join(parts)))
        return found

    def instance(self):
        name, parameters, own = self.chooser.choice(self.modules)
        if self.wrong():
            name = self.pick('m9', 'main', 'm0', 'm1')
        given = [self.given(parameter) for parameter in parameters]
        if self.wrong():
            given = given[1:] if given and self.chooser.random() < 0.5 else given + ['TRUE']
        known = Known(self.new('i'), ('instance', (name, parameters, own)), ())
        section = self.pick('IVAR', 'FROZENVAR') if self.wrong() else 'VAR'
        form = '%s %s : array 0..1 of %s%s;' if self.wrong() else '%s %s : %s%s;'
        arguments = '(%s)' % ', '.join(given) if given else self.pick('', '()')
        self.sections.append(form % (section, known.text, name, arguments))
        self.names.append(known)
        return [known]

    def given(self, parameter):
        """What a parameter is given, as its role asks."""
        role = parameter.role
        if self.wrong():
            return self.pick(self.any_name(), self.expression(self.pick(BOOL, NUMBER)), 'next(TRUE)', 'F TRUE',
                             '{1, 2}')
        if 'target' in parameter.flags:
            found = [text for text in self.targets(role) if text]
            if found:
                return self.pick('%s', '%s', '(%s)') % self.chooser.choice(found)
        if 'constant' in parameter.flags:
            return self.constant()
        if role[0] in ('array', 'instance'):
            same = (lambda known: known.role == role) if role[0] == 'array' else \
                (lambda known: known.role[0] == 'instance' and known.role[1][0] == role[1][0])
            found = [known.text for known in self.names if same(known)]
            return self.chooser.choice(found) if found else 'self' if role[0] == 'instance' else self.any_name()
        return self.expression(role)

    def targets(self, role):
        """What may be assigned: variables, elements, parameters, members of instances."""
        found = []
        for known in self.names:
            if known.role == role and 'target' in known.flags:
                found.append(known.text)
            if known.role == ('array', role) and 'target' in known.flags:
                found.append('%s[%s]' % (known.text, self.pick('0', '1', '1')))
            if known.role[0] == 'instance':
                found += ['%s.%s' % (known.text, member.text) for member in known.role[1][2]
                          if member.role == role and 'target' in member.flags]
        return found

    def definition(self):
        role = self.pick(BOOL, BOOL, NUMBER, NUMBER, self.word_role(), SYMBOL)
        name, flags = self.new('d'), ()
        if role == NUMBER and self.chooser.random() < 0.5:
            body, flags = self.constant(), ('constant',)
        elif self.chooser.random() < 0.15 and role in (NUMBER, BOOL, SYMBOL):
            body, role = self.set_of(role), ('set', role)
        else:
            body = self.expression(role, inputs=self.chooser.random() < 0.3)
            if self.chooser.random() < 0.3:
                flags = ('input',)
        if self.wrong(2):
            other = self.any_name()
            body = self.pick(name, '%s & %s' % (name, other), other, 'next(%s)' % other, 'F TRUE')
        known = Known(name, role, flags)
        self.names.append(known)
        self.sections.append('DEFINE %s := %s;' % (name, body))
        return [known]

    def assignment(self):
        role = self.pick(BOOL, BOOL, NUMBER, NUMBER, self.word_role(), SYMBOL)
        kind = self.pick('init', 'init', 'next', 'next', 'now')
        found = [text for text in self.targets(role)
                 if (text, kind) not in self.assigned and (text, 'now') not in self.assigned
                 and (kind != 'now' or not {(text, 'init'), (text, 'next')} & self.assigned)]
        if kind == 'init':
            found += [known.text for known in self.names if known.role == role and 'frozen' in known.flags]
        if self.wrong(3):
            found = [self.any_name(), self.any_name() + '[0]', self.any_name() + '[9]', self.any_name() + '[n]', 'self']
        if not found:
            return
        text = self.chooser.choice(found)
        self.assigned.add((text, kind))
        kept = self.names
        if kind != 'next' and self.chooser.random() < 0.9:
            # what comes before the target alone, so that circles are rare
            place = next((at for at, known in enumerate(self.names) if text.startswith(known.text)), 0)
            self.names = self.names[:place]
        inputs = kind == 'next'
        body = self.expression(role, inputs=inputs, later=kind == 'next')
        if role in (NUMBER, BOOL, SYMBOL) and self.chooser.random() < 0.25:
            body = self.set_of(role, inputs=inputs)
        self.names = kept
        form = '%s' if kind == 'now' else kind + '(%s)'
        self.sections.append('ASSIGN %s := %s;' % (form % text, body))

    def constraint(self):
        keyword = self.pick('INIT', 'INVAR', 'TRANS', 'JUSTICE', 'FAIRNESS', 'INVARSPEC', 'LTLSPEC', 'LTLSPEC')
        if keyword == 'LTLSPEC':
            body = self.formula(2)
        else:
            body = self.expression(BOOL, inputs=keyword == 'TRANS', later=keyword == 'TRANS')
        if self.wrong():
            body = self.expression(self.pick(NUMBER, SYMBOL, self.word_role()))
        name = self.pick('', '', 'NAME n%d := ' % self.chooser.randrange(9)) if keyword.endswith('SPEC') else ''
        self.sections.append('%s %s%s%s' % (keyword, name, body, self.pick('', ';')))

    # expressions
    def formula(self, depth):
        if not depth or self.chooser.random() < 0.2:
            return self.expression(BOOL, 1, inputs=True)
        below = [self.formula(depth - 1), self.formula(depth - 1)]
        high = self.pick('2', '3', '255', self.constant())
        bounds = self.pick('', '', '[%s, %s] ' % (self.pick('0', '1', '2'), high))
        if self.wrong():
            bounds = self.pick('[2, 1] ', '[0, 256] ', '[x, 1] ', '[0 - 1, 1] ')
            return self.pick('(F %s(%s))', '(G %s(%s))') % (bounds, below[0])
        if self.wrong():
            return self.pick('((X %s) = TRUE)', '(TRUE ? F %s : TRUE)', 'count(G %s)', 'next(%s)',
                             '(F (%s) in TRUE)') % below[0]
        return self.chooser.choice([
            'X (%s)' % below[0], 'F %s(%s)' % (bounds, below[0]), 'G %s(%s)' % (bounds, below[0]), 'Y (%s)' % below[0],
            'Z (%s)' % below[0], 'O %s(%s)' % (bounds, below[0]), 'H %s(%s)' % (bounds, below[0]),
            '((%s) U (%s))' % tuple(below), '((%s) V (%s))' % tuple(below), '((%s) S (%s))' % tuple(below),
            '((%s) T (%s))' % tuple(below), '((%s) & (%s))' % tuple(below), '((%s) -> (%s))' % tuple(below),
            '(!(%s) | (%s))' % tuple(below), '((%s) xor (%s))' % tuple(below), '((%s) <-> (%s))' % tuple(below)])

    def set_of(self, role, depth=1, inputs=False):
        parts = [self.expression(role, depth - 1, inputs) for _ in range(3)]
        return self.chooser.choice(['{%s, %s}' % tuple(parts[:2]), '{%s}' % parts[0], '{%s, %s, %s}' % tuple(parts),
                                    '(%s union %s)' % tuple(parts[:2]), '({%s} union {%s, %s})' % tuple(parts)]
                                   + (['0..3', '-1..2', '3..1'] if role == NUMBER else []))

    def used(self, role, inputs):
        """Names, elements and members of this role."""
        found = []
        for known in self.names:
            if 'input' in known.flags and not inputs:
                continue
            if known.role == role:
                found.append(known.text)
            if known.role == ('array', role):
                found.append('%s[%s]' % (known.text, self.pick('0', '1', self.expression(NUMBER, 0))))
            if known.role[0] == 'instance':
                found += ['%s.%s' % (known.text, member.text) for member in known.role[1][2]
                          if member.role == role and (inputs or 'input' not in member.flags)]
        return found

    def broken(self, role, depth, inputs):
        """Something that most likely breaks a rule where this role is wanted."""
        other = self.expression(self.pick(BOOL, NUMBER, SYMBOL, self.word_role()), min(depth, 1), True)
        same = self.expression(role, min(depth, 1), inputs)
        hidden = [known.text for known in self.names if 'input' in known.flags] or ['unknown']
        return self.chooser.choice([
            other, other, other, 'next(%s)' % same, 'next(next(%s))' % same, 'next(%s)' % hidden[0], hidden[0],
            hidden[-1],
            'F (%s)' % same, '(%s U TRUE)' % same, '{%s, 1}' % other, '{%s}' % same, '(%s union %s)' % (same, other),
            self.any_name(), self.any_name(), self.any_name() + '.x', self.any_name() + '[0]', '%s[0]' % same, 'self',
            '%s[9:0]' % same, '(%s in {1, TRUE})' % other, '(%s in %s)' % (other, same), '(%s = %s)' % (same, other),
            'abs(%s, 1)' % same, 'count(%s)' % other, 'extend(%s, %s)' % (other, same), 'extend(%s, -1)' % same,
            'resize(%s, 1)' % same, 'uwconst(%s, 2)' % other, 'swconst(9, 2)', '(2147483647 + 1 + %s)' % same,
            '(%s * 999999 * 999999)' % same, '-%s' % same, '!%s' % other, '(%s :: 0uh128_1)' % other, '(1..2)',
            '(3 / 0)',
            'case %s : %s; esac' % (other, same), '(%s ? %s : %s)' % (other, same, same),
            '(TRUE ? %s : %s)' % (same, other), '(%s + %s)' % (other, other), '(%s < %s)' % (same, other), 'unknown',
            '(%s << %s)' % (same, other), 'word1(%s)' % other, 'bool(%s)' % other, 'sizeof(%s)' % other, '2147483648',
            'signed(%s)' % other, 'max(%s)' % same, 'min(%s, %s)' % (same, other), '0ub2_2', '$', 'esac', 'A', '( )'])

    def expression(self, role, depth=2, inputs=False, later=False):
        """An expression of a role; in parentheses where it is an operator's."""
        if self.wrong():
            return self.broken(role, depth, inputs)
        if later and self.chooser.random() < 0.3:
            return 'next(%s)' % self.expression(role, min(depth, 1), False, False)
        names = self.used(role, inputs) if depth else \
            [known.text for known in self.names if known.role == role and (inputs or 'input' not in known.flags)]
        if names and self.chooser.random() < (0.4 if depth else 0.8):
            return self.chooser.choice(names)

        def below(other=role):
            return self.expression(other, depth - 1, inputs, later)

        if not depth:
            if role == BOOL:
                return self.pick('TRUE', 'FALSE')
            if role == NUMBER:
                return self.number()
            if role == SYMBOL:
                return self.chooser.choice(self.symbols + ['2'])
            if role[0] == 'word':
                return '0%sd%d_%d' % ('s' if role[1] else self.pick('', 'u'), role[2], self.chooser.randrange(2))
            return self.any_name()
        if self.chooser.random() < 0.12 and role[0] in ('bool', 'number', 'symbol', 'word'):
            if self.chooser.random() < 0.5:
                return '(%s ? %s : %s)' % (below(BOOL), below(), below())
            return 'case %s : %s; TRUE : %s; esac' % (below(BOOL), below(), below())
        if role == BOOL:
            word = self.word_role()
            return self.chooser.choice([
                lambda: '(%s %s %s)' % (below(), self.pick('&', '|', 'xor', 'xnor', '->', '<->', '=', '!='), below()),
                lambda: '!%s' % below(),
                lambda: '(%s %s %s)' % (below(NUMBER), self.pick('=', '!=', '<', '>', '<=', '>='), below(NUMBER)),
                lambda: '(%s %s %s)' % (below(word), self.pick('=', '!=', '<', '>', '<=', '>='), below(word)),
                lambda: '(%s %s %s)' % (below(SYMBOL), self.pick('=', '!='), below(self.pick(SYMBOL, NUMBER))),
                lambda: '(%s in %s)' % (below(NUMBER), self.set_of(NUMBER, depth, inputs)),
                lambda: '(%s in %s)' % (below(SYMBOL), self.set_of(SYMBOL, depth, inputs)),
                lambda: '(%s in %s)' % (below(), below()),
                lambda: 'bool(%s)' % below(('word', False, 1))])()
        if role == NUMBER:
            return self.chooser.choice([
                lambda: '(%s %s %s)' % (below(), self.pick('+', '-', '*', '/', 'mod'), below()),
                lambda: '-%s' % below(), lambda: 'abs(%s)' % below(),
                lambda: 'count(%s, %s)' % (below(BOOL), below(BOOL)),
                lambda: '%s(%s, %s)' % (self.pick('max', 'min'), below(), below()),
                lambda: 'sizeof(%s)' % below(self.word_role()), lambda: '(%s)' % below()])()
        if role[0] == 'word':
            signed, width = role[1:]
            narrow = max(1, width - self.pick(0, 1))
            operators = ('+', '-', '*', '/', 'mod', '&', '|', 'xor', '->')
            forms = [lambda: '(%s %s %s)' % (below(), self.pick(*operators), below()),
                     lambda: '(%s %s %s)' % (below(), self.pick('<<', '>>'), self.pick('1', '0', '0ub2_1')),
                     lambda: self.pick('!%s', '-%s') % below(),
                     lambda: '%s(%s)' % ('signed' if signed else 'unsigned', below(('word', not signed, width))),
                     lambda: 'extend(%s, %d)' % (below(('word', signed, narrow)), width - narrow),
                     lambda: 'resize(%s, %d)' % (below(('word', signed, narrow)), width),
                     lambda: '%s(%d, %d)' % ('swconst' if signed else 'uwconst', 0, width)]
            if not signed:
                forms += [lambda: '%s[%d:0]' % (below(('word', True, 8)), width - 1),
                          lambda: '(%s)' % ' :: '.join([below(('word', False, 1))] * width)]
                if width == 1:
                    forms.append(lambda: 'word1(%s)' % below(BOOL))
            return self.chooser.choice(forms)()
        return '(%s)' % below()


LETTERS = [
    '0', '1', '8', '9', '00', '12', '0b', '0ub', '0sb', '0uh', '0so', '0ud8', '0d', '0b2', '0h128', '0B', '0U', '_',
    '_1', '_f', '_0_1', 'u', 's', 'b', 'x', 'TRUE', 'X', 'F', 'A', '$', '#', '-', '--', '->', '<->', '<', '>', '>>',
    '<<', '=', ':=', ':', '::', '!', '!=', '.', '..', '/', '/--', '--/', '*', '?', '(', ')', '[', ']', '{', '}', ',',
    ';', ' ', ' ', ' ', '\n', '\t', '\r', '\v', '\f', '\0', '@', '\xe9', '2147483647', '2147483648', '+', '&', '|', '%',
    '"']
BEGINNINGS = [
    '', 'MODULE main ', 'MODULE main INIT ', 'MODULE main LTLSPEC ', 'MODULE main VAR x : ', 'MODULE main ASSIGN ',
    'MODULE main DEFINE d := ', 'MODULE main VAR x : boolean; INVARSPEC x & ', 'MODULE main INIT TRUE -> ',
    'MODULE main VAR x : {', 'MODULE main LTLSPEC F [', 'MODULE main CONSTANTS ', 'MODULE ', '-- ', '/-- ']


def spelled(chooser):
    """A beginning of a text, and a row of pieces of tokens without much order behind it."""
    pieces = [chooser.choice(LETTERS) for _ in range(chooser.randrange(1, 12))]
    if chooser.random() < 0.5:
        pieces = [piece for piece in pieces if piece not in ('@', '\xe9', '\0', '$', '#', '%', '"')]
    return (chooser.choice(BEGINNINGS) + ''.join(pieces)).encode('latin-1')


MIXED = '''MODULE main
VAR b : boolean; c : boolean; n : 0..3; m : -2..9; w : word[4]; s : signed word[4]; one : word[1]; e : {p, q};
  o : {p, 3};
  a : array 0..3 of boolean; g : array 0..1 of array 0..1 of 0..3; h : array -1..0 of word[4]; i : r(%s, %s, %s); j : k;
IVAR u : boolean; v : 0..3; x : array 0..1 of boolean; y : word[4];
FROZENVAR f : boolean; l : 0..3; t : array 0..1 of 0..3;
DEFINE two := 2; du := u & b; dn := next(b); df := F b; ds := {n, 1}; db := {b, TRUE}; di := j; da := a; dw := w + y;
  de := p; big := 2147483647 + two; dm := max(n, m); dv := i.dz; dd := {p, o};
%s
MODULE r(x, y, z)
VAR b : boolean; n : 0..3; a : array 0..1 of boolean; j : k;
DEFINE dx := x; dy := y; dz := z; two := 1 + 1;
%s
MODULE k
VAR b : boolean; n : 0..3; a : array 0..1 of boolean;
DEFINE two := 2; d := b;
'''
MEMBERS = [Known('b', BOOL, ('target',)), Known('n', NUMBER, ('target',)), Known('a', ('array', BOOL), ('target',)),
           Known('two', NUMBER, ('constant',)), Known('d', BOOL, ())]
MIXED_NAMES = [
    Known('b', BOOL, ('target',)), Known('c', BOOL, ('target',)), Known('n', NUMBER, ('target',)),
    Known('m', NUMBER, ('target',)), Known('w', ('word', False, 4), ('target',)), Known('e', SYMBOL, ('target',)),
    Known('s', ('word', True, 4), ('target',)), Known('one', ('word', False, 1), ('target',)),
    Known('o', SYMBOL, ('target',)), Known('a', ('array', BOOL), ('target',)),
    Known('g[0]', ('array', NUMBER), ('target',)), Known('g[n]', ('array', NUMBER), ()),
    Known('h', ('array', ('word', False, 4)), ('target',)), Known('j', ('instance', ('k', [], MEMBERS)), ()),
    Known('i.j', ('instance', ('k', [], MEMBERS)), ()), Known('i', ('instance', ('r', [], MEMBERS[:3])), ()),
    Known('u', BOOL, ('input',)), Known('v', NUMBER, ('input',)), Known('x', ('array', BOOL), ('input',)),
    Known('y', ('word', False, 4), ('input',)), Known('f', BOOL, ('frozen',)), Known('l', NUMBER, ('frozen',)),
    Known('t', ('array', NUMBER), ('frozen',)), Known('two', NUMBER, ('constant',)), Known('du', BOOL, ('input',)),
    Known('dw', ('word', False, 4), ('input',)), Known('de', SYMBOL, ()), Known('dm', NUMBER, ()),
    Known('i.dx', BOOL, ()), Known('i.dy', NUMBER, ())]
OTHER_NAMES = ['dn', 'df', 'ds', 'db', 'di', 'da', 'big', 'dv', 'dd', 'i.dz', 'i', 'j', 'self', 'g', 'x', 'u', 'p',
               'i.x', 'j.b', 'i.j.a', 'g[0][1]', 'g[two][n]', 'x[n]', 'x[1]', 'h[-1]', 't', 'f', 'self.j', 'q',
               'w[two:0]']


class Mixer(Maker):
    """Mixes items of all sorts over the fixed names of one model: what the rules of kinds and contexts judge."""

    def made(self):
        self.chance, self.symbols = self.pick(0.05, 0.1, 0.2), ['p', 'q']
        self.names = list(MIXED_NAMES)
        given = [self.mixed(role) for role in (BOOL, NUMBER, self.pick(BOOL, NUMBER, ('array', BOOL), ('instance', 0)))]
        items = '\n'.join(self.item() for _ in range(self.chooser.randrange(0, 4)))
        self.names = MEMBERS[:4] + [
            Known('x', BOOL, ('target',)), Known('y', NUMBER, ('target',)), Known('dx', BOOL, ()),
            Known('dy', NUMBER, ()), Known('j', ('instance', ('k', [], MEMBERS)), ())]
        if given[2] in ('j', 'i.j', '(j)'):
            self.names += [Known('z', ('instance', ('k', [], MEMBERS)), ())]
        else:
            self.names += [Known('z', ('array', BOOL), ('target',)), Known('z', self.pick(BOOL, NUMBER), ('target',))]
        inner = '\n'.join(self.item() for _ in range(self.chooser.randrange(0, 3)))
        return (MIXED % (*given, items, inner)).encode('latin-1')

    def mixed(self, role):
        """What a parameter is given: often a name, sometimes anything."""
        how = self.chooser.randrange(10)
        if how < 4:
            found = [known.text for known in self.names if known.role == role]
            if role[0] == 'instance':
                found = ['j', 'i', 'self', 'i.j', '(j)']
            return self.chooser.choice(found or ['a'])
        if how < 6:
            return self.chooser.choice(OTHER_NAMES)
        if how < 7 or role[0] in ('array', 'instance'):
            return self.pick('a[n]', 'a[1]', 'g[0]', 'g[n]', 'g[1][0]', '(a)', 'x', 'x[0]', 'f', 't[1]', 'a[7]',
                             'b & c', '{1, 2}', 'g[7]', 'x[9]', 'u', 'y', 'a & b', 'i & b')
        return self.expression(role, 2, self.chooser.random() < 0.4)

    def any_name(self):
        if self.chooser.random() < 0.5:
            return self.chooser.choice(OTHER_NAMES)
        return super().any_name()

    def item(self):
        """A constraint, a specification or an assignment."""
        kind = self.pick('INIT', 'INVAR', 'TRANS', 'JUSTICE', 'INVARSPEC', 'LTLSPEC', 'LTLSPEC', 'init', 'next', 'now',
                         'now', 'next')
        role = self.pick(BOOL, BOOL, NUMBER, NUMBER, ('word', False, 4), ('word', True, 4), SYMBOL)
        reads_inputs = kind in ('TRANS', 'LTLSPEC', 'next')
        if kind == 'LTLSPEC':
            return 'LTLSPEC %s' % (self.formula(self.pick(1, 2)) if not self.wrong() else self.expression(role))
        if kind.isupper():
            role = BOOL if not self.wrong() else role
            return '%s %s' % (kind, self.expression(role, 2, reads_inputs, kind == 'TRANS'))
        found = self.targets(role)
        if self.wrong() or not found:
            name = self.any_name()
            index = self.pick('0', '1', '9', 'n', 'two', 'v', self.expression(self.pick(NUMBER, BOOL), 1, True))
            other = self.pick('0', '1', '9', 'n', 'TRUE', self.expression(NUMBER, 1))
            found = [name, name, '%s[%s]' % (name, index), '%s[%s][%s]' % (name, index, other),
                     'g[%s][%s]' % (index, other), 'x[%s]' % index, 'a[%s]' % index, 'i.%s' % name, 'z[%s]' % index,
                     'z', 'x', 'y']
        if self.chooser.random() < 0.3:
            body = self.set_of(role, 1, reads_inputs) if role[0] != 'word' else self.expression(role)
        else:
            body = self.expression(role, 2, reads_inputs, kind == 'next')
        if kind != 'next' and self.chooser.random() < 0.7:
            body = self.pick('TRUE', '1', 'p', '0ub4_1', '0sb4_1', '{TRUE, FALSE}', '{1, 0}')
        form = '%s' if kind == 'now' else kind + '(%s)'
        return 'ASSIGN %s := %s;' % (form % self.chooser.choice(found), body)


# --- comparison -------------------------------------------------------------------------------------------------------

class Comparison:
    """Compares what the program says of texts with what the judge says."""

    def __init__(self, command, words, folder, strict):
        self.command, self.words, self.folder, self.strict = command, words, folder, strict
        self.kinds, self.rules, self.departed = collections.Counter(), collections.Counter(), collections.Counter()
        self.wrong, self.calls = 0, 0

    def asked(self, source):
        """What `flat` prints, its status, and what it writes to standard error."""
        self.calls += 1
        try:
            done = subprocess.run(self.command + self.words, input=source, stdout=subprocess.PIPE,
                                  stderr=subprocess.PIPE, timeout=60)
        except subprocess.TimeoutExpired:
            return 'no answer in time', -1, b''
        return done.stdout.decode('latin-1'), done.returncode, done.stderr

    def differs(self, source):
        """None where both agree, else the differing rules, and the names of the known departures that explain it."""
        said, status, errors = self.asked(source)
        verdict = Verdict(source)
        if not errors and self.allowed(verdict, said, status):
            self.rule = verdict.rule
            return None
        rule = 'status %d' % status
        if said.startswith('-- refused '):
            rule = said[len('-- refused '):].partition(' at ')[0]
        pair = (verdict.rule, rule)
        self.told = (verdict.text, said, status, errors)
        if not errors and self.allowed(Verdict(source, DEPARTURES), said, status):
            names = [name for name in DEPARTURES if self.allowed(Verdict(source, [name]), said, status)]
            return pair, names or ['several']
        return pair, []

    def allowed(self, verdict, said, status):
        """Whether this is right. Another command than `flat` may answer an accepted text as it likes."""
        if verdict.status or self.words == ['flat']:
            return verdict.allows(said, status)
        return status in (0, 1, 2) or status == 3 and said.startswith('-- refused 6')

    def compare(self, kind, source, name):
        """Compares one text; keeps it, made smaller, where the two differ."""
        self.kinds[kind] += 1
        found = self.differs(source)
        if found is None:
            self.rules[self.rule] += 1
            return
        if found[1] and not self.strict:
            self.departed[' or '.join(found[1])] += 1
            return
        self.wrong += 1
        if self.wrong > 200:
            return
        small = self.smaller(source, found)
        self.differs(small)
        expected, said, status, errors = self.told
        path = os.path.join(self.folder, '%s.smv' % name)
        with open(path, 'wb') as file:
            file.write(small)
        with open(path + '.whole', 'wb') as file:
            file.write(source)
        print('WRONG %s\n  text     %r\n  expected %r\n  said     %r, status %d %r' % (
            path, small.decode('latin-1')[:600], expected[:300], said[:300], status, errors[-200:]), flush=True)

    def smaller(self, source, found):
        """A smaller text on which the two differ in the same way: fewer lines, then fewer tokens."""
        last = self.calls + 4000
        text = source.decode('latin-1')
        lines = self.fewer(text.split('\n'), '\n', (32, 16, 8, 4, 2, 1), found, last)
        text = '\n'.join(lines)
        tokens = [piece for piece in PIECES.findall(text) if not is_white(piece)]
        if self.differs(' '.join(tokens).encode('latin-1')) != found:
            return ''.join(self.fewer(PIECES.findall(text), '', (32, 8, 4, 2, 1), found, last)).encode('latin-1')
        return ' '.join(self.fewer(tokens, ' ', (64, 32, 16, 9, 7, 6, 5, 4, 3, 2, 1), found, last)).encode('latin-1')

    def fewer(self, parts, between, sizes, found, last):
        """As few of the parts as it takes: rows of parts are left out, one size after another, until the last call."""
        for size in sizes:
            at = 0
            while at < len(parts) and self.calls < last:
                tried = parts[:at] + parts[at + size:]
                if self.differs(between.join(tried).encode('latin-1')) == found:
                    parts = tried
                else:
                    at += max(1, size // 4)
        return parts


def examples():
    """The texts of the examples beside this folder."""
    folder = os.path.join(os.path.dirname(os.path.dirname(os.path.abspath(__file__))), 'examples')
    for name in sorted(os.listdir(folder) if os.path.isdir(folder) else ()):
        if name.endswith('.smv'):
            with open(os.path.join(folder, name), 'rb') as file:
                yield file.read()


def run(options):
    """Compares all texts that the options ask for; whether none differs."""
    comparison = Comparison(shlex.split(options.exe), shlex.split(options.words), options.keep, options.strict)
    os.makedirs(options.keep, exist_ok=True)
    if options.text:
        with open(options.text, 'rb') as file:
            source = file.read()
        said, status, _ = comparison.asked(source)
        verdict = Verdict(source)
        print('expected %s\nsaid     %s\nstatus   %d' % (verdict.text.rstrip(), said.rstrip(), status))
        return comparison.allowed(verdict, said, status)
    begin = time.time()
    given = list(examples()) + [text.encode('latin-1') for text in SEEDS]
    if options.only in (None, 'given'):
        for number, source in enumerate(given + [text.encode('latin-1') for text in limits()]):
            comparison.compare('given', source, 'given-%d' % number)
    for number in range(options.count if options.only != 'given' else 0):
        if options.seconds and time.time() - begin > options.seconds:
            break
        seed = options.seed * 1000003 + number
        chooser = random.Random(seed)
        kind = options.only or ('changed', 'mixed', 'changed', 'made', 'mixed', 'spelled')[number % 6]
        if kind == 'changed':
            source = Changer(chooser, given).changed(chooser.choice(given))
        elif kind == 'spelled':
            source = spelled(chooser)
        else:
            source = (Maker if kind == 'made' else Mixer)(chooser).made()
        comparison.compare(kind, source, '%s-%d' % (kind, seed))
    kinds = ', '.join('%d %s' % (count, kind) for kind, count in sorted(comparison.kinds.items()))
    print('%d texts (%s), %d wrong' % (sum(comparison.kinds.values()), kinds, comparison.wrong))
    for rule, count in sorted(comparison.rules.items()):
        print('  %7d %s' % (count, rule))
    for name, count in sorted(comparison.departed.items()):
        print('  %7d known: %s' % (count, name))
    return not comparison.wrong


def main():
    reader = argparse.ArgumentParser(description=__doc__, formatter_class=argparse.RawDescriptionHelpFormatter)
    reader.add_argument('--exe', required=True, help='the program, as `flat` is called')
    reader.add_argument('--count', type=int, default=2000, help='how many texts are changed or made')
    reader.add_argument('--seed', type=int, default=1)
    reader.add_argument('--seconds', type=float, default=0, help='stop after this time')
    reader.add_argument('--keep', default='/tmp/texts', help='the folder for texts on which the two differ')
    reader.add_argument('--only', choices=('given', 'changed', 'made', 'mixed', 'spelled'))
    reader.add_argument('--strict', action='store_true', help='known departures are differences, too')
    reader.add_argument('--words', default='flat', help='the command and its options')
    reader.add_argument('--text', help='judge this file alone, and show both answers')
    options = reader.parse_args()
    result = []
    sys.setrecursionlimit(1000000)
    threading.stack_size(512 << 20)
    worker = threading.Thread(target=lambda: result.append(run(options)))
    worker.start()
    worker.join()
    return 0 if result == [True] else 1


if __name__ == '__main__':
    sys.exit(main())
