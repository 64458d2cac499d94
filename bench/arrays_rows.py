#!/usr/bin/env python3
"""Texts with arrays and with bounds of temporal operators, and what is printed of them, worked out by hand from the rules.

arrays_rows.py EXE [--only PART] [--list]

Of a refused text the mark § stands before the token at which it is refused, and is taken out before it is read. Where a
valuation leaves a value open, `_` stands for any. Rows of OPEN are printed and not judged: no rule settles them.
"""
import argparse, re, shlex, subprocess, sys

NAMES = {
    104: 'IntTooLarge', 201: 'Unexpected', 202: 'TooDeep', 304: 'UnknownName', 305: 'DuplicateName', 306: 'UnknownModule', 307: 'ArgumentCount',
    309: 'DefineCycle', 310: 'UnfoldedDepth', 312: 'TooManySlots', 401: 'TypeMismatch', 402: 'WordWidth', 403: 'EmptyRange',
    404: 'NotConstant', 405: 'SetHere', 406: 'NextHere', 407: 'InputHere', 408: 'TemporalHere', 409: 'IntWidth',
    410: 'DuplicateElement', 411: 'NotAssignable', 412: 'BadSelection', 413: 'BadBound', 501: 'AssignedTwice',
    502: 'AssignCycle', 511: 'TooManyBits', 601: 'CaseOpen', 602: 'OutOfRange', 603: 'IndexOutside', 604: 'DivisorZero',
    605: 'ShiftTooFar',
}

REFUSED, RIGHT, OPEN = [], [], []


def model(source):
    source = source.strip('\n') + '\n'
    return source if source.startswith(('MODULE', '§MODULE')) else 'MODULE main\n' + source


def refusal(rule, source, detail=None):
    """The text without its mark, and the line that refuses it there."""
    text = model(source)
    at = text.index('§')
    line, column = text.count('\n', 0, at) + 1, at - text.rfind('\n', 0, at)
    said = '-- refused %d %s at %d:%d' % (rule, NAMES[rule], line, column)
    return text.replace('§', ''), said + (': ' + detail if detail is not None else '') + '\n'


def refused(rule, source, detail=None):
    text, said = refusal(rule, source, detail)
    REFUSED.append(('check', text, said, 3))


def undecided(rule, source, detail=None):
    """A row of which the rules say less; what is guessed."""
    text, said = refusal(rule, source, detail)
    OPEN.append(('check', text, said, 3))


def right(source, out, status=0, words='check'):
    """`again`: the report of `check --cert` stands behind the model, and is judged by `recheck`."""
    RIGHT.append((words, model(source), ''.join(line + '\n' for line in out.strip('\n').split('\n')) if out.strip() else '', status))


A = 'VAR a : array 0..1 of boolean;\n'
AB = A + 'VAR b : array 0..1 of boolean;\n'
AI = A + 'VAR i : 0..1;\n'
AX = A + 'VAR x : boolean;\n'
AA = 'VAR a : array 0..1 of array 0..1 of boolean;\n'
U = 'IVAR u : array 0..1 of boolean;\n'
X = 'VAR x : boolean;\n'

# ---- 104 IntTooLarge
refused(104, A + 'INIT a[§2147483648]')

# ---- 201 Unexpected: the grammar of types, elements and bounds
refused(201, 'VAR a : array 0..3 §boolean;', 'boolean')
refused(201, 'VAR a : array §of boolean;', 'of')
refused(201, 'VAR a : array 3 §of boolean;', 'of')
refused(201, 'VAR a : array 0..3 of §;', ';')
refused(201, 'VAR a : array 0..1 of §of boolean;', 'of')
refused(201, 'VAR a : array §TRUE..1 of boolean;', 'TRUE')
refused(201, A + 'VAR b : array 0..a§[0] of boolean;', '[')
refused(201, 'VAR §array : boolean;', 'array')
refused(201, A + 'INIT a[§]', ']')
refused(201, A + 'INIT a[0§;', ';')
refused(201, A + 'INIT a[0]§.b', '.')
refused(201, A + 'ASSIGN init(a)§[0] := TRUE;', '[')
refused(201, A + 'ASSIGN a[0§:0] := TRUE;', ':')
refused(201, X + 'LTLSPEC F [0, §TRUE] x', 'TRUE')
refused(201, X + 'LTLSPEC F [0§] x', ']')
refused(201, X + 'LTLSPEC X §[0, 1] x', '[')
refused(201, A + 'LTLSPEC F [0, a§[0]] a[0]', '[')
refused(201, A + 'INIT a[F§]', ']')

# ---- 202 TooDeep: `array` opens a level, and so do the brackets of an index
refused(202, 'VAR a : ' + 'array 0..0 of ' * 256 + '§array 0..0 of boolean;')
refused(202, 'VAR a : ' + 'array 0..0 of ' * 256 + 'word§[1];')
refused(202, 'VAR a : array ' + '(' * 255 + '§(0')
refused(202, A + 'INIT ' + 'a[' * 256 + 'a§[')

# ---- 305 DuplicateName
refused(305, A + 'VAR §a : boolean;', 'a')
refused(305, 'MODULE m(a)\nVAR §a : array 0..1 of boolean;\nMODULE main', 'a')

# ---- 306 UnknownModule, 307 ArgumentCount: of the element's type too
refused(306, 'VAR a : array 0..1 of §m;', 'm')
refused(306, 'VAR a : array 0..1 of array 0..n of §m(y);', 'm')
refused(306, 'MODULE s\nVAR a : array 0..1 of §m;\nMODULE main\nVAR v : s;', 'm')
refused(307, 'MODULE m(p)\nMODULE main\nVAR a : array 0..1 of §m;', 'm')
refused(307, 'MODULE m\nMODULE main\nVAR a : array 0..1 of array 0..1 of §m(1);', 'm')

# ---- 308 ModuleCycle follows direct instances alone: these are arrays of instances (401)
refused(401, 'MODULE m\nVAR a : array 0..1 of §m;\nMODULE main\nVAR b : m;')
refused(401, 'VAR a : array 0..1 of §main;')
# `main` reaches instances alone, so what `m` declares is not judged.
refused(401, 'MODULE main\nVAR a : array 0..1 of §m;\nMODULE m\nVAR x : nowhere;')

# ---- 304 UnknownName: the bounds in the order of the text, then the element's type
refused(304, 'VAR a : array 0..§n of boolean;', 'n')
refused(304, 'VAR a : array §lo..hi of x..y;', 'lo')
refused(304, 'VAR a : array 0..§hi of x..y;', 'hi')
refused(304, 'VAR a : array 0..1 of array 0..§k of 0..y;', 'k')
refused(304, 'VAR a : array 0..1 of 0..§y;', 'y')
refused(304, 'VAR a : array 0..1 of word[§w];', 'w')
refused(304, 'MODULE m(p)\nMODULE main\nVAR a : array 0..1 of m(§z);', 'z')
refused(304, 'MODULE m(p)\nMODULE main\nVAR a : array 0..§n of m(z);', 'n')
refused(304, A + 'INIT a[§i]', 'i')
refused(304, A + 'INIT §b[0]', 'b')
refused(304, A + 'ASSIGN a[§i] := TRUE;', 'i')
# An array is no instance.
refused(304, A + 'INIT §a.x', 'a')
refused(304, 'MODULE m\nVAR x : boolean;\nMODULE main\nVAR a : array 0..1 of m;\nINIT §a.x', 'a')
refused(304, X + 'LTLSPEC F [§m, n] y', 'm')
refused(304, X + 'LTLSPEC F [0, §n] y', 'n')

# ---- 309 DefineCycle, 310 UnfoldedDepth
refused(309, 'DEFINE §n := k; k := n;\nVAR a : array 0..n of boolean;', 'n')
refused(309, A + 'DEFINE §d := a[d];', 'd')
# The brackets open a level, and so does each of the 2000 names.
refused(310, A + 'DEFINE ' + ' '.join('d%d := d%d;' % (k, k + 1) for k in range(1999)) + ' d1999 := 0;\n§INIT a[d0]')
refused(310, A + 'DEFINE ' + ' '.join('d%d := d%d;' % (k, k + 1) for k in range(1999)) + ' d1999 := 0;\nASSIGN §init(a[d0]) := TRUE;')

# ---- declared types: 401, 404, 403, 402, 410, 409 of one declaration, then of the next
refused(401, 'MODULE m\nMODULE main\nVAR a : array 0..1 of §m;')
refused(401, 'MODULE m\nMODULE main\nVAR a : array 0..1 of array 0..1 of §m;')
refused(401, 'MODULE m\nMODULE main\nIVAR a : array 0..1 of §m;')
refused(401, 'MODULE m\nMODULE main\nFROZENVAR a : array 3..1 of §m;')
refused(401, 'MODULE m\nMODULE main\nVAR n : 0..1; a : array 0..n of §m;')
refused(403, 'MODULE m\nMODULE main\nVAR a : array §3..1 of boolean; b : array 0..1 of m;')
refused(404, 'VAR n : 0..3; a : array 0..§n of boolean;')
refused(404, 'VAR n : 0..3; a : array 0..n §+ 1 of boolean;')
refused(404, 'VAR n : 0..1; a : array §n..1 of array n..1 of n..1;')
refused(404, 'VAR n : 0..1; a : array 0..1 of array 0..§n of n..1;')
refused(404, 'VAR n : 0..1; a : array 3..1 of §n..2;')
refused(404, 'VAR n : 0..1; a : array 3..1 of word[§n];')
refused(404, 'DEFINE k := TRUE;\nVAR a : array 0..§k of boolean;')
refused(404, 'DEFINE k := max(1, 2);\nVAR a : array 0..§k of boolean;')
refused(404, 'VAR a : array 0..4 §/ 0 of boolean;')
refused(404, 'VAR c : {red, blue}; a : array 0..§red of boolean;')
refused(404, 'VAR a : array 0..§a of boolean;')
refused(404, 'DEFINE k := a[0];\nVAR a : array 0..§k of 0..1;')
refused(404, 'MODULE m(p)\nVAR a : array 0..§p of boolean;\nMODULE main\nVAR n : 0..1; v : m(n);')
refused(403, 'VAR a : array §3..1 of boolean;')
refused(403, 'VAR a : array 0..1 of array §1..0 of boolean;')
refused(403, 'VAR a : array 0..1 of §5..4;')
refused(403, 'VAR a : array §3..2 of 5..4;')
refused(403, 'VAR a : array 1 §+ 2..0 of boolean;')
refused(403, 'VAR a : array 2147483647 §+ 1..0 of boolean;')
refused(403, 'VAR a : array §1..0 of word[0];')
refused(403, 'MODULE m(p)\nVAR a : array §0..p of boolean;\nMODULE main\nVAR v : m(0); w : m(-1);')
refused(402, 'VAR a : array 0..1 of word[§0];', '0')
refused(402, 'VAR a : array 0..1 of signed word[§129];', '129')
refused(402, 'VAR a : array 0..2147483647 + 1 of word[§0];', '0')
refused(410, 'VAR a : array 0..1 of {x, y, §x};', 'x')
refused(410, 'VAR a : array 0..2147483647 + 1 of {1, §01};', '01')
refused(409, 'VAR a : array 0..2147483647 §+ 1 of boolean;')
refused(409, 'VAR a : array -2147483647 §- 2..0 of boolean;')
refused(409, 'VAR a : array -2147483647 §- 2..2147483647 + 1 of boolean;')
refused(409, 'VAR a : array 0..1 of array 0..2147483647 §+ 1 of boolean;')
refused(409, 'VAR a : array 0..1 of 0..2147483647 §+ 1;')

# ---- 312 TooManySlots: over 65536
refused(312, '§MODULE main\nVAR a : array 0..65536 of boolean;')
refused(312, '§MODULE main\nVAR a : array 0..999999999 of boolean;')
refused(312, '§MODULE main\nVAR a : array 0..255 of array 0..256 of boolean;')
refused(312, '§MODULE main\nVAR a : array -2147483647 - 1..2147483647 of boolean;')
# Products that come to 0 in 64 bits, or in 32.
refused(312, '§MODULE main\nVAR a : ' + 'array 0..65535 of ' * 4 + 'boolean;')
refused(312, '§MODULE main\nVAR a : ' + 'array 0..1 of ' * 64 + 'boolean;')
refused(312, '§MODULE main\nVAR a : ' + 'array 0..1 of ' * 32 + 'boolean;')
refused(312, '§MODULE main\nVAR a : array 0..2147483647 of array 0..2147483647 of array 0..2147483647 of boolean;')
refused(312, '§MODULE main\nVAR a : array 0..65535 of boolean; b : boolean;')
refused(312, '§MODULE main\nIVAR u : array 0..65535 of boolean;\nFROZENVAR x : boolean;')
refused(312, '§MODULE main\nVAR v : m; w : m; x : boolean;\nMODULE m\nVAR a : array 0..32767 of boolean;')
refused(312, '§MODULE main\nVAR a : array 0..65536 of boolean;\nINIT a')

# ---- 401 TypeMismatch: an array is no value
refused(401, AB + 'INIT a §= b')
refused(401, A + 'INIT §a')
refused(401, A + 'INVARSPEC §a')
refused(401, A + 'JUSTICE §a')
refused(401, A + 'LTLSPEC §G a')
refused(401, A + 'TRANS §next(a)')
refused(401, A + 'TRANS §next(a)[0]')
refused(401, 'VAR red : array 0..1 of {red, blue};\nINIT red[0] §= red')
refused(401, AX + 'ASSIGN §x := a;')
refused(401, AX + 'ASSIGN §next(x) := a;')
refused(401, AX + 'INIT a §& x')
refused(401, A + 'INIT a[0] §in a')
refused(401, A + 'INIT §count(a) = 0')
refused(401, AB + X + 'INIT (§case x : a; TRUE : b; esac)[0]')
refused(401, AB + X + 'INIT (x §? a : b)[0]')
# an element that is an array
refused(401, AA + 'INIT a§[0]')
refused(401, AA + 'INIT a[0] §= a[1]')
refused(401, AA + X + 'ASSIGN §init(x) := a[0];')
# what is no array, and what is no integer
refused(401, X + 'INIT x§[0]')
refused(401, 'VAR w : word[4];\nINIT w§[0] = 0ud1_0')
refused(401, 'VAR w : array 0..1 of word[4];\nINIT w[0]§[1] = 0ud1_0')
refused(401, 'VAR w : array 0..1 of word[4];\nINIT w§[1:0] = 0ud2_0')
refused(401, 'MODULE m\nMODULE main\nVAR v : m;\nINIT v§[0]')
refused(401, A + 'INIT a[0]§[0]')
refused(401, A + 'INIT a§[TRUE]')
refused(401, A + 'INIT a§[a[0]]')
refused(401, A + 'VAR c : {red, 1};\nINIT a§[c]')
refused(401, A + 'VAR c : {red, 1};\nINIT a§[red]')
refused(401, A + 'INIT a§[0ud1_0]')
refused(401, AB + 'INIT a§[b]')
refused(401, AA + 'INIT a[0]§[TRUE]')
refused(401, 'MODULE m\nMODULE main\nVAR v : m; a : array 0..1 of boolean;\nINIT a§[v]')
# a definition that stands for an array, at the root of its own text; an actual, at the use
refused(401, A + 'DEFINE d := §a;\nINIT d')
refused(401, A + 'DEFINE d := §a;\nINIT d[0]')
refused(401, AA + 'DEFINE d := a§[0];\nINIT d[0]')
refused(401, 'MODULE m(p)\nINIT p[0]\nMODULE main\n' + A + 'DEFINE d := §a;\nVAR v : m(d);')
refused(401, 'MODULE m(p)\nINIT §p\nMODULE main\n' + A + 'VAR v : m(a);')
refused(401, 'MODULE m(p)\nINIT §p\nMODULE main\n' + AA + 'VAR v : m(a[1]);')
refused(401, 'MODULE m(p)\nINIT p§[0]\nMODULE main\n' + A + 'VAR v : m(a[1]);')
# what is assigned
refused(401, A + 'ASSIGN §a := TRUE;')
refused(401, A + 'ASSIGN §init(a) := {TRUE, FALSE};')
refused(401, AB + 'ASSIGN §next(a) := b;')
refused(401, AA + 'ASSIGN §next(a[0]) := TRUE;')
# of an index on the left the brackets are told, as by 404 and 412
refused(401, X + 'ASSIGN x§[0] := TRUE;')
refused(401, A + 'ASSIGN a[0]§[0] := TRUE;')
refused(401, 'VAR a : array 0..1 of 0..3;\nASSIGN §init(a[0]) := TRUE;')
refused(401, 'MODULE m(p)\nASSIGN §p := TRUE;\nMODULE main\n' + A + 'VAR v : m(a);')

# ---- 405 SetHere
refused(405, A + 'INIT a[§{0, 1}]')
refused(405, A + 'INIT a[0§..1]')
refused(401, AX + 'ASSIGN init(x) := a§[{0, 1}];')

# ---- 406 NextHere
refused(406, AI + 'ASSIGN a[§next(i)] := TRUE;')
refused(406, AI + 'INIT a[§next(i)]')
refused(406, AI + 'TRANS next(a[§next(i)])')
refused(406, A + 'INVARSPEC §next(a[0])')
refused(406, A + 'ASSIGN init(a[0]) := §next(a[1]);')
refused(406, A + 'DEFINE d := §next(a[0]);\nTRANS d')
refused(406, 'MODULE m(p)\nTRANS p\nMODULE main\n' + A + 'VAR v : m(§next(a[0]));')

# ---- 407 InputHere: at the name
refused(407, U + 'INIT §u[0]')
refused(407, U + 'VAR i : 0..1;\nINIT §u[i]')
refused(407, U + X + 'INVARSPEC x & §u[1]')
refused(407, U + 'TRANS next(§u[0])')
refused(407, U + X + 'ASSIGN init(x) := §u[0];')
refused(407, U + 'DEFINE d := §u[0];\nINIT d')
refused(407, A + 'IVAR j : 0..1;\nINIT a[§j]')
refused(407, A + 'IVAR j : 0..1;\nTRANS next(a[§j])')
refused(407, 'MODULE m(p)\nINIT p[0]\nMODULE main\nIVAR u : array 0..1 of boolean;\nVAR v : m(§u);')
# The array is judged before its index.
refused(407, U + 'VAR i : 0..1;\nINIT §u[next(i)]')
refused(407, U + 'INIT §u[TRUE]')
refused(407, U + 'INIT §u[{0, 1}]')

# ---- 408 TemporalHere
refused(408, A + 'INVARSPEC §G a[0]')
refused(408, AX + 'LTLSPEC G a[§X x]')
refused(408, 'VAR n : 0..1; x : boolean;\nINVARSPEC §F [n, 1] x')

# ---- 411 NotAssignable
refused(411, A + 'DEFINE d := a[0];\nASSIGN §d := TRUE;')
refused(411, U + 'ASSIGN §u[0] := TRUE;')
refused(411, U + 'ASSIGN §init(u[1]) := TRUE;')
refused(411, 'FROZENVAR f : array 0..1 of boolean;\nASSIGN §f[0] := TRUE;')
refused(411, 'FROZENVAR f : array 0..1 of boolean;\nASSIGN §next(f[0]) := TRUE;')
refused(411, 'MODULE m(p)\nASSIGN §p := TRUE;\nMODULE main\n' + AI + 'VAR v : m(a[i]);')

# ---- 404 NotConstant and 412 BadSelection on the left; the left side before the right one
refused(404, AI + 'ASSIGN a§[i] := TRUE;')
refused(404, AA + 'VAR i : 0..1;\nASSIGN next(a[0]§[i]) := TRUE;')
refused(404, AA + 'VAR i : 0..1;\nASSIGN next(a§[i][0]) := TRUE;')
refused(404, A + 'ASSIGN a§[1 / 0] := TRUE;')
refused(404, A + 'ASSIGN a§[max(0, 1)] := TRUE;')
refused(404, A + 'IVAR j : 0..1;\nASSIGN a§[j] := TRUE;')
refused(404, AI + 'ASSIGN a§[i] := next(i) = 0;')
refused(404, 'MODULE m(p)\nVAR i : 0..1;\nASSIGN p§[i] := TRUE;\nMODULE main\n' + A + 'VAR v : m(a);')
refused(412, A + 'ASSIGN a§[2] := TRUE;')
refused(412, A + 'ASSIGN init(a§[-1]) := TRUE;')
refused(412, AA + 'ASSIGN init(a[0]§[5]) := TRUE;')
refused(412, AA + 'ASSIGN init(a§[5][5]) := TRUE;')
refused(412, A + 'DEFINE k := 3 + 4;\nASSIGN next(a§[k]) := TRUE;')
refused(412, AX + 'ASSIGN a§[2] := next(x);')
refused(412, 'MODULE m(p)\nASSIGN init(p§[2]) := TRUE;\nMODULE main\n' + A + 'VAR v : m(a);')
# selections of an element
refused(412, 'VAR w : array 0..1 of word[4];\nINIT w[0]§[4:0] = 0ud5_0')
refused(404, 'VAR w : array 0..1 of word[4]; i : 0..1;\nINIT w[i]§[i:0] = 0ud2_0')

# ---- 409 IntWidth in an index
refused(409, A + 'VAR x : 0..65536;\nINIT a[x §* x]')
refused(409, A + 'INIT a[2147483647 §+ 1]')
refused(409, A + 'ASSIGN a[2147483647 §+ 1] := TRUE;')

# ---- 404 and 413 of the bounds of temporal operators, and nothing else of them
refused(413, X + 'LTLSPEC §F [2, 1] x', '2,1')
refused(413, X + 'LTLSPEC §F [-1, 1] x', '-1,1')
refused(413, X + 'LTLSPEC §G [0, 2 * 128] x', '0,256')
refused(413, X + 'LTLSPEC §O [3 - 5, -1] x', '-2,-1')
refused(413, X + 'DEFINE k := 2;\nLTLSPEC §H [k, k - 1] x', '2,1')
refused(413, 'MODULE m(n, y)\nLTLSPEC §F [n, 1] y\nMODULE main\n' + X + 'VAR v : m(1, x); w : m(2, x);', '2,1')
refused(413, X + 'LTLSPEC F [2, 1] (§G [3, 2] x)', '3,2')
refused(413, X + 'LTLSPEC F [n, 1] (§G [3, 2] x)\nVAR n : 0..1;', '3,2')
refused(413, X + 'LTLSPEC §F [2147483647 + 1, 3] x', '2147483648,3')
# Constants are unbounded: these are ones, and no bounds.
refused(413, X + 'LTLSPEC §F [2147483647 * 3, 3] x', '6442450941,3')
refused(413, X + 'LTLSPEC §F [0, -2147483647 - 2] x', '0,-2147483649')
refused(413, X + 'LTLSPEC §F [0, 2147483647 * 2147483647 - 2147483647 * 2147483647 + 256] x', '0,256')
refused(404, X + 'VAR n : 0..3;\nLTLSPEC §H [0, n] x')
refused(404, X + 'VAR n : 0..3;\nLTLSPEC x & §F [n, 1] x')
refused(404, X + 'LTLSPEC §F [1 / 0, 3] x')
refused(404, X + 'VAR c : {red};\nLTLSPEC §F [0, red] x')
refused(404, X + A + 'LTLSPEC §F [0, a] x')
refused(404, 'MODULE m\nMODULE main\nVAR x : boolean; v : m;\nLTLSPEC §F [v, 1] x')
refused(404, X + 'DEFINE d := {0, 1};\nLTLSPEC §F [d, 1] x')
refused(404, X + 'DEFINE d := abs(1);\nLTLSPEC §G [d, 1] x')

# ---- 501 AssignedTwice: by elements
refused(501, A + 'ASSIGN a[0] := TRUE; §a[0] := FALSE;', 'a[0]')
refused(501, A + 'ASSIGN init(a[1]) := TRUE; §a[1] := FALSE;', 'a[1]')
refused(501, A + 'ASSIGN a[0] := TRUE; a[1] := TRUE; §next(a[3 - 2]) := FALSE;', 'a[1]')
refused(501, 'VAR a : array -2..-1 of array 0..1 of boolean;\nASSIGN init(a[-2][1]) := TRUE; init(a[-1][1]) := TRUE; §init(a[-2][1]) := TRUE;', 'a[-2][1]')
refused(501, 'MODULE m\n' + A + 'ASSIGN init(a[0]) := TRUE; §init(a[0]) := TRUE;\nMODULE main\nVAR v : m;', 'v.a[0]')
refused(501, 'MODULE m(p)\nASSIGN §init(p[1]) := TRUE;\nMODULE main\n' + A + 'VAR v : m(a);\nASSIGN init(a[1]) := FALSE;', 'a[1]')
refused(501, 'MODULE m(p)\nASSIGN §init(p) := TRUE;\nMODULE main\n' + A + 'VAR v : m(a[0]); w : m(a[0]);', 'a[0]')

# ---- 502 AssignCycle: an index that is no constant reaches all elements
refused(502, A + 'ASSIGN §a[0] := a[1]; a[1] := a[0];', 'a[0], a[1], a[0]')
refused(502, A + 'ASSIGN a[1] := a[0]; §a[0] := a[1];', 'a[0], a[1], a[0]')
refused(502, AI + 'ASSIGN §a[0] := a[i];', 'a[0], a[0]')
refused(502, AI + 'ASSIGN §a[0] := a[max(1, 1)];', 'a[0], a[0]')
refused(502, AI + 'ASSIGN init(i) := 0; §init(a[0]) := a[i];', 'a[0], a[0]')
refused(502, AI + 'ASSIGN init(i) := 0; §next(a[1]) := next(a[i]);', 'a[1], a[1]')
refused(502, AI + 'ASSIGN §next(i) := a[next(i)] ? 0 : 1;', 'i, i')
refused(502, AB + 'VAR i : 0..1;\nASSIGN §a[0] := b[i]; i := a[0] ? 1 : 0;', 'a[0], i, a[0]')
refused(502, 'MODULE m(p)\nASSIGN §p[0] := p[1];\nMODULE main\n' + A + 'VAR v : m(a);\nASSIGN a[1] := a[0];', 'a[0], a[1], a[0]')
refused(502, 'MODULE m\n' + AI + 'ASSIGN §init(a[1]) := !a[i];\nMODULE main\nVAR v : m;', 'v.a[1], v.a[1]')

# ---- 511 TooManyBits: over 65536
refused(511, '§MODULE main\nVAR a : array 0..512 of word[128];')
refused(511, '§MODULE main\nVAR a : array 0..32768 of 0..3;')
refused(511, '§MODULE main\nVAR a : array 0..32767 of -1..3;')
refused(511, '§MODULE main\nIVAR u : array 0..255 of word[128];\nVAR a : array 0..255 of word[128]; x : boolean;')
refused(501, 'VAR a : array 0..512 of word[128];\nASSIGN a[0] := 0ud128_0; §a[0] := 0ud128_0;', 'a[0]')

# ---- 602 OutOfRange of an element: the slots of the right side
refused(602, 'VAR a : array 0..1 of 0..2;\nASSIGN next(a[1]) := §a[1] + 1;', 'a[1] = 2')
refused(602, 'VAR a : array 0..1 of 0..1;\nASSIGN next(a[0]) := §a[1] + 1;', 'a[1] = 1')
refused(602, 'VAR a : array 0..1 of 0..2;\nASSIGN init(a[0]) := §{0, 3};')
refused(602, 'MODULE m(p)\nASSIGN next(p) := §p + 1;\nMODULE main\nVAR a : array -1..0 of 3..4; v : m(a[-1]);', 'a[-1] = 4')
refused(602, 'VAR a : array 0..1 of 0..1; b : array 0..1 of 1..2;\nASSIGN next(a[0]) := §b[a[0]];', 'a[0] = _, b[0] = _, b[1] = _')

# ---- 603 IndexOutside: at the bracket
refused(603, A + 'VAR i : 0..2;\nINIT a§[i]', 'a[0] = _, a[1] = _, i = 2')
refused(603, A + 'VAR i : 0..2;\nINVARSPEC a§[i]', 'a[0] = _, a[1] = _, i = 2')
refused(603, A + 'VAR i : 0..2;\nLTLSPEC G F a§[i]', 'a[0] = _, a[1] = _, i = 2')
refused(603, A + 'VAR i : 0..2;\nJUSTICE a§[i]', 'a[0] = _, a[1] = _, i = 2')
refused(603, A + 'VAR i : 0..2;\nINIT i < 2 & a§[i]', 'a[0] = _, a[1] = _, i = 2')
refused(603, 'VAR i : -2..1; a : array -1..1 of boolean;\nINVAR a§[i]', 'i = -2, a[-1] = _, a[0] = _, a[1] = _')
refused(603, A + 'VAR i : {0, 1, 7};\nINIT a§[i]', 'a[0] = _, a[1] = _, i = 7')
refused(603, A + 'VAR i : 0..2; x : boolean;\nASSIGN next(x) := a§[i];', 'a[0] = _, a[1] = _, i = 2')
refused(603, A + 'VAR i : 0..2;\nASSIGN next(a[1]) := a§[i];', 'a[0] = _, a[1] = _, i = 2')
# A constant outside the array names no element.
refused(603, A + 'INIT a§[2]')
refused(603, A + 'INIT a§[-1]')
refused(603, A + 'INIT a§[2147483647]')
refused(603, A + 'VAR i : 5..5;\nINIT a§[i]', 'a[0] = _, a[1] = _, i = 5')
refused(603, A + 'DEFINE k := 1 + 1;\nINIT a§[k]')
refused(603, AX + 'INIT x & a§[2]', 'x = _')
refused(603, A + 'INIT a[0] | a§[2]', 'a[0] = _')
refused(603, A + 'ASSIGN a[0] := a§[5];')
refused(603, 'MODULE m(p)\nASSIGN init(p[0]) := p§[2];\nMODULE main\n' + A + 'VAR v : m(a);')
# Two dimensions: the first index before the second.
refused(603, AA + 'VAR j : 0..2;\nINIT a[0]§[j]', 'a[0][0] = _, a[0][1] = _, j = 2')
refused(603, AA + 'VAR j : 0..2;\nINIT a§[2][j]', 'j = _')
refused(603, AA + 'VAR j : 0..1;\nINIT a[j]§[2]', 'j = _')
refused(603, AA + 'VAR j : 1..2;\nINIT a§[j + 1][j - 1]', 'a[0][0] = _, a[0][1] = _, a[1][0] = _, a[1][1] = _, j = _')
refused(603, AA + 'VAR j : 0..1;\nINIT a[j]§[j + 2]', 'a[0][0] = _, a[0][1] = _, a[1][0] = _, a[1][1] = _, j = _')
# An index that is no constant reaches all elements that the constant ones leave.
refused(603, AA + 'VAR i : 0..2;\nINIT a§[i][0]', 'a[0][0] = _, a[1][0] = _, i = 2')
# Steps.
refused(603, A + 'VAR i : 0..2;\nTRANS next(a§[i])', 'next(a[0]) = _, next(a[1]) = _, next(i) = 2')
refused(603, A + 'VAR i : 0..2;\nTRANS a§[next(i)]', 'a[0] = _, a[1] = _, next(i) = 2')
refused(603, A + 'VAR i : 0..2;\nTRANS next(a[0]) = a§[i]', 'a[0] = _, a[1] = _, i = 2, next(a[0]) = _')
refused(603, 'IVAR u : array 0..1 of boolean; i : 0..2;\nTRANS u§[i]', 'u[0] = _, u[1] = _, i = 2')
refused(603, A + 'IVAR i : 0..2;\nASSIGN next(a[0]) := a§[i];', 'a[0] = _, a[1] = _, i = 2')
refused(603, U + 'VAR i : 0..2;\nLTLSPEC G u§[i]', 'u[0] = _, u[1] = _, i = 2')
# Through names.
refused(603, A + 'VAR i : 0..2;\nDEFINE d := a§[i];\nINIT d', 'a[0] = _, a[1] = _, i = 2')
refused(603, 'MODULE m(p)\nVAR j : 0..2;\nINIT p§[j]\nMODULE main\n' + A + 'VAR v : m(a);', 'a[0] = _, a[1] = _, v.j = 2')
refused(603, 'MODULE m(p)\nINIT p\nMODULE main\n' + A + 'VAR i : 0..2; v : m(a§[i]);', 'a[0] = _, a[1] = _, i = 2')
refused(603, 'MODULE m(p)\nINIT p[0]\nMODULE main\n' + AA + 'VAR i : 0..2; v : m(a§[i]);', 'a[0][0] = _, a[1][0] = _, i = 2')
refused(603, 'MODULE m(p)\nTRANS next(p)\nMODULE main\n' + A + 'VAR i : 0..2; v : m(a§[i]);', 'next(a[0]) = _, next(a[1]) = _, next(i) = 2')
refused(603, A + 'VAR i : 0..2;\nDEFINE d := a§[i];\nTRANS d = next(d)', 'a[0] = _, a[1] = _, i = _, next(a[0]) = _, next(a[1]) = _, next(i) = _')
refused(603, 'MODULE m(n)\n' + A + 'INIT a§[n]\nMODULE main\nVAR v : m(1); w : m(2);')
refused(603, 'VAR a : array 0..1 of 0..3; b : array 0..2 of boolean;\nINIT b§[a[0]]', 'a[0] = 3, b[0] = _, b[1] = _, b[2] = _')
# An index that faults does so before the brackets; specifications come last.
refused(604, A + 'VAR j : 0..1;\nINIT a[1 §/ j]', 'a[0] = _, a[1] = _, j = 0')
refused(601, AX + 'INIT a[§case x : 0; esac]', 'a[0] = _, a[1] = _, x = FALSE')
refused(603, A + 'VAR i : 0..2;\nINVARSPEC a[i]\nINIT a§[3]')
refused(603, A + 'VAR i : 0..2;\nINVAR a§[i]\nINIT a[3]', 'a[0] = _, a[1] = _, i = 2')

# ---- what no rule settles: guessed, printed, not judged
# A set, a boolean as an index on the left.
undecided(405, A + 'ASSIGN a[§{0, 1}] := TRUE;')
undecided(401, A + 'ASSIGN a§[TRUE] := TRUE;')
# A whole input array that is assigned: an input is 411, an array 401.
undecided(401, U + 'ASSIGN §u := TRUE;')
# A parameter that is given an element outside its array: is it assignable?
undecided(411, 'MODULE m(p)\nASSIGN §init(p) := TRUE;\nMODULE main\n' + A + 'VAR v : m(a[5]);')
# A parameter that is given an array, under an operator: at its use, or at the operator.
undecided(401, 'MODULE m(p)\nINIT p §= TRUE\nMODULE main\n' + A + 'VAR v : m(a);')
# A symbol with an index on the left.
undecided(401, 'VAR c : {red};\nASSIGN red§[0] := 1;')
# An input with an index outside, on the left: 411 of the whole, or 412 at the bracket first.
undecided(412, U + 'ASSIGN u§[7] := TRUE;')
# A definition with an index on the left: it stands for an array.
undecided(401, A + 'DEFINE d := §a;\nASSIGN d[0] := TRUE;')

# ---- right models: listings
right(A, '-- slot 0 state a[0] : boolean\n-- slot 1 state a[1] : boolean', words='flat')
right('VAR a : array -1..0 of array 2..3 of 0..5; x : boolean;', '''
-- slot 0 state a[-1][2] : 0..5
-- slot 1 state a[-1][3] : 0..5
-- slot 2 state a[0][2] : 0..5
-- slot 3 state a[0][3] : 0..5
-- slot 4 state x : boolean
''', words='flat')
right('''
IVAR u : array 1..1 of {red, green, 3};
FROZENVAR f : array 0..1 of signed word[4];
VAR w : array 3..3 of array -5..-5 of word[2];
''', '''
-- slot 0 input u[1] : {red, green, 3}
-- slot 1 frozen f[0] : signed word[4]
-- slot 2 frozen f[1] : signed word[4]
-- slot 3 state w[3][-5] : unsigned word[2]
''', words='flat')
right('''
MODULE cell(n)
VAR a : array 0..n of boolean; x : boolean;
MODULE main
VAR c : cell(1); y : boolean; d : cell(0);
''', '''
-- slot 0 state y : boolean
-- slot 1 state c.a[0] : boolean
-- slot 2 state c.a[1] : boolean
-- slot 3 state c.x : boolean
-- slot 4 state d.a[0] : boolean
-- slot 5 state d.x : boolean
''', words='flat')
right('DEFINE n := 2; low := 1 - n;\nVAR a : array low..n - 2 of low..n * n;', '''
-- slot 0 state a[-1] : -1..4
-- slot 1 state a[0] : -1..4
''', words='flat')
right('VAR a : array 0..1 of array 0..1 of array 0..1 of boolean;', '\n'.join(
    '-- slot %d state a[%d][%d][%d] : boolean' % (4 * i + 2 * j + k, i, j, k) for i in (0, 1) for j in (0, 1) for k in (0, 1)), words='flat')
right(A + 'ASSIGN init(a[0]) := TRUE; next(a[0]) := a[1];\n  a[1] := FALSE;\nINVAR a[0] | a[1]\nLTLSPEC a[0]', '''
-- slot 0 state a[0] : boolean
-- slot 1 state a[1] : boolean
-- item 0 init at 3:8 of main
-- item 1 next at 3:28 of main
-- item 2 now at 4:3 of main
-- item 3 INVAR at 5:1 of main
''', words='flat')
right('MODULE m(p, q)\nASSIGN init(p[1]) := q; next(q) := p[0];\nMODULE main\nVAR a : array 0..1 of array 0..1 of boolean; v : m(a[1], a[0][0]);', '''
-- slot 0 state a[0][0] : boolean
-- slot 1 state a[0][1] : boolean
-- slot 2 state a[1][0] : boolean
-- slot 3 state a[1][1] : boolean
-- item 0 init at 2:8 of v
-- item 1 next at 2:25 of v
''', words='flat')
right('MODULE m\nVAR a : array 0..0 of boolean;\nMODULE main\nVAR v : m;\nASSIGN init(v.a[0]) := TRUE; next(self.v.a[0]) := FALSE;', '''
-- slot 0 state v.a[0] : boolean
-- item 0 init at 5:8 of main
-- item 1 next at 5:30 of main
''', words='flat')
right('VAR a : ' + 'array 0..0 of ' * 256 + 'boolean;', '-- slot 0 state a' + '[0]' * 256 + ' : boolean', words='flat')
right('VAR a : array 2147483647..2147483647 of array -2147483647 - 1..-2147483647 of boolean;', '''
-- slot 0 state a[2147483647][-2147483648] : boolean
-- slot 1 state a[2147483647][-2147483647] : boolean
''', words='flat')
right('MODULE leaf(x)\nASSIGN init(x) := TRUE;\nMODULE branch(p)\nVAR l : leaf(p[1]); r : leaf(p[0]);\nMODULE main\n' + AA + 'VAR v : branch(a[0]);', '''
-- slot 0 state a[0][0] : boolean
-- slot 1 state a[0][1] : boolean
-- slot 2 state a[1][0] : boolean
-- slot 3 state a[1][1] : boolean
-- item 0 init at 2:8 of v.l
-- item 1 init at 2:8 of v.r
''', words='flat')
right('VAR red : array 0..0 of {red, blue};\nINIT red[0] != blue', '-- slot 0 state red[0] : {red, blue}\n-- item 0 INIT at 3:1 of main', words='flat')
# `flat` lists a model whose items fault.
right('VAR a : array 0..0 of boolean;\nINIT a[1]', '-- slot 0 state a[0] : boolean\n-- item 0 INIT at 3:1 of main', words='flat')

# ---- right models: at the limits; nothing is printed
right('VAR a : array 0..65535 of boolean;', '')
right('VAR a : array 0..255 of array 0..255 of boolean;', '')
right('VAR a : array 0..32767 of 0..3;', '')
right('VAR a : array 0..511 of word[128];', '')
right('VAR a : array 0..65535 of {red};', '')
right('VAR a : array 1..32768 of boolean; v : m;\nMODULE m\nVAR a : array -32768..-1 of boolean;', '')
right(A + 'DEFINE ' + ' '.join('d%d := d%d;' % (k, k + 1) for k in range(1998)) + ' d1998 := 0;\nINIT a[d0]', '')

# ---- right models: what may stand
right(A + 'DEFINE d := a; e := d;\nINIT TRUE', '')
right(A + 'VAR i : 0..2;\nINIT i < 2 ? a[i] : FALSE\nINVAR case i > 1 : TRUE; TRUE : a[i]; esac', '')
right(A + 'INIT TRUE ? a[0] : a[7]', '')
right(A + 'DEFINE d := a[7]; e := a[0][0]; f := next(a[0]);', '')
right('VAR w : array 0..1 of word[4]; i : 0..1;\nINIT w[i][3:2] = 0ud2_1 & !w[0] = -w[1] & w[i]::w[i] != 0ud8_0', '')
right('MODULE s\nVAR a : array 0..1 of boolean;\nMODULE m(q)\nINIT q.a[0] & self.i = 0 -> q.a[i]\nVAR i : 0..1;\nMODULE main\nVAR v : s; w : m(v);', '')
right(A + 'VAR i : {0, 1};\nINIT (a)[i] & ((a))[1 - i] | self.a[0]', '')
right(AI + 'ASSIGN a[0] := a[1]; init(i) := a[0] ? 0 : 1; next(i) := a[1] ? 1 : next(a[0]) ? 0 : i;', '')
right(AA + 'VAR i : 0..1;\nASSIGN a[0][0] := a[0][1] & a[1][0]; init(a[1][1]) := a[0][1];\nTRANS a[i][next(i)] -> next(a[i][1 - i])', '')
right('VAR a : array 0..1 of {red, green}; b : {blue, red};\nASSIGN init(a[0]) := {red, green}; next(a[0]) := a[1]; init(b) := red;\nINIT a[1] != blue & a[0] in {red, blue}', '')
right(U + AX + 'ASSIGN next(x) := u[0];\nTRANS u[1] -> next(a[0])', '')
right('FROZENVAR f : array 0..1 of 0..3;\nASSIGN init(f[0]) := {1, 2};\nINIT f[1] = f[0]', '')
right('MODULE m(p)\nVAR x : boolean;\nASSIGN next(x) := p;\nMODULE main\nIVAR u : array 0..1 of boolean;\nVAR v : m(u[0]); w : m(u[1]);', '')

# ---- right models: reports, each with the only run or lasso there is
SHIFT = '''
VAR a : array 0..2 of boolean;
ASSIGN
  init(a[0]) := TRUE; init(a[1]) := FALSE; init(a[2]) := FALSE;
  next(a[0]) := FALSE; next(a[1]) := a[0]; next(a[2]) := a[1];
INVARSPEC !a[2]
'''
SHIFTED = '''
-- spec 1 INVARSPEC is false
--@ spec 1
--@ state 0: a[0] = TRUE, a[1] = FALSE, a[2] = FALSE
--@ state 1: a[0] = FALSE, a[1] = TRUE, a[2] = FALSE
--@ state 2: a[0] = FALSE, a[1] = FALSE, a[2] = TRUE
'''
right(SHIFT, SHIFTED, 1)
right(SHIFT, '-- spec 1 INVARSPEC is shown false', 0, words='again')
right(SHIFT + SHIFTED, '-- spec 1 INVARSPEC is shown false', 0, words='recheck')
right(SHIFT + SHIFTED.replace('a[0] = FALSE, a[1] = TRUE', 'a[1] = TRUE, a[0] = FALSE'), '-- spec 1 INVARSPEC is rejected: trace values 1', 1, words='recheck')
right(SHIFT + SHIFTED.replace('--@ state 0: a[0] = TRUE, ', '--@ state 0: '), '-- spec 1 INVARSPEC is rejected: trace values 0', 1, words='recheck')
right(SHIFT + SHIFTED.replace('state 2: a[0] = FALSE', 'state 2: a[0] = TRUE'), '-- spec 1 INVARSPEC is rejected: trace step 1', 1, words='recheck')
right('''
MODULE chain(first)
VAR a : array -1..0 of array 0..1 of boolean;
ASSIGN
  init(a[-1][0]) := first; init(a[-1][1]) := FALSE; init(a[0][0]) := FALSE; init(a[0][1]) := FALSE;
  next(a[-1][0]) := FALSE; next(a[-1][1]) := a[-1][0]; next(a[0][0]) := a[-1][1]; next(a[0][1]) := a[0][0];
INVARSPEC !a[0][0]
MODULE main
VAR m : chain(TRUE);
''', '''
-- spec 1 INVARSPEC is false
--@ spec 1
--@ state 0: m.a[-1][0] = TRUE, m.a[-1][1] = FALSE, m.a[0][0] = FALSE, m.a[0][1] = FALSE
--@ state 1: m.a[-1][0] = FALSE, m.a[-1][1] = TRUE, m.a[0][0] = FALSE, m.a[0][1] = FALSE
--@ state 2: m.a[-1][0] = FALSE, m.a[-1][1] = FALSE, m.a[0][0] = TRUE, m.a[0][1] = FALSE
''', 1)
# an element by a computed index
LIST = '''
FROZENVAR after : array 0..2 of 0..2;
VAR i : 0..2;
ASSIGN
  init(after[0]) := 1; init(after[1]) := 2; init(after[2]) := 0;
  init(i) := 0; next(i) := after[i];
INVARSPEC i != 2
LTLSPEC G F i = 2
'''
right(LIST, '''
-- spec 1 INVARSPEC is false
--@ spec 1
--@ state 0: after[0] = 1, after[1] = 2, after[2] = 0, i = 0
--@ state 1: after[0] = 1, after[1] = 2, after[2] = 0, i = 1
--@ state 2: after[0] = 1, after[1] = 2, after[2] = 0, i = 2
-- spec 2 LTLSPEC is true
''', 1)
right(LIST, '-- spec 1 INVARSPEC is shown false\n-- spec 2 LTLSPEC is shown true', 0, words='again')
# a write by a computed index, through a parameter
MEMORY = '''
MODULE memory(address, data)
VAR a : array 0..1 of word[2];
ASSIGN
  init(a[0]) := 0ud2_0; next(a[0]) := address = 0 ? data : a[0];
  init(a[1]) := 0ud2_0; next(a[1]) := address = 1 ? data : a[1];
DEFINE read := a[address];
MODULE main
VAR i : 0..1; d : word[2]; m : memory(i, d);
ASSIGN init(i) := 0; next(i) := 1; init(d) := 0ud2_1; next(d) := d = 0ud2_3 ? d : d + 0ud2_1;
INVARSPEC m.read != 0ud2_2
INVARSPEC m.a[0] = 0ud2_0 | m.a[0] = 0ud2_1
'''
right(MEMORY, '''
-- spec 1 INVARSPEC is false
--@ spec 1
--@ state 0: i = 0, d = 0ud2_1, m.a[0] = 0ud2_0, m.a[1] = 0ud2_0
--@ state 1: i = 1, d = 0ud2_2, m.a[0] = 0ud2_1, m.a[1] = 0ud2_0
--@ state 2: i = 1, d = 0ud2_3, m.a[0] = 0ud2_1, m.a[1] = 0ud2_2
-- spec 2 INVARSPEC is true
''', 1)
right(MEMORY, '-- spec 1 INVARSPEC is shown false\n-- spec 2 INVARSPEC is shown true', 0, words='again')
# an index that is guarded: the sound block shows that it is never outside
right(A + 'VAR i : 0..2;\nINVARSPEC i < 2 ? a[i] | !a[i] : TRUE', '-- spec 1 INVARSPEC is shown true', 0, words='again')
# `next` of an element, with the index of the next state; an element of this state by the next index
right(AI + '''
INIT a[0] & !a[1] & i = 0
TRANS next(i) = 1 & next(a[i])
ASSIGN next(a[0]) := FALSE;
INVARSPEC !a[1]
''', '''
-- spec 1 INVARSPEC is false
--@ spec 1
--@ state 0: a[0] = TRUE, a[1] = FALSE, i = 0
--@ state 1: a[0] = FALSE, a[1] = TRUE, i = 1
''', 1)
right('FROZENVAR a : array 0..2 of boolean;\nVAR i : 0..2;\nINIT !a[0] & a[1] & !a[2] & i = 0\nTRANS a[next(i)]\nINVARSPEC i = 0\nINVARSPEC i != 2', '''
-- spec 1 INVARSPEC is false
--@ spec 1
--@ state 0: a[0] = FALSE, a[1] = TRUE, a[2] = FALSE, i = 0
--@ state 1: a[0] = FALSE, a[1] = TRUE, a[2] = FALSE, i = 1
-- spec 2 INVARSPEC is true
''', 1)
right('FROZENVAR f : array 0..1 of {red, green};\nINIT f[0] = red & f[1] = green\nINVARSPEC f[0] = f[1]', '''
-- spec 1 INVARSPEC is false
--@ spec 1
--@ state 0: f[0] = red, f[1] = green
''', 1)
right(U + 'LTLSPEC G (u[0] | u[1])', '''
-- spec 1 LTLSPEC is false
--@ spec 1
--@ state 0:
--@ input 0: u[0] = FALSE, u[1] = FALSE
--@ loop 0
''', 1)
right(U + 'VAR i : 0..1;\nASSIGN init(i) := 0; next(i) := u[i] ? 1 - i : i;\nLTLSPEC G (i = 0 & u[0] -> X i = 1)\nINVARSPEC i in 0..1', '-- spec 1 LTLSPEC is true\n-- spec 2 INVARSPEC is true')
right('''
VAR a : array 0..1 of boolean; i : 0..1;
ASSIGN
  init(i) := 0; next(i) := 1 - i;
  init(a[0]) := FALSE; next(a[0]) := i = 0; init(a[1]) := FALSE; next(a[1]) := i = 1;
LTLSPEC X G !a[i]
LTLSPEC F G a[i]
''', '''
-- spec 1 LTLSPEC is true
-- spec 2 LTLSPEC is false
--@ spec 2
--@ state 0: a[0] = FALSE, a[1] = FALSE, i = 0
--@ state 1: a[0] = TRUE, a[1] = FALSE, i = 1
--@ state 2: a[0] = FALSE, a[1] = TRUE, i = 0
--@ loop 1
''', 1)
right('VAR i : 0..3; a : array 0..1 of boolean; b : array 0..3 of 0..1;\nINVARSPEC a[b[i]] | !a[b[i]]\nINVARSPEC b[i] = 0 -> a[b[i]] = a[0]\nINVARSPEC b[i] != 0 -> a[b[i]] = a[max(0, 1)]', '-- spec 1 INVARSPEC is true\n-- spec 2 INVARSPEC is true\n-- spec 3 INVARSPEC is true')
right('MODULE m(p, q, i)\nINVARSPEC p[0][i] & q -> p[0][i]\nINVARSPEC i = 1 -> q = p[1][0]\nMODULE main\n' + AA + 'VAR j : 0..1; v : m(a, a[j][0], j);', '-- spec 1 INVARSPEC is true\n-- spec 2 INVARSPEC is true')

# ---- right models: bounds that are constants
TOGGLE = X + 'ASSIGN init(x) := FALSE; next(x) := !x;\n'
right(TOGGLE + 'DEFINE k := 1;\nLTLSPEC G F [k - 1, k] x\nLTLSPEC G F [k, k] x', '''
-- spec 1 LTLSPEC is true
-- spec 2 LTLSPEC is false
--@ spec 2
--@ state 0: x = FALSE
--@ state 1: x = TRUE
--@ loop 0
''', 1)
right('MODULE m(n, y)\nLTLSPEC G F [0, n] y\nMODULE main\n' + TOGGLE + 'VAR v : m(1, x); w : m(2 * 2, x); u : m(0, x);', '''
-- spec 1 LTLSPEC is true
-- spec 2 LTLSPEC is true
-- spec 3 LTLSPEC is false
--@ spec 3
--@ state 0: x = FALSE
--@ state 1: x = TRUE
--@ loop 0
''', 1)
right(TOGGLE + 'LTLSPEC G (x -> O [3 - 2, -1 + 2] !x)\nLTLSPEC G (x -> H [(4) mod 3, 1] !x)\nLTLSPEC F [0, 20 / 2] x', '-- spec 1 LTLSPEC is true\n-- spec 2 LTLSPEC is true\n-- spec 3 LTLSPEC is true')
right('MODULE s\nDEFINE n := 1;\nMODULE main\n' + TOGGLE + 'VAR v : s;\nLTLSPEC G F [0, v.n] x', '-- spec 1 LTLSPEC is true')
# Between the ends of a bound numbers may be of any size.
right(TOGGLE + 'LTLSPEC G [1, 2147483647 * 2 - 2147483647 - 2147483646] x', '-- spec 1 LTLSPEC is true')


def run(exe, words, text):
    return subprocess.run(exe + words, input=text.encode(), stdout=subprocess.PIPE, stderr=subprocess.PIPE, timeout=600)


def call(exe, words, text):
    """What the program prints, and its status; a message on standard error is a fault."""
    if words == 'again':
        text += run(exe, ['check', '--cert'], text).stdout.decode()
        words = 'recheck'
    try:
        p = run(exe, words.split(), text)
    except subprocess.TimeoutExpired:
        return 'no answer in time', None
    return p.stdout.decode() + p.stderr.decode()[-200:], p.returncode


def fits(out, want):
    return re.fullmatch(re.escape(want).replace('=\\ _', '=\\ [^,\n]+'), out) is not None


def shown(text, most=6):
    lines = text.split('\n')
    return '\n'.join('      ' + (x if len(x) < 140 else x[:140] + ' ..') for x in lines[:most] if x)


def judged(exe, part, rows):
    wrong = 0
    for k, (words, text, want, status) in enumerate(rows):
        out, got = call(exe, words, text)
        if got == status and fits(out, want):
            continue
        wrong += 1
        print('%s row %d (%s): status %s, wanted %s\n%s\n    got\n%s\n    wanted\n%s' % (part, k, words, got, status, shown(text), shown(out), shown(want)), flush=True)
    print('%s: %d rows, %d fail' % (part, len(rows), wrong), flush=True)
    return wrong


def main():
    a = argparse.ArgumentParser()
    a.add_argument('exe')
    a.add_argument('--only', choices=['refused', 'right', 'open'])
    a.add_argument('--list', action='store_true', help='print the rows and run nothing')
    a = a.parse_args()
    parts = [('refused', REFUSED), ('right', RIGHT), ('open', OPEN)]
    if a.list:
        for part, rows in parts:
            for k, (words, text, want, status) in enumerate(rows):
                print('%s row %d (%s), status %d\n%s\n    wanted\n%s' % (part, k, words, status, shown(text, 30), shown(want, 30)))
        return 0
    exe = shlex.split(a.exe)
    wrong = {part: judged(exe, part, rows) for part, rows in parts if a.only in (None, part)}
    return 1 if wrong.get('refused') or wrong.get('right') else 0


if __name__ == '__main__':
    sys.exit(main())
