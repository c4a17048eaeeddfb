#!/usr/bin/env python3
"""The reading of query, plan and table texts, modelled from the words of documents 01 and 02 (Notes 1 to 3 and 5, without 13) and not from the code, and the cases of
reading that the program replay runs. Where they leave room, the readings are those of docs/DECISIONS.md.

    tests/read_texts.py DIR              writes reading.in and .out, refused.in and .out; the seed is fixed, so the same files come out
    tests/read_texts.py --against FILE.. compares the model with the cases of other files (JSON lines; texts in base64)

A case is a line of stdin: two digits of the text (00 query, 01 plan, 02 table), then two digits for each of its bytes. Its answer is the
line of stdout at the same place: `accepted LINES COUNTED`, counted being the query's atoms or the table's rows, or `refused NUMBER LINE`.
Some of the refused queries are planned too: 03 and the query, answered by the line ff number line(2).
"""
import base64, json, math, random, struct, sys
from pathlib import Path

# ---- "The text": kind, fields (their width in parentheses where it is not one byte), and the items after n, as the document lists them

QUERY, PLAN, TABLE = 'query', 'plan', 'table'
FRAMES = {QUERY: '''
00 variables globals literals
01 node op n operands
02 node op sort value(4)
03 node op literal
04 a b
05 local global
06 guard n atoms
07 node op n operands
08 node op pre n operands
09 node op suf n operands
0a node op pre suf n operands
0b node op n elements
0c node op rest n elements
0d node op n operands
0e node op rest n operands
10 op cardinality(4)
11 atom cardinality(4)
12 by_repr(8) count(4)
13 op position fan-out(8)
14 op fan-out(8)
20 k bootstrap(2) cv(8)
21 atom n nodes(2)
22 number(2) site position n classes(2)
23 class(2) path position op length(4)
24
''', PLAN: '''
3f variables globals literals steps(2) tallied(2) rejected(2)
40 target atom n lookups
41 target parent position
42 parent position operand
43 a b
44 local global
45 target global
46 target other
47 node flags pre suf n operands
48 node idempotent flag rest n elements
49 node flag rest n operands
4a node literal
4b node value(4)
4c guard
''', TABLE: '''
30 class(2) op n classes(2)
31 class(2) op value(4)
32 global class(2)
33 row(2)
34 class(2) leader(2)
'''}
WIDTH = {'operand': 2, 'operands': 2, 'elements': 3, 'lookups': 4}
VARIABLES = {'node', 'a', 'b', 'local', 'target', 'parent', 'other'}
REALS = {'by_repr', 'fan-out', 'cv'}
KEYS = {0x10: ['op'], 0x11: ['atom'], 0x12: [], 0x13: ['op', 'position'], 0x14: ['op'], 0x20: [], 0x21: ['atom'],
        0x22: ['number', 'site', 'position'], 0x23: ['class', 'path', 'position', 'op'], 0x24: [], 0x32: ['global'], 0x33: [], 0x34: ['class']}
MOST = {'variables': 64, 'globals': 16, 'literals': 16, 'k': 64, 'bootstrap': 256, 'class': 0xfffe, 'classes': 0xfffe, 'leader': 0xfffe, 'idempotent': 1}
MOST_ITEMS = {'lookups': 18, 'nodes': 64}  # else 16; frame 22 has 32 classes
TEXT_MOST, ATOMS_MOST, ROWS_MOST = 65536, 64, 1024

def width(word):
    return int(word[word.index('(') + 1:-1]) if '(' in word else WIDTH.get(word, 1)

KINDS = {}  # kind: text, [(field, width)], (item, width) or None
for text, lines in FRAMES.items():
    for line in lines.split('\n')[1:-1]:
        kind, *words = line.split()
        fields = [(w.split('(')[0], width(w)) for w in words]
        KINDS[int(kind, 16)] = (text, fields[:-1], fields[-1]) if 'n' in words else (text, fields, None)

def fixed(kind):
    return 1 + sum(w for _, w in KINDS[kind][1])

# ---- one frame

def length_right(f):
    item = KINDS[f[0]][2]
    size = fixed(f[0])
    if item is None:
        return len(f) == size
    return len(f) >= size and len(f) == size + f[size - 1] * item[1]

def values(f):
    """Field by field, in order: (name, bytes)."""
    _, fields, item = KINDS[f[0]]
    at, out = 1, []
    for name, w in fields:
        out.append((name, f[at:at + w]))
        at += w
    while item and at < len(f):
        out.append((item[0], f[at:at + item[1]]))
        at += item[1]
    return out

def number(b):
    return int.from_bytes(b, 'big')

def lookup_right(b):
    return {0: b[2] == b[3] == 0, 1: b[1] <= 1, 2: b[2] == b[3] == 0, 3: b[1] <= 1 and b[3] == 0}.get(b[0], False)

def within_limits(f):
    """4: above a limit; undefined tag, site, path, flag, lookup; unused byte not 00."""
    kind, (_, _, item), named = f[0], KINDS[f[0]], dict(values(f))
    at = lambda name: number(named.get(name, b''))
    items = 32 if kind == 0x22 else MOST_ITEMS.get(item[0] if item else '', 16)
    for name, b in values(f):
        if number(b) > MOST.get(name, math.inf) or (name == 'n' and number(b) > items):
            return False
        if name in ('operand', 'operands', 'elements') and b[0] > 1:
            return False
        if name == 'lookups' and not lookup_right(b):
            return False
    unused = []
    if 'site' in named:
        if at('site') > 2:
            return False
        unused += ['position'] if at('site') != 1 else []
    if 'path' in named:
        if at('path') > 1:
            return False
        unused += ['position'] if at('path') != 0 else []
    if 'flags' in named:
        if at('flags') > 3:
            return False
        unused += ['pre'] if not at('flags') & 1 else []
        unused += ['suf'] if not at('flags') & 2 else []
    if 'flag' in named:
        if at('flag') > 1:
            return False
        unused += ['rest'] if at('flag') == 0 else []
    return all(at(name) == 0 for name in unused)

def operands_below(b, n):
    return b[1] < (n['global'] if b[0] else n['variable'])

def below_counts(f, n):
    """5: variable, global, literal or atom not below its count; new rows that begin above the row count."""
    for name, b in values(f):
        if name in VARIABLES and b[0] >= n['variable']:
            return False
        if name in ('global', 'literal') and b[0] >= n[name]:
            return False
        if name in ('atom', 'atoms') and b[0] >= n['atom']:
            return False
        if name == 'row' and number(b) > n['rows']:
            return False
        if name in ('operand', 'operands', 'elements') and not operands_below(b, n):
            return False
        if name == 'lookups' and b[0] in (1, 3) and not operands_below(b[1:], n):
            return False
        if name == 'lookups' and b[0] == 2 and b[1] >= n['variable']:
            return False
    return True

def reals_right(f):
    """6: by_repr, fan-out or cv not finite or below 0."""
    reals = [struct.unpack('>d', b)[0] for name, b in values(f) if name in REALS]
    return all(math.isfinite(r) and not r < 0 for r in reals)

def key(f):
    if f[0] in (0x30, 0x31):
        return f
    if f[0] not in KEYS:
        return None
    named = dict(values(f))
    return (f[0], *(named[name] for name in KEYS[f[0]]))

# ---- the whole reading: ('accepted', lines, counted) or ('refused', number, line)

DIGITS = b'0123456789abcdefABCDEF'
ATOMS = range(0x01, 0x0f)
ROWS = (0x30, 0x31)

def read(text, x):
    refused = lambda k, line: ('refused', k, line)
    if len(x) > TEXT_MOST:
        return refused(4, 0)
    if not x:
        return ('accepted', 0, 0) if text == TABLE else refused(2, 0)
    lines = x.split(b'\n')
    rest = lines.pop()
    frames, counted = [], 0
    for i, line in enumerate(lines, 1):
        if not line or len(line) % 2 or any(b not in DIGITS for b in line):
            return refused(1, i)
        f = bytes.fromhex(line.decode())
        if f[0] not in KINDS or KINDS[f[0]][0] != text:
            return refused(2, i)
        if text != TABLE and (f[0] in (0x00, 0x3f)) != (i == 1):
            return refused(2, i)
        if not length_right(f):
            return refused(3, i)
        counted += f[0] in (ATOMS if text == QUERY else ROWS)
        if not within_limits(f) or counted > (ATOMS_MOST if text == QUERY else ROWS_MOST):
            return refused(4, i)
        frames.append(f)
    if rest:
        return refused(1, len(lines) + 1)
    if text == PLAN and number(frames[0][4:6]) != len(frames) - 1:
        return refused(3, 1)
    n = {'global': 16, 'rows': counted}
    if text != TABLE:
        n = dict(zip(('variable', 'global', 'literal'), frames[0][1:4]), atom=counted if text == QUERY else 64)
    seen, led, leaders = set(), set(), set()
    for i, f in enumerate(frames, 1):
        if not below_counts(f, n):
            return refused(5, i)
        if not reals_right(f):
            return refused(6, i)
        k = key(f)
        if k is not None and k in seen:
            return refused(7, i)
        seen.add(k)
        if f[0] == 0x34:
            led.add(f[1:3])
            leaders.add(f[3:5])
            # 14: with this line a leader has a frame 34
            if f[1:3] in leaders or f[3:5] in led:
                return refused(14, i)
    return ('accepted', len(frames), counted)

# ---- the cases

def text_bytes(*frames):
    return b''.join(f.hex().encode() + b'\n' for f in frames)

def build(text, frames, steps=None):
    """A text of these frames, with room to name 64 variables, 16 globals and 16 literals."""
    counts = bytes([64, 16, 16])
    steps = (len(frames) if steps is None else steps).to_bytes(2, 'big')
    header = {QUERY: [b'\x00' + counts], PLAN: [b'\x3f' + counts + steps + bytes(4)], TABLE: []}
    return text_bytes(*header[text], *frames)

ONE = struct.pack('>d', 1.0)

def good(kind, items=1):
    """A frame of the kind that passes in a text built so: 0 in every field but reals, and a leader that is not the class."""
    _, fields, item = KINDS[kind]
    f = bytes([kind])
    for name, w in fields:
        f += ONE if name in REALS else bytes([items]) if name == 'n' else bytes([0, 1]) if name == 'leader' else bytes(w)
    return f + bytes(item[1] * items if item else 0)

# lines that stand around the tested one, and clash with nothing
AROUND = {QUERY: [bytes.fromhex('06ff00'), bytes.fromhex('050703'), bytes.fromhex('10ee00000001')],
          PLAN: [bytes.fromhex('4cff'), bytes.fromhex('430102'), bytes.fromhex('4b0300000000')],
          TABLE: [bytes.fromhex('310007ee00000000'), bytes.fromhex('3000ffee00'), bytes.fromhex('32090001')]}

def places(text, *frames):
    """The frames after the header, in the middle of others, and at the end."""
    a, b, c = AROUND[text]
    yield build(text, [*frames, a, b, c])
    yield build(text, [a, *frames[:1], b, *frames[1:], c])
    yield build(text, [a, b, c, *frames])

def at_field(kind, name):
    at = 1
    for other, w in KINDS[kind][1]:
        if other == name:
            return at, w
        at += w

def put(f, at, w, value):
    return f[:at] + value.to_bytes(w, 'big') + f[at + w:]

def field_edges(kind, f):
    """Frames with one field at its limit or count and one past it, or with an undefined or unused byte."""
    _, fields, item = KINDS[kind]
    count = {**{v: 64 for v in VARIABLES}, 'global': 16, 'literal': 16}
    if kind not in (0x00, 0x3f):
        for name, w in fields:
            at = at_field(kind, name)[0]
            edges = []
            if name in MOST:
                edges = [MOST[name], MOST[name] + 1]
            if name in count:
                edges = [count[name] - 1, count[name], 255]
            if name == 'atom':
                edges = [1, 2, 4, 5, 63, 64, 255]
            if name == 'row':
                edges = [1, 2, 3, 255, 256, 1024, 1025, 0xffff]
            if name in ('op', 'sort', 'guard', 'position', 'pre', 'suf', 'rest', 'site', 'path', 'flag', 'flags'):
                edges = [1, 2, 3, 4, 255]
            if name in ('value', 'cardinality', 'count', 'length', 'number', 'steps'):
                edges = [256 ** w - 1]
            yield from (put(f, at, w, v) for v in edges)
    for site in (0, 1, 2, 3) if kind == 0x22 else ():
        yield put(put(f, 3, 1, site), 4, 1, 5)
    for path in (0, 1, 2) if kind == 0x23 else ():
        yield put(put(f, 3, 1, path), 4, 1, 5)
    for flags in range(5) if kind == 0x47 else ():
        yield from (put(put(put(f, 2, 1, flags), 3, 1, p), 4, 1, s) for p, s in ((7, 0), (0, 7), (7, 7)))
    for flag in range(3) if kind in (0x48, 0x49) else ():
        at = at_field(kind, 'flag')[0]
        yield put(put(f, at, 1, flag), at + 1, 1, 7)
    if kind == 0x48:
        # as it was before Note 2
        yield from (g[:2] + g[3:] for g in (good(kind, n) for n in (0, 1, 2, 16)))
    last = len(f) - item[1] if item else at_field(kind, 'operand')[0] if ('operand', 2) in fields else None
    names = {item[0] if item else 'operand'}
    if last and names & {'operand', 'operands', 'elements'}:
        for tag, index in ((0, 63), (0, 64), (1, 15), (1, 16), (2, 0), (255, 0), (0, 255), (1, 255)):
            yield put(put(f, last, 1, tag), last + 1, 1, index)
    if last and names & {'atoms'}:
        yield from (put(f, last, 1, v) for v in (0, 2, 3, 255))
    if last and names & {'classes', 'nodes'}:
        yield from (put(f, last, 2, v) for v in (0xfffe, 0xffff))
    if last and names & {'lookups'}:
        for b in ('00ff0000 00000100 00000001 01000000 01010fff 01011000 01003fff 01004000 01020000 023f0000 02400000 02000100 02000001 '
                  '03003f00 03010f00 03004000 03011000 03020000 03000001 04000000 ff000000').split():
            yield f[:last] + bytes.fromhex(b)
    if item:
        most = 32 if kind == 0x22 else MOST_ITEMS.get(item[0], 16)
        yield from (good(kind, n) for n in (0, most, most + 1))
        yield good(kind, most + 1)[:-1]
        yield good(kind, most + 1) + b'\0'
        yield put(good(kind, 2), fixed(kind) - 1, 1, 1)
        yield put(good(kind, 1), fixed(kind) - 1, 1, 2)
        yield put(good(kind, 1), fixed(kind) - 1, 1, 255)

def kind_cases():
    for kind, (text, fields, item) in KINDS.items():
        f = good(kind)
        if kind not in (0x00, 0x3f):
            for changed in (f, f[:-1], f + b'\0', f[:1]):
                yield from ((text, x) for x in places(text, changed))
            digits = f.hex().encode()
            yield from ((text, x.replace(digits, digits[:-1])) for x in places(text, f))
            told = {}
            for e in field_edges(kind, f):
                x = build(text, [AROUND[text][0], e, *AROUND[text][1:]])
                yield text, x
                told.setdefault(read(text, x), e)
            for e in told.values():
                yield from ((text, x) for x in places(text, e))
        for other in FRAMES:
            if other != text:
                yield from ((other, x) for x in places(other, f))
                yield other, text_bytes(f)
        for name, w in fields:
            if name in REALS:
                at = at_field(kind, name)[0]
                for bits in (0, 1, 0x000fffffffffffff, 0x3ff0000000000000, 0x7fefffffffffffff, 0x7ff0000000000000, 0x7ff0000000000001,
                             0x7ff8000000000000, 0x8000000000000000, 0x8000000000000001, 0xbff0000000000000, 0xffefffffffffffff,
                             0xfff0000000000000, 0xfff8000000000000, 0xffffffffffffffff):
                    yield text, build(text, [put(f, at, 8, bits)])
                yield from ((text, x) for x in places(text, put(f, at, 8, 0x7ff0000000000000)))
        if key(f) is not None:
            yield from ((text, x) for x in places(text, f, f))
            for at in range(1, len(f)):
                changed = put(f, at, 1, 1)
                yield text, build(text, [AROUND[text][0], f, changed])
                yield text, build(text, [f, changed, changed])

def header_cases():
    for text, kind in ((QUERY, 0x00), (PLAN, 0x3f)):
        f = bytes([kind, 0, 0, 0]) + bytes(6 if text == PLAN else 0)
        for at, most in ((1, 64), (2, 16), (3, 16)):
            yield from ((text, text_bytes(put(f, at, 1, v))) for v in (most, most + 1, 255))
        for changed in (f, f[:-1], f + b'\0', f[:1]):
            yield text, text_bytes(changed)
        a = AROUND[text]
        yield from ((text, x) for x in places(text, f))
        yield text, text_bytes(a[0], f)
        yield text, text_bytes(f, bytes([0x3f if kind == 0 else 0]) + f[1:])
        for kind in (0x0f, 0x15, 0x1f, 0x25, 0x2f, 0x34, 0x3e, 0x4d, 0x50, 0x99, 0xff):
            yield from ((t, x) for t in FRAMES for x in places(t, bytes([kind, 0, 0])))
    for steps in (0, 1, 2, 3, 4, 5, 0x0300, 0xffff):
        yield PLAN, build(PLAN, AROUND[PLAN], steps)
        yield PLAN, build(PLAN, AROUND[PLAN] + [bytes.fromhex('43ffff')], steps)
        yield PLAN, build(PLAN, AROUND[PLAN] + [bytes.fromhex('40000013')], steps)
    for tail in ('0000000000', '00000000ff', '0000ff0000', '00ffffffff'):
        yield PLAN, b'3f40101000' + tail.encode() + b'\n'

def byte_cases():
    for text in FRAMES:
        x = build(text, AROUND[text])
        yield from ((text, y) for y in (b'', b'\n', b'\n\n', b'0', b'00', b'0\n', b'00\n', b'000\n', x[:-1], x + b'\n', b'\n' + x, x + b'0', x + b'00',
                                        x.replace(b'\n', b'\n\n', 1), x.replace(b'\n', b'\r\n'), x.upper(), x.upper() + x.lower(), x.replace(b'\n', b'')))
        starts = [0] + [i + 1 for i, b in enumerate(x) if b == 10]
        for bad in (0x20, 0x0d, 0x09, ord('g'), ord('G'), 0x00, 0xff, ord('/'), ord(':'), ord('@'), ord('`'), 0x80):
            for start, end in zip(starts, starts[1:]):
                for at in (start, start + 3, end - 2):
                    yield text, x[:at] + bytes([bad]) + x[at + 1:]
            yield text, x[:-1] + bytes([bad]) + b'\n'
            yield text, x + bytes([bad])
        mixed = bytes(b - 32 if 97 <= b <= 102 and i % 3 else b for i, b in enumerate(x))
        yield text, mixed
    for a, b in (('10ab00000001', '10AB00000002'), ('23abcd00000100000000', '23AbCd00000100000001'), ('10aB00000001', '10bA00000001')):
        yield QUERY, b'00401010\n' + a.encode() + b'\n' + b.encode() + b'\n'
    for a, b in (('3000ab0c00', '3000AB0C00'), ('31000b0a000000ff', '31000B0A000000FF'), ('320a0001', '320A0002')):
        yield TABLE, a.encode() + b'\n' + b.encode() + b'\n'

def order_cases():
    """Which of two faults is told: tests in turn in a line, lines in turn in a reading, the first reading before the second."""
    bad = {QUERY: {1: '0g', 2: '99', 3: '0401', 4: '220000030000', 5: '044000', 6: '12bff000000000000000000004', 7: '10ee00000005'},
           PLAN: {1: '0g', 2: '99', 3: '4301', 4: '40000013' + '00' * 76, 5: '434000'},
           TABLE: {1: '0g', 2: '99', 3: '3001', 4: '30ffff0000', 5: '32100001', 7: '3000ffee00'}}
    for text, lines in bad.items():
        for a in lines.values():
            for b in lines.values():
                yield text, build(text, AROUND[text], 5) + a.encode() + b'\n' + b.encode() + b'\n'
    two_faults = ['01000011' + '00' * 33, '0100001100', '01400112' + '02' * 36, '01400002' + '0000', '114000000001', '20417fff7ff0000000000000',
                  '2040010000000000000000', '20400101' + '7ff0000000000000', '22ffff0301' + '00', '9900', '3f', '00']
    for a in two_faults:
        yield from ((QUERY, x) for x in (build(QUERY, []) + a.encode() + b'\n', build(QUERY, [good(0x20)]) + a.encode() + b'\n'))
    one, inf = ONE.hex(), '7ff0000000000000'
    for lines in (['12' + one + '00000004', '12' + inf + '00000004'], ['130102' + one, '130102' + inf],
                  ['110500000001', '110500000001'], ['110000000001', '110000000001', '060000'], ['110000000001', '060000'],
                  ['10010000000a', '10010000000a', '044000'], ['044000', '10010000000a', '10010000000a'], ['06000100'], ['06000101'],
                  ['06000101', '060000'], ['210000', '060000', '210000'], ['20000000' + one, '20400100' + one]):
        yield QUERY, b'00000000\n' + ''.join(line + '\n' for line in lines).encode()

def count_cases():
    for kind in ATOMS:
        f = good(kind, 0)
        yield from ((QUERY, build(QUERY, [f] * n)) for n in (64, 65))
        yield QUERY, build(QUERY, [good(0x06, 0)] * 64 + [good(0x10), f, b'\x99'])
    row = lambda i: bytes([0x30]) + i.to_bytes(2, 'big') + bytes(2)
    lit = lambda i: bytes([0x31]) + i.to_bytes(2, 'big') + bytes(5)
    for make in (row, lit):
        rows = [make(i) for i in range(1025)]
        yield TABLE, build(TABLE, rows[:1024])
        yield TABLE, build(TABLE, rows)
    yield TABLE, build(TABLE, [row(i) for i in range(512)] + [bytes([0x32, i, 0, 1]) for i in range(16)] + [lit(i) for i in range(512)])
    yield TABLE, build(TABLE, [row(i) for i in range(512)] + [lit(i) for i in range(513)])
    new = lambda n: bytes([0x33]) + n.to_bytes(2, 'big')
    for n in range(4):
        for rows in ([make(i) for i in range(count)] for make in (row, lit) for count in (n, n + 1)):
            for frames in ([new(n), *rows], [*rows, new(n)], [*rows, new(n), new(n + 1)], [*rows, new(n + 1), new(n)], [new(n), *rows[:1], new(n), *rows[1:]]):
                yield TABLE, build(TABLE, frames)
    yield TABLE, build(TABLE, [row(i) for i in range(1023)] + [row(0)])
    yield TABLE, build(TABLE, [row(i) for i in range(1023)] + [row(1023)[:3] + b'\0\1' + b'\0\0', row(1)])

def leader_cases(rng):
    """Frames 34 in twos, all of them, and some threes, with another line between or behind: 7, 14, or accepted."""
    lead = lambda c, d: bytes([0x34, 0, c, 0, d])
    pairs = [(c, d) for c in (1, 2, 3) for d in (1, 2, 3)]
    for a in pairs:
        yield TABLE, build(TABLE, [lead(*a)])
        yield from ((TABLE, build(TABLE, [lead(*a), lead(*b)])) for b in pairs)
    for _ in range(120):
        frames = [lead(*rng.choice(pairs)) for _ in range(3)]
        frames.insert(rng.randrange(4), bytes.fromhex(rng.choice(('3000010100', '32100000', '330001', '3000010100', '3400ff0001'))))
        yield TABLE, build(TABLE, frames)
    far = [bytes([0x34]) + i.to_bytes(2, 'big') + b'\xff\xf0' for i in range(300)]
    yield from ((TABLE, build(TABLE, far + [last])) for last in (far[0], bytes.fromhex('34fff00001'), bytes.fromhex('34ffef012b'), bytes.fromhex('34ffef0200')))

def size_cases():
    """Texts of exactly 65,536 bytes, and of one more. The query has as many keyed lines as fit: no text costs the test for 7 more."""
    query = build(QUERY, [bytes([0x22]) + i.to_bytes(2, 'big') + bytes(3) for i in range(5040)] + [good(0x06, 0)])
    plan = build(PLAN, [good(0x4c)] * 13103)
    rows = [bytes([0x30]) + i.to_bytes(2, 'big') + bytes([0, 16]) + bytes(32) for i in range(873)]
    table = build(TABLE, rows + [good(0x30, 6), good(0x31), good(0x32)])
    led = build(TABLE, [bytes([0x34]) + i.to_bytes(2, 'big') + b'\xff\xf0' for i in range(5957)] + [good(0x32)])
    for text, x in ((QUERY, query), (PLAN, plan), (TABLE, table), (TABLE, led)):
        assert len(x) == TEXT_MOST
        yield text, x
        yield text, x + b'\n'

def random_cases(rng):
    for _ in range(150):
        text = rng.choice(list(FRAMES))
        kinds = [k for k in KINDS if KINDS[k][0] == text and k not in (0x00, 0x3f)]
        frames = []
        for _ in range(rng.randrange(1, 8)):
            f = bytearray(good(rng.choice(kinds), rng.randrange(4)))
            for _ in range(rng.choice((0, 0, 1, 2)) if len(f) > 1 else 0):
                f[rng.randrange(1, len(f))] = rng.choice((0, 1, 2, 3, 15, 16, 63, 64, rng.randrange(256)))
            frames.append(bytes(f))
        x = bytearray(build(text, frames))
        if rng.random() < 0.25:
            x[rng.randrange(len(x))] = rng.choice(b'0123456789abcdefAF\n g')
        yield text, bytes(x)

def all_cases():
    seen = set()
    for cases in (kind_cases(), header_cases(), byte_cases(), order_cases(), count_cases(), leader_cases(random.Random(5)), size_cases(), random_cases(random.Random(1))):
        for case in cases:
            if case not in seen:
                seen.add(case)
                yield case

def refused_queries(cases, answers):
    """For each number and each kind of line that it is told of, the first of the refused queries; and one told of a line above 255. None has frame
    24: what is planned without a table is refused with 13 there."""
    chosen = {}
    for (text, x), (told, number, line) in zip(cases, answers):
        if text == QUERY and told == 'refused' and b'\n24\n' not in x:
            kind = x.split(b'\n')[line - 1][:2] if line else b''
            chosen.setdefault((number, kind), x)
    many = [bytes([0x22]) + i.to_bytes(2, 'big') + bytes(3) for i in range(700)]
    queries = [*chosen.values(), build(QUERY, many + many[:1])]
    return [(x, *read(QUERY, x)[1:]) for x in queries]

# ---- what is written and compared

def write():
    folder = Path(sys.argv[1])
    codes = {QUERY: '00', PLAN: '01', TABLE: '02'}
    cases = list(all_cases())
    answers = [read(text, x) for text, x in cases]
    (folder / 'reading.in').write_text(''.join(codes[text] + x.hex() + '\n' for text, x in cases))
    (folder / 'reading.out').write_text(''.join('%s %d %d\n' % a for a in answers))
    refused = refused_queries(cases, answers)
    (folder / 'refused.in').write_text(''.join('03%s\n' % x.hex() for x, _, _ in refused))
    (folder / 'refused.out').write_text(''.join('ff%02x%04x\n' % (number, line) for _, number, line in refused))
    tally = {}
    for (text, _), a in zip(cases, answers):
        k = (text, a[1] if a[0] == 'refused' else 0)
        tally[k] = tally.get(k, 0) + 1
    print(len(cases), 'cases,', len(refused), 'refused queries planned too;', ', '.join('%s %d: %d' % (*k, v) for k, v in sorted(tally.items())))

def against(file):
    wrong = compared = 0
    for line in open(file):
        case = json.loads(line)
        want, got = case['answer'], None
        for text in (QUERY, PLAN, TABLE):
            if case.get(text) is not None and got is None:
                a = read(text, base64.b64decode(case[text]))
                got = ['refused', a[1], text, a[2]] if a[0] == 'refused' else None
        told = want[0] == 'refused' and (want[1] <= 7 or want[1] == 14)
        missing = told and want[1] == 5 and want[2] == PLAN and got is None  # a used global without frame 32: the runner's
        compared += told and not missing
        if (got != want) if told and not missing else got is not None:
            wrong += 1
            print('case', case['case'], 'is', want, 'and the model says', got)
    print(file, compared, 'refusals compared,', wrong, 'unlike')

if __name__ == '__main__':
    if sys.argv[1:2] == ['--against']:
        for name in sys.argv[2:]:
            against(name)
    else:
        write()
