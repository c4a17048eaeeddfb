#!/usr/bin/env python3
"""Runs for the program replay: plans, tables, allowances, named atoms and outputs with the answers of a model of documents 01 and 02.

    tests/runs.py FILE DIR    FILE has a JSON object a line, its texts in base64: plan, table, allowance, out_len, new_atom (null or absent: the run
                              names none), and answer, either [status, tries, matches, written bytes] or ["refused", number, text, line]; and
                              some, the second entry's answer, ["match", line], ["none"], ["spent"] or the refusal. Where some is absent, it
                              is what the run's answer says of it. Writes runs.in and runs.out

A case is a line: 04, allowance(8) room(4) length(4), the plan's bytes and the table's; where an atom is named, 05, and atom(8) behind the
allowance. Its answer is the match lines, the line 51 0000 status(1) tries(8) matches(4), or ff number line(2) text; then how many bytes behind
the match lines kept their value; then the second entry's answer as one number, and the line of its match.
"""
import base64, json, sys
from pathlib import Path

STATUS = {'done': 0, 'spent': 1, 'full': 2}
TEXT = {'plan': 1, 'table': 2}

def case(c):
    plan, table, atom = base64.b64decode(c['plan']), base64.b64decode(c['table']), c.get('new_atom')
    start = '04%016x' % c['allowance'] if atom is None else '05%016x%016x' % (c['allowance'], atom)
    return '%s%08x%08x%s%s\n' % (start, c['out_len'], len(plan), plan.hex(), table.hex())

def found(a):
    """The second entry's answer by the run's: the refusal, the first match line, none or spent. A run that is full without a line does not say."""
    if a[0] == 'refused':
        return a
    if a[2]:
        return ['match', base64.b64encode(base64.b64decode(a[3]).splitlines(True)[0])]
    return {'done': ['none'], 'spent': ['spent']}[a[0]]

def some(c):
    a = c['some'] if 'some' in c else found(c['answer'])
    if a[0] == 'refused':
        return '%d\n' % (1 << 63 | a[1] << 24 | TEXT[a[2]] << 16 | a[3])
    if a[0] == 'match':
        return '2\n' + base64.b64decode(a[1]).decode()
    return '%d\n' % ['none', 'spent'].index(a[0])

def answer(c):
    a = c['answer']
    if a[0] == 'refused':
        return 'ff%02x%04x%02x\n%d\n' % (a[1], a[3], TEXT[a[2]], c['out_len'])
    lines = base64.b64decode(a[3])
    return '%s510000%02x%016x%08x\n%d\n' % (lines.decode(), STATUS[a[0]], a[1], a[2], c['out_len'] - len(lines))

cases = [json.loads(line) for line in open(sys.argv[1])]
cases = [c for c in cases if c['out_len'] is not None and c['out_len'] <= 65536]
folder = Path(sys.argv[2])
(folder / 'runs.in').write_text(''.join(map(case, cases)))
(folder / 'runs.out').write_text(''.join(answer(c) + some(c) for c in cases))
print(len(cases), 'runs')
