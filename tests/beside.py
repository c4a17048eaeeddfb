#!/usr/bin/env python3
"""Queries with a table beside them, for the program replay, with the answers of a model of documents 01 and 02.

    tests/beside.py FILE DIR    FILE has a JSON object a line, its texts in base64: query, table (null: none is handed in) and prints, what the
                                program plan prints. Writes beside.in and beside.out

A case is a line: 06, length(4), the query's bytes and the table's; without a table 03 and the query's bytes.
"""
import base64, json, sys
from pathlib import Path

def case(c):
    query = base64.b64decode(c['query'])
    if c['table'] is None:
        return '03%s\n' % query.hex()
    return '06%08x%s%s\n' % (len(query), query.hex(), base64.b64decode(c['table']).hex())

cases = [json.loads(line) for line in open(sys.argv[1])]
folder = Path(sys.argv[2])
(folder / 'beside.in').write_text(''.join(map(case, cases)))
(folder / 'beside.out').write_bytes(b''.join(base64.b64decode(c['prints']) for c in cases))
print(len(cases), 'queries beside tables')
