#!/usr/bin/env python3
"""Counts the places of docs/DESIGN-PASS.md in crates/*/src, and in crates/*/proofs for point 8.

  python3 tests/places.py [TOP]          the counts, a line each
  python3 tests/places.py [TOP] POINT    the places of a point, one a line

TOP is a checkout, this one where none is named. What is counted is a shape in the text: whether a place of that shape is one of
the point's is for a reader to say, and the page says it.
"""
import collections
import glob
import os
import re
import sys

HEAD = re.compile(r"^[ ]*(?:pub )?(?:const )?(?:unsafe )?fn (\w+)(<[^(]*>)?\(", re.M)
WORDS = "let mut if else match for in while loop return break continue as true false Some None Ok Err".split()
NUMBERS = r"(?:bool|u8|u16|u32|u64|usize)"


def sources(top, of="src", end=".rt"):
    for path in sorted(glob.glob(f"{top}/crates/*/{of}/**/*{end}", recursive=True)):
        yield os.path.relpath(path, top), open(path, encoding="utf-8").read()


def functions(text):
    """Each function of a file: its name, its parameters, what stands between them and its body, its body."""
    for found in HEAD.finditer(text):
        at, depth = found.end(), 1
        while depth:
            depth += {"(": 1, ")": -1}.get(text[at], 0)
            at += 1
        body = re.compile(r"^[ ]*\{\n|\{\n|;\n|\{\}", re.M).search(text, at)
        end = re.compile(r"^" + re.match(r"[ ]*", found.group(0)).group(0) + r"\}", re.M).search(text, body.start() if body else at)
        yield found.group(1), text[found.end() : at - 1], text[at : body.start() if body else at], text[body.start() : end.end()] if body and end else "", found.start()


def lines(top, pattern, of="src", end=".rt"):
    for path, text in sources(top, of, end):
        for n, line in enumerate(text.splitlines(), 1):
            if re.search(pattern, line):
                yield f"{path}:{n}: {line.strip()}"


def parameters(top, least):
    for path, text in sources(top):
        for name, inside, _, _, at in functions(text):
            n = len([it for it in re.split(r",(?![^<(\[]*[>)\]])", inside) if it.strip()])
            if n >= least:
                yield f"{path}:{text.count(chr(10), 0, at) + 1}: {name}, {n} parameters"


def shared_clauses(top):
    """A clause that three functions or more ask for, by its text."""
    seen = collections.Counter()
    for _, text in sources(top):
        seen.update(re.findall(r"^ +requires (?:\w+ )?(\{.*\})$", text, re.M))
    for clause, n in seen.most_common():
        if n >= 3:
            yield f"{n} {clause}"


def twins(top):
    """Functions whose bodies are the same but for names, types and numbers."""
    by_shape = collections.defaultdict(list)
    for path, text in sources(top):
        for name, _, _, body, _ in functions(text):
            shape = re.sub(r"//.*", "", body)
            shape = re.sub(r"\b(?:0x[0-9a-f]+|[0-9][0-9_]*)(?:u8|u16|u32|u64|usize)?\b|\b[A-Z][A-Z0-9_]+\b", "N", shape)
            shape = re.sub(r"\b(?!N\b)[A-Za-z_]\w*\b", lambda it: it.group(0) if it.group(0) in WORDS else "x", shape)
            shape = re.sub(r"\s+", " ", shape)
            if len(shape) > 80:
                by_shape[shape].append(f"{path}: {name}")
    for group in by_shape.values():
        if len(group) > 1:
            yield "; ".join(group)


POINTS = {
    "1 enums": lambda top: lines(top, r"^\s*(pub )?enum \w+"),
    "1 flags": lambda top: lines(top, rf"^\s+pub (found|any|passed|kind|end|fault|status|text|number|who): {NUMBERS},"),
    "1 refusals": lambda top: lines(top, r"fn \w*fault\w*\("),
    "2 twins": twins,
    "3 loops": lambda top: lines(top, r"^\s*(while|loop) "),
    "4 helpers": lambda top: lines(top, r"fn (wide\w*|narrow\w*|low_byte|high_byte|high|low|six|at_most|least|number_at|folded\d+|operator|begins|is_seen)\("),
    "4 returns": lambda top: lines(top, r"^\s+return (true|false);"),
    "5 parameters": lambda top: parameters(top, 6),
    "5 clauses": shared_clauses,
    "6 lengths": lambda top: lines(top, r": &(mut )?\[\w+\], \w+: usize"),
    "7 steps": lambda top: lines(top, r"\bdyn \w|\bimpl Fn|: fn\("),
    "8 answers": lambda top: lines(top, r"^pub [\w-]+ : goal\.", "proofs", ".antt"),
}


def main(words):
    top = words.pop(0) if words and os.path.isdir(words[0]) else os.path.dirname(os.path.dirname(os.path.abspath(__file__)))
    for name, places in POINTS.items():
        if not words:
            print(f"{name:14} {len(list(places(top)))}")
        elif name.startswith(words[0]):
            print(*places(top), sep="\n")


main(sys.argv[1:])
