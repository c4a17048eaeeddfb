#!/usr/bin/env python3
"""Brings the repository's own definitions and lemmas to snake case, and names the crate of hexadecimal digits anew.

usage: respell.py [--check] TOP      TOP is the repository's top; run once, after port.py.

A name counts as the repository's own where a file of specs/ or proofs/ declares it; types and modules keep their capitals.
--check writes nothing and lists names that would fall together.
Functions of src/, exported names, strings, inputs and outputs stay.
"""
import collections
import os
import re
import sys

DECLARED = re.compile(r"(?m)^ *(?:(?:abbrev|unfoldable|pub|rec|field|instance|opaque) )*([^\s(){}.;,@\"«»:|]+)(?: +\{[^{}\n]*\})*(?: +\([^()\n]*\))* :(?=\s)")
WORD = re.compile(r"[^\s(){}.;,@\"«»\[\]]+")
QUIET = re.compile(r"--[^\n]*")
CLAUSE = re.compile(r"ghost\s+use\b[^;]*;|(?:requires|ensures)\s*\*?\s*(?:\w+\s*)?\{|ghost\s*(?:\w+\s*(?::\s*|=\s*))?\{")
# Lemmas that port.py brought to snake case already, and that would now fall together with a definition.
TURNED = set("bound_by entry_key has_all items_at none_seen operand_in no_number".split())
# Lemmas that would fall together with a name of the library.
TAKEN = set("are_bytes flat_map in_float is_nan nan_bits".split())
CRATES = {"hex": "hexadecimal"}


def snake(name):
    words = re.sub(r"(?<=[a-z0-9])[A-Z]+", lambda m: "_" + m[0].lower(), name)
    return words.replace("-", "_")


def files(top, ends):
    for d, ds, fs in os.walk(os.path.join(top, "crates")):
        ds[:] = sorted(x for x in ds if x != "out")
        for f in sorted(fs):
            if f.endswith(ends):
                yield os.path.join(d, f)


def read(p):
    with open(p, encoding="utf-8") as f:
        return f.read()


def declared_names(top):
    """The names that specs/ and proofs/ declare, and those that an import gets by 'as'."""
    names = set()
    for p in files(top, (".antt", ".rt")):
        text = re.sub(r"//[^\n]*", "", read(p)) if p.endswith(".rt") else QUIET.sub("", read(p))
        found = DECLARED.findall(text) if p.endswith(".antt") else []
        found += re.findall(r"(?<=[\w'-]) as ([^\s(){}.;,]+)(?=[,}\s])", text)
        names.update(n for n in found if n[0].islower() and not re.search(r"[^\w'-]", n))
    return names


def table(top):
    """Old name to new. A lemma that would have its definition's name gets `_lem`."""
    declared = declared_names(top)
    camel = {n for n in declared if re.search(r"[a-z0-9][A-Z]", n) and "-" not in n}
    kebab = {n for n in declared if "-" in n}
    plain = declared - camel - kebab
    taken = {snake(n) for n in camel} | plain | TAKEN
    rows = {n: snake(n) for n in camel}
    rows.update((n, snake(n) + "_lem" * (snake(n) in taken)) for n in kebab)
    rows.update((n, n + "_lem") for n in plain & {snake(n) for n in camel} if n in TURNED)
    return rows


def imported_elsewhere(text):
    """The names that a file takes from a library."""
    found = set()
    for path, items in re.findall(r"(?m)^(?:pub )?use ([^\s;{]+)\{([^}]*)\}", text):
        own = path.startswith("Rattle.") and not re.match(r"Rattle\.(core|std\w*|libc|io|os)\.", path)
        if not own:
            found.update(w for w in re.split(r"[\s,]+| as ", items) if w)
    return found


def clauses(text):
    """The spans of an .rt file that are clauses or ghost items."""
    spans = []
    for m in CLAUSE.finditer(text):
        if m[0].startswith("ghost") and m[0].endswith(";"):
            spans.append((m.start(), m.end()))
            continue
        depth, i = 1, m.end()
        while depth and i < len(text):
            depth += {"{": 1, "}": -1}.get(text[i], 0)
            i += 1
        spans.append((m.end(), i))
    return spans


def turn_part(text, a, b, word):
    out, last = [], a
    for m in WORD.finditer(text, a, b):
        out.append(text[last : m.start()])
        out.append(word(m))
        last = m.end()
    out.append(text[last:b])
    return "".join(out)


def turn_antt(text, rows, path, fields):
    is_proof = path.endswith("Proof.antt")
    skip = imported_elsewhere(text)

    def word(m):
        w = m[0]
        if w not in rows or w in skip:
            return w
        if is_proof and m.start() and text[m.start() - 1] == "." and w not in fields:
            return w
        return rows[w]

    out, last = [], 0
    for c in QUIET.finditer(text):
        out.append(turn_part(text, last, c.start(), word))
        out.append(re.sub(r"`[^`\n]*`", lambda m: re.sub(r"[\w'-]+", lambda n: rows.get(n[0], n[0]), m[0]), c[0]))
        last = c.end()
    out.append(turn_part(text, last, len(text), word))
    return "".join(out)


def turn_rt(text, rows):
    out, last = [], 0
    for a, b in clauses(text):
        out.append(text[last:a])
        out.append(turn_part(text, a, b, lambda m: rows.get(m[0], m[0])))
        last = b
    out.append(text[last:])
    return "".join(out)


def same_as(text):
    return re.sub(r"(?<![^\s{,])([^\s{},]+) as \1(?=[\s},])", r"\1", text)


def crate_paths(text):
    for old, new in CRATES.items():
        text = re.sub(rf"\bRattle\.{old}(?=\.)", f"Rattle.{new}", text)
        text = re.sub(rf"(?<![\w.:'-]){old}::", f"{new}::", text)
        text = re.sub(rf"\buse {old}(?=;)", f"use {new}", text)
    return text


def clashes(top, rows, fields):
    met = collections.defaultdict(list)
    for p in files(top, (".antt", ".rt")):
        if p.endswith("Proof.antt"):
            continue
        text = QUIET.sub("", read(p)) if p.endswith(".antt") else re.sub(r"//[^\n]*", "", read(p))
        if p.endswith(".antt"):
            skip = imported_elsewhere(text)
            words = collections.Counter(WORD.findall(text))
            have = set(words)
        else:
            skip = set()
            inside = " ".join(text[a:b] for a, b in clauses(text))
            have = set(WORD.findall(inside)) | set(re.findall(r"(?:\(|,|mut|let|for|\|)\s*(\w+)\s*(?=[:=,|]| in )", text))
            have |= set(re.findall(r"(?m)^\s*(?:pub )?(\w+):", text))
        turned = collections.defaultdict(set)
        for w in have:
            if w in rows and w not in skip:
                turned[rows[w]].add(w)
        for new, olds in turned.items():
            if new in have:
                met[(new, *sorted(olds))].append(p)
            elif len(olds) > 1:
                met[(new, *sorted(olds))].append(p)
    return met


def rename_crates(top):
    for old, new in CRATES.items():
        os.rename(os.path.join(top, "crates", old), os.path.join(top, "crates", new))
        p = os.path.join(top, "crates.txt")
        text = re.sub(rf"(?m)(?<![\w.]){old}(?!\w)(?![^\n]*#)", new, read(p))
        with open(p, "w", encoding="utf-8") as f:
            f.write(text)


def main(argv):
    check = "--check" in argv
    top = [a for a in argv if not a.startswith("--")][0]
    rows = table(top)
    fields = set()
    if check:
        for names, where in sorted(clashes(top, rows, fields).items()):
            print(*names, "::", *[os.path.relpath(p, top) for p in where[:3]], len(where))
        print(len(rows))
        return
    for p in files(top, (".antt", ".rt")):
        text = read(p)
        new = turn_antt(text, rows, p, fields) if p.endswith(".antt") else turn_rt(text, rows)
        new = crate_paths(same_as(new))
        if new != text:
            with open(p, "w", encoding="utf-8") as f:
                f.write(new)
    rename_crates(top)


main(sys.argv[1:])
