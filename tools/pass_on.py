#!/usr/bin/env python3
"""Lets each crate name few others: what it takes from far below comes through a crate that it names.

usage: pass_on.py [--check] TOP

rt walks every path from a crate down, so the lists of crates.txt must not be dense. Definitions and laws of a crate that its user does not name come
through one that it does, by a line `pub use Rattle.low.specs.Module` in specs/Lib.antt or proofs/Lib.antt. A function or type comes through the
module `below` of such a crate, by a line `pub use low::geo::area;`, but only where naming the crate itself would cost most paths: until there are
no more than PATHS. It ran once, over lists that named all; a crate that comes later is named by those that use it, or passed on by hand, and
`tests/stands_on.py --check` counts the paths. --check writes nothing and prints how many paths there are before and after.
"""

import collections
import os
import re
import sys

PATHS = 250_000

PATH = re.compile(r"Rattle\.(\w+)\.(specs|proofs)((?:\.[^\s(){}.;,@\"«»\[\]]+)*)")


def read(p):
    with open(p, encoding="utf-8") as f:
        return f.read()


def write(p, text):
    os.makedirs(os.path.dirname(p), exist_ok=True)
    with open(p, "w", encoding="utf-8") as f:
        f.write(text)


def files(folder):
    for d, ds, fs in os.walk(folder):
        ds[:] = sorted(x for x in ds if x not in ("out", "must-fail"))
        for f in sorted(fs):
            if f.endswith((".rt", ".antt")):
                yield os.path.join(d, f)


class Repo:
    def __init__(self, top):
        self.top = top
        self.order, self.listed, self.heads = [], {}, {}
        for line in read(f"{top}/crates.txt").splitlines():
            m = re.match(r"(\w+)([^:#]*):(.*)", line)
            if m:
                self.order.append(m[1])
                self.heads[m[1]] = m[1] + m[2].rstrip()
                self.listed[m[1]] = m[3].split()
        self.own = set(self.order)
        self.modules = {c: self.modules_of(c) for c in self.order}
        self.called, self.named = {}, {}
        for c in self.order:
            self.called[c], self.named[c] = self.named_by(c)

    def modules_of(self, c):
        found = set()
        for kind in ("specs", "proofs"):
            base = f"{self.top}/crates/{c}/{kind}"
            for p in files(base) if os.path.isdir(base) else []:
                rel = os.path.relpath(p, base)[:-5].split(os.sep)
                if rel[-1] != "Lib":
                    found.add((kind, tuple(rel)))
        return found

    def module_in(self, d, kind, parts):
        """The module that a path leads into, and what follows it."""
        if parts[:1] == ["declared"] or parts[:1] == ["contracts"]:
            n = next((i for i, x in enumerate(parts) if i and x[:1].isupper()), None)
            return (parts[: n + 1], parts[n + 1 :]) if n else None
        for n in range(len(parts), 0, -1):
            if (kind, tuple(parts[:n])) in self.modules[d]:
                return parts[:n], parts[n:]
        return None

    def named_by(self, c):
        called, named = set(), set()
        for p in files(f"{self.top}/crates/{c}"):
            text = read(p)
            for d, kind, rest in PATH.findall(text):
                if d in self.own and d != c:
                    got = self.module_in(d, kind, rest.split(".")[1:])
                    if not got and p.endswith("Proof.antt"):
                        continue
                    if not got:
                        print(f"look: {os.path.relpath(p, self.top)}: {d}.{kind}{rest}")
                        called.add(d)
                    else:
                        named.add((d, kind, tuple(got[0])))
            if p.endswith(".rt"):
                code = "\n".join(line.split("//")[0] for line in text.split("\n"))
                code = re.sub(r"ghost use [^;]*;", "", code)
                words = set(re.findall(r"(?<![:\w.])([a-z]\w*)::[\w{]", code)) | set(re.findall(r"\buse ([a-z]\w*);", code))
                called |= {w for w in words if w in self.own and w != c}
        return called, named

    def ranks(self):
        memo = {}

        def rank(c):
            if c not in memo:
                memo[c] = 1 + max([rank(d) for d in self.listed[c] if d in self.own], default=0)
            return memo[c]

        return {c: rank(c) for c in self.order}


USE = re.compile(r"(?m)^use (\w+)((?:::\w+)*)::(\{[^}]*\}|\w+);\n")


def paths(edges):
    memo = {}

    def count(c):
        if c not in memo:
            memo[c] = 1 + sum(count(d) for d in edges[c])
        return memo[c]

    return {c: count(c) for c in edges}


def reached(edges, rank):
    reach = {}
    for c in sorted(edges, key=lambda c: rank[c]):
        reach[c] = set(edges[c]).union(*[reach[d] for d in edges[c]])
    return reach


def chosen(repo, rank):
    """The crates that each crate names."""
    edges, reach = {}, {}
    for c in sorted(repo.order, key=lambda c: rank[c]):
        edges[c] = set(repo.called[c])
        for d in sorted({m[0] for m in repo.named[c]}, key=lambda d: (-rank[d], d)):
            if d not in edges[c] and not any(d in reach[r] for r in edges[c]):
                edges[c].add(d)
        reach[c] = set(edges[c]).union(*[reach[r] for r in edges[c]])
    high = sorted(repo.order, key=lambda c: (-rank[c], c))
    while sum(paths(edges).values()) > PATHS:
        reach, below, ways = reached(edges, rank), paths(edges), dict.fromkeys(edges, 1)
        for c in high:
            for d in edges[c]:
                ways[d] += ways[c]
        spare = [(c, d) for c in edges for d in edges[c] if any(d in reach[r] for r in edges[c] - {d})]
        if not spare:
            break
        c, d = max(spare, key=lambda it: (ways[it[0]] * below[it[1]], it))
        edges[c].discard(d)
    return edges


def main(argv):
    check = "--check" in argv
    repo = Repo([a for a in argv if not a.startswith("--")][0])
    rank = repo.ranks()
    edges = chosen(repo, rank)
    reach = reached(edges, rank)
    before = paths({c: [d for d in repo.listed[c] if d in repo.own] for c in repo.order})
    after = paths(edges)
    print("paths before", sum(before.values()), "after", sum(after.values()), "most", max(after.items(), key=lambda x: x[1]))
    lines = collections.defaultdict(dict)  # (crate, kind) -> passed module -> name
    taken = collections.defaultdict(set)
    for c in repo.order:
        for kind, m in repo.modules[c]:
            taken[c, kind].add(m[0])

    def name_for(r, kind, d, module):
        """The name under which r passes a module of d on."""
        last = module[-1]
        for name in (last, "".join(w.capitalize() for w in d.split("_")) + last):
            if name not in taken[r, kind]:
                taken[r, kind].add(name)
                return name
        raise SystemExit(f"no name for {d} {module} in {r}")

    def provided(r, d, kind, module):
        """The path by which r's users name the module."""
        key = (d, module)
        if key not in lines[r, kind]:
            if d in edges[r]:
                source = ".".join(["Rattle", d, kind, *module])
            else:
                via = choose(r, d, kind, module)
                source = provided(via, d, kind, module)
            lines[r, kind][key] = (name_for(r, kind, d, module), source)
        return ".".join(["Rattle", r, kind, lines[r, kind][key][0]])

    def choose(c, d, kind, module):
        fit = [r for r in edges[c] if d in reach[r]]
        passing = [r for r in fit if (d, module) in lines[r, kind]]
        return min(passing or fit, key=lambda r: (rank[r], r))

    items = collections.defaultdict(dict)  # crate -> item passed in its module below -> where it comes from

    def item_path(r, d, path, item):
        """Where r's users find an item of d."""
        key = (d, path, item)
        if key not in items[r].values():
            if item in items[r]:
                raise SystemExit(f"two items {item} in {r}: {items[r][item]} {key}")
            items[r][item] = key
            if d not in edges[r]:
                item_path(choose_crate(r, d), d, path, item)
        return f"{r}::below"

    def choose_crate(c, d):
        fit = [r for r in edges[c] if d in reach[r]]
        if not fit:
            raise SystemExit(f"{c} reaches no {d}: {sorted(edges[c])}")
        return min(fit, key=lambda r: (rank[r], r))

    texts = {}
    for c in sorted(repo.order, key=lambda c: (rank[c], c)):
        for p in files(f"{repo.top}/crates/{c}"):

            def turned(m):
                d, kind, rest = m[1], m[2], m[3]
                if d == c or d not in repo.own or d in edges[c]:
                    return m[0]
                got = repo.module_in(d, kind, rest.split(".")[1:])
                if not got:
                    return m[0]
                module = tuple(got[0])
                base = provided(choose(c, d, kind, module), d, kind, module)
                return ".".join([base, *got[1]])

            def called(m):
                d, path, names = m[1], m[2], m[3]
                if d == c or d not in repo.own or d in edges[c]:
                    return m[0]
                names = [x.strip() for x in names.strip("{}").split(",") if x.strip()]
                at = {item_path(choose_crate(c, d), d, path, x) for x in names}
                return f"use {at.pop()}::{{{', '.join(names)}}};\n"

            text = read(p)
            new = PATH.sub(turned, text)
            if p.endswith(".rt"):
                new = USE.sub(called, new)
                for d in repo.called[c] - edges[c]:
                    if re.search(rf"(?m)^(?!\s*//|ghost use)[^\n]*(?<![:\w.]){d}::", new):
                        print(f"look: {os.path.relpath(p, repo.top)} calls {d} in place")
            if new != text:
                texts[p] = new
    print("items passed", sum(len(v) for v in items.values()), "files", len(texts), "lines", sum(len(v) for v in lines.values()), "crates that pass on", len(lines))
    if check:
        for c in sorted(repo.order, key=lambda c: -after[c])[:12]:
            print(c, after[c], sorted(edges[c]))
        return
    for p, new in texts.items():
        write(p, new)
    for (c, kind), passed in lines.items():
        p = f"{repo.top}/crates/{c}/{kind}/Lib.antt"
        text = read(p) if os.path.exists(p) else ""
        more = []
        for (d, module), (name, source) in sorted(passed.items(), key=lambda x: x[1][1]):
            more.append(f"pub use {source}" + (f" as {name}" if source.split(".")[-1] != name else ""))
        write(p, text.rstrip("\n") + ("\n" if text else "") + "\n".join(more) + "\n")
    for r, passed in items.items():
        uses = collections.defaultdict(list)
        for item, (d, path, _) in passed.items():
            uses[f"{d}{path}" if d in edges[r] else item_path(choose_crate(r, d), d, path, item)].append(item)
        lines_of = [f"pub use {at}::{{{', '.join(sorted(names))}}};" for at, names in sorted(uses.items())]
        write(f"{repo.top}/crates/{r}/src/below.rt", "// What crates above take from those below this one.\n" + "\n".join(lines_of) + "\n")
        p = f"{repo.top}/crates/{r}/src/lib.rt"
        text = read(p)
        m = list(re.finditer(r"(?m)^(?:pub )?mod \w+;\n", text)) or list(re.finditer(r"(?m)^ghost use [^;]*;\n", text)) or list(re.finditer(r"(?m)^#!\[tactic[^\n]*\n", text))
        k = m[-1].end()
        write(p, text[:k] + ("" if "mod " in m[-1][0] else "\n") + "pub mod below;\n" + text[k:])
    out = []
    for line in read(f"{repo.top}/crates.txt").splitlines():
        m = re.match(r"(\w+)([^:#]*):(.*)", line)
        if m:
            kit = [w for w in m[3].split() if w not in repo.own]
            line = f"{repo.heads[m[1]]}: {' '.join([d for d in repo.order if d in edges[m[1]]] + kit)}".rstrip()
        out.append(line)
    write(f"{repo.top}/crates.txt", "\n".join(out) + "\n")


main(sys.argv[1:])
