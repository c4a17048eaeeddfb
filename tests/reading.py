#!/usr/bin/env python3
"""Says whether docs/READING.md lists all specifications that the statements and the entries' contracts stand on, each with its lines. Run it at the
repository's root."""
import glob
import re
import sys

ROOTS = (
    "fitting/Planner fitting/Entry fitting/Promised running/Run entries/Outcomes round_costs/Costs "
    "guarantee/Demand3 guarantee/NewRows guarantee/Idempotent guarantee/TableSamples guarantee/Leaders guarantee/SecondEntry guarantee/Marked modes/Modes gathering/Handed "
    "hexadecimal/SixteenDigits"
).split()
NAMED = re.compile(r"Rattle\.(\w+)\.specs\.(\w+)")
PASSED = re.compile(r"^pub use Rattle\.(\w+)\.specs\.([\w.]+)(?: as (\w+))?$", re.M)
LISTED = re.compile(r"^\| `(\w+)/specs/(\w+)\.antt` \| (\d+) \|", re.M)


def main():
    texts = {}
    for path in glob.glob("crates/*/specs/*.antt"):
        parts = path.split("/")
        with open(path, encoding="utf-8") as f:
            texts[f"{parts[1]}/{parts[3][:-5]}"] = f.read()
    passed = {}
    for path, text in texts.items():
        crate, name = path.split("/")
        if name == "Lib":
            for low, module, other in PASSED.findall(text):
                passed[f"{crate}/{other or module.split('.')[-1]}"] = f"{low}/{module}"
    needed, todo = set(ROOTS), list(ROOTS)
    while todo:
        for crate, name in NAMED.findall(texts[todo.pop()]):
            file = f"{crate}/{name}"
            while file in passed:
                file = passed[file]
            if file in texts and file not in needed:
                needed.add(file)
                todo.append(file)
    lines = {f: sum(1 for line in texts[f].split("\n") if line.strip() and not line.startswith("use ")) for f in needed}
    with open("docs/READING.md", encoding="utf-8") as f:
        page = f.read()
    listed = {f"{a}/{b}": int(n) for a, b, n in LISTED.findall(page)}
    wrong = [f"not listed: {f}, {lines[f]} lines" for f in sorted(needed - set(listed))]
    wrong += [f"not needed: {f}" for f in sorted(set(listed) - needed)]
    wrong += [f"{f} has {lines[f]} lines" for f in sorted(needed & set(listed)) if lines[f] != listed[f]]
    total = f"these {len(needed)} files and no others: {sum(lines.values()):,} lines"
    wrong += [] if total in page else [f"the page should say: {total}"]
    print("\n".join(wrong))
    sys.exit(bool(wrong))


main()
