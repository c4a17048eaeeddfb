#!/usr/bin/env python3
"""Makes crates.txt anew from the sources: for each crate those that its code, its specifications and its proofs name, in the order of
the file, then the libraries of the kit. Run it at the repository's root. A crate that is new is put by hand where it belongs, as a line `name:`. With --check it
only says which lines differ, or stand before what they name, and how many paths lead from crate to crate."""
import os
import re
import sys

KIT = ("io",)
CODE = re.compile(r"(?<![:\w.])([a-z]\w*)::[\w{]")
PROOF = re.compile(r"Rattle\.(\w+)\.")


def named(crate):
    """The words that can be crates in the sources of a crate."""
    words = set()
    for folder, _, files in os.walk(f"crates/{crate}"):
        if "must-fail" in folder:
            continue
        for name in files:
            if name.endswith((".rt", ".antt")):
                with open(os.path.join(folder, name), encoding="utf-8") as f:
                    text = f.read()
                words.update(PROOF.findall(text))
                if name.endswith(".rt"):
                    code = "\n".join(line.split("//")[0] for line in text.split("\n"))
                    words.update(CODE.findall(code))
    return words - {crate}


def paths(lines):
    """How many paths lead down from the crates, in all: rt follows each, again and again."""
    below = {line.split(":")[0].split()[0]: line.split(":")[1].split() for line in lines if ":" in line and not line.startswith("#")}
    known = {}

    def count(crate):
        if crate not in known:
            known[crate] = 1 + sum(count(c) for c in below[crate] if c in below)
        return known[crate]

    return sum(count(crate) for crate in below)


def main():
    with open("crates.txt", encoding="utf-8") as f:
        lines = f.read().split("\n")
    order = [line.split(":")[0].split()[0] for line in lines if ":" in line and not line.startswith("#")]
    made, early = [], []
    for line in lines:
        head = line.split(":")[0]
        crate = head.split()[0] if head.split() else ""
        if crate in order and not line.startswith("#"):
            below = named(crate)
            made.append(f"{head}: {' '.join(c for c in order + list(KIT) if c in below)}".rstrip())
            early += [f"{crate} stands before {c}" for c in order[order.index(crate) :] if c in below]
        else:
            made.append(line)
    if "--check" in sys.argv[1:]:
        differ = [a.split(":")[0] for a, b in zip(lines, made) if a != b]
        print("differ:", " ".join(differ))
        print("paths:", paths(made))
        print("\n".join(early))
        sys.exit(1 if differ or early else 0)
    with open("crates.txt", "w", encoding="utf-8") as f:
        f.write("\n".join(made))


main()
