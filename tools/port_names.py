#!/usr/bin/env python3
"""Respells this repository's own definitions and lemmas by the table beside it, port_names.tsv: old name, tab, new name.

usage: tools/port_names.py [FOLDER]

Run once, after the toolchain's port.py. Whole words turn, in .antt files, in .rt files (contracts, ghost items and comments) and in must-fail edits. A word behind
a dot turns only where no dash is in it, since the prover's own names for the steps of a function have dashes. Paths of a renamed module turn with its file."""
import glob
import os
import re
import sys

HERE = os.path.dirname(os.path.abspath(__file__))
WORD = re.compile(r"[^\s(){}\[\];,.«»\"@`:]+")
# Modules whose name Rattle now makes itself, specs.contracts: the crate, the old name, the new one.
MODULES = (("painting", "Contracts", "Paintings"), ("legend_tally", "Contracts", "Tallied"))


def table():
    with open(os.path.join(HERE, "port_names.tsv"), encoding="utf-8") as f:
        return dict(line.rstrip("\n").split("\t") for line in f if line.strip())


def turned(text, names):
    def word(m):
        w = m.group(0)
        new = names.get(w)
        if new is None:
            return w
        if "-" in w and m.start() > 0 and text[m.start() - 1] == ".":
            return w
        return new

    text = WORD.sub(word, text)
    for crate, old, new in MODULES:
        text = re.sub(rf"(Rattle[.·]{crate}\.specs)\.{old}\b", rf"\1.{new}", text)
    return text


def main():
    root = sys.argv[1] if len(sys.argv) > 1 else os.path.dirname(HERE)
    names = table()
    changed = 0
    for kind in ("**/*.antt", "src/**/*.rt", "must-fail/*.edit"):
        for path in sorted(glob.glob(os.path.join(root, "crates", "*", kind), recursive=True)):
            if f"{os.sep}out{os.sep}" in path:
                continue
            with open(path, encoding="utf-8") as f:
                text = f.read()
            new = turned(text, names)
            if new != text:
                changed += 1
                with open(path, "w", encoding="utf-8") as f:
                    f.write(new)
    for crate, old, new in MODULES:
        specs = os.path.join(root, "crates", crate, "specs")
        if not os.path.exists(os.path.join(specs, old + ".antt")):
            continue
        os.rename(os.path.join(specs, old + ".antt"), os.path.join(specs, new + ".antt"))
        with open(os.path.join(specs, "Lib.antt"), encoding="utf-8") as f:
            text = f.read()
        with open(os.path.join(specs, "Lib.antt"), "w", encoding="utf-8") as f:
            f.write(text.replace(f"pub mod {old}\n", f"pub mod {new}\n"))
    print(f"{changed} files turned")


main()
