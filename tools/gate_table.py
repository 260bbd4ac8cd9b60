#!/usr/bin/env python3
"""A table from what the gate printed: crate, functions proved, must-fail edits refused; and how many lines of definitions each crate has.

usage: bash .ci/run | tee gate.log; tools/gate_table.py gate.log

A crate that the gate kept from an earlier run has no number of functions. Definitions are what a reader must believe: the lines of
`abbrev`, `unfoldable`, `data` and `record` in the files that a crate's specs/Lib.antt lists as definitions, without comments, laws and
proofs.
"""
import os
import re
import sys

CRATES = os.path.join(os.path.dirname(os.path.abspath(__file__)), "..", "crates")


def definitions(crate):
    """The lines of a crate's definitions."""
    specs = os.path.join(CRATES, crate, "specs")
    try:
        listed = open(os.path.join(specs, "Lib.antt"), encoding="utf-8").read()
    except FileNotFoundError:
        return 0
    lines, group = 0, ""
    for entry in listed.split("\n"):
        if entry.startswith("--"):
            group = entry
        if not entry.startswith("pub mod ") or not group.lower().startswith("-- definitions"):
            continue
        counting = False
        for line in open(os.path.join(specs, entry.split()[-1] + ".antt"), encoding="utf-8"):
            if not line.strip():
                counting = False
            elif re.match(r"\s*(pub )?(abbrev|unfoldable|data|record) ", line):
                counting = True
            lines += counting and not line.lstrip().startswith("--")
    return lines


def main(path):
    rows, edits = {}, {}
    functions = 0
    for line in open(path, encoding="utf-8", errors="replace"):
        m = re.match(r"logic=proved functions=(\d+)", line)
        if m:
            functions = int(m.group(1))
        m = re.match(r"rt: (\w+) (proved|is kept)", line)
        if m:
            rows[m.group(1)] = functions if m.group(2) == "proved" else None
        m = re.match(r"rt: must-fail (\w+)/\S+: refused", line)
        if m:
            edits[m.group(1)] = edits.get(m.group(1), 0) + 1
    print("| Crate | Functions | Edits | Definitions |\n|---|---|---|---|")
    total = [0, 0, 0]
    for crate, count in rows.items():
        edit, lines = edits.get(crate, 0), definitions(crate)
        for place, value in enumerate((count or 0, edit, lines)):
            total[place] += value
        print("| %s | %s | %s | %s |" % (crate, "kept" if count is None else count, edit or "", lines or ""))
    print("| all | %d | %d | %d |" % tuple(total))


if __name__ == "__main__":
    if len(sys.argv) != 2:
        sys.exit(__doc__)
    main(sys.argv[1])
