#!/usr/bin/env python3
"""Holds docs/EVIDENCE.md to the tree: every linked file is there, every name after a link to a file of specs is declared in it, every
must-fail edit is linked, every function that is named has a body, every crate of a command is listed, every row belongs to a section of
docs/SPECIFICATION.md and every section has rows.

usage: tools/evidence.py [ROOT]          status 1 and a line for each thing that is not there
"""
import glob
import os
import re
import sys

LINK = re.compile(r"\[([^\]]+)\]\(([^)]+)\)(?:: ([^|;.()\[\]]+))?")
NAME = re.compile(r"^[^\s,]+$")
FUNCTION = re.compile(r"`([a-z_]+)::([a-z_]+)`")
COMMAND = re.compile(r"`rt (?:ci|must-fail) ([a-z_ ]+)`")


def declared(path):
    text = open(path, encoding="utf-8").read()
    words = set()
    for line in text.split("\n"):
        m = re.match(r"\s*(?:abbrev |unfoldable |pub |data |record |mutual )*([^\s(){}:]+)", line)
        if m:
            words.add(m.group(1))
    return words


def sections(root, text):
    """What is wrong with the table of sections: ROW, or ROW to ROW, in a line for each section."""
    spec = open(os.path.join(root, "docs", "SPECIFICATION.md"), encoding="utf-8").read()
    headings = set(re.findall(r"^## (\d+\. .+)$", spec, re.M))
    rows = re.findall(r"^\| ([A-Z]\d+) \|", text, re.M)
    named, wrong = set(), []
    for title, cells in re.findall(r"^\| (\d+\. [^|]+|of none: [^|]+) \| ([^|]+) \|$", text, re.M):
        headings.discard(title)
        for part in cells.split(", "):
            ends = part.strip().split(" to ")
            there = [rows.index(end) for end in ends if end in rows]
            if len(there) != len(ends):
                wrong.append("section %s names no row %s" % (title, part))
                continue
            named.update(rows[there[0]:there[-1] + 1])
    wrong.extend("no row for section %s" % title for title in sorted(headings))
    wrong.extend("row %s belongs to no section" % row for row in rows if row not in named)
    return wrong


def main(argv):
    root = argv[0] if argv else "."
    page = os.path.join(root, "docs", "EVIDENCE.md")
    text = open(page, encoding="utf-8").read()
    wrong, edits, names = [], set(), 0
    for m in LINK.finditer(text):
        path = os.path.normpath(os.path.join(root, "docs", m.group(2).split("#")[0]))
        if not os.path.exists(path):
            wrong.append("no file %s (%s)" % (m.group(2), m.group(1)))
            continue
        if path.endswith(".edit"):
            edits.add(os.path.relpath(path, root))
        if path.endswith(".antt") and m.group(3):
            there = declared(path)
            for name in (n.strip() for n in m.group(3).split(",")):
                if name and NAME.match(name):
                    names += 1
                    if name not in there:
                        wrong.append("%s does not declare %s" % (m.group(2), name))
    for path in sorted(glob.glob(os.path.join(root, "crates", "*", "must-fail", "*.edit"))):
        if os.path.relpath(path, root) not in edits:
            wrong.append("no row names %s" % os.path.relpath(path, root))
    for crate, function in sorted(set(FUNCTION.findall(text))):
        if not os.path.isdir(os.path.join(root, "crates", crate)):
            continue
        sources = glob.glob(os.path.join(root, "crates", crate, "src", "*.rt"))
        if not any(re.search(r"\bfn %s\b" % function, open(p, encoding="utf-8").read()) for p in sources):
            wrong.append("no function %s::%s" % (crate, function))
    listed = {line.split(":")[0].split()[0] for line in open(os.path.join(root, "crates.txt"), encoding="utf-8") if ":" in line and line[0] != "#"}
    for crates in COMMAND.findall(text):
        wrong.extend("no crate %s in a command" % c for c in crates.split() if c not in listed)
    wrong.extend(sections(root, text))
    for line in wrong:
        print("EVIDENCE: " + line)
    print("EVIDENCE: %d names, %d edits, %d rows" % (names, len(edits), len(re.findall(r"^\| [A-Z]\d+ \|", text, re.M))))
    return 1 if wrong else 0


if __name__ == "__main__":
    sys.exit(main(sys.argv[1:]))
