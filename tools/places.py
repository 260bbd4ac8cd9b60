#!/usr/bin/env python3
"""Lists, by the points of docs/DESIGN-PASS.md, the places of src/ that may have another form: a row is a place to look at.

usage: tools/places.py [--list] [POINT]     counts, or with --list the lines
"""
import collections
import glob
import os
import re
import sys

ROOT = os.path.join(os.path.dirname(os.path.abspath(__file__)), "..")


def sources():
    for path in sorted(glob.glob(os.path.join(ROOT, "crates/*/src/**/*.rt"), recursive=True)):
        with open(path, encoding="utf-8") as f:
            yield os.path.relpath(path, ROOT), f.read().split("\n")


def grep(pattern):
    expression = re.compile(pattern)
    for path, lines in sources():
        for number, line in enumerate(lines, 1):
            if not line.lstrip().startswith("//") and expression.search(line):
                yield path, number, line.strip()


def same_functions():
    """Functions of one name and one parameter list in several files."""
    found = collections.defaultdict(list)
    for path, lines in sources():
        for number, line in enumerate(lines, 1):
            m = re.match(r"\s*(?:pub )?fn (\w+)(?:<[^>]*>)?\(([^)]*)\)(.*)", line)
            if m and m.group(1) not in ("main", "fmt", "from"):
                types = tuple(p.split(":", 1)[-1].strip() for p in m.group(2).split(","))
                found[m.group(1), len(types)].append((path, number, line.strip()))
    for rows in found.values():
        if len({path for path, _, _ in rows}) > 1:
            yield from rows


def facts():
    """Facts of three or more contracts, each with how many contracts have it."""
    found = collections.Counter()
    where = {}
    for path, number, line in grep(r"^\s*requires"):
        for fact in set(re.findall(r"\b(CardIs|IndexOf|Mapped|Importer|IsFolder|OrderGiven|UnitsGiven|UnitOf|UseMark|Every|Sound|Meets|length \w+\.(?:now|old) ≡ \w+|packed_in)", line)):
            found[fact] += 1
            where.setdefault(fact, []).append((path, number, fact))
    for fact, count in sorted(found.items()):
        if count >= 3:
            yield from where[fact]


POINTS = {
    "1a": ("variants of the shape of Option or Result", lambda: grep(r"^\s+(Nothing|Refused\(.*|Bad\(.*|Fault\(.*|Not\(.*),$")),
    "1b": ("a flag or a number with values beside it", lambda: grep(r"^\s+(pub )?(number: u8|ok: bool|whole: bool),$")),
    "1c": ("a refusal's number in code", lambda: grep(r"(Refused|Bad|Fault|Not|refused|refuse|no_way|no_plan|no_start|no_choice)\(\d+|^\s+return \d+;$|number: f|number: g|told != \d|twice: \d")),
    "1d": ("a constant that is a number, a kind or a code", lambda: grep(r"^(pub )?const [A-Z_]+: (u8|u16|u64|usize) = \d+;")),
    "2": ("functions of one name in several files", same_functions),
    "3": ("loops by while", lambda: grep(r"^\s*while ")),
    "4a": ("conversions as functions", lambda: grep(r"^\s*(pub )?fn (wide|far|long|wider|narrow|bit|one|mark|mark_of|digit|count|id|low|unless|capped|half|word|place|byte|byte_at|least)\(")),
    "4b": ("equality, order, printing by hand", lambda: grep(r"fn (same_name|is_row|tell_byte|tell_hex|hex_digit|number_of|shown|code_in|file_in|left_in)\b")),
    "5a": ("facts of three or more contracts", facts),
    "5b": ("the tree's arrays as parameters", lambda: grep(r"^\s+n3: &")),
    "6a": ("arrays as fields or parameters", lambda: grep(r"^\s+(pub )?\w+: (&'?\w* ?mut |&'\w+ |& ?)?\[(u8|u16|u32|u64|usize|bool|\[u8; 5\]); ")),
    "6b": ("offsets of parts in one array", lambda: grep(r"^(pub )?const [A-Z_0-9]+: usize = .*[+*]")),
    "7": ("a switch on a code, a kind or a flag", lambda: grep(r"if (code|op|kind|k|word|files|optional) ?(==|!=) ?\w+|if files \{|if optional \{|names::same_bytes\(word")),
}


def main(argv):
    show = "--list" in argv
    wanted = [a for a in argv if not a.startswith("-")]
    for name, (what, rows) in POINTS.items():
        if wanted and not any(name.startswith(w) for w in wanted):
            continue
        rows = list(rows())
        print(f"{name:3} {len(rows):4}  {what}")
        if show:
            for path, number, line in rows:
                print(f"      {path}:{number}: {line}")


main(sys.argv[1:])
