#!/usr/bin/env python3
"""Brings the names of definitions and lemmas to the spelling of the toolchain: words in snake case, no middle dot.

usage: python3 tools/respell.py [--check]      at the top of the repository

The names are those that specs/ and proofs/ declare. A definition, a constructor and a field lose each dash; a lemma keeps a dash
between two names of definitions and gets `_` at any other. Types, and what stands in a name with a capital, stay. What turns: the
files of specs/ and proofs/, the clauses and `ghost use` items of src/, code spans of README.md, CHANGELOG.md and docs/.
It names each file in which two names would fall together. --check writes nothing.
"""

import collections
import glob
import re
import sys

WORD = r'[^\s(){}.;,@"«»]+'
DECLARED = re.compile(r"^(\s*)((?:pub |unfoldable |abbrev )*)(" + WORD + r") :(?=\s|$)")
FAMILY = re.compile(r"^(\s*)(?:pub )?(data|record) (" + WORD + ")")
# words of the library that lemmas are named after
LIBRARY = set(
    "zero suc add sub mul div mod min max le lt eq length take drop append set get_or map filter replicate cons nil "
    "sum all any find eqb leb ltb and or not cond refl sym head tail reverse concat count last".split()
)
# Where two names would fall together, the lemma, the field or the record that gets another name.
APART = {
    "foreignEnum": "foreign_enum_fault",
    "noMain": "no_main_fault",
    "noRoot": "no_root_fault",
    "unknownLibrary": "unknown_library_fault",
    "noFile": "no_file_fault",
    "ownFile": "own_file_fault",
    "emptyUse": "empty_use_fault",
    "noLibraryFile": "no_library_file_fault",
    "module-items": "module_items_lem",
    "module-names": "module_names_lem",
    "use-bytes": "use_bytes_lem",
    "use-count": "use_count_within",
    "item_count": "item_count_within",
    "file-count": "file_count_within",
    "folder-count": "folder_count_within",
    "remapping-count": "remapping_count_within",
    "file-count-within": "file_count_limit",
    "folder-count-within": "folder_count_limit",
    "same-remapping": "same_remapping_case",
    "hash_at": "hash_at_lem",
    "faults-in-turn": "faults_in_turn_lem",
    "read_out": "read_out_lem",
    "number-in": "number_in_lem",
    "number-of": "number_of_told",
    "record-length": "record_length_lem",
    "nodes-at": "nodes_at_lem",
    "place_at": "place_at_lem",
    "piece_bytes": "piece_bytes_lem",
    "assemble-told": "assemble_told_lem",
}
# The same in some crates alone: another crate gives the name to a definition.
APART_IN = {"kind-of": ("kind_of_lem", ("assembly", "items", "scope_walk"))}
QUIET = re.compile(r'"(?:[^"\\\n]|\\.)*"|(?<![^\s(){}.;,@"«»])--[^\n]*')
CLAUSE = re.compile(r"\b(?:requires|ensures)\s*\*?\s*(?:\w+\s*)?\{|\bghost\s+\w+\s*:\s*\{")
SPAN = re.compile(r"`[^`\n]+`")


def snake(piece):
    if not re.search(r"[a-z0-9]['′]*[A-Z]", piece) or piece[0].isupper():
        return piece
    return re.sub(r"(?<=[a-z0-9])([A-Z]+)", lambda m: "_" + m[1].lower(), piece)


def undotted(name):
    if "·" not in name:
        return name
    return "_".join(re.sub(r"(?<=[a-z])([A-Z])", lambda m: "_" + m[1], p).lower() for p in name.split("·"))


def antt_files():
    return sorted(glob.glob("crates/*/specs/**/*.antt", recursive=True)) + sorted(
        glob.glob("crates/*/proofs/**/*.antt", recursive=True)
    )


def is_walk(path):
    return path.endswith("/Proof.antt")


def declarations(path, text):
    """Each name that a file declares, with what it is: def, lemma, type, field, goal."""
    family = None
    for line in text.split("\n"):
        indent = len(line) - len(line.lstrip())
        m = FAMILY.match(line)
        if m:
            family = (m[2], indent)
            yield m[3], "type"
            continue
        if family and line.strip() and indent <= family[1]:
            family = None
        m = DECLARED.match(line)
        if not m or line.lstrip().startswith("--"):
            continue
        if is_walk(path) and (": tie." in line or re.search(r": .*statement M\s*$", line)):
            yield m[3], "goal"
        elif family:
            yield m[3], "field"
        elif "abbrev" in m[2] or "unfoldable" in m[2]:
            yield m[3], "def"
        else:
            yield m[3], "lemma"


def table_of(texts):
    kinds = collections.defaultdict(set)
    for path, text in texts.items():
        for name, kind in declarations(path, text):
            kinds[name].add(kind)
    words = set(LIBRARY)
    for name, kind in kinds.items():
        if kind & {"def", "field", "type"}:
            words.add(name)
            words.add("_".join(snake(p) for p in name.split("-")))
    table = {}
    for name, kind in kinds.items():
        if kind == {"goal"}:
            continue
        pieces = [snake(p) for p in undotted(name).split("-")]
        new = pieces[0]
        for a, b in zip(pieces, pieces[1:]):
            joins = kind <= {"lemma", "goal"} and a in words and b in words and a and b
            new += ("-" if joins else "_") + b
        new = APART.get(name, new)
        if new != name and not re.fullmatch(r"[-_<>=≡∷+*]*", name):
            table[name] = new
    return table, kinds


def aliases(texts):
    """Names with a middle dot are names given at an import."""
    return {w: undotted(w) for t in texts for w in re.findall(WORD, t) if "·" in w and re.match(r"\w", w)}


def borrowed(text):
    """The names that a file takes from the library, which keep their spelling."""
    own = "|".join(sorted({p.split("/")[1] for p in glob.glob("crates/*/src")}))
    names = set()
    for m in re.finditer(r"^(?:pub |ghost )?use ([^\s{]+)\.\{([^}]*)\}", text, re.M):
        if not re.match(rf"Rattle\.({own})\.", m[1]):
            names |= {it.split(" as ")[0].strip() for it in m[2].split(",")} - {""}
    return names


def turn(text, table, keep=lambda m, text: False):
    return re.sub(WORD, lambda m: m[0] if keep(m, text) else table.get(m[0], m[0]), text)


def pieces(pattern, text, inside, outside):
    out, at = [], 0
    for m in pattern.finditer(text):
        out += [outside(text[at : m.start()]), inside(m[0])]
        at = m.end()
    return "".join(out + [outside(text[at:])])


def spans(text, table):
    return SPAN.sub(lambda m: turn(m[0], {**table}, lambda w, t: False) if m[0] else m[0], text)


def in_span(span, table):
    return "`" + re.sub(r"[^\s(){}.;,`:/]+", lambda m: table.get(m[0], m[0]), span[1:-1]) + "`"


def comment(text, table):
    text = SPAN.sub(lambda m: in_span(m[0], table), text)
    clear = {k: v for k, v in table.items() if re.search(r"[a-z][A-Z]", k)}
    return re.sub(r"[^\s(){}.;,`:/]+", lambda m: clear.get(m[0], m[0]), text)


def antt(path, text, table, kinds, goals):
    mine = table
    if is_walk(path):
        here = dict(declarations(path, text))
        named = set(re.findall(WORD, " ".join(re.findall(r"^use [^{\n]*\{[^}]*\}", text, re.M))))
        words = {w for w in table if w in named or here.get(w) in ("lemma", "def", "type", "field")}
        fields = {w for w in table if "field" in kinds[w]}

        def keep(m, t):
            if t[m.start() - 1 : m.start()] == ".":
                return m[0] not in fields or m[0] in here and here[m[0]] == "goal"
            return m[0] not in words

        code = lambda t: turn(t, mine, keep)
    else:
        code = lambda t: turn(t, mine)
    new = pieces(QUIET, text, lambda t: t if t[0] == '"' else comment(t, mine), code)
    return re.sub(r"(" + WORD + r") as \1(?=[,}\s])", r"\1", new)


def closing(text, at):
    deep = 1
    while deep and at < len(text):
        deep += (text[at] == "{") - (text[at] == "}")
        at += 1
    return at


def rt(text, table):
    out, at = [], 0
    pattern = re.compile(r"//[^\n]*|ghost use [^;]*;|" + CLAUSE.pattern)
    while True:
        m = pattern.search(text, at)
        if not m:
            return "".join(out + [text[at:]])
        out.append(text[at : m.start()])
        if m[0].startswith("//"):
            out.append(comment(m[0], table))
            at = m.end()
        elif m[0].startswith("ghost use"):
            out.append(re.sub(r"(" + WORD + r") as \1(?=[,}\s])", r"\1", turn(m[0], table)))
            at = m.end()
        else:
            end = closing(text, m.end())
            out += [m[0], turn(text[m.end() : end], table)]
            at = end


def fall_together(path, text, new, table, kinds):
    old_words, said = set(re.findall(WORD, QUIET.sub(" ", text))), []
    by_new = collections.defaultdict(set)
    for w in old_words:
        by_new[table.get(w, w)].add(w)
    for n, olds in by_new.items():
        if len(olds) > 1:
            said.append(f"{path}: {', '.join(sorted(olds))} -> {n}")
    return said


def main(argv):
    check = "--check" in argv
    texts = {p: open(p, encoding="utf-8").read() for p in antt_files()}
    sources = {p: open(p, encoding="utf-8").read() for p in sorted(glob.glob("crates/*/src/**/*.rt", recursive=True))}
    table, kinds = table_of(texts)
    table.update(aliases(list(texts.values()) + list(sources.values())))
    for name in aliases(list(texts.values()) + list(sources.values())):
        kinds[name].add("alias")
    if "--table" in argv:
        for k, v in sorted(table.items()):
            print(k, v, ",".join(sorted(kinds[k])), sep="\t")
        return
    said, written, whole = [], 0, table
    for path, text in {**texts, **sources}.items():
        table = dict(whole)
        for name, (apart, where) in APART_IN.items():
            if path.split("/")[1] in where:
                table[name] = apart
        for name in borrowed(text):
            table.pop(name, None)
        new = rt(text, table) if path.endswith(".rt") else antt(path, text, table, kinds, None)
        if not is_walk(path) and not path.endswith(".rt"):
            said += fall_together(path, text, new, table, kinds)
        if new != text:
            written += 1
            if not check:
                open(path, "w", encoding="utf-8").write(new)
    for path in ["README.md", "CHANGELOG.md", "CONTRIBUTING.md"] + sorted(glob.glob("docs/**/*.md", recursive=True)):
        text = open(path, encoding="utf-8").read()
        new = SPAN.sub(lambda m: in_span(m[0], table), text)
        if new != text and not check:
            open(path, "w", encoding="utf-8").write(new)
    print("\n".join(said))
    print(f"respell: {len(table)} names, {written} files of crates/, {len(said)} fall together")


if __name__ == "__main__":
    main(sys.argv[1:])
