#!/usr/bin/env python3
"""Spells the repository's own definitions and lemmas in snake case: `lastPlace` and `last-place` become `last_place`.

usage: tools/spell.py [--check]      at the top of the repository

A name is ours if a file of specs/ declares it, or a file of proofs/ that is no function's own proof. Types keep their capital.
It goes by whole words. In comments a word with a dash turns only between backquotes. Names that would fall together are said, and then nothing is written.
"""
import collections
import os
import re
import sys

WORD = re.compile(r'[^\s(){}.;,@"«»]+')
DECLARED = re.compile(r"^ *(?:(?:abbrev|unfoldable|pub|constructor) +)*([^\s(){}.;,@\"«»:|]+)(?: \{[^{}]*\})* : ")
HEADED = re.compile(r"^ *(?:pub +)?(?:data|record) ([^\s(){}.;,@\"«»:]+)")
OWN_PROOF = ("Proof.antt", "Answers.antt", "Invariants.antt")
# A word that stands alone, no part of a path and no field.
ALONE = re.compile(r'(?<![^\s(){},;@"«»])[^\s(){}.;,@"«»]+(?!\.[^\s.])')
# Files where a field's label is spelled like a definition, which does no harm.
LABELS = {("crates/mending/proofs/Mended.antt", "byNumber")}


def snake(name):
    """The plain spelling of a name. A type's keeps its capitals, up to the first dash."""
    head, dash, rest = name.partition("-") if name[:1].isupper() else ("", "", name)
    rest = re.sub(r"(?<=[a-z0-9])[A-Z]+", lambda m: "_" + m[0].lower(), rest)
    return re.sub(r"(?<=[\w'])-(?=\w)", "_", head + dash + rest)


def files(*endings):
    for folder, dirs, names in os.walk("crates"):
        dirs[:] = sorted(d for d in dirs if d != "out")
        for name in sorted(names):
            if name.endswith(endings):
                yield os.path.join(folder, name)


def read(path):
    with open(path, encoding="utf-8") as f:
        return f.read()


def names():
    """Our names, each with the files that declare it."""
    found = collections.defaultdict(set)
    for path in files(".antt"):
        # A function's own proof stands in a folder of its name; a file beside those folders holds lemmas, whatever it is called.
        if os.path.basename(path) in OWN_PROOF and not re.fullmatch(r"crates/\w+/proofs/\w+\.antt", path):
            continue
        for line in read(path).splitlines():
            if line.lstrip().startswith(("--", "let ", "(", "→")):
                continue
            for m in (DECLARED.match(line), HEADED.match(line)):
                if m:
                    found[m[1]].add(path)
    return found


def turned(text, table):
    """The text, with each whole word of the table in its new spelling."""
    return WORD.sub(lambda m: table.get(m[0], m[0]), text)


class Known(dict):
    """The table, with every word whose plain spelling is a name of ours: for pages, comments and edits, where an old word may stand."""

    def __init__(self, table, found):
        super().__init__(table)
        self.found = set(found)
        self.ours = {table.get(n, n) for n in found}

    def get(self, word, default=None):
        if word in self:
            return self[word]
        new = snake(word)
        return new if new in self.ours and word not in self.found else default


def turn_words(text, table):
    """The words of a page or a comment: those with a dash only between backquotes."""
    parts = text.split("`")
    camel = lambda m: table.get(m[0], m[0]) if "-" not in m[0] else m[0]
    return "`".join(turned(p, table) if i % 2 else WORD.sub(camel, p) for i, p in enumerate(parts))


def turn_antt(text, table):
    out = []
    for line in text.split("\n"):
        code, mark, rest = line, "", ""
        m = re.search(r"(?:^|(?<=\s))--(?=\s|$)", line)
        if m:
            code, mark, rest = line[: m.start()], "--", line[m.end() :]
        out.append(turned(code, table) + mark + turn_words(rest, table))
    return "\n".join(out)


CLAUSE = re.compile(r"(?:requires|ensures)\*?\s*(?:\w+\s*)?\{|ghost\s*(?:\w+\s*:?\s*)?\{|ghost use\b[^{;]*\{")


def clauses(text):
    """The spans of antt in a Rattle file: what stands between the braces of clauses and of `ghost use`."""
    at = 0
    while True:
        m = CLAUSE.search(text, at)
        if not m:
            return
        depth, i = 1, m.end()
        while depth and i < len(text):
            depth += {"{": 1, "}": -1}.get(text[i], 0)
            i += 1
        yield m.end(), i - 1
        at = i


def turn_rt(text, table):
    out, at = [], 0
    for a, b in clauses(text):
        out += [outside(text[at:a], table), turned(text[a:b], table)]
        at = b
    return "".join(out + [outside(text[at:], table)])


def outside(text, table):
    return re.sub(r"//[^\n]*", lambda m: turn_words(m[0], table), text)


def turn_edit(text, table):
    out = []
    for line in text.split("\n"):
        m = re.match(r"(old|new): ", line)
        out.append(turned(line, table) if m else line)
    return "\n".join(out)


def main(argv):
    found = names()
    table = {n: snake(n) for n in found if snake(n) != n}
    # Where a lemma's or a field's plain spelling is a definition's, it gets `_lem`.
    for old in [n for n in table if "-" in n]:
        if table[old] in found or any(table.get(n) == table[old] for n in table if n != old and "-" not in n):
            table[old] += "_lem"
    bad = []
    by_new = collections.defaultdict(set)
    for n in found:
        by_new[table.get(n, n)].add(n)
    for new, olds in sorted(by_new.items()):
        if len(olds) > 1:
            print(f"alike, in no one file: {' '.join(sorted(olds))} as {new}", file=sys.stderr)
    for path in files(".antt"):
        text = read(path)
        code = re.sub(r"(?m)(^|\s)--(\s.*)?$", "", text)
        words, alone = set(WORD.findall(code)), set(ALONE.findall(code))
        for old in sorted(words & set(table)):
            if (path, old) in LABELS:
                continue
            if table[old] in alone or len([n for n in words if table.get(n, n) == table[old]]) > 1 and table[old] not in words:
                bad.append(f"{path}: {old} would be {table[old]}, which stands there")
    for path in files(".rt"):
        text = read(path)
        heads = re.findall(r"fn \w+(?:<[^>]*>)?\(([^)]*)\)", text)
        params = {w for h in heads for w in re.findall(r"(\w+):", h)}
        inside = {w for a, b in clauses(text) for w in WORD.findall(text[a:b])}
        for old in sorted(inside & set(table)):
            if table[old] in params or table[old] in inside:
                bad.append(f"{path}: {old} would be {table[old]}, a parameter or a word of a clause")
    print(f"{len(found)} names, {len(table)} turn", file=sys.stderr)
    if bad:
        print("\n".join(bad))
        return 1
    if "--check" in argv:
        return 0
    pages = ["README.md"] + [os.path.join(f, n) for f, _, ns in os.walk("docs") for n in sorted(ns) if n.endswith(".md") and n != "PORT.md"]
    todo = [(p, turn_antt) for p in files(".antt")] + [(p, turn_rt) for p in files(".rt")] + [(p, turn_edit) for p in files(".edit")] + [(p, turn_words) for p in pages]
    many = 0
    for path, turn in todo:
        text = read(path)
        new = turn(text, Known(table, found) if turn in (turn_edit, turn_words) else table)
        if new != text:
            many += 1
            with open(path, "w", encoding="utf-8") as f:
                f.write(new)
    print(f"{many} files written", file=sys.stderr)
    return 0


if __name__ == "__main__":
    sys.exit(main(sys.argv[1:]))
