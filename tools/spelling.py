#!/usr/bin/env python3
"""Brings the repository's own definitions and lemmas to the library's spelling.

usage: python3 tools/spelling.py [--list]        at the top of the repository, once, right after port.py

Words are in snake case: a name in lower camel case gets underscores (digitsIn becomes digits_in). A dash joins two names, and a plain
word is added with an underscore: a dash stays only where a name is two names of definitions joined (num-be), else it becomes an
underscore (be-bytes becomes be_bytes). A lemma that would get the name of a definition gets _lem behind it. Types, modules, names of src/ and names of the library stay. --list prints the table alone.
"""
import collections
import os
import re
import sys

TOKEN = re.compile(r"[^\s(){}.;,@\"«»\[\]⌜⌝`]+")
CAMEL = re.compile(r"[a-z][a-z0-9]*(?:[A-Z][a-z0-9]*)+$")
DECLARED = re.compile(r"(?:unfoldable |abbrev )?(?:pub )?(?:data |record |ruleset |abbrev )?(?:pub )?([^\s:(){}]+)\s*[:({]")
FIELD = re.compile(r"\s+(?:pub )?([^\s:(){}]+)\s*:")
# Words of the library's own lemma names: operations on numbers and lists.
WORDS = set("add sub mul div mod pow suc zero one lt le eq eqb ltb leb append length take drop get_or set sets cons nil map val".split())
# Made from names of src/, so they stay.
MADE = re.compile(r"(?:Need|invariant|decreases|loop|returns|statement|measure|ghost)-")


def files(kinds):
    for folder, dirs, names in os.walk("."):
        built = os.path.dirname(os.path.dirname(folder)) == "."
        dirs[:] = sorted(d for d in dirs if d not in (".git", "target") and not (built and d == "out"))
        for n in sorted(names):
            if n.endswith(kinds):
                yield os.path.join(folder, n)


def read(path):
    with open(path, encoding="utf-8") as f:
        return f.read()


def snake(name):
    return re.sub(r"(?<=[a-z0-9])([A-Z])", lambda m: "_" + m.group(1).lower(), name)


def table():
    lemmas, definitions = set(), set()
    for p in files(".antt"):
        text = re.sub(r"(?m)--.*$", "", read(p))
        for line in text.split("\n"):
            m = DECLARED.match(line)
            if m and not re.search(r":\s*(?:tie|goal)\.|\bstatement M$", line) and not line.startswith(("use ", "pub mod", "mod ", "infix")):
                (definitions if re.match(r"abbrev|unfoldable|pub data|pub record|data|record", line) else lemmas).add(m.group(1))
            m = FIELD.match(line)
            if m:
                lemmas.add(m.group(1))
        definitions |= {t for t in TOKEN.findall(text) if CAMEL.match(t)}
    names = {snake(d) for d in definitions if "-" not in d} | WORDS
    new = {}
    for old in sorted(definitions | lemmas):
        if CAMEL.match(old):
            new[old] = snake(old)
        elif "-" in old and not MADE.match(old) and re.match(r"[A-Za-z]", old):
            parts = [snake(p).replace("getD", "get_or") if CAMEL.match(p) else p for p in old.replace("getD", "get_or").split("-")]
            to = "-".join(parts) if len(parts) == 2 and set(parts) <= names else "_".join(parts)
            if to != old:
                new[old] = to
    taken = collections.Counter(new.values()) + collections.Counter(n for n in definitions | lemmas if n not in new)
    for old in sorted(new):
        if "-" in old and taken[new[old]] > 1:
            new[old] += "_lem"
    return new


def clauses(text):
    """The parts of a .rt file that are antt: ghost uses and the braces of clauses."""
    spots = []
    for m in re.finditer(r"ghost\s+use\b[^;]*;", text):
        spots.append(m.span())
    for m in re.finditer(r"(?:requires|ensures)\s*\*?\s*(?:\w+\s*)?\{", text):
        depth, i = 1, m.end()
        while depth:
            depth += {"{": 1, "}": -1}.get(text[i], 0)
            i += 1
        spots.append((m.end(), i))
    return spots


def tight(edit, turn):
    """An edit: port.py turns none, so what it turned in the files is turned here in their edits."""
    if re.search(r"(?m)^file: .*\.rt$", edit):
        return turn(edit)
    edit = TOKEN.sub(lambda m: snake(m.group(0)) if CAMEL.match(m.group(0)) else m.group(0), turn(edit))
    edit = re.sub(r"(?<=[\w')]) \.(?=[a-z])", ".", edit)
    edit = re.sub(r"\(([\w']+\.[\w']+)\)", r"\1", edit)
    return re.sub(r"\bgetD\b", "get_or", edit)


def main():
    new = table()
    if "--list" in sys.argv:
        for old in sorted(new):
            print(f"{old}\t{new[old]}")
        return

    def one(m):
        # A dashed word behind a dot is a label that the check makes.
        label = "-" in m.group(0) and m.string[m.start() - 1 : m.start()] == "."
        return m.group(0) if label else new.get(m.group(0), m.group(0))

    turn = lambda text: TOKEN.sub(one, text)
    count = collections.Counter()
    for p in files((".antt", ".edit", ".rt", ".md")):
        text = read(p)
        if p.endswith(".antt"):
            to = turn(text)
        elif p.endswith(".edit"):
            to = tight(text, turn)
        elif p.endswith(".md"):
            to = re.sub(r"`[^`\n]*`", lambda m: turn(m.group(0)), text)
        else:
            to, at = "", 0
            for a, b in sorted(clauses(text)):
                to += text[at:a] + turn(text[a:b])
                at = b
            to += text[at:]
        if to != text:
            count[os.path.splitext(p)[1]] += 1
            with open(p, "w", encoding="utf-8") as f:
                f.write(to)
    print(f"spelling: {len(new)} names, in files: {dict(count)}")


main()
