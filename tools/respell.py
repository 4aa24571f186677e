#!/usr/bin/env python3
"""Spells the repository's own definitions and lemmas as today's Rattle does: words in snake case, a dash between two names as before.

usage: tools/respell.py [--list] FOLDER

expandAll -> expand_all, treeAt-wrap -> tree_at-wrap, accepted≢refusedOn -> accepted≢refused_on; types, modules and constants keep their
spelling, and so do names of the source, which has none in this case. --list prints each old name with its new one and writes nothing.
It reads crates/ (.rt, .antt and .edit), and what README.md and docs/ quote of it, and writes in place; texts in quotes stay as they are.
Where two names would fall together a line begins `meets:`; LEMMAS tells those apart that one file has both of.
"""
import os
import re
import sys

NAME = r'[^\s(){}.;,:@"«»\[\]`/|]+'
TOKEN = re.compile(r'"(?:[^"\\\n]|\\.)*"|' + NAME)
RUN = re.compile(r"(?<![A-Za-z0-9_])[a-z](?:[a-z0-9_]*[a-z0-9])?(?:[A-Z][A-Za-z0-9]*)+")


# Lemmas whose names would fall together with a definition's: they get `_lem`, each in the files of its crate.
LEMMAS = {
    "environments": ["taken_in"],
    "reader": ["names_in", "none_open"],
    "reading": ["is_within", "is_name", "after_run"],
}


def lemmas_apart(path, text):
    """The text with the lemmas of LEMMAS renamed, in the specs of their crates."""
    crate = path.split("/crates/")[1].split("/")[0] if "/crates/" in path else ""
    if "/specs/" in path:
        for name in LEMMAS.get(crate, []):
            text = re.sub(rf"(?<![^\s(){{}}.;,]){name}(?![^\s(){{}}.;,])", name + "_lem", text)
    return text


def respelled(word):
    """The word with each run of letters that begins with a small one in snake case."""
    return RUN.sub(lambda m: re.sub(r"(?<=[a-z0-9])([A-Z])|(?<=[A-Z])([A-Z])(?=[a-z])", lambda k: "_" + k[0], m[0]).lower(), word)


def files(root):
    for folder, dirs, names in os.walk(os.path.join(root, "crates")):
        dirs[:] = sorted(d for d in dirs if d not in ("out", "target"))
        for name in sorted(names):
            if name.endswith((".rt", ".antt", ".edit")):
                yield os.path.join(folder, name)


def pages(root):
    yield os.path.join(root, "README.md")
    for folder, dirs, names in os.walk(os.path.join(root, "docs")):
        for name in sorted(names):
            if name.endswith(".md"):
                yield os.path.join(folder, name)


def turned(text):
    return TOKEN.sub(lambda m: m[0] if m[0].startswith('"') else respelled(m[0]), text)


def main(argv):
    listing = "--list" in argv
    root = [a for a in argv if not a.startswith("-")][0]
    texts, read = {}, {}
    for path in files(root):
        with open(path, encoding="utf-8") as f:
            texts[path] = f.read()
            read[path] = texts[path]
            texts[path] = lemmas_apart(os.path.abspath(path), texts[path])
    table, present = {}, {}
    for path, text in texts.items():
        for m in TOKEN.finditer(text):
            word = m[0]
            if word.startswith('"'):
                continue
            present.setdefault(word, path)
            new = respelled(word)
            if new != word:
                table[word] = new
    taken = {}
    for old, new in sorted(table.items()):
        taken.setdefault(new, []).append(old)
    met = [(new, olds, present.get(new)) for new, olds in sorted(taken.items()) if len(olds) > 1 or new in present]
    for new, olds, where in met:
        print(f"meets: {new}: {' '.join(olds)} {where or ''}")
    if listing:
        for old, new in sorted(table.items()):
            print(f"{old}\t{new}")
        return 0
    for path, text in texts.items():
        new = turned(text)
        if new != read[path]:
            with open(path, "w", encoding="utf-8") as f:
                f.write(new)
    for path in pages(root):
        with open(path, encoding="utf-8") as f:
            text = f.read()
        new = re.sub(r"`[^`\n]+`", lambda m: TOKEN.sub(lambda k: table.get(k[0], k[0]), m[0]), text)
        if new != text:
            with open(path, "w", encoding="utf-8") as f:
                f.write(new)
    return 0


if __name__ == "__main__":
    sys.exit(main(sys.argv[1:]))
