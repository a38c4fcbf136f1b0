#!/usr/bin/env python3
"""Brings the names of specs/ and proofs/ to today's spelling, once, right after the port's own script: definitions, lemmas, fields and
constructors in snake case, with a dash only between two names after which a lemma is called (`length-slots`), and `get_or` for what was
`getD`. Functions of src/, strings, inputs and outputs keep their names. It stops where two names would fall together.

usage: tools/respell.py [--list]     at the top of the repository
"""

import collections
import os
import re
import sys

DECLARED = re.compile(r"(?m)^[ ]*(?:(?:pattern|unfoldable|abbrev|pub)[ ]+)*(?:(record|data)[ ]+)?([^\W\d][\w'?-]*)(?:[ ]*\{[^}]*\})?(?:[ ]+\([^)]*\))*[ ]*:(?!=)")
USED = re.compile(r"(?m)^use ([\w.]+)\.\{([^}]*)\}")
TOKEN = re.compile(r"[^\W\d][\w'?]*(?:-[\w'?]+)*")
# what the walks by hand get from the check under a name of its making
MADE = re.compile(r"^(Need-.*|μ-.*|invariant-loop.*|decreases-loop.*|.*returns(-\d+)?|.*-requires(-\d+)?|loop-(again|init|preserved|holds))$")
# names of the library after which a lemma may be called
WORDS = set("length take drop append map set sets replicate get_or cond concat sum count cons snoc nil zero suc add sub mul div mod le lt eq min max pow and or".split())
# a lemma that would have its function's name
LEMMAS = set("bag-get bag-insert bag-remove bag-replace gave-last kid-lengths kids-at needed-below nodes-in put-in root-cells root-ids took-front tree-at with-block".split())


def snake(part):
    part = re.sub(r"getD", "get_or", part)
    return re.sub(r"(?<=[a-z0-9])([A-Z])", lambda m: "_" + m[1].lower(), part) if part[:1].islower() else part


def files(top, ends):
    for folder, dirs, names in os.walk(top):
        dirs[:] = sorted(d for d in dirs if d not in ("out", ".git", "target"))
        for name in sorted(names):
            if name.endswith(ends):
                yield os.path.join(folder, name)


def read(path):
    with open(path, encoding="utf-8") as f:
        return f.read()


def bare(text):
    return re.sub(r"--.*", "", text)


def names(own):
    """Each name that a file declares, with the files; those of specs/ apart; and those that are imported from elsewhere."""
    declared, words, foreign = collections.defaultdict(set), set(), set()
    for path in files("crates", ".antt"):
        text = bare(read(path))
        walk = path.endswith("/Proof.antt")
        for m in DECLARED.finditer(text):
            if walk and re.match(r"\s*tie\.|\s*\{M : Type 1\}", text[m.end() :]):
                continue
            declared[m[2]].add(path)
            if "/specs/" in path and re.search(r"\b(abbrev|unfoldable)\b", m[0]):
                words.add(snake(m[2]))
        for m in USED.finditer(text):
            if not any(m[1].startswith(f"Rattle.{c}.") for c in own):
                foreign |= {n.strip() for n in m[2].split(",")}
    for path in files("crates", ".rt"):
        words |= set(re.findall(r"\bfn (\w+)", read(path)))
    return declared, words, foreign


def respelled(name, words):
    parts = [snake(p) for p in name.split("-")]
    return ("-" if all(p in words for p in parts) else "_").join(parts) + ("_lem" if name in LEMMAS else "")


def renamings():
    own = os.listdir("crates")
    declared, words, foreign = names(own)
    words |= WORDS
    new = {}
    for n in declared:
        if n in foreign or MADE.match(n):
            continue
        to = respelled(n, words)
        if to != n:
            new[n] = to
    flat = collections.defaultdict(set)
    for n in declared:
        flat[new.get(n, n).replace("-", "_")].add(n)
    clashes = [sorted(ns) for to, ns in sorted(flat.items()) if len(ns) > 1 or (to in foreign and ns & set(new))]
    return new, clashes


def turned(text, new, page):
    """A page's names stand between backticks."""
    word = lambda m: new.get(m[0], m[0])  # noqa: E731
    return re.sub(r"`[^`\n]*`", lambda m: TOKEN.sub(word, m[0]), text) if page else TOKEN.sub(word, text)


def main():
    new, clashes = renamings()
    if "--list" in sys.argv:
        print("\n".join(f"{n} {to}" for n, to in sorted(new.items())))
        print("clashes:", clashes)
        return 0
    if clashes:
        print("names that fall together:", clashes)
        return 2
    for path in [*files("crates", (".antt", ".edit", ".rt")), *files("docs", (".md",)), "README.md"]:
        text = read(path)
        to = turned(text, new, path.endswith(".md"))
        if to != text:
            with open(path, "w", encoding="utf-8") as f:
                f.write(to)
    return 0


if __name__ == "__main__":
    raise SystemExit(main())
