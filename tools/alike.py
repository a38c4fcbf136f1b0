#!/usr/bin/env python3
# Prints groups of functions in crates/*/src whose bodies have one shape: the same words of the language and the same signs, whatever the
# names and numbers. Bodies of fewer than 8 words and signs are left out.
import collections
import glob
import os
import re
import sys

KEPT = set("if else return let mut match for in while loop as usize u64 u8 true false".split())


def bodies(path):
    with open(path, encoding="utf-8") as file:
        lines = re.sub(r"//[^\n]*", "", file.read()).split("\n")
    at = 0
    while at < len(lines):
        head = re.match(r'(\s*)(?:pub )?(?:extern "C" )?fn (\w+)', lines[at])
        if head:
            start = at
            while lines[start] != head[1] + "{" and not lines[start].rstrip().endswith("{"):
                start += 1
            end = start + 1
            while lines[end] != head[1] + "}":
                end += 1
            yield head[2], " ".join(lines[start + 1:end])
            at = end
        at += 1


def main():
    root = sys.argv[1] if len(sys.argv) > 1 else os.path.join(os.path.dirname(__file__), "..")
    groups = collections.defaultdict(list)
    for path in sorted(glob.glob(os.path.join(root, "crates/*/src/*.rt"))):
        for name, body in bodies(path):
            words = re.findall(r"[A-Za-z_]\w*|\d\w*|[^\s\w]", body)
            shape = " ".join(w if w in KEPT or not re.match(r"\w", w) else "x" for w in words)
            if len(words) >= 8:
                groups[shape].append(path.split("/")[-3] + "::" + name)
    for names in sorted(groups.values(), key=len, reverse=True):
        if len(names) > 1:
            print(len(names), ", ".join(names))


main()
