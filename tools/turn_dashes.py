#!/usr/bin/env python3
"""Brings the names that tools/turn_names.py left to its spelling: those of `where`, `let` and patterns, and lemmas whose type begins on a line of its own.

usage: python3 tools/turn_dashes.py    at the top, once, after tools/turn_names.py

A name with a dash that no library outside the repository has, in specs/ or a lemma file of proofs/, gets `_` for `-`. In a function's proof only
what it imports from the repository's own files is turned: the other names there are those of its goals.
"""

import glob
import os
import re

NAME = re.compile(r"(?<![\w.'≢≤-])[a-z][a-z0-9_]*(?:-[a-z0-9_]+)+(?![\w'≢≤-])")
USE = re.compile(r"use ([\w.'◌-]+)\.\{([^}]*)\}")


def read(path):
    with open(path, encoding="utf-8") as file:
        return file.read()


def code(text):
    return re.sub(r"(?m)--.*$", "", text)


def main():
    own = set(os.listdir("crates"))
    files = [p for p in glob.glob("crates/*/*/**/*.antt", recursive=True) if "/out/" not in p]
    lemmas = [p for p in files if "/specs/" in p or re.search(r"/proofs/[^/]+\.antt$", p)]
    outside = set()
    for path in files:
        for module, names in USE.findall(read(path)):
            crate = re.match(r"Rattle\.(\w+)\.", module)
            if not crate or crate.group(1) not in own:
                outside |= {word.strip() for name in names.split(",") for word in name.split(" as ")}
    found = set()
    for path in lemmas:
        found |= set(NAME.findall(code(read(path))))
    found -= outside
    words = {path: set(re.findall(r"[\w'-]+", code(read(path)))) for path in files}
    turned = {}
    for name in found:
        new = name.replace("-", "_")
        if any(name in words[path] and new in words[path] for path in files):
            new += "_lem"
        turned[name] = new
    for path in files:
        text = read(path)
        if path in lemmas:
            here = turned
        else:
            listed = {word.strip() for module, names in USE.findall(text) for name in names.split(",") for word in name.split(" as ")}
            here = {name: new for name, new in turned.items() if name in listed}
        after = NAME.sub(lambda m: here.get(m.group(0), m.group(0)), text)
        if after != text:
            with open(path, "w", encoding="utf-8") as file:
                file.write(after)
    for path in glob.glob("crates/*/must-fail/*.edit"):
        text = read(path)
        after = NAME.sub(lambda m: turned.get(m.group(0), m.group(0)), text)
        if after != text:
            with open(path, "w", encoding="utf-8") as file:
                file.write(after)


if __name__ == "__main__":
    main()
