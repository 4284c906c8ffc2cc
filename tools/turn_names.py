#!/usr/bin/env python3
"""Brings the repository's own definitions and lemmas to the spelling of today's Rattle: words in snake case, types and modules in camel case.

usage: python3 tools/turn_names.py    at the top, once, after the script that brings an older repository to today's Rattle (docs/PORT.md)

It goes by text. It reads which names specs/ and the lemma files of proofs/ declare, and turns each of these from `byteAt` to `byte_at` and from `lowest-hit` to
`lowest_hit`, wherever it stands: in specs/, in proofs/, in the clauses of src/, in the must-fail edits. Two names that would fall together get two names:
LEMMA gives the lemma's. Functions of src/, exported names, strings, inputs and outputs are not touched. Must-fail edits also get the spelling of the paths,
operators and projections. It proves nothing.
"""

import glob
import os
import re

# A lemma that would have its function's name gets `_lem`; a field that would have a definition's name gets another.
LEMMA = {
    name: name.replace("-", "_") + "_lem"
    for name in (
        "all-present answer-words block-byte body-from byte-of check-by check-pass checks-pass each-place first-check from-nobody given-byte head-word "
        "kind-number line-of mark-of mistake-number nothing-open open-word place-of role-at role-line same-fact same-role same-verdict same-words "
        "some-absent subject-side issuer-side tables-wrong valid-body valid-role zero-byte bit-and bit-or"
    ).split()
}
LEMMA |= {
    "most-entities": "entities_most",
    "most-names": "names_most",
    "most-records": "records_most",
    "issuer-side": "by_issuer_side",
    "subject-side": "by_subject_side",
}
# Names that the first script had turned already, where a definition of today's would fall together with them.
TAKEN = {
    "first_byte": (("bundle/proofs", "content/proofs"), "first_byte_lem"),
    "record_of": (("bundle/proofs/Accepted",), "record_of_lem"),
    "step_gives": (("words/proofs", "ledger/proofs"), "step_gives_lem"),
    "two_digits": (("candidates/proofs",), "two_digits_lem"),
}
# Names that only one file has, from an `as` or a `let`.
LOCAL = set("keyText heldIn lengthOfList blocksOf uselessOf statedOf outsideOf filledPlace filledNumber".split())
# The paper's own terms have dashes: in comments they keep them.
TERM = re.compile(r"(?:issuer|subject)-traces-")
DECLARES = re.compile(r"(?:  )?(?:abbrev |unfoldable )?(?:pub )?(\S+) :(?: |$)")
FIELD = re.compile(r"\s+(?:pub )?(\S+(?: \S+)*) : ")
BLOCK = re.compile(r"(?:pub )?(?:data|record) ")
TOKEN = re.compile(r"[^\s(){}\[\];,.«»\"`:]+")
OPERATORS = {"_+_": "◌+◌", "_*_": "◌*◌", "_-_": "◌-◌", "_∷_": "◌∷◌", "_≡_": "◌≡◌", "_≤_": "◌≤◌", "_<_": "◌<◌", "_++_": "◌++◌", "_/_": "◌/◌", "_%_": "◌%◌", "_∙_": "◌∙◌"}


def read(path):
    with open(path, encoding="utf-8") as file:
        return file.read()


def declared():
    """The names that specs/ and the lemma files declare; and which of them are fields or constructors."""
    names, fields = set(), set()
    for path in glob.glob("crates/*/specs/**/*.antt", recursive=True) + glob.glob("crates/*/proofs/*.antt"):
        inside = False
        for line in read(path).split("\n"):
            if line.startswith("--"):
                continue
            if BLOCK.match(line):
                inside = True
                continue
            if re.match(r"\S", line):
                inside = False
            found = (FIELD if inside else DECLARES).match(line)
            if not found or re.match(r"(?:pub )?(?:use|mod|module) ", line):
                continue
            for name in found.group(1).split():
                if re.match(r"[a-z]", name):
                    names.add(name)
                    if inside:
                        fields.add(name)
    return names, fields


def snake(name):
    if name in LEMMA:
        return LEMMA[name]
    name = re.sub(r"([a-z0-9])([A-Z])", lambda found: found.group(1) + "_" + found.group(2), name)
    return name.lower().replace("-", "_")


def in_comment(text, place):
    before = text[text.rfind("\n", 0, place) + 1 : place]
    return before.startswith("#") or "--" in before or "//" in before


def turned(text, names, fields, walk):
    """The text with each token that is such a name turned. In a proof that walks the code a projection names a step, unless it is a field of ours."""

    def token(found):
        word = found.group(0)
        if word in LOCAL:
            return snake(word)
        if word not in names or (TERM.match(word) and in_comment(text, found.start())):
            return word
        if walk and found.start() > 0 and text[found.start() - 1] == "." and word not in fields:
            return word
        return names[word]

    return TOKEN.sub(token, text)


def turned_source(text, names):
    """Clauses and imports of a source file: a name with a capital inside stands only there; one with a dash only where no code can hold it."""
    capitals = {old: new for old, new in names.items() if "-" not in old}

    def part(found):
        return turned(found.group(0), names, set(), False)

    text = re.sub(r"ghost use [^;]*;|//[^\n]*", part, text)
    return turned(text, capitals, set(), False)


def turned_edit(text, names, known):
    """A must-fail edit: names, and the spelling of operators and projections in what it says of specs/ and proofs/."""
    lines, path = [], ""
    for line in text.split("\n"):
        if line.startswith("file:"):
            path = line[5:].strip()
        elif line.startswith("#"):
            line = turned_word(line, names, known)
        elif line.startswith(("old:", "new:")):
            if path.endswith(".antt"):
                line = re.sub(r"(?<=[\w)]) \.(?=[a-z0-9])", ".", line)
                for old, new in OPERATORS.items():
                    line = line.replace(old, new)
                line = turned_word(line, names, known)
            else:
                line = turned_source(line, names)
        lines.append(line)
    return "\n".join(lines)


def turned_word(text, names, known):
    def token(found):
        word = found.group(0)
        if TERM.match(word) and in_comment(text, found.start()):
            return word
        if word in names:
            return names[word]
        if re.match(r"[a-z]", word) and re.search(r"[A-Z-]", word) and snake(word) in known:
            return snake(word)
        return word

    return TOKEN.sub(token, text)


def main():
    declares, fields = declared()
    names = {name: snake(name) for name in declares if snake(name) != name}
    known = declares | set(names.values())
    for path in sorted(glob.glob("crates/**/*", recursive=True)):
        if "/out/" in path or not path.endswith((".rt", ".antt", ".edit")):
            continue
        text = read(path)
        here = dict(names)
        for old, (where, new) in TAKEN.items():
            if path.startswith(tuple("crates/" + folder for folder in where)):
                here[old] = new
        if path.endswith(".edit"):
            after = turned_edit(text, here, known)
        elif path.endswith(".rt"):
            after = turned_source(text, names)
        else:
            walk = re.search(r"/proofs/[^/]+/", path) is not None
            after = turned(text, here, fields, walk)
        if after != text:
            with open(path, "w", encoding="utf-8") as file:
                file.write(after)


if __name__ == "__main__":
    main()
