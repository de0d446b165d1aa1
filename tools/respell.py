#!/usr/bin/env python3
"""Brings the names that this repository declares in specs/ and proofs/ to the spelling of today's library.

usage: respell.py [--list]            at the top of the repository, once, after the kit's port.py

Words are in snake case. A dash stays in a lemma's name where it joins the names of two definitions; elsewhere it becomes '_'.
A lemma that would get a definition's name ends in '_lem'. Names of src/, of exported functions and of files stay, and so do
facts and types, which begin with a capital. The must-fail edits and the pages that cite a name in back quotes go along.
--list writes nothing and prints each old name with its new one.
"""

import glob
import re
import sys

NAME = r'[^\s(){}.;,@"«»]+'
TURNED = ("**/specs/**/*.antt", "**/proofs/**/*.antt", "**/src/**/*.rt", "**/must-fail/*.edit")
PAGES = ("*.md", "docs/*.md", "docs/changes/*.md", "examples/*.md", "tests/*.sh", "reference/*.md", "bench/*.md", "fuzz/*.md", "compare/*.md")
# words of the library that lemma names join
LIBRARY = set("append bit_and bit_or bit_xor cond drop each eqb front get_or has length set take min map nat_le nat_lt replicate".split())
# these would meet another of the repository's names
OVERRIDES = {"chain-calls": "calls_of_chain", "chain-answers": "answers_of_chain"}
# made by Rattle, or the old proof of a function: `NAME-spec` goes with its file
KEPT = re.compile(r".*-spec$|.*[→←].*")


def read(path):
    with open(path, encoding="utf-8") as f:
        return f.read()


def code(text):
    text = re.sub(r"(?m)(^|(?<=\s))--.*$", "", text)
    return re.sub(r'"(?:[^"\\\n]|\\.)*"', " ", text)


def paths(patterns, top="crates/"):
    found = []
    for pattern in patterns:
        found += [p for p in glob.glob(top + pattern, recursive=True) if "/out/" not in p and "/target/" not in p]
    return sorted(set(found))


def snake(word):
    """camelCase as snake_case; a capital at the head stays, since it begins a fact or a type."""
    if not re.match(r"[a-z]", word):
        return word
    return re.sub(r"(?<=[a-z0-9])([A-Z])", lambda m: "_" + m[1].lower(), word)


DECLARED = re.compile(rf"(?m)^( *)((?:(?:abbrev|unfoldable|pub|data|record) )*)({NAME})(?: \{{[^{{}}\n]*\}})*(?: \([^()\n]*\))* :(?= )")


def declared():
    """The definitions of specs/ and the other names (lemmas, fields, local definitions), each with whether a lemma's dash may stay."""
    definitions, fields, lemmas = set(), set(), set()
    for path in paths(TURNED[:2]):
        for indent, marks, name in DECLARED.findall(code(read(path))):
            if "/specs/" in path:
                (fields if indent else definitions).add(name)
            else:
                lemmas.add(name)
    return definitions, fields - definitions, lemmas - definitions - fields


def joined(name, known):
    """A lemma's name: a dash stays between the names of two definitions."""
    parts = name.split("-")
    text = parts[0]
    for before, after in zip(parts, parts[1:]):
        text += ("-" if before in known and after in known else "_") + after
    return text


def table():
    definitions, fields, lemmas = declared()
    rust = set()
    for path in paths(TURNED[2:3]):
        rust.update(re.findall(r"\b(?:fn|struct|enum|const|static|trait|mod) (\w+)", read(path)))
    new = {}
    for name in definitions | fields:
        if not KEPT.match(name):
            new[name] = snake(name).replace("-", "_")
    known = {new.get(n, n) for n in definitions} | LIBRARY
    taken = {}
    for name in sorted(lemmas):
        if KEPT.match(name):
            continue
        to = joined("-".join(snake(p) for p in name.split("-")), known)
        if to in known or to in taken or (to != name and to in lemmas):
            to += "_lem"
        new[name] = to
        taken[to] = name
    new.update(OVERRIDES)
    return {old: to for old, to in new.items() if old != to}, rust


WORDS = re.compile(NAME)


def turned(text, names):
    """Each whole word of antt that has a row, also behind a dot and in a comment."""
    text = WORDS.sub(lambda m: names.get(m[0], m[0]), text)
    return re.sub(rf"`({NAME})(?=[`\s.,;()])", lambda m: "`" + names.get(m[1], m[1]), text)


def turned_page(text, names):
    """A page: words in back quotes alone."""
    return re.sub(r"`[^`\n]+`", lambda m: WORDS.sub(lambda w: names.get(w[0], w[0]), m[0][1:-1]).join("``"), text)


def clashes(names):
    """Files in which a new name is in use already for something else."""
    found = []
    for path in paths(TURNED[:3]):
        words = set(WORDS.findall(code(read(path))))
        for word in sorted(words):
            to = names.get(word)
            if to and to in words:
                found.append(f"{path}: {word} would meet {to}")
    inverse = {}
    for old, to in names.items():
        inverse.setdefault(to, []).append(old)
    found += [f"{' and '.join(olds)} would both be {to}" for to, olds in sorted(inverse.items()) if len(olds) > 1]
    return found


def main():
    names, rust = table()
    if "--list" in sys.argv[1:]:
        for old, to in sorted(names.items()):
            print(f"{old}\t{to}" + ("\t(Rust has it too)" if to in rust else ""))
        for line in clashes(names):
            print("look: " + line)
        return
    for path in paths(TURNED):
        text = read(path)
        new = turned(text, names)
        if new != text:
            with open(path, "w", encoding="utf-8") as f:
                f.write(new)
    for path in paths(PAGES, ""):
        text = read(path)
        new = turned_page(text, names)
        if new != text:
            with open(path, "w", encoding="utf-8") as f:
                f.write(new)


if __name__ == "__main__":
    main()
