#!/usr/bin/env python3
"""Lists the places in crates/*/src that docs/DESIGN-PASS.md counts, under the number of their point.

    python3 tools/places.py [CHECKOUT]      the checkout is the folder above this one where none is given

It goes by text, so a line is a place to look at, and no verdict: what is not of the kind is named on that page.
"""
import collections
import glob
import os
import re
import sys

FUNCTION = re.compile(r"^( *)(?:pub(?:\(crate\))? )?(?:extern \"C\" )?fn (\w+)(.*?)^\1\}$", re.M | re.S)
CLAUSE = re.compile(r"^\s+(?:requires|ensures)[^\n]*$", re.M)
WORDS = {"fn", "let", "mut", "if", "else", "while", "for", "in", "match", "return", "pub", "as", "usize", "true", "false"}


def sources(top):
    for path in sorted(glob.glob(os.path.join(top, "crates/*/src/*.rt"))):
        text = open(path, encoding="utf-8").read()
        yield os.path.relpath(path, os.path.join(top, "crates")), text


def functions(text):
    for found in FUNCTION.finditer(text):
        yield found.group(2), found.group(0), text.count("\n", 0, found.start()) + 1


def enums(text):
    for found in re.finditer(r"^(?:pub )?enum (\w+)(?:<[^>]*>)? \{\n(.*?)^\}", text, re.M | re.S):
        variants = re.findall(r"^ +(\w+)(\(|,| \{)", found.group(2), re.M)
        yield found.group(1), variants, text.count("\n", 0, found.start()) + 1


def shaped(variants):
    """Two cases, one or both with a value, or a case that says by its name that there is none or why not."""
    full = [mark != "," for _, mark in variants]
    missing = any(re.match(r"No[A-Z]|Not[A-Z]|Refuse|Wrong|Unread", name) for name, _ in variants)
    return (len(variants) == 2 and any(full)) or (missing and any(full))


def lines(text, pattern):
    for number, line in enumerate(text.split("\n"), 1):
        if not line.lstrip().startswith("//") and re.search(pattern, line):
            yield number, line.strip()


def shape(code):
    """The code with names, numbers and texts taken out: equal for twins."""
    code = re.sub(r"//[^\n]*", "", CLAUSE.sub("", code))
    code = re.sub(r'b?"[^"]*"|b?\'[^\']*\'', '""', code)
    tokens = re.findall(r'""|\w+|[^\s\w]', code)
    return tuple(t if t in WORDS or not re.match(r"\w", t) else "0" if t[0].isdigit() else "_" for t in tokens)


def facts(text):
    """The facts of each `requires`, and runs of three parameters or more, by function."""
    for name, code, _ in functions(text):
        head = code.split("\n{")[0]
        for clause in re.findall(r"requires(?: \w+)? \{ (.*) \}", head):
            for fact in clause.split(" × "):
                yield "fact", fact.strip("() "), name
        inside = re.search(r"\((.*?)\)", re.sub(r"\[[^\]]*\]", "[]", head), re.S)
        names = [p.strip() for p in (inside.group(1) if inside else "").split(",") if p.strip()]
        for i in range(len(names) - 2):
            yield "parameters", ", ".join(names[i:i + 3]), name


def show(title, places):
    print(f"{title}: {len(places)}")
    for place in places:
        print("   ", place)


def listed(top, pattern):
    return [f"{path}:{n}: {line}" for path, text in sources(top) for n, line in lines(text, pattern)]


def main(top):
    every = list(sources(top))
    show("1 enums of the shape of Option or Result",
         [f"{path}:{n}: {name}" for path, text in every for name, variants, n in enums(text) if shaped(variants)])
    show("1 flags beside a value", listed(top, r"^\s+(pub )?(ok|exact|ranged|zero|below|found): bool,$"))
    show("1 numbers for kinds and refusals",
         listed(top, r"return -1|^\s+-1[46]?;|fn refusal_number|codes?: (usize|&\[u8\])|-> \[u8; (4|6|15)\]|&?\[u16; 256\],? ?(creators|$)|fn code_of"))
    twins = collections.defaultdict(list)
    for path, text in every:
        for name, code, n in functions(text):
            if len(shape(code)) >= 30:
                twins[shape(code)].append(f"{path}:{n} {name}")
    show("2 functions of one shape", ["; ".join(group) for group in twins.values() if len(group) > 1])
    show("3 loops that count by hand", listed(top, r"^\s*while "))
    show("4 numbers, bounds and comparisons by hand",
         listed(top, r"if \w+ \{ 1 \} else \{ 0 \}|if \w+ == 0 \{ [01] \} else|fn (refusal_number|same_bytes|is_blank|is_role_zero|same_constraints)\b"
                     r"|if \w+(\.\w+)? <=? \w+ \{ \w+( as usize)? \} else \{ \w+( as usize)? \}"))
    by = collections.defaultdict(set)
    for path, text in every:
        for kind, fact, name in facts(text):
            by[kind, fact].add(path.split("/")[0] + "::" + name)
    show("5 facts and parameters of three functions or more",
         [f"{kind}: {fact}: {', '.join(sorted(who))}" for (kind, fact), who in by.items() if len(who) > 2])
    show("6 buffers with a length beside, parallel arrays",
         listed(top, r"\[Item; 64\]|\[Told; 64\]|(v|f|h): \[u(32|64); \d+\]|columns: &\[u32; 64\]|values: &\[u64\]|(origins|creators): \[u16; 256\]"))
    matched = collections.defaultdict(set)
    for path, text in every:
        for name, code, _ in functions(text):
            for enum in set(re.findall(r"^\s+(\w+)::\w+[^\n]*=> ", code, re.M)):
                matched[enum].add(path.split("/")[0] + "::" + name)
    show("7 enums that three functions or more switch on", [f"{enum}: {', '.join(sorted(who))}" for enum, who in matched.items() if len(who) > 2])
    answers = glob.glob(os.path.join(top, "crates/*/proofs/**/Answers.antt"), recursive=True)
    written = [line for path in answers for line in open(path, encoding="utf-8") if line.startswith("pub ")]
    proofs = [line for path in glob.glob(os.path.join(top, "crates/*/proofs/**/*.antt"), recursive=True) for line in open(path, encoding="utf-8")]
    print(f"8 answers written by hand: {len(written)}, in {len(answers)} files; lines of all proofs: {len(proofs)}")


if __name__ == "__main__":
    main(sys.argv[1] if len(sys.argv) > 1 else os.path.join(os.path.dirname(os.path.abspath(__file__)), ".."))
