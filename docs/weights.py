#!/usr/bin/env python3
"""The table of weights in docs/PROOFS.md: lines of each crate, and the time of its check.

  RT_JOBS=1 rt ci --anew | python3 docs/weights.py

With one job the proofs run one after the other, so that the time of a crate is that from the line before, at which another proof
ended, to the line that says it is proved; the edits come after all proofs. Lines without blanks and comments. Code leaves out contracts
(ghost use, requires, ensures). 'By function' are the files in the folders of functions.
"""
import re
import sys
import time
from pathlib import Path

ROOT = Path(__file__).resolve().parent.parent / "crates"
CONTRACT = re.compile(r"\s*(ghost use|requires|ensures|#!?\[tactic)\b")
FUNCTION = re.compile(r'\s*(pub )?(const )?(unsafe )?(extern "C" )?fn \w')
ENDED = re.compile(r"rt: (\w+)(: its tests)? proved$")


def lines(paths, comment):
    text = (line for path in paths for line in path.read_text().splitlines())
    return [line for line in text if line.strip() and not line.lstrip().startswith(comment)]


def weigh(crate):
    code = [line for line in lines(crate.glob("src/**/*.rt"), "//") if not CONTRACT.match(line)]
    functions = sum(1 for line in code if FUNCTION.match(line))
    laws = set(crate.glob("proofs/*.antt"))
    by_function = set(crate.glob("proofs/**/*.antt")) - laws
    return [functions, len(code), *(len(lines(p, "--")) for p in (crate.glob("specs/**/*.antt"), laws, by_function))]


def followed(log):
    """The time of each crate, from a run that goes on."""
    seconds, last = {}, time.monotonic()
    for line in log:
        print(line, end="", file=sys.stderr)
        ended = ENDED.match(line)
        if ended:
            now = time.monotonic()
            if not ended[2]:
                seconds[ended[1]] = round(now - last)
            last = now
    return seconds


def main():
    seconds = followed(sys.stdin)
    print("| crate | functions | code | specs | laws | by function | proof to code | check, s | edits |")
    print("|---|---|---|---|---|---|---|---|---|")
    total = [0] * 6
    for name in seconds:
        row = [*weigh(ROOT / name), len(list((ROOT / name).glob("must-fail/*.edit")))]
        total = [a + b for a, b in zip(total, row)]
        print(format_row(f"`{name}`", row, seconds[name]))
    print(format_row("all", total, ""))


def format_row(name, row, seconds):
    functions, code, specs, laws, by_function, edits = row
    cells = [functions, code, specs, laws, by_function]
    ratio = f"{(laws + by_function) / code:.1f}" if code else ""
    return f"| {name} | " + " | ".join(f"{n:,}" for n in cells) + f" | {ratio} | {seconds} | {edits} |"


main()
