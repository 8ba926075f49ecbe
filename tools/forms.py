#!/usr/bin/env python3
"""Lists the lines of src/ in which an older form may stand, under a heading for each kind of line; reading decides which of them does.

    python3 tools/forms.py           the lines
    python3 tools/forms.py --count   how many there are under each heading
"""
import re
import sys
from collections import Counter
from difflib import SequenceMatcher
from pathlib import Path

ROOT = Path(__file__).resolve().parent.parent

# Headings whose lines are those that a pattern finds.
PATTERNS = {
    "enums": r"^(pub )?enum ",
    "early refusals": r"\breturn (Err|None)\b",
    "numbers of kinds": r"\b(kind|tag|number): u8|\bfn number\b",
    "counted loops": r"\bfor \(?[a-z_]+\)? in .*\.\.|\+= 1;|\bwhile |\bloop \{",
    "conversions": r"\bas (u8|u16|usize)\b|256 \*|% 2 ==|\.0 (!=|==)|\bfn same\b",
    "printing": r"\bwrite(ln)?!\(",
    "buffers": r"\[[A-Za-z_:()0-9]+; *[0-9A-Z_]+\]|\b(count|made|room): (u8|usize)",
    "switches": r"\bdyn |\bfn\(|: bool[,)]|\bmatch tag",
}

# How much alike two functions are that may be twins, names and numbers apart.
ALIKE = 0.8


def sources():
    return sorted(ROOT.glob("crates/*/src/*.rt"))


def found(pattern):
    for path in sources():
        for number, line in enumerate(path.read_text().splitlines(), 1):
            if re.search(pattern, line) and not re.match(r" *(//|ghost)", line):
                yield f"{path.relative_to(ROOT)}:{number}: {line.strip()}"


def clauses_said_thrice():
    said = Counter()
    for path in sources():
        said.update(re.findall(r"^ *((?:requires|ensures).*)$", path.read_text(), re.M))
    for clause, times in said.most_common():
        if times >= 3:
            yield f"{times} times: {clause}"


def shape(line):
    """The line without names, numbers and strings."""
    return re.sub(r"[A-Za-z_]\w*|\d+|\"[^\"]*\"", "x", line)


def functions(path):
    """Each function of a file with a body of three lines or more: where it stands, its name, and the shape of its body."""
    text = path.read_text()
    for match in re.finditer(r"^( *)(?:pub(?:\(crate\))? )?fn (\w+)", text, re.M):
        body = re.search(rf"^{match[1]}{{\n(.*?)^{match[1]}}}", text[match.start():], re.M | re.S)
        if body and body[1].count("\n") >= 3:
            number = text.count("\n", 0, match.start()) + 1
            yield f"{path.relative_to(ROOT)}:{number} {match[2]}", shape(body[1]).split()


def twins():
    """Pairs of functions whose bodies have much the same shape."""
    every = [function for path in sources() for function in functions(path)]
    for place, (one, body) in enumerate(every):
        for other, words in every[place + 1:]:
            if SequenceMatcher(None, body, words).ratio() >= ALIKE:
                yield f"{one} and {other}"


def proofs():
    for path in sorted(ROOT.glob("crates/*/proofs/**/*.antt")):
        yield f"{path.relative_to(ROOT)}: {len(path.read_text().splitlines())} lines"


def headings():
    for heading, pattern in PATTERNS.items():
        yield heading, list(found(pattern))
    yield "twins", list(twins())
    yield "clauses said three times", list(clauses_said_thrice())
    yield "proof files", list(proofs())


for heading, rows in headings():
    if "--count" in sys.argv:
        print(f"{heading}: {len(rows)}")
    else:
        print(f"== {heading}", *rows, sep="\n")
