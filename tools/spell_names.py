#!/usr/bin/env python3
"""Turns the names of this repository's own definitions and lemmas to snake case, in every crate and in the documents.

usage: python3 tools/spell_names.py            at the top of the repository: renames in place
       python3 tools/spell_names.py --look     lists the names that would fall together with another name, and changes nothing

A name is renamed where it is declared at the left margin of a file of specs/ or proofs/, or as a field or constructor there, and
where it stands as a whole word. Names of Rust (functions, types, modules, clauses' labels) are in Rust's spelling already.
"""

import glob
import re
import sys

DECLARED = re.compile(r"^(?:unfoldable |abbrev )*(?:pub )?(?:unfoldable |abbrev )*([a-z_][\w'-]*) :(?!:)")
MEMBER = re.compile(r"^  (?:pub )?([a-z_][\w'-]*) :(?!:)")
WORD = re.compile(r"[A-Za-z_][\w'-]*")

# a lemma on the definition of the name that it would have
APART = {
    "closed-row": "row_closed",
    "row-right": "row_right_holds",
    "same-scope": "one_scope",
    "same-wait": "one_wait",
    "scope-under": "scope_under_lem",
    "side-for": "side_fits",
    "wait-literal": "literal_of_wait",
    "waits-by": "waits_by_lem",
}


def spelled(name):
    if name in APART:
        return APART[name]
    parted = re.sub(r"(?<=[a-z0-9])([A-Z])", lambda m: "_" + m.group(1).lower(), name)
    return parted.replace("-", "_")


def antt_files():
    return sorted(glob.glob("crates/*/specs/**/*.antt", recursive=True) + glob.glob("crates/*/proofs/**/*.antt", recursive=True))


def declared_names():
    names = set()
    for path in antt_files():
        with open(path, encoding="utf-8") as f:
            for line in f:
                m = DECLARED.match(line) or MEMBER.match(line)
                # a goal's answer is named by the check
                if m and ": goal." not in line and ": given." not in line:
                    names.add(m.group(1))
    return names


def clashes(names):
    found = []
    for path in antt_files() + sorted(glob.glob("crates/*/src/**/*.rt", recursive=True)):
        with open(path, encoding="utf-8") as f:
            words = set(WORD.findall(f.read()))
        for word in words & names:
            if spelled(word) != word and spelled(word) in words:
                found.append((path, word, spelled(word)))
    return found


def renamed(path, names):
    with open(path, encoding="utf-8") as f:
        text = f.read()
    if path.endswith(".antt"):
        turned = WORD.sub(lambda m: spelled(m.group(0)) if m.group(0) in names else m.group(0), text)
    else:
        # in code and in prose a dash may be a minus or a hyphen
        turned = WORD.sub(lambda m: spelled(m.group(0)) if m.group(0) in names and "-" not in m.group(0) else m.group(0), text)
    if turned != text:
        with open(path, "w", encoding="utf-8") as f:
            f.write(turned)


def main():
    names = declared_names()
    if "--look" in sys.argv[1:]:
        for path, old, new in clashes(names):
            print(f"{path}: {old} and {new}")
        return
    for path in antt_files() + sorted(glob.glob("crates/*/src/**/*.rt", recursive=True)) + ["README.md"] + sorted(glob.glob("docs/*.md")):
        renamed(path, names)


main()
