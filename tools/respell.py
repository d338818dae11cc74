#!/usr/bin/env python3
"""Spells this repository's own definitions and lemmas as today's language does.

usage: python3 tools/respell.py     at the top of the repository, after the toolchain's own port, once

A name that specs/ or proofs/ declare with dashes gets underscores, and a type, whose name begins with a capital, gets none:
`row-refusal` is `row_refusal`, `Rules-law` is `RulesLaw`. The names that the check makes for the goals of a function
(all that stands in a folder below proofs/) keep their dashes, and so do names of the library.
"""

import os
import re
import sys

# what stands around a name
LEFT = r"(?<![^\s(){}\[\];,.\"`λ←])"
RIGHT = r"(?![^\s(){}\[\];,.\"`])"
# names that a proof binds for itself
BOUND = ["below-A", "below-B", "below-C", "e-is", "in-x", "in-y", "in-z", "p-is", "z-keeps"]
DECLARED = re.compile(r"^\s*(?:(?:abbrev|unfoldable)\s+)?(?:pub\s+)?(?:(?:record|data)\s+)?(?:pub\s+)?([^\s:(){}]+)\s*(?:[({].*)?:\s")


# a spelling that another definition has already
TAKEN = {"Merging-law": "MergingRuleLaw"}


def files(root):
    for folder, dirs, names in os.walk(os.path.join(root, "crates")):
        dirs[:] = sorted(d for d in dirs if d != "out")
        for name in sorted(names):
            if name.endswith((".antt", ".rt", ".edit")):
                yield os.path.join(folder, name)


def is_own(path):
    """A file of definitions or lemmas, and not of one function's proof."""
    return path.endswith(".antt") and os.path.basename(os.path.dirname(path)) in ("specs", "proofs")


def spelled(name):
    if name in TAKEN:
        return TAKEN[name]
    parts = name.split("-")
    if name[0].isupper():
        return "".join(p[0].upper() + p[1:] for p in parts)
    return "_".join(parts)


def main():
    root = sys.argv[1] if len(sys.argv) > 1 else "."
    texts = {}
    for path in files(root):
        with open(path, encoding="utf-8") as f:
            texts[path] = f.read()
    old = set(BOUND)
    for path, text in texts.items():
        if is_own(path):
            for line in text.splitlines():
                m = DECLARED.match(line)
                if m and not line.lstrip().startswith("--") and re.search(r"\w-\w", m.group(1)):
                    old.add(m.group(1))
    new = {name: spelled(name) for name in old}
    for name, to in sorted(new.items()):
        there = re.compile(LEFT + re.escape(to) + RIGHT)
        for path, text in texts.items():
            if there.search(text):
                print(f"falls together: {name} and {to}, {os.path.relpath(path, root)}")
                break
    any_old = re.compile(LEFT + "(" + "|".join(sorted(map(re.escape, old), key=len, reverse=True)) + ")" + RIGHT)
    changed = 0
    for path, text in texts.items():
        out = any_old.sub(lambda m: new[m.group(1)], text)
        if out != text:
            changed += 1
            with open(path, "w", encoding="utf-8") as f:
                f.write(out)
    print(f"{len(old)} names, {changed} files")


main()
