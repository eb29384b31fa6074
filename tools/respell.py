#!/usr/bin/env python3
"""Respells this repository's own definitions and lemmas: words in snake case, types in camel case.

usage: python3 tools/respell.py [ROOT]

Every name with a dash that a file of specs/ or proofs/ declares is respelled, in specs/, proofs/, the clauses of src/, the must-fail edits and the code
spans of the pages. Names that the checker makes (those declared at a type of a goal) keep their dashes, and so do strings, comments and code. Names
that would fall together are printed, and then nothing is written.
"""

import glob
import os
import re
import sys

NAME = r"[^\s(){}.;,:λ∷\[\]«»|`\"]+"
TOKEN = re.compile(NAME)
HEAD = re.compile(r"^\s*(?:(?:pub|abbrev|unfoldable|record|data|ruleset) )*(" + NAME + r")(?: [({].*)? :(.*)$")
GIVEN = re.compile(r"\s*goal\.")


def files(root, *patterns):
    for pattern in patterns:
        for path in sorted(glob.glob(os.path.join(root, pattern), recursive=True)):
            if os.path.isfile(path) and "/out/" not in path:
                yield path


def respelled(name):
    head, *rest = name.split("-")
    if not head[0].isupper():
        return "_".join([head, *rest])
    # A capital alone is a function of the mathematics (D, L); what has a longer first word is a type.
    return "_".join([head, *rest]) if len(head) == 1 else head + "".join(part[0].upper() + part[1:] for part in rest)


def declared(root):
    dashed, others = set(), set()
    for path in files(root, "crates/*/specs/**/*.antt", "crates/*/proofs/**/*.antt"):
        with open(path, encoding="utf-8") as f:
            for line in f:
                m = HEAD.match(line.rstrip("\n"))
                if m and not GIVEN.match(m.group(2)):
                    plain = "-" in m.group(1) and re.search(r"\w", m.group(1)) and "◌" not in m.group(1)
                    (dashed if plain else others).add(m.group(1))
    return dashed, others


def turn(text, names):
    """In a case of a branch, w, the checker names the value of each variable x as w.x-is."""
    return TOKEN.sub(lambda m: m.group() if text[: m.start()].endswith("w.") else names.get(m.group(), m.group()), text)


def turn_source(line, names):
    """Clauses and ghost items have no strings; a comment is turned in its code spans alone."""
    code, mark, comment = line.partition("//")
    if '"' in code:
        return line
    return turn(code, names) + mark + turn_page(comment, names)


def turn_page(text, names):
    return re.sub(r"`[^`\n]+`", lambda m: turn(m.group(), names), text)


def main():
    root = sys.argv[1] if len(sys.argv) > 1 else "."
    dashed, others = declared(root)
    names = {name: respelled(name) for name in dashed}
    back = {}
    clashes = [n for n in sorted(names) if names[n] in others or back.setdefault(names[n], n) != n]
    if clashes:
        sys.exit("names fall together: " + ", ".join(f"{n} as {names[n]}" for n in clashes))
    for path in files(root, "crates/**/*.antt", "crates/**/*.rt", "crates/*/must-fail/*.edit", "README.md", "docs/*.md"):
        with open(path, encoding="utf-8") as f:
            old = f.read()
        if path.endswith(".antt"):
            new = "\n".join(line if line.lstrip().startswith("--") else turn(line, names) for line in old.split("\n"))
        elif path.endswith(".rt"):
            new = "\n".join(turn_source(line, names) for line in old.split("\n"))
        elif path.endswith(".edit"):
            new = "\n".join(turn_source(line, names) for line in old.split("\n"))
        else:
            new = turn_page(old, names)
        if new != old:
            with open(path, "w", encoding="utf-8") as f:
                f.write(new)
    print(f"{len(names)} names respelled")


if __name__ == "__main__":
    main()
