#!/usr/bin/env python3
"""Respells the repository's own definitions and lemmas in snake case: `isPermutation` becomes `is_permutation`.

usage: tools/respell.py            at the top of the repository, once, after the older spelling has been turned

It goes over specs/, proofs/, must-fail/ and the clauses of src/. A word is respelled where it begins with a small letter and has a capital
after a small letter or a digit; types, modules and constructors of Rust begin with a capital and stay. Strings and comments that are not
part of a clause have no such words. Two lemmas make room for names that would fall together with theirs.
"""

import glob
import re

PART = re.compile(r"[A-Za-z0-9'₀-₉½√ℂℕℤ]+")
BREAK = re.compile(r"(?<=[a-z0-9'])(?=[A-Z])|(?<=[A-Z])(?=[A-Z][a-z])")
# in one file each: names that another name comes to
ROOM = {
    "crates/signs/proofs/Refused.antt": [("own_turn", "own_turn-answers")],
    "crates/rows/proofs/Both.antt": [("all_apart", "all_apart-iswap")],
}
# what the library's words were called
WORDS = {"getD": "get_or"}


def part(m):
    w = m.group(0)
    if not re.match(r"[a-z]", w) or not re.search(r"[A-Z]", w):
        return w
    return WORDS.get(w) or BREAK.sub("_", w).lower()


def turned(path, text):
    for old, new in ROOM.get(path, []):
        text = re.sub(r"(?<![\w'-])" + old + r"(?![\w'-])", new, text)
    return PART.sub(part, text)


def main():
    for path in sorted(glob.glob("crates/**/*", recursive=True)):
        if not path.endswith((".antt", ".rt", ".edit")) or "/out/" in path:
            continue
        with open(path, encoding="utf-8") as f:
            old = f.read()
        new = turned(path, old)
        if new != old:
            with open(path, "w", encoding="utf-8") as f:
                f.write(new)


if __name__ == "__main__":
    main()
