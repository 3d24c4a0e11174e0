#!/usr/bin/env python3
"""Every sentence that a file of specs/ quotes has its home in docs/FORMAT.md: word for word, but for case, quotes and code marks; ".." is a gap.

Prints each quotation that has none, with its file, and fails if there is one. Needs Python 3 and nothing else."""
import glob
import os
import re
import sys

FORMAT = "docs/FORMAT.md"
COMMENT = re.compile(r"^\s*--(?!\s*----)\s?(.*)$")
QUOTED = re.compile(r'"([^"]+)"')


def comments(text):
    """The comments of a file, each run of lines as one text."""
    runs, run = [], []
    for line in text.splitlines() + [""]:
        found = COMMENT.match(line)
        if found:
            run.append(found[1])
        elif run:
            runs.append(" ".join(run))
            run = []
    return runs


def plain(text):
    """The text without case, line ends, quotes and marks."""
    return " ".join(re.sub(r'["`*]', "", text).lower().split())


def homeless(quotation, home):
    """Whether a part of the quotation, between its gaps, does not stand in the text."""
    parts = (plain(part).strip(" .?;,") for part in quotation.split(" .."))
    return any(part not in home for part in parts if part)


def main():
    os.chdir(os.path.join(os.path.dirname(os.path.abspath(__file__)), ".."))
    home = plain(open(FORMAT, encoding="utf-8").read())
    quotations = []
    for path in sorted(glob.glob("crates/*/specs/*.antt")):
        for comment in comments(open(path, encoding="utf-8").read()):
            quotations += [(path, quotation) for quotation in QUOTED.findall(comment)]
    lost = [(path, quotation) for path, quotation in quotations if homeless(quotation, home)]
    for path, quotation in lost:
        print(f'{path}: "{quotation}" does not stand in {FORMAT}')
    print(f"{len(quotations)} quotations in specs/, {len(lost)} without a home")
    return 1 if lost else 0


if __name__ == "__main__":
    sys.exit(main())
