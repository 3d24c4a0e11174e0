#!/usr/bin/env python3
"""What a reader must believe: each file of specs/ says in its first lines whether a public promise rests on it, and none reaches into proofs.

Roots are the contracts of the calls for users and the pages of the theorems; a definition rests on those that it speaks of. `--fix` writes the
sentences; otherwise a wrong or missing one is an error. Needs Python 3 and nothing else."""
import glob
import os
import re
import sys

PROMISE = "A public promise rests on this."
INNER = "Only inner functions rest on this."
WIDTH = 156

# the calls for users, by crate; of `engine` every export
CALLS = {
    "tape": ["label"],
    "detect": ["compile"],
    "gaussian": ["run"],
    "state": ["apply"],
    "queries": ["expectation_z_product", "marginal_probability", "probability", "sample"],
    "text": ["print_tape"],
    "engine": None,
}
# the pages of the theorems, by crate
PAGES = {
    "engines": ["Engines"], "signs": ["Signs", "Engines"], "postponed": ["Beside", "Engines"], "queries": ["Draws"], "text": ["HalfEven"],
    "rows": ["Lost"],
    "angles": ["Postponed", "Matrices", "Angles", "Wick", "Lost"],
    "matchgates": ["Gates", "Residuals", "InWords", "Fused", "Renamed", "Regrouped", "Phases", "Compiled", "OnReals"],
    "answers": ["Products", "Marginals", "Asked", "Shots", "OnReals"],
    "rounded": ["Steps", "Determinants", "Operations", "Products", "Marginals", "Shots", "Matrices", "Majorana", "Calls", "Runs"],
}
THEOREMS = [(crate, page) for crate, pages in PAGES.items() for page in pages]

USE = re.compile(r"^(?:ghost )?use Rattle\.([a-z_0-9]+)\.(specs|proofs)\.([A-Za-z0-9_.-]+?)(?:\.\{([^}]*)\}| as (\S+))?;?$")
CALL = re.compile(r"^pub (?:extern \"C\" )?fn ([a-z_0-9]+)\(.*?^\{$", re.M | re.S)
DEFINES = re.compile(r"^ *(?:abbrev |unfoldable )?(?:pub )?(?:record |data )?(\S+) .*(?::|where)", re.M)
WORD = re.compile(r"[^\s(){},.;]+")


def files():
    """The files of specs/ by crate and module, without the indices."""
    found = {}
    for path in glob.glob("crates/*/specs/*.antt"):
        crate, module = path.split("/")[1], os.path.basename(path)[:-5]
        if module != "Lib":
            found[crate, module] = open(path, encoding="utf-8").read()
    return found


def path_of(key):
    return f"crates/{key[0]}/specs/{key[1]}.antt"


def uses(text):
    """Crate, tree, module and names of each use of this repository's definitions."""
    return [m.groups() for m in map(USE.match, (line.strip() for line in text.splitlines())) if m]


def spoken(name):
    """The words by which a text speaks of a definition: of an operator, its sign."""
    return {part for part in name.split("◌") if part} or {name}


def definitions(text):
    """The parts of a file of specs/ by the name that each defines; what stands before the first definition in a part of no name is left out."""
    marks = [m for m in re.finditer(r"^(?: *)(?:abbrev|unfoldable|pub record|pub data)\b.*$", text, re.M)]
    found = {}
    for here, after in zip(marks, marks[1:] + [None]):
        name = DEFINES.match(here.group(0))
        body = text[here.start():after.start() if after else len(text)]
        if name:
            found[name.group(1)] = "\n".join(line for line in body.split("\n") if not line.lstrip().startswith("--"))
    return found


def names_in(body, key, text, own):
    """The definitions of this repository that a text speaks of: those of its own file, and those that it uses."""
    words = set(WORD.findall(body))
    named = {(key, name) for name in own if spoken(name) & words}
    for crate, tree, module, listed, alias in uses(text):
        if alias and alias in words:
            named |= {((crate, module), None)}
        for name in (listed or "").split(","):
            if spoken(name.strip()) & words:
                named.add(((crate, module), name.strip()))
    return named


def roots(found):
    """The definitions that contracts of calls for users speak of, and those of the theorems."""
    start = {(key, None) for key in THEOREMS}
    for crate, names in CALLS.items():
        for path in glob.glob(f"crates/{crate}/src/*.rt"):
            text = open(path, encoding="utf-8").read()
            for call in CALL.finditer(text):
                if call.group(1) in names if names else "extern" in call.group(0)[:20]:
                    start |= names_in(call.group(0), None, text, {})
    return start


def promised(found):
    """The files with a definition that a public promise rests on. None for a name stands for all of a file."""
    parts = {key: definitions(text) for key, text in found.items()}
    seen, left = set(), list(roots(found))
    while left:
        key, name = left.pop()
        if (key, name) in seen or key not in found:
            continue
        seen.add((key, name))
        bodies = parts[key].values() if name is None else [parts[key].get(name, "")]
        for body in bodies:
            left += names_in(body, key, found[key], parts[key])
    return {key for key, _ in seen}


def with_sentence(text, sentence):
    """The text with this sentence at the end of its first comment, and no other of the two."""
    lines = text.split("\n")
    end = next(i for i, line in enumerate(lines) if not line.startswith("--"))
    head = [line for line in lines[:end] if line not in (f"-- {PROMISE}", f"-- {INNER}")]
    head[-1] = head[-1].replace(f" {PROMISE}", "").replace(f" {INNER}", "")
    if len(head[-1]) + 1 + len(sentence) <= WIDTH:
        head[-1] += " " + sentence
    else:
        head.append("-- " + sentence)
    return "\n".join(head + lines[end:])


def main():
    os.chdir(os.path.join(os.path.dirname(os.path.abspath(__file__)), ".."))
    found = files()
    carrying = promised(found)
    faults = [f"{path_of(key)}: no such page" for key in THEOREMS if key not in found]
    for key, text in sorted(found.items()):
        path, sentence = path_of(key), PROMISE if key in carrying else INNER
        faults += [f"{path} reaches into proofs: {use[0]}.{use[2]}" for use in uses(text) if use[1] == "proofs" and use[0] != "std"]
        right = with_sentence(text, sentence)
        if right != text and "--fix" in sys.argv:
            open(path, "w", encoding="utf-8").write(right)
        elif right != text:
            faults.append(f"{path}: its first lines should say: {sentence}")
    print("\n".join(faults + [f"{len(carrying)} of {len(found)} files of specs/ carry a public promise, {len(faults)} faults"]))
    return 1 if faults else 0


if __name__ == "__main__":
    sys.exit(main())
