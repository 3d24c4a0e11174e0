#!/usr/bin/env python3
"""Counts the places in crates/*/src that docs/DESIGN-PASS.md speaks of: tools/places.py [COMMIT] [--list POINT]

Without a commit the working tree is read. Each line of the output is a point, a pattern, and how many places it finds;
--list POINT prints the places of that point. What a pattern finds is a candidate: the page says which of them are none.
"""
import collections
import re
import subprocess
import sys
from pathlib import Path

ROOT = Path(__file__).resolve().parent.parent


def sources(commit):
    """The source files: path and text."""
    if commit is None:
        return {str(p.relative_to(ROOT)): p.read_text() for p in sorted(ROOT.glob("crates/*/src/**/*.rt"))}
    git = ["git", "-C", str(ROOT)]
    names = subprocess.run(git + ["ls-tree", "-r", "--name-only", commit, "crates"], capture_output=True, text=True, check=True)
    paths = [n for n in names.stdout.split("\n") if re.fullmatch(r"crates/[^/]+/src/.*\.rt", n)]
    show = lambda n: subprocess.run(git + ["show", f"{commit}:{n}"], capture_output=True, text=True, check=True).stdout
    return {n: show(n) for n in paths}


FUNCTION = re.compile(
    r"(?P<comment>(?:^[ \t]*//[^\n]*\n)*)(?P<marks>(?:^[ \t]*#\[[^\n]*\n)*)"
    r"^(?P<indent>[ \t]*)(?:pub(?:\([a-z]+\))? )?(?:const )?(?:extern \"C\" )?fn (?P<name>\w+)", re.M)


class Fn:
    """A function: where it stands, its comment, its head with the clauses, its body."""

    def __init__(self, path, text, m):
        self.path, self.name, self.comment = path, m["name"], m["comment"]
        self.line = text.count("\n", 0, m.end()) + 1
        indent = m["indent"]
        rest = text[m.end():]
        body = re.search(r"\{$(.*?)^" + indent + r"\}$", rest, re.M | re.S)
        end = rest.find(";\n")
        if body is None or 0 <= end < body.start():
            self.head, self.body = rest[:end], ""
        else:
            self.head, self.body = rest[:body.start()], body.group(1)
        self.head = m["name"] + self.head

    def at(self):
        return f"{self.path}:{self.line} {self.name}"

    def parameters(self):
        m = re.match(r"\w+(?:<[^(]*>)?\((.*?)\)\s*(?:->|\n|requires|ensures|$)", self.head, re.S)
        inside = m.group(1) if m else ""
        return [" ".join(p.split()) for p in re.split(r",(?![^<\[(]*[>\])])", inside) if p.strip()]

    def clauses(self, kind):
        return re.findall(rf"^\s*{kind}\b[^{{]*\{{(.*?)\}}\s*$", self.head, re.M | re.S)


def functions(files):
    return [Fn(p, t, m) for p, t in files.items() for m in FUNCTION.finditer(t)]


def enums(files):
    """The variants of each enum: their names, and whether they hold anything."""
    for path, text in files.items():
        for m in re.finditer(r"^[ \t]*(?:pub )?enum (\w+)[^{]*\{(.*?)^\}", text, re.M | re.S):
            body = re.sub(r"//[^\n]*", "", m.group(2))
            variants = re.findall(r"(\w+)\s*(\([^)]*\)|\{[^}]*\})?\s*,", body)
            yield path, text.count("\n", 0, m.start()) + 1, m.group(1), variants


def tokens(body):
    body = re.sub(r"//[^\n]*", "", body)
    return re.findall(r"\w+|[^\s\w]", body)


KEEP = set("let mut if else while for in return match as fn true false self Some None Ok Err".split())


def shape(body):
    """The body with each name and number by the place of its first use, so that twins have one shape."""
    seen, out = {}, []
    for t in tokens(body):
        if re.match(r"\w", t) and t not in KEEP:
            t = seen.setdefault(t, f"n{len(seen)}")
        out.append(t)
    return " ".join(out)


def count(files):
    fns = functions(files)
    found = collections.OrderedDict()

    def put(point, pattern, places):
        found[(point, pattern)] = list(places)

    # 1
    put(1, "enum of two variants, one of them empty", [
        f"{p}:{l} {n}" for p, l, n, v in enums(files) if len(v) == 2 and any(not d for _, d in v)])
    put(1, "enum with a variant Refused or Bad beside what was asked for", [
        f"{p}:{l} {n}" for p, l, n, v in enums(files)
        if any(x in ("Refused", "Bad") for x, _ in v) and not (len(v) == 2 and any(not d for _, d in v))])
    put(1, "struct with a flag (there, good) or a zero tag beside what it guards", [
        f"{p}:{t.count(chr(10), 0, m.start()) + 1} {m.group(1)}" for p, t in files.items()
        for m in re.finditer(r"struct (\w+)[^{;]*\{([^}]*)\}", t) if re.search(r"\b(there|good|tag): ", m.group(2))])
    none = re.compile(r"\b(0|the list's length|`used`|g) (if|where|for|beyond) (there is none|none|it|each|they|a tag|the (end|list))|if there is none|, or 0\b|; 0 (if|where|beyond)|answers 0|or the list's length", re.I)
    put(1, "function whose comment says which number stands for none", [
        f.at() for f in fns if none.search(" ".join(f.comment.replace("//", " ").split())) and "->" in f.head
        and not re.search(r"->\s*(Option|Result|io::Result)", f.head)])
    kinds = []
    for p, t in files.items():
        groups = re.findall(r"((?:^(?:pub )?const [A-Z_0-9]+: (?:u8|u32|u64|usize) = \d+;[^\n]*\n\n?){3,})", t, re.M)
        for g in groups:
            kinds.append(p + " " + ", ".join(re.findall(r"const (\w+)", g)))
    put(1, "three or more numbers in a row that name kinds", kinds)
    put(1, "a refusal by its number", [
        f"{p}:{t.count(chr(10), 0, m.start()) + 1}" for p, t in files.items()
        for m in re.finditer(r"number: u32|refuse\(\d+, |return 1[0-9];|told_refused\(\d+", t)])

    # 2
    stems = collections.defaultdict(list)
    for f in fns:
        s = re.sub(r"(_?[1-4]q?$)", "", f.name)
        if s != f.name:
            stems[(f.path.split("/")[1], s)].append(f)
    put(2, "functions whose names differ in a last digit", [
        " / ".join(f.at() for f in g) for g in stems.values() if len(g) > 1])
    types = collections.defaultdict(list)
    for p, t in files.items():
        for m in re.finditer(r"struct (\w+?)([1-4])\b", t):
            types[m.group(1)].append(f"{p} {m.group(1)}{m.group(2)}")
    put(2, "structs whose names differ in a last digit", [" / ".join(g) for g in types.values() if len(g) > 1])
    shapes = collections.defaultdict(list)
    for f in fns:
        if len(tokens(f.body)) >= 14:
            shapes[shape(f.body)].append(f)
    put(2, "functions of one shape, names and numbers aside", [
        " / ".join(f.at() for f in g) for g in shapes.values() if len(g) > 1])

    # 3
    put(3, "while", [
        f"{p}:{i}" for p, t in files.items() for i, line in enumerate(t.split("\n"), 1) if re.match(r"\s*while ", line)])

    # 4
    put(4, "both( or either( in place of an operator", [
        f"{p}:{i}" for p, t in files.items() for i, line in enumerate(t.split("\n"), 1)
        if re.search(r"\b(both|either)\(", line) and not re.match(r"\s*(//|pub fn|fn)", line)])
    put(4, "a function that is a cast", [f.at() for f in fns if re.fullmatch(r"\s*\w+(\[\w+\])? as \w+\s*", f.body)])
    put(4, "a bool made a number by a test", [
        f.at() for f in fns if re.search(r"\{\s*(?:return )?1;?\s*\}\s*(?:else\s*\{\s*0\s*\}|0\s*$)", f.body)])
    put(4, "&& or || by `if` and `return`", [
        f.at() for f in fns if re.search(r"-> bool", f.head)
        and re.search(r"if [^{]*\{\s*(?:return )?[^{};]+;?\s*\}\s*(?:else \{ ?)?(?:true|false)|if [^{]*\{\s*return (?:true|false);\s*\}\s*[^\s{}]+", f.body)
        and "while" not in f.body and "for " not in f.body])
    put(4, "kinds turned into numbers by a match", [
        f.at() for f in fns if len(re.findall(r"=> (?:\d+|[A-Z_]+_ITEM|told_refused\()", f.body)) >= 2])
    put(4, "an order written by hand", [f.at() for f in fns if f.name in ("sooner", "earlier", "better")])
    put(4, "sums and products of numbers as methods of the type's own", [
        f.at() for f in fns if f.name in ("add", "sub", "mul", "plus") and "self" in f.head.split(")")[0]])
    put(4, "decimal digits and words written by hand", [
        f.at() for f in fns if f.name in ("put_decimal", "digits", "digit", "put_signed", "put_field")])

    # 5
    facts = collections.defaultdict(set)
    for f in fns:
        for c in f.clauses("requires"):
            for w in set(re.findall(r"\b[A-Z]\w+\b", c)) - {"True"}:
                facts[(f.path.split("/")[1], w)].add(f.name)
    put(5, "a fact that three or more functions of a crate require", [
        f"{c}: {w} ({len(g)})" for (c, w), g in sorted(facts.items()) if len(g) >= 3])
    groups = collections.defaultdict(set)
    for f in fns:
        ps = [p for p in f.parameters() if ":" in p]
        key = tuple(sorted(p.replace("mut ", "") for p in ps))
        for i in range(len(key)):
            for j in range(i + 1, len(key)):
                groups[(f.path.split("/")[1], key[i], key[j])].add(f.name)
    put(5, "two parameters that five or more functions of a crate take together", [
        f"{c}: {a}, {b} ({len(g)})" for (c, a, b), g in sorted(groups.items()) if len(g) >= 5])

    # 6
    put(6, "a length required to be within a slice beside it", [
        f.at() for f in fns if any(re.search(r"\b\w+ ≤ length \w+\.(now|old)", c) for c in f.clauses("requires"))])
    put(6, "a fixed buffer filled in part", [
        f"{p}:{i}" for p, t in files.items() for i, line in enumerate(t.split("\n"), 1)
        if re.search(r"let mut \w+(: [^=]+)? = \[[^\]]+; [^\]]+\]", line)])

    # 7
    put(7, "a chain of tests on which step to run", [
        f.at() for f in fns if len(re.findall(r"if (?:what|kind|tag) (?:==|<=) [A-Z_]+", f.body)) >= 2])
    put(7, "a parameter that says which step to run", [
        f.at() for f in fns if any(re.match(r"(what|kind|tag|wanted|of_label): ", p) for p in f.parameters())])
    return found


def main(words):
    listed = None
    if "--list" in words:
        at = words.index("--list")
        listed = int(words[at + 1])
        del words[at:at + 2]
    found = count(sources(words[0] if words else None))
    for (point, pattern), places in found.items():
        if listed is None:
            print(f"{point}  {len(places):4}  {pattern}")
        elif listed == point:
            print(f"# {pattern}: {len(places)}")
            for p in places:
                print("   ", p)


main(sys.argv[1:])
