#!/usr/bin/env python3
"""The tool `jozkeral` beside the original, on the gate lists of a file (docs/TESTING.md, "Gate lists").

  host.py ORACLE TOOL FILE

Each list is written out as a list for people, with its angles in decimal; the tool makes its tape, runs it and answers its
queries. Compared with the original: every byte of the tape, the report, the verdict, and the answers, bit for bit with the
rows of the oracle's plain search unless the list is angled: then within 1e-9 without rows, and nothing but the tape where
document 01 does not compare (tolerance under 1e-12).
"""
import json
import math
import os
import struct
import subprocess
import sys
import tempfile

RELABEL, REORDER, DROP = 1, 2, 4
# hexadecimal digits of a float
DIGITS = 16
# largest difference between two answers to an angled list, and the least tolerance with which these are compared
CLOSE, LEAST_TOLERANCE = 1e-9, 1e-12
QUERIES = ("prod", "marg", "prob", "sample")
REPORT = {"blocks": "blocks", "blocks_2q": "two_qubit_blocks", "gaussian": "gaussian", "bad": "bad", "nonadjacent": "nonadjacent",
          "interactions": "interactions", "swaps": "swaps_relabelled"}


def number(word):
    return float("nan") if word == "nan" else struct.unpack(">d", bytes.fromhex(word))[0]


def lists(text):
    """The lists of a text, each as the words of its lines."""
    words = [line.split() for line in text.splitlines() if not line.startswith("#")]
    found = [[]]
    for line in words:
        if line == ["--"]:
            found.append([])
        elif line:
            found[-1].append(line)
    return [one for one in found if one]


def for_people(one):
    """The list in the tool's own format."""
    n, flags, tolerance, limit = one[0]
    switch = lambda bit: "on" if int(flags) & bit else "off"
    out = [f"qubits {n}", f"tolerance {number(tolerance)!r}", f"limit {limit}"]
    out += [f"relabel {switch(RELABEL)}", f"reorder {switch(REORDER)}", f"drop {switch(DROP)}"]
    for name, *rest in one[1:]:
        if name not in QUERIES:
            out.append(" ".join([name] + [repr(number(w)) if len(w) == DIGITS else w for w in rest]))
    return "\n".join(out) + "\n"


def asked(one, folder):
    """The tool's options for a list's queries, and which these are: products, marginals, indices; the first sample."""
    n, options, queries, sample = int(one[0][0]), [], [], None
    for name, *rest in one[1:]:
        line = " ".join([name] + rest)
        if name == "prod" and rest:
            options += ["--product", ",".join(rest)]
        elif name == "marg" and len(rest) > 1 and 2 * rest.index(":") + 1 == len(rest):
            k = rest.index(":")
            options += ["--marginal", ",".join(f"{q}={b}" for q, b in zip(rest[:k], rest[k + 1:]))]
        elif name == "prob" and n > 0:
            index = int(rest[1] + rest[0], 16)
            options += ["--index", "".join(str(index >> q & 1) for q in range(n))]
        else:
            if name == "sample" and sample is None and n > 0:
                sample = line
                with open(os.path.join(folder, "draws"), "w") as f:
                    f.write("\n".join(repr(number(w)) for w in rest[2:]))
                options += ["--shots", rest[0], "--draws", f.name]
            continue
        queries.append(line)
    return options, queries, sample


def answers(text):
    """What `oracle run` says of each list: fields by name, answers by query."""
    found = [{}]
    for line in text.splitlines():
        if line == "--":
            found.append({})
            continue
        query, equals, answer = line.partition(" =")
        name, _, rest = line.partition(" ")
        if equals:
            found[-1][query] = answer.strip()
        elif name not in ("m", "d", "one", "two", "interaction"):
            found[-1][name] = rest
    return found


def same(a, row, answer, angled, signed):
    """Whether a number with its row, if there is one, is the original's answer; with `signed` the signs of zeros too."""
    word, *rest = answer.split()
    b, other = number(word), int(rest[1]) if rest else None
    if angled:
        return abs(a - b) <= CLOSE
    return row == other and (a != a and b != b or a == b and (not signed or math.copysign(1, a) == math.copysign(1, b)))


def explained(x, told):
    """Whether a number says where it comes from: nothing unless it is zero, `found` exactly where it has a row; an index never does."""
    if "zero" not in told:
        return told["kind"] == "index"
    zero, row = told["zero"], told["row"]
    return (zero is not None) == (x == 0) and (zero == "found") == (row is not None)


def compare(said, original, queries, sample, exact_only):
    """What differs between the tool's outcome and the original's."""
    report, wrong = said["report"], []
    angled = report["angled"]
    if angled and exact_only:
        return wrong
    wrong += [k for k, v in REPORT.items() if int(original[k]) != report[v]]
    wrong += [k for k in ("order", "modes") if [int(w) for w in original[k].split()] != report[k]]
    wrong += ["path_starts"] if [w == "1" for w in original["path_starts"].split()] != report["path_starts"] else []
    wrong += ["ordering"] if original["ordering"] != report["ordering"] else []
    verdict = "accepted" if said["accepted"] else f"refused {said['refusal']['number']}"
    if verdict != original["verdict"]:
        return wrong + [f"verdict {verdict}, not {original['verdict']}"]
    if not said["accepted"]:
        return wrong
    for parity in said["parities"]:
        line = f"prod {parity['qubit']}"
        if line in original and not same(parity["z"], parity["row"], original[line], angled, True):
            wrong.append(line)
        wrong += [] if explained(parity["z"], parity) else [f"zero of {line}"]
    for line, query in zip(queries, said["queries"]):
        given = original[line]
        if given.startswith("refused"):
            right = given == f"refused {query.get('refused')} at {query.get('place')}"
        else:
            right = "value" in query and same(query["value"], query.get("row"), given, angled, line.startswith("prod"))
        wrong += [] if right else [line]
        wrong += [f"zero of {line}"] if "value" in query and not explained(query["value"], query) else []
    if sample is not None and not angled and not original[sample].startswith("refused"):
        n, words = report["qubits"], original[sample].split()
        shots = [int(high + low, 16) for low, high in zip(words[::2], words[1::2])]
        if ["".join(str(s >> q & 1) for q in range(n)) for s in shots] != said["shots"]:
            wrong.append(sample[:40])
    return wrong


def main(oracle, tool, file):
    with open(file) as f:
        found = lists(f.read())
    original = answers(subprocess.run([oracle, "run", file], check=True, capture_output=True, text=True).stdout)
    faults = 0
    with tempfile.TemporaryDirectory() as folder:
        tapes = os.path.join(folder, "tape")
        subprocess.run([oracle, "tape", file, tapes], check=True)
        for i, one in enumerate(found):
            path, own = os.path.join(folder, "list.txt"), os.path.join(folder, "own")
            with open(path, "w") as f:
                f.write(for_people(one))
            options, queries, sample = asked(one, folder)
            run = subprocess.run([tool, path, "--json", "--tape", own] + options, capture_output=True, text=True)
            if run.returncode > 1:
                wrong = [run.stderr.strip()]
            else:
                wrong = compare(json.loads(run.stdout), original[i], queries, sample, number(one[0][2]) < LEAST_TOLERANCE)
            with open(own, "rb") as f, open(tapes if len(found) == 1 else f"{tapes}.{i}", "rb") as g:
                wrong += [] if f.read() == g.read() else ["tape"]
            if wrong:
                faults += 1
                print(f"list {i}: {'; '.join(wrong)}")
    print(f"{len(found)} lists, {faults} differ")
    return 1 if faults else 0


if __name__ == "__main__":
    sys.exit(main(*sys.argv[1:]))
