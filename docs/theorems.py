#!/usr/bin/env python3
"""Writes docs/theorems.svg, the map of theorems in docs/PROMISES.md: boxes name clauses and laws with their files, an arrow leads from what is used to what
rests on it. Before it writes, it looks whether each law that a box names stands in its file. Needs Python 3 and nothing else."""
import glob
import os
import re
import sys

ROOT = os.path.join(os.path.dirname(os.path.abspath(__file__)), "..")
WIDTH, HEIGHT, LINE, PAD = 960, 1435, 15, 7

# name: left, top, width, title, clauses or laws, file below crates/ (a * stands for several)
BOXES = {
    # promises 1 and 2
    "calls": (20, 50, 582, "Promises 1 and 2: every call for users", ["jozkeral_…: ensures (Tells, Reports); print_tape: ensures end, text"],
              "engine/src/states.rt, tapes.rt; text/src/print.rt"),
    "compile": (20, 150, 138, "compile", ["answer, work, marks,", "ops"], "detect/src/questions.rt"),
    "run": (168, 150, 286, "run", ["answer, work, marks, ops, state:", "ran, ran_work, .., ran_state"], "gaussian/src/engine.rt, gaussian/specs/Run.antt"),
    "asks": (464, 150, 138, "queries", ["ensures, each"], "queries/src/*.rt"),
    "report": (20, 260, 286, "report, work, operations", ["compile_judged: ensures; asked, program_of"], "detect/src/*.rt, detect/specs/Questions.antt"),
    "evolve": (316, 260, 138, "evolve", ["evolved-written"], "evolve/proofs/Evolving.antt"),
    "pfaffian": (464, 260, 138, "Pfaffian, shot", ["ensures, each"], "pfaffian/src/*.rt"),
    "order": (20, 355, 138, "order", ["order-permutes,", "chosen-inverse,", "rank-mode"], "order/proofs/*.antt"),
    "resolve": (168, 355, 138, "items", ["gates-fused, tried-is,", "resolved-wired"], "resolve/proofs/*.antt"),
    "local": (316, 355, 138, "apply, a map", ["step, settled, later"], "local/specs/Apply.antt"),
    "tape": (20, 470, 138, "tape: parse", ["gates-good, gates-few,", "parse-prefix"], "tape/proofs/*.antt"),
    "classify": (168, 470, 138, "classes", ["angled-is,", "rotation-is-map"], "classify/proofs/*.antt"),
    "num": (316, 470, 138, "numbers", ["root_is, root-unique,", "sqrt-max"], "num/proofs/*.antt"),
    "draws": (464, 355, 138, "a shot's own draws", ["own-draws"], "queries/proofs/Draws.antt"),
    # promise 4
    "run4": (640, 50, 300, "Promise 4: run, jozkeral_run, ensures signs, plain", ["signs-of, plain-of, permuting-run; signs-told, plain-told"],
             "gaussian/proofs/Signs.antt, engine/proofs/Claims.antt"),
    "signs": (640, 135, 145, "circuits on modes", ["signs, signs-in-slices,", "signs-by-calls,", "blocks-stand"], "signs/proofs/*.antt"),
    "lost": (795, 135, 145, "false of lost turns", ["refused, own-effect,", "own-answers"], "signs/proofs/Refused.antt"),
    "pulled": (640, 245, 145, "lists of blocks", ["run_holds, slice-holds"], "signs/proofs/Runs.antt"),
    "zprod": (795, 245, 145, "products of Z", ["z-product"], "signs/proofs/ZProducts.antt"),
    "steps": (640, 325, 145, "one block", ["step-holds"], "signs/proofs/Steps.antt"),
    "odd": (795, 325, 145, "who turns", ["float-odd, later"], "signs/proofs/*.antt"),
    "row": (640, 405, 145, "bytes to parity", ["sign-row, far-row"], "rows/proofs/SignRun.antt"),
    "never": (795, 405, 145, "false of lost turns, as runs", ["refused, own-signs"], "rows/proofs/Lost.antt"),
    "beside": (640, 485, 145, "beside a plain engine", ["same-by-calls,", "always-same"], "postponed/proofs/*.antt"),
    "faulty": (795, 485, 145, "false of wrong ones", ["own-same, refused"], "postponed/proofs/Refused.antt"),
    # promise 4 in exact numbers
    "answered": (20, 570, 275, "Promise 4, every angle: queries, by qubits", ["query-theorem, shot-theorem;",
                 "on real numbers: real-answer-theorem"], "answers/proofs/*.antt"),
    "fused": (335, 570, 275, "fusing, renaming, circuits", ["every-fused, alike-right,", "swaps-may-be-renamings, circuit-theorem"],
              "matchgates/proofs/*.antt"),
    "rounded": (650, 570, 290, "the engine is the formula at binary64", ["rounded-by-calls, rounded-runs,", "rounded-maps"], "rounded/proofs/*.antt"),
    "wick": (20, 670, 275, "products", ["wick-theorem, z-theorem, pfaffian-theorem"], "angles/proofs/*.antt"),
    "gates": (335, 670, 275, "gates by their matrices", ["gate-theorem, residual-tells"], "matchgates/proofs/*.antt"),
    "refute": (650, 670, 290, "false of lost turns, at an angle", ["angles-refute"], "angles/proofs/Lost.antt"),
    "angles": (20, 755, 920, "every angle: entries, parities; postponed signs are signs", ["angle-theorem, own-angle-theorem, for-matrices; postponed"],
               "angles/proofs/*.antt"),
    # promise 3
    "ccall": (20, 850, 455, "Promise 3: jozkeral_run, ensures register (CallClaim)", ["claim-told"], "engine/proofs/Claims.antt"),
    "wrong": (485, 850, 455, "Claimed of this engine, false of wrong ones", ["own-claimed, refused, no-room, unanswered"], "engines/proofs/Refused.antt"),
    "claim": (20, 945, 920, "run, ensures register: RegisterClaim, one page, crates/gaussian/specs/Claim.antt", ["register-claim"],
              "gaussian/proofs/Claim.antt"),
    "accepted": (20, 1040, 145, "accepted runs", ["run-says,", "run-accepted"], "gaussian/proofs/Accepted.antt"),
    "answering": (175, 1040, 610, "every list of queries, refused only by its own questions", ["answers-right, tape-answers, answered-exactly"],
                  "claim/proofs/*.antt"),
    "plain": (795, 1040, 145, "must be accepted", ["plain-free"], "claim/proofs/Plain.antt"),
    "numbered": (20, 1150, 145, "no refusal is 0", ["parse-numbered"], "tape/proofs/Numbers.antt"),
    "tables": (175, 1150, 145, "mode table", ["lent-permutes,", "table-permutes"], "claim/proofs/Tables.antt"),
    "told": (330, 1150, 145, "answers on bits", ["product-told,", "marginal-told,", "sample-told"], "basis/proofs/*.antt"),
    "holds": (485, 1150, 300, "the state holds the register's bits", ["tape-holds"], "claim/proofs/Tapes.antt"),
    "tapeplain": (795, 1150, 145, "plain tapes", ["tape-plain"], "register/proofs/Tapes.antt"),
    "moved": (485, 1250, 145, "items move bits", ["items-hold"], "claim/proofs/Items.antt"),
    "follows": (640, 1250, 145, "items and register", ["tape-follows"], "register/proofs/Tapes.antt"),
    "fits": (330, 1345, 300, "register blocks, by computation", ["residual-fits, moves-basis, classify-fits,", "classify-unfit, classify-swapped"],
             "monomial/proofs/*.antt"),
    "keeps": (640, 1345, 300, "fusing, in any monoid", ["fused_keeps, compressed-keeps"], "register/proofs/*.antt"),
}

ARROWS = """
run calls, compile calls, asks calls, report compile, report run, evolve run, order report, local evolve, resolve report,
pfaffian asks, classify resolve, tape resolve, num classify,
claim ccall, claim wrong, accepted claim, answering claim, plain claim, numbered accepted, holds answering, told answering, tables answering, moved holds,
follows holds, fits moved, fits follows, keeps follows, tapeplain plain,
signs lost, signs run4, beside run4, row never, beside faulty, pfaffian draws, pulled signs, zprod signs, steps pulled, odd pulled,
wick answered, fused answered, gates fused, angles wick, angles gates, angles refute
"""


def size(box):
    left, top, width, title, names, file = box
    return left, top, width, PAD * 2 + LINE * (2 + len(names))


def missing():
    """The laws named in boxes of proofs that are in no file of theirs; clauses and plain words have a blank, a colon or a capital."""
    found = []
    for title, names, file in ((b[3], b[4], b[5]) for b in BOXES.values()):
        if "/proofs/" not in file:
            continue
        paths = [p for part in file.split(", ") if "/" in part for p in glob.glob(os.path.join(ROOT, "crates", part))]
        crates = {os.path.relpath(p, os.path.join(ROOT, "crates")).split(os.sep)[0] for p in paths} | {w for w in re.split(r"[ ,]+", file) if "/" not in w}
        text = "".join(open(p, encoding="utf-8").read() for c in crates for p in glob.glob(os.path.join(ROOT, "crates", c, "proofs", "*.antt")))
        own = "".join(open(p, encoding="utf-8").read() for p in paths)
        for law in re.split(r"[,;] *", " ".join(names)):
            where = own if "*" not in file else text
            if law and " " not in law and ":" not in law and not re.search(rf"^ *(pub )?{re.escape(law)} :", where, re.M):
                found.append(f"{file}: no law {law}")
    return found


def label(x, y, words, size=11, bold=False, room=None):
    """A line of text. Where a wide font would not leave it inside its box, it is told the room that it has."""
    wide = len(words) * size * (0.68 if bold else 0.6)
    words = words.replace("&", "&amp;").replace("<", "&lt;")
    style = f' font-size="{size}"' + (' font-weight="bold"' if bold else "")
    if room and wide > room:
        style += f' textLength="{room}" lengthAdjust="spacingAndGlyphs"'
    return f'<text x="{x}" y="{y}"{style}>{words}</text>'


def drawn():
    page = f'viewBox="0 0 {WIDTH} {HEIGHT}" width="{WIDTH}" height="{HEIGHT}" font-family="Helvetica, Arial, sans-serif"'
    out = [f'<svg xmlns="http://www.w3.org/2000/svg" {page}>',
           '<defs><marker id="a" viewBox="0 0 8 8" refX="7" refY="4" markerWidth="7" markerHeight="7" orient="auto"><path d="M0 0L8 4L0 8z"/></marker></defs>',
           f'<rect width="{WIDTH}" height="{HEIGHT}" fill="white"/>',
           label(20, 28, "What carries which promise. An arrow leads from what is used to what rests on it.", 14, True)]
    for pair in re.split(r",\s*", ARROWS.strip()):
        a, b = pair.split()
        (ax, ay, aw, ah), (bx, by, bw, bh) = size(BOXES[a]), size(BOXES[b])
        low, high = max(ax, bx), min(ax + aw, bx + bw)
        if ay >= by + bh:
            x1 = x2 = (low + high) / 2
            if low > high:
                x1, x2 = (ax + aw / 2, bx + bw / 2)
            y1, y2 = ay, by + bh
        else:
            x1, y1, x2, y2 = (ax + aw, ay + ah / 2, bx, by + bh / 2) if ax < bx else (ax, ay + ah / 2, bx + bw, by + bh / 2)
        out.append(f'<line x1="{x1:g}" y1="{y1:g}" x2="{x2:g}" y2="{y2:g}" stroke="#555" marker-end="url(#a)"/>')
    for box in BOXES.values():
        left, top, width, title, names, file = box
        _, _, _, height = size(box)
        out.append(f'<rect x="{left}" y="{top}" width="{width}" height="{height}" fill="white" stroke="black"/>')
        lines = [(title, 11, True)] + [(line, 11, False) for line in names] + [(file, 9, False)]
        for k, (words, font, bold) in enumerate(lines):
            out.append(label(left + PAD, top + PAD + 10 + LINE * k, words, font, bold, width - 2 * PAD))
    return "\n".join(out + ["</svg>", ""])


def main():
    faults = missing()
    if faults:
        print("\n".join(faults))
        return 1
    with open(os.path.join(ROOT, "docs", "theorems.svg"), "w", encoding="utf-8") as out:
        out.write(drawn())
    return 0


if __name__ == "__main__":
    sys.exit(main())
