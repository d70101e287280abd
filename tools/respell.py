#!/usr/bin/env python3
"""Turns the repository's own names in crates/ to today's spelling, after the toolchain's port.py: run once, at the top.

A definition, lemma or field of specs/ and proofs/ that is spelled with dashes (`none-taken`) or in lower camel case
(`nextDigit`) is spelled in snake case (`none_taken`, `next_digit`). A dash stays beside an operator (`pos-≤ℤ`) and
after a name that begins with a capital (`K-near`). Names of src/, exported C names and strings stay.
Files of a function's own proof (proofs/FUNCTION/) keep the names that they declare themselves, since those are the names of goals.
"""
import collections
import glob
import os
import re
import sys

WORD = r"[^\s(){}\[\];,.:\"`«»]+"
# Symbols of the papers, and names that would fall together with another's when respelled.
KEPT = {"dE", "dN"}
OTHER = {
    # `first_of` is a tactic now.
    "first_of": "first_refusal",
    "first-of": "first_refusal_lem",
    # Two definitions of one name: one tells an answer, the other what is told of the arguments.
    "cellTold": "told_of_cell",
    "readTold": "told_of_text",
    # `plane-limit` counts centimetres, `planeLimit` is the float.
    "planeLimit": "plane_limit_float",
    # A lemma of a definition's name.
    "empty-slot": "empty_slot_lem",
    "forward-told": "forward_told_lem",
    "inverse-told": "inverse_told_lem",
    "is-refused": "is_refused_lem",
    "last_line": "last_line_lem",
    "latitude-limit": "latitude_limit_lem",
    "longitude-limit": "longitude_limit_lem",
    "lines-from": "lines_from_lem",
    "new-slot": "new_slot_lem",
    "number-text": "number_text_lem",
    "of-numbers": "of_numbers_lem",
    "of-side": "of_side_lem",
    "other-loop": "other_loop_lem",
    "output-from": "output_from_lem",
    "row-at": "row_at_lem",
    "forward-row": "forward_row_lem",
    "inverse-row": "inverse_row_lem",
    # The word of an operator.
    "◌goes-to◌": "◌goes_to◌",
    "goes-to": "goes_to",
}


def respelled(name):
    if name in OTHER:
        return OTHER[name]
    if name in KEPT or not name[:1].islower():
        return name
    new = re.sub(r"(?<=[a-z0-9])([A-Z])(?=[a-z]|$|[-_'])", lambda m: "_" + m.group(1).lower(), name)
    new = re.sub(r"(?<=[A-Za-z0-9_'])-(?=[A-Za-z0-9])", "_", new)
    return new


def is_function_proof(path):
    return "/proofs/" in path and path.endswith(("/Proof.antt", "/Answers.antt", "/Invariants.antt"))


def declared(text):
    tops, fields = set(), set()
    for line in text.split("\n"):
        m = re.match(r"((?:(?:pub|unfoldable|abbrev|ruleset|axiom|data|record)\s+)*)(" + WORD + r")\s*(?:\{.*|\(.*|:\s.*|:)$", line)
        if m and m.group(2) not in ("use", "open", "mod", "unfolding", "infix", "infixl", "infixr"):
            tops.add(m.group(2))
        m = re.match(r"\s+(?:(?:pub|unfoldable|abbrev|ruleset|data|record)\s+)*(" + WORD + r")\s+:(?:\s|$)", line)
        if m:
            fields.add(m.group(1))
    return tops, fields


def imported(text):
    """The names that a file takes, by whether they are of this repository."""
    own, other = set(), set()
    for m in re.finditer(r"^(?:ghost )?use ([^{;\n]*)\.\{([^}]*)\}", text, re.M):
        of = own if m.group(1).split(".")[0] == "Rattle" and m.group(1).split(".")[1] in CRATES else other
        of.update(re.split(r"\s+as\s+", n.strip())[0] for n in m.group(2).split(",") if n.strip())
    return own, other


CRATES = sorted(os.path.basename(os.path.dirname(p)) for p in glob.glob("crates/*/src"))


def main():
    files = sorted(glob.glob("crates/*/specs/*.antt") + glob.glob("crates/*/proofs/**/*.antt", recursive=True))
    texts = {p: open(p, encoding="utf-8").read() for p in files + sorted(glob.glob("crates/*/src/*.rt"))}
    tops, fields = set(), set()
    for p in files:
        if not is_function_proof(p):
            t, f = declared(texts[p])
            tops |= t
            fields |= f
    names = {n for n in tops | fields | set(OTHER) if respelled(n) != n}
    problems = []
    for p, t in texts.items():
        own, other = imported(t)
        here = declared(t)[0] if is_function_proof(p) else set()
        skip = {n for n in other | here if n not in own}
        present = set(re.findall(WORD, t))
        done = collections.defaultdict(set)

        def word(n, dotted):
            if n not in names or n in skip or (dotted and is_function_proof(p) and n not in fields):
                return n
            done[respelled(n)].add(n)
            return respelled(n)

        def code(s):
            return re.sub(r"(?:(?<=\.)|(?<![^\s(){}\[\];,.:\"`«»]))" + WORD, lambda m: word(m.group(0), m.start() > 0 and s[m.start() - 1] == "."), s)

        mark = "//" if p.endswith(".rt") else "--"
        out = []
        for line in t.split("\n"):
            if line.lstrip().startswith(mark):
                line = re.sub(r"`[^`]*`", lambda m: code(m.group(0)), line)
            elif p.endswith(".rt"):
                parts = re.split(r"(\"(?:[^\"\\]|\\.)*\")", line)
                line = "".join(s if i % 2 else code(s) for i, s in enumerate(parts))
            else:
                cut = re.match(r"((?:(?! -- ).)*)( -- .*)?$", line)
                line = code(cut.group(1)) + re.sub(r"`[^`]*`", lambda m: code(m.group(0)), cut.group(2) or "")
            out.append(line)
        for new, olds in done.items():
            if len(olds) > 1 or (new in present and new not in names):
                problems.append(f"{p}: {', '.join(sorted(olds))} -> {new}" + (", which the file has" if new in present else ""))
        new = "\n".join(out)
        if new != t:
            with open(p, "w", encoding="utf-8") as f:
                f.write(new)
    by = collections.defaultdict(set)
    for n in names:
        by[respelled(n)].add(n)
    for n in tops | fields:
        if n in by:
            by[n].add(n)
    print(f"{len(names)} names respelled")
    for new, olds in sorted(by.items()):
        if len(olds) > 1:
            print(f"fall together: {', '.join(sorted(olds))} -> {new}")
    for line in problems:
        print("look: " + line)
    if "--list" in sys.argv:
        for n in sorted(names):
            print(n, respelled(n))


main()
