#!/usr/bin/env python3
"""Spells the definitions and lemmas of this repository in snake case, as today's Rattle does: readWhole and read-whole become read_whole.

usage: python3 tools/respell.py            at the top of the repository, once, after port.py

It renames what specs/ and proofs/ declare, in .antt files, in clauses and `ghost use` lines of .rt files and in must-fail edits, whose paths
and projections it writes as port.py writes those of other files. Functions of src/,
exported names, strings, types, modules and the names that Rattle generates stay. A lemma whose new name a definition of the same file has gets `_lem`.
"""

import collections
import glob
import os
import re

WORD = r"[^\s(){}.;,@\"«»:λ\[\]]+"
HEAD = re.compile(r"^(\s*)((?:pub |unfoldable |abbrev )*)(" + WORD + r") :")
CAMEL = re.compile(r"^[a-z][^-]*[a-z0-9][A-Z]")
# lemmas and fields that would fall together with a definition
LEMMAS = {
    "data-in": "data_in_lem",
    "no-reply": "no_reply_lem",
    "outcome-in": "outcome_in_lem",
    "port-in": "port_in_lem",
    "signal-in": "signal_in_lem",
    "stored-in": "stored_in_lem",
    "texts-at": "texts_at_lem",
    "read-hundredths": "read_hundredths_lem",
    "held_in": "held_in_lem",
    "most_bytes": "most_bytes_lem",
    "no_room": "no_room_lem",
    "no_step": "no_step_lem",
    "one_more": "one_more_lem",
    "step_from": "step_from_lem",
    "step_in": "step_in_lem",
    "zero_arm": "zero_arm_lem",
}


def antt():
    return sorted(glob.glob("crates/*/specs/**/*.antt", recursive=True) + glob.glob("crates/*/proofs/**/*.antt", recursive=True))


def text_of(path):
    with open(path, encoding="utf-8") as f:
        return f.read()


def declared():
    """The names that specs/ and proofs/ declare; the answers and the closing lemma of a Proof.antt are no such names."""
    names = collections.defaultdict(set)
    for path in antt():
        for line in text_of(path).split("\n"):
            m = HEAD.match(line)
            if not m or line.lstrip().startswith("--") or m.group(3) in ("record", "data", "use"):
                continue
            if path.endswith("/Proof.antt") and (": tie." in line or ": goal." in line or ": {M : Type 1}" in line):
                continue
            names[m.group(3)].add(path)
    return names


def spelled(name):
    if CAMEL.match(name):
        name = re.sub(r"(?<=[a-z0-9])(?=[A-Z])", "_", name).lower()
    return name.replace("-", "_")


def main():
    names = declared()
    table = {n: spelled(n) for n in names if CAMEL.match(n) or "-" in n.strip("-")}
    table.update({a: b for a, b in LEMMAS.items()})
    for path in antt():
        words = set(re.findall(WORD, text_of(path)))
        new = collections.defaultdict(set)
        for w in words:
            new[table.get(w, w)].add(w)
        for n, olds in new.items():
            if len(olds) > 1:
                print(f"look: {path}: {sorted(olds)} fall together as {n}")
    code = re.compile(r"(?<!tie\.)(?<!goal\.)(" + WORD + ")")

    def turn(text, lemmas=True):
        def one(m):
            w = m.group(1)
            return table.get(w, w) if lemmas or w not in LEMMAS or "-" in w else w

        return code.sub(one, text)

    for path in antt():
        old = text_of(path)
        # a generated step, as `.read-digits.ensures`, keeps its name
        new = "\n".join(turn(line) for line in old.split("\n"))
        if new != old:
            with open(path, "w", encoding="utf-8") as f:
                f.write(new)
    known = {w for path in antt() for w in re.findall(WORD, text_of(path))}
    for path in sorted(glob.glob("crates/*/src/**/*.rt", recursive=True) + glob.glob("crates/*/must-fail/*.edit")):
        old = text_of(path)
        new = turn(old, lemmas=False)
        if path.endswith(".edit"):
            # port.py turns no edit: what it turned elsewhere is turned here
            new = code.sub(lambda m: spelled(m.group(1)) if CAMEL.match(m.group(1)) and spelled(m.group(1)) in known else m.group(1), new)
            new = re.sub(r"Rattle·(\w+)(?:·(?:specs|proofs))?\.(?:(specs|proofs)\.)?(?=(?:specs|proofs)\.)", r"Rattle.\1.", new)
            new = re.sub(r"\(([\w']+) \.([\w-]+)\)", r"\1.\2", new)
        if new != old:
            with open(path, "w", encoding="utf-8") as f:
                f.write(new)


if __name__ == "__main__":
    os.chdir(os.path.join(os.path.dirname(os.path.abspath(__file__)), ".."))
    main()
