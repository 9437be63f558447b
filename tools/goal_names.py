#!/usr/bin/env python3
"""Turns the names of goals and steps in proofs/F/ to those that today's toolchain makes.

Such a name keeps the spelling of what it is named after in src/ (`run_len`, not `run-len`), and a word of
the toolchain's own has an underscore (`in_ok`, `overflow_add`). A second run changes nothing.
"""
import glob
import re

OWN = ["in-ok", "in-err", "in-default", "overflow-add", "overflow-sub", "overflow-mul", "overflow-cast",
       "overflow-step", "overflow-shl", "overflow-shr", "invariant-of", "offset-bounds", "slice-bounds",
       "from-residual", "nonzero-div", "nonzero-rem"]


def idents(crate):
    found = set()
    for path in glob.glob(f"{crate}/src/**/*.rt", recursive=True):
        found.update(re.findall(r"\b[a-z][a-z0-9]*(?:_[a-z0-9]+)+\b", open(path, encoding="utf-8").read()))
    return found


for crate in sorted(glob.glob("crates/*")):
    turns = [(i.replace("_", "-"), i) for i in idents(crate)] + [(w, w.replace("-", "_")) for w in OWN]
    turns.sort(key=lambda t: -len(t[0]))
    for path in glob.glob(f"{crate}/proofs/**/*.antt", recursive=True):
        if not path.endswith(("Answers.antt", "Invariants.antt")):
            continue
        text = open(path, encoding="utf-8").read()
        # names that a library gives stay
        kept = set()
        for line in text.split("\n"):
            if line.startswith("use ") and not re.search(r"\.(Goals|Given)\b", line):
                kept.update(re.findall(r"[\w']+(?:-[\w']+)+", line))

        def turn(found):
            word = found.group(0)
            if word in kept:
                return word
            for old, new in turns:
                word = re.sub(r"(?<![\w'])" + re.escape(old) + r"(?![\w'])", new, word)
            return word

        new = re.sub(r"(?<![\w'-])[^\W\d][\w']*(?:-[\w']+)+", turn, text)
        if new != text:
            open(path, "w", encoding="utf-8").write(new)
