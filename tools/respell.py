#!/usr/bin/env python3
"""Turns this repository's own names with dashes into snake case.

Run once, at the top, after the toolchain's port script. A name is the repository's own if a file of
specs/ or a lemma file of proofs/ declares it: a definition, a lemma, a field or a constructor. The
names that the toolchain makes (goals, invariants, measures, steps) keep their dashes, and so do the
names of its libraries.
"""
import glob
import re
import sys

WORD = r"[^\W\d][\w']*(?:-[\w'ℕℤ]+)+"
TOKEN = re.compile(r"(?<![\w'-])" + WORD + r"(?![\w'-])")
DECLARED = re.compile(r"^\s*(?:abbrev\s+|unfoldable\s+)?(?:pub\s+)?(" + WORD + r")\s*:(?!=)\s*(.*)$")
MADE = re.compile(r"^goal\.")


def texts():
    return sorted(glob.glob("crates/**/*.antt", recursive=True)), sorted(glob.glob("crates/**/*.rt", recursive=True))


def own_names(antt):
    own = {}
    for path in antt:
        for line in open(path, encoding="utf-8"):
            found = DECLARED.match(line)
            if found and not MADE.match(found.group(2)):
                own.setdefault(found.group(1), path)
    return own


def aliases(paths):
    """The names that an import gives: `meet as meet-of`."""
    named = set()
    for path in paths:
        for line in open(path, encoding="utf-8"):
            if re.match(r"\s*(ghost )?use ", line):
                named.update(re.findall(r"\bas (" + WORD + r")", line))
    return named


def clause_part(line, inside):
    """Whether a line of a .rt file is ghost text."""
    return inside or re.match(r"\s*(ghost|requires|ensures)\b", line) is not None


def main():
    antt, rt = texts()
    own = own_names(antt)
    own.update({name: "an import" for name in aliases(antt + rt)})
    every = set()
    for path in antt + rt:
        every.update(re.findall(r"[^\W\d][\w'-]*", open(path, encoding="utf-8").read()))
    for name in sorted(own):
        snake = name.replace("-", "_")
        if snake in every:
            print(f"falls together: {name} and {snake}", file=sys.stderr)
    for path in antt + rt:
        text = open(path, encoding="utf-8").read()
        out = []
        depth = 0
        for line in text.split("\n"):
            if path.endswith(".rt"):
                ghost = clause_part(line, depth > 0)
                if ghost:
                    depth = max(0, depth + line.count("{") - line.count("}"))
                if not ghost:
                    out.append(line)
                    continue
            code, mark, comment = line.partition("-- ") if path.endswith(".antt") else (line, "", "")

            def turn(found):
                word = found.group(0)
                before = code[: found.start()]
                if word not in own:
                    return word
                if path.endswith(("Answers.antt", "Invariants.antt")) and re.search(r"\b(c|goal|w|l)\.$", before):
                    print(f"left: {path}: {word}", file=sys.stderr)
                    return word
                return word.replace("-", "_")

            out.append(TOKEN.sub(turn, code) + mark + comment)
        new = "\n".join(out)
        if new != text:
            open(path, "w", encoding="utf-8").write(new)


main()
