#!/usr/bin/env python3
"""Lists candidates for the places that docs/DESIGN-PASS.md counts, point by point.

    tools/places.py [FOLDER]     the folder of a checkout, by default this one

A candidate is a place to read; whether it counts is said on the page.
"""
import collections
import glob
import itertools
import os
import re
import sys

ROOT = sys.argv[1] if len(sys.argv) > 1 else os.path.join(os.path.dirname(os.path.abspath(__file__)), "..")
HEAD = re.compile(r"^( *)(?:pub(?:\([a-z]+\))? )?fn ([a-z_0-9]+)", re.M)
KEEP = {"match", "if", "else", "let", "for", "in", "while", "return", "self", "mut", "Some", "None", "Ok", "Err", "true",
        "false", "as", "len", "iter", "write_str", "f", "write"}


def functions():
    for path in sorted(glob.glob(f"{ROOT}/crates/*/src/**/*.rt", recursive=True)):
        text = open(path, encoding="utf-8").read()
        for found in HEAD.finditer(text):
            indent = found.group(1)
            lines = text[found.start():].split("\n")
            at = next(k for k, line in enumerate(lines) if line.endswith(("{", ";")))
            if lines[at].endswith(";"):
                yield os.path.relpath(path, ROOT), found.group(2), "\n".join(lines[:at + 1]), ""
                continue
            end = next(k for k, line in enumerate(lines) if k > at and line.rstrip(",") == indent + "}")
            head = "\n".join(lines[:at]) if lines[at].strip() == "{" else "\n".join(lines[:at + 1]).rstrip("{ ")
            yield os.path.relpath(path, ROOT), found.group(2), head, "{\n" + "\n".join(lines[at + 1:end + 1])


def parameters(head):
    found = re.search(r"\((.*?)\)\s*(?:->|where|requires|ensures|$|\n)", head, re.S)
    if not found:
        return []
    parts = re.split(r",\s*(?![^<]*>)", found.group(1).strip().rstrip(","))
    return [re.sub(r"\s+", " ", p.strip()) for p in parts if ":" in p]


def shape(body):
    tokens = re.findall(r"b?\"[^\"]*\"|b'.'|[A-Za-z_]\w*|\d+|::|[=!<>]=|[^\s\w]", re.sub(r"//.*", "", body))
    tokens = ["<" if t in ("==", "!=", "<=", ">=", ">") else t for t in tokens]
    return tuple(t if t in KEEP or not re.match(r"[\w\"b]", t) else "_" for t in tokens)


def show(title, groups):
    print(f"{title}: {len(groups)}")
    for name, places in groups:
        print(f"  {name}: {', '.join(places)}")


def lines_with(title, pattern, skip=r"$^"):
    found = []
    for path in sorted(glob.glob(f"{ROOT}/crates/*/src/**/*.rt", recursive=True)):
        for number, line in enumerate(open(path, encoding="utf-8"), 1):
            if re.search(pattern, line) and not re.search(skip, line):
                found.append((f"{os.path.relpath(path, ROOT).replace('crates/', '').replace('/src', '')}:{number}", [line.strip()]))
    show(title, found)


def counted_buffers():
    found = []
    for path in sorted(glob.glob(f"{ROOT}/crates/*/src/**/*.rt", recursive=True)):
        for struct in re.findall(r"struct (\w+)[^{;]*\{(.*?)\n\}", open(path, encoding="utf-8").read(), re.S):
            fields = dict(re.findall(r"^ +(?:pub )?(\w+): (.*),$", struct[1], re.M))
            buffers = [f for f, kind in fields.items() if "[" in kind or "Vec<" in kind]
            counts = [f for f, kind in fields.items() if kind == "usize"]
            if buffers and counts:
                found.append((os.path.relpath(path, ROOT).replace("crates/", "").replace("/src", ""), [f"{struct[0]}: {', '.join(buffers + counts)}"]))
    show("6 buffers with a number beside", found)


every = list(functions())
lines_with("1 enums", r"^ *(pub(\([a-z]+\))? )?enum ")
lines_with("1 numbers for kinds or refusals", r"\b(question|kind|code|tag): (u8|usize)\b|question: [0-9]|of_\w+\([0-9]|Fault::\w+ => [0-9]")
lines_with("1 flags", r"^ +(pub )?\w+: bool,")
lines_with("3 while and loop", r"^\s*(while|loop) ")
lines_with("3 for over numbers", r"for \w+ in [^{&]*\.\.")
lines_with("3 counters and recursion over a number", r"\b(\w+) = \1\.saturating_add\(1\);|\b[a-z] \+ 1, \w+\)$|^\s+\w+ \+= 1;")
lines_with("4 comparison and conversion by hand", r"fn (same|equal|smaller|larger|operand|compare)\b|\) as u8|a as u8|impl .*(PartialEq|PartialOrd|Ord|Clone|Copy|Debug) for")
lines_with("4 casts with as", r" as (u8|u16|u32|u64|usize|char)\b")
lines_with("4 Display and From by hand", r"^impl(<.*>)? (fmt::Display|From<.*>|TryFrom<.*>) for")
lines_with("7 function pointers, dyn, closures kept", r"\bfn\(|\bdyn |Box<")
counted_buffers()
by_shape = collections.defaultdict(list)
passing = []
facts = collections.defaultdict(set)
groups = collections.defaultdict(set)
for path, name, head, body in every:
    place = f"{path.replace('crates/', '').replace('/src', '').replace('.rt', '')}:{name}"
    if not body:
        continue
    key = shape(body)
    if len([t for t in key if t not in "{}();,"]) >= 5 and "fmt" != name:
        by_shape[key].append(place)
    names = [p.split(":")[0].strip().removeprefix("mut ") for p in parameters(head)]
    call = re.fullmatch(r"\{\s*(?:self\.|Self::|crate::)?([a-z_0-9]+)(?:::<[^>]*>)?\((.*?)\)\s*\}", body.strip(), re.S)
    if call and names and [a.strip() for a in call.group(2).replace("self, ", "").split(",")] == names and not call.group(2).startswith("\""):
        passing.append((call.group(1), [place]))
    for clause in re.findall(r"^\s*(?:requires|ensures)(?: \w+)? \{ (.*) \}$", head, re.M):
        for fact in re.split(r" × (?=\()|→ ", clause):
            plain = fact
            for n in [n for n in names if n.isidentifier()]:
                plain = re.sub(rf"\b{n}\b(?:\.(?:old|new|now|entry))?", "·", plain)
            plain = re.sub(r"\b(?:self|result)\.(?:old|new|now)", "·", plain)
            if len(plain) >= 12:
                facts[plain.strip()].add(place)
    typed = [re.sub(r"&'?\w* ?|\bmut ", "", p.replace(": ", ":")) for p in parameters(head)]
    for pair in itertools.combinations(typed, 2):
        groups[pair].add(place)
show("2 twins", [(f"{len(p)} of one shape", p) for p in by_shape.values() if len(p) > 1])
show("2 pass-on", passing)
show("5 facts", [(f, sorted(p)) for f, p in sorted(facts.items()) if len(p) > 2])
show("5 together", [(" ".join(g), sorted(p)) for g, p in sorted(groups.items()) if len(p) > 2])
switches = []
for path, name, head, body in every:
    calls = re.findall(r"=> (?:self\.)?([a-z_]+)\(([^()]*)\),", body)
    if len({c[0] for c in calls}) > 1 and len({c[1] for c in calls}) == 1 and len(calls) > 1:
        switches.append((f"{path}:{name}", [f"{c[0]}({c[1]})" for c in calls]))
show("7 switches on which step to run", switches)
for kind in ("Answers", "Invariants", "Proof"):
    files = glob.glob(f"{ROOT}/crates/*/proofs/**/{kind}.antt", recursive=True)
    print(f"8 {kind}: {len(files)} files, {sum(len(open(f, encoding='utf-8').readlines()) for f in files)} lines")
files = [f for f in glob.glob(f"{ROOT}/crates/*/proofs/**/*.antt", recursive=True)]
print(f"8 all of proofs: {len(files)} files, {sum(len(open(f, encoding='utf-8').readlines()) for f in files)} lines")
