#!/usr/bin/env python3
"""Counts the places of docs/DESIGN-PASS.md in the crates' src/: design_count.py [-v] [COMMIT], by default the files as they stand; -v names each place."""
import collections
import itertools
import re
import subprocess
import sys

ARGS = [a for a in sys.argv[1:] if a != "-v"]
LONG = "-v" in sys.argv


def files():
    if ARGS:
        names = subprocess.run(["git", "ls-tree", "-r", "--name-only", ARGS[0], "crates"], capture_output=True, text=True, check=True).stdout.split("\n")
    else:
        names = subprocess.run(["git", "ls-files", "crates"], capture_output=True, text=True, check=True).stdout.split("\n")
    for name in names:
        if re.fullmatch(r"crates/\w+/src/.*\.rt", name):
            text = subprocess.run(["git", "show", f"{ARGS[0]}:{name}"], capture_output=True, text=True, check=True).stdout if ARGS else open(name, encoding="utf-8").read()
            yield name, re.sub(r"//[^\n]*", "", text)


def functions(text):
    """(name, parameters, requires, body) of each function."""
    for m in re.finditer(r"(?m)^( *)(?:pub(?:\(crate\))? )?(?:unsafe )?(?:extern \"C\" )?fn (\w+)(?:<[^>]*>)?\(", text):
        end = re.compile(rf"(?m)^{m.group(1)}}}").search(text, m.end())
        whole = text[m.end():end.start() if end else len(text)]
        head, _, body = whole.partition(f"\n{m.group(1)}{{\n")
        yield m.group(2), head.split(") ->")[0], re.findall(r"requires(?: \w+)? \{ (.*) \}", head), body


PLACES = collections.OrderedDict((k, []) for k in (
    "1a enums of the shape of Option or Result", "1b flags in structs", "1c refusals and kinds as numbers",
    "2 functions alike but for names and numbers", "3 loops that count an index by hand",
    "4 minimum, maximum, truth values and conversions by hand", "5a facts required by three functions or more", "5b three parameters that travel together in three functions or more",
    "6 place and length beside one another, arrays of a fixed length", "7 a switch handed to a function"))
BODIES, FACTS, TRIPLES = collections.defaultdict(list), collections.defaultdict(list), collections.defaultdict(list)

for name, text in files():
    for m in re.finditer(r"(?m)^(?:pub(?:\(crate\))? )?enum (\w+)(?:<[^>]*>)? \{\n((?:[^}]|\}[^\n])*?)^\}", text):
        variants = re.findall(r"(?m)^    (\w+)(\(.*\))?(?: = \d+)?,", m.group(2))
        valued = [v for v, a in variants if a]
        if any(v == "Refused" for v, _ in variants) or (len(variants) == 2 and len(valued) == 1):
            PLACES["1a enums of the shape of Option or Result"].append(f"{name} {m.group(1)}")
    for m in re.finditer(r"(?m)^    (?:pub )?(\w+): bool,$", text):
        if re.search(r"struct \w+ \{[^}]*$", text[:m.start()]):
            PLACES["1b flags in structs"].append(f"{name} {m.group(1)}")
    for m in re.finditer(r"\bRefused\((\d+)\)|\b(missing|short|told|refusal|code): u32\b|Refused\(u32\)|Breaks\((?:u32|\d+)\)", text):
        PLACES["1c refusals and kinds as numbers"].append(f"{name} {m.group(0)}")
    for m in re.finditer(r"while [^{]*\{", text):
        depth, at = 1, m.end()
        while depth and at < len(text):
            depth += {"{": 1, "}": -1}.get(text[at], 0)
            at += 1
        if re.search(r"\b(\w+) (?:= \1 [+-] 1|[+-]= 1);", text[m.end():at]):
            PLACES["3 loops that count an index by hand"].append(f"{name} {m.group(0)[:-2]}")
    for m in re.finditer(r"if (\w+) < (\w+) \{ (?:\1|\2) \} else \{ (?:\1|\2) \}|if \w+ \{ [01] \} else \{ [01] \}|1 => true,\s*_ => false|if \w+ < \w+ \{ 0 \} else|if x < 32768|b'0'|48 \+", text):
        PLACES["4 minimum, maximum, truth values and conversions by hand"].append(f"{name} {' '.join(m.group(0).split())}")
    for m in re.finditer(r"\b(\w*_place|place), \w*size\b|\b\w*place: (?:usize|u64),\s*(?:pub )?\w*size: (?:usize|u64)|&(?:mut )?\[\w+; \d+\]", text):
        PLACES["6 place and length beside one another, arrays of a fixed length"].append(f"{name} {' '.join(m.group(0).split())}")
    for fn, head, requires, body in functions(text):
        where = f"{name} {fn}"
        shape = re.sub(r"\b\d+\b", "0", re.sub(r"\b(?!if|else|while|loop|match|return|let|mut|as|for|in\b)[A-Za-z_]\w*(::\w+)*", "x", " ".join(body.split())))
        if len(shape) > 60:
            BODIES[shape].append(where)
        for clause in requires:
            for fact in re.split(r"\) × \(", clause.strip("()")):
                FACTS[fact].append(where)
        params = [" ".join(p.split()) for p in re.findall(r"(\w+: [^,()]+(?:\([^)]*\))?)", head)]
        for p in ("bool", "TableKind", "EntryLayout"):
            PLACES["7 a switch handed to a function"] += [f"{where} {q}" for q in params if q.endswith(": " + p)]
        for three in itertools.combinations(params, 3):
            TRIPLES[three].append(where)

PLACES["2 functions alike but for names and numbers"] = [" = ".join(w) for w in BODIES.values() if len(w) > 1]
PLACES["5a facts required by three functions or more"] = [f"{f}: {len(w)}" for f, w in FACTS.items() if len(w) > 2]
PLACES["5b three parameters that travel together in three functions or more"] = [f"{', '.join(t)}: {len(w)}" for t, w in TRIPLES.items() if len(w) > 2]
for title, places in PLACES.items():
    print(f"{len(places):4} {title}")
    if LONG:
        for place in places:
            print(f"       {place}")
