#!/usr/bin/env python3
"""Run once at the top, after the kit's port.py: brings the definitions and lemmas of specs/ and proofs/ to snake case.

A word of camel case that begins with a small letter becomes snake case, also as a part of a name: toldPayload is told_payload, beAt-one is be_at-one.
In the name of a lemma a dash stays between the names of definitions, and else becomes `_`: row-at is row_at.
Functions of src/, generated names, exported C names, strings, inputs and outputs keep theirs. `snake_names.py --list` writes nothing and prints what would be renamed,
and names that would fall together."""
import glob
import os
import re
import sys

NAME = r"[^\s(){}.;,@\"«»\[\]\\]+"
CAMEL = re.compile(r"(?<![A-Za-z0-9_'])[a-z][a-z0-9]*(?:[A-Z][A-Za-z0-9]*)+(?![A-Za-z0-9_])")
SIGNATURE = re.compile(r"^\s*(?:abbrev |unfoldable )?(?:pub )?(?:abbrev |unfoldable )?(" + NAME + r") :(?= |$)")
TOKEN = re.compile(r"--[^\n]*|\"(?:[^\"\\]|\\.)*\"|" + NAME)
# Names that would fall together with others.
OTHER = {
    "countWidth": "count_width_of",
    "coveredSum": "covered_sum_of",
    "cutRows": "rows_cut",
    "defaultLength": "default_length_of",
    "digitsEnd": "end_of_digits",
    "entryCount": "entry_count_of",
    "frontOf": "front_fields",
    "groupIndex": "group_index_of",
    "groupingType": "grouping_type_of",
    "headIn": "head_in_numbers",
    "indexWidth": "index_width_of",
    "isLeading": "is_leading_by",
    "lengthWidth": "length_width_of",
    "listingNeeds": "needs_of_listing",
    "noSamples": "no_samples_of",
    "parsedAs": "parsed_table",
    "canBeLarge": "can_be_large_by",
    "patternCount": "pattern_count_of",
    "rollCount": "roll_count_of",
    "rowWords": "words_of_rows",
    "sampleCount": "sample_count_of",
    "startsBy": "starts_by_number",
    "tableRows": "rows_of_table",
    "tableStructs": "structs_of_table",
    "tableTaken": "taken_table",
    "tooMany": "too_many_records",
    "head-of": "head_of_lem",
    "headOf": "head_of",
}
# A lemma that the kit's script gave the name of a definition.
IN_FILE = {"crates/group_sgpd/proofs/lookup/entry_place/Proof.antt": {"head_of": "head_of_lem"}}
# Plain words of lemmas' names that are not the names of definitions there.
GENERATED = re.compile(r"^(returns|loop|enum|cast|add|sub|mul|shl|shr|rem|div|element|slice|shared|same-length|invariant|decreases|μ)-|-requires(-\d+)?$|-spec$|^[A-Z]")


def snake(word):
    word = re.sub(r"([a-z0-9])([A-Z])", r"\1_\2", word)
    return word.lower()


def read(path):
    with open(path, encoding="utf-8") as file:
        return file.read()


def definitions(path):
    return [m.group(1) for line in read(path).split("\n") for m in [SIGNATURE.match(line)] if m]


def of_function(path):
    """A proof of a function: a file in a folder below proofs/."""
    return "/proofs/" in path and "/" in path.split("/proofs/", 1)[1]


def main():
    antt = sorted(glob.glob("crates/*/specs/**/*.antt", recursive=True) + glob.glob("crates/*/proofs/**/*.antt", recursive=True))
    antt = [p for p in antt if "/out/" not in p]
    names = {}
    for path in antt:
        for name in definitions(path):
            names.setdefault(name, set()).add(path)
    lemma_files = [p for p in antt if not of_function(p)]
    lemmas = {name for path in lemma_files for name in definitions(path)}
    # the names of definitions, also of the library, of one word or in snake case
    imported = set()
    for path in antt:
        for line in re.findall(r"(?m)^use [^\n]*\{([^\n]*)\}", read(path)):
            imported |= {re.sub(r".* as ", "", it).strip() for it in line.split(",")}
    words = {it for it in set(names) | imported if "-" not in it and len(it) > 1}
    words |= {snake(it) for it in words}
    own = set(names)
    renamed = {}
    for name in sorted(lemmas):
        if "-" not in name or GENERATED.search(name) or name in imported - own:
            continue
        parts = [snake(it) if CAMEL.fullmatch(it) else it for it in name.split("-")]
        out = parts[0]
        run = parts[0]
        for part in parts[1:]:
            joined = run in words and part in words and not part.isdigit()
            out += ("-" if joined else "_") + part
            run = part if joined else run + "_" + part
        if out != name:
            renamed[name] = out
    tokens = {}
    for path in antt:
        for token in set(TOKEN.findall(read(path))):
            tokens.setdefault(token, set()).add(path)

    def turned(token):
        if token in OTHER:
            return OTHER[token]
        if token in renamed:
            return renamed[token]
        return CAMEL.sub(lambda m: OTHER.get(m.group(0), snake(m.group(0))), token)

    changes = {token: turned(token) for token in tokens if not token.startswith(("--", '"')) and turned(token) != token}
    if "--list" in sys.argv:
        back = {}
        for old, new in changes.items():
            back.setdefault(new, set()).add(old)
        for new, olds in sorted(back.items()):
            files = set().union(*(tokens[it] for it in olds))
            if len(olds) > 1:
                print("together:", new, sorted(olds))
            if new in tokens and files & tokens[new]:
                print("taken:", sorted(olds), "->", new, sorted(files & tokens[new])[:3])
        for path in glob.glob("crates/*/src/**/*.rt", recursive=True):
            text = read(path)
            inside = set(re.findall(r"[A-Za-z_][A-Za-z0-9_]*", text))
            for old, new in changes.items():
                if re.search(r"(?<![\w'])" + re.escape(old) + r"(?![\w'-])", text) and new in inside:
                    print("source:", path, old, "->", new)
        print(len(changes), "names")
        if "--all" in sys.argv:
            for old, new in sorted(changes.items()):
                print(old, new)
        return
    # Comments and documents: names in backticks, and in comments of the sources.
    for path in antt:
        text = read(path)
        here = IN_FILE.get(path, {})
        text = TOKEN.sub(lambda m: here.get(m.group(0), m.group(0)), text) if here else text
        new = TOKEN.sub(lambda m: comment(m.group(0), changes) if m.group(0).startswith("--") else m.group(0) if m.group(0).startswith('"') else changes.get(m.group(0), m.group(0)), text)
        write(path, None, new)
    for path in sorted(glob.glob("crates/*/src/**/*.rt", recursive=True)) + sorted(glob.glob("crates/*/must-fail/*.edit")):
        text = read(path)
        write(path, text, in_source(text, changes))
    for path in sorted(glob.glob("docs/*.md")) + ["README.md"] + sorted(glob.glob(".ci/*")):
        text = read(path)
        write(path, text, re.sub(r"`[^`\n]+`", lambda m: in_source(m.group(0), changes), text))


def comment(text, changes):
    return re.sub(r"`[^`\n]+`", lambda m: in_source(m.group(0), changes), text)


def in_source(text, changes):
    def turn(m):
        token = m.group(0)
        return token if token.startswith('"') else changes.get(token, token)

    return re.sub(r"\"(?:[^\"\\\n]|\\.)*\"|" + r"[^\s(){}.;,@\"«»\[\]\\`:]+", turn, text)


def write(path, old, new):
    if old != new:
        with open(path, "w", encoding="utf-8") as file:
            file.write(new)


main()
