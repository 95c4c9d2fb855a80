#!/usr/bin/env python3
"""Brings the repository's own names in specs, proofs, clauses and must-fail edits to snake case.

Run once, at the top, after the kit's port.py:

    python3 tools/snake_names.py

A name that begins small and has a capital inside, as cutList or numberAt-back, gets underscores: cut_list, number_at-back.
In the name of a lemma (the files of proofs/ themselves, not those of a function's folder) a dash stays only where it joins two
words that are themselves names, of this repository or of the library, as in length-written; else it becomes an underscore.
Names that would fall together are printed, and then nothing is written.
"""
import collections
import glob
import os
import re
import sys

NAME = re.compile(r"(?<![\w'₀-₉◌·-])[A-Za-zΑ-Ωα-ω][\w'₀-₉-]*")
CAMEL = re.compile(r"(?:^|[-_])[a-z][a-z0-9]*[A-Z]")
DECLARED = re.compile(
    r"^\s*(?:abbrev pub|unfoldable pub|pub record|pub data|pub ruleset|pub|abbrev|unfoldable|record|data|ruleset)?\s*"
    r"([A-Za-z][\w'₀-₉-]*)\s*(?:\(.*|\{.*)?:(?: |$)"
)
DEFINED = re.compile(
    r"^(?:abbrev pub|unfoldable pub|pub record|pub data|pub ruleset|pub|abbrev|unfoldable|record|data|ruleset)?\s*"
    r"([A-Za-z][\w'₀-₉-]*)\s*(?:\(.*|\{.*)?:"
)
# words of the library that stand in names of lemmas
LIBRARY = set("length take drop append get_or set add mul sub div mod pow suc clmul rem xor lt le".split())

BY_HAND = {"inRange": "in_range", "lowPart": "low_part", "old-end": "old_last"}
# names that the library has too, or that Rattle makes
KEEP = set(
    "all-cuts and-false at-end first-is first-none fresh-rows length-numbers next-rises no-mark offset-written or-true rest-is step-at "
    "total-append total-set first-mark in-range next-hop place-low read-offset shape-fits taken-low well-formed window-fits".split()
)


def files(*patterns):
    found = []
    for pattern in patterns:
        found += glob.glob(pattern, recursive=True)
    return sorted(f for f in found if "/out/" not in f)


def read(path):
    with open(path, encoding="utf-8") as f:
        return f.read()


def definitions(paths, pattern=DEFINED):
    names = set()
    for path in paths:
        for line in read(path).split("\n"):
            match = pattern.match(line)
            if match:
                names.add(match.group(1))
    return names


def snake(name):
    parts = name.split("-")
    turned = [re.sub(r"(?<=[a-z0-9])[A-Z]", lambda m: "_" + m.group(0).lower(), p) if re.match("[a-z]", p) else p for p in parts]
    return "-".join(turned)


def joined(name, words):
    parts = name.split("-")
    text = parts[0]
    for before, after in zip(parts, parts[1:]):
        text += ("-" if before in words and after in words else "_") + after
    return text


def main():
    specs = files("crates/*/specs/**/*.antt")
    lemmas = files("crates/*/proofs/*.antt")
    proofs = files("crates/*/proofs/**/*.antt")
    sources = files("crates/*/src/**/*.rt")
    edits = files("crates/*/must-fail/*.edit")
    every = collections.Counter()
    for path in specs + proofs + sources:
        every.update(NAME.findall(read(path)))

    # names of antt: not one behind a dot in a path, which may be a Rust function's
    in_antt = set()
    for path in specs + proofs:
        for line in read(path).split("\n"):
            if not line.startswith("use ") and not line.startswith("--"):
                in_antt.update(NAME.findall(line))
    words = {snake(n) for n in definitions(specs) if CAMEL.search(n)} | LIBRARY
    table = {n: snake(n) for n in every if CAMEL.search(n)}
    for name in definitions(specs + lemmas, DECLARED) - KEEP:
        if "-" in name:
            turned = joined(snake(name), words)
            if turned != name and turned not in every:
                table[name] = turned

    # A lemma that would have a definition's name gets `_lem`; any other pair of names that fall together stops the script.
    defined = {snake(n) for n in definitions(specs)}
    defined |= {turned for name, turned in table.items() if "-" not in name}
    for name in [n for n in table if "-" in n]:
        if table[name] in defined:
            table[name] += "_lem"
    for name in definitions(lemmas) - definitions(specs):
        if "-" not in name and name not in table and name in defined:
            table[name] = name + "_lem"
    table.update(BY_HAND)
    seen = collections.Counter(table.values())
    bad = [(n, t) for n, t in sorted(table.items()) if n not in BY_HAND and (seen[t] > 1 or (t in in_antt and t not in table))]
    if bad:
        for name, turned in bad:
            print("falls together:", name, turned)
        sys.exit(1)

    def turn(match):
        name = match.group(0)
        if name not in table:
            return name
        # behind a dot a name of Rust's spelling is a function's
        if "-" not in name and not CAMEL.search(name) and match.string[: match.start()].endswith("."):
            return name
        return table[name]

    def turn_camel(match):
        name = match.group(0)
        return table[name] if name in table and CAMEL.search(name) else name

    # in a comment, only names with a capital inside
    def turn_line(line):
        code, dashes, said = line.partition("-- ")
        return NAME.sub(turn, code) + dashes + NAME.sub(turn_camel, said)

    def turn_edit(line):
        return turn_line(line) if re.match("(old|new):", line) else line

    changed = 0
    for path in specs + proofs + sources + edits:
        text = read(path)
        lines = text.split("\n")
        if path.endswith(".antt"):
            new = "\n".join(map(turn_line, lines))
        elif path.endswith(".rt"):
            new = NAME.sub(turn_camel, text)
        else:
            new = "\n".join(map(turn_edit, lines))
        if new != text:
            with open(path, "w", encoding="utf-8") as f:
                f.write(new)
            changed += 1
    if "--table" in sys.argv:
        for name, turned in sorted(table.items()):
            print(name, turned)
    print(len(table), "names in", changed, "files")


if __name__ == "__main__":
    main()
