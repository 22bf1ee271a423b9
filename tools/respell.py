#!/usr/bin/env python3
"""Brings this repository's own definitions and lemmas to the library's spelling, once, after the toolchain's script for older repositories.

Words are in snake case, types in camel case, a prime is an apostrophe: bits-of-zero becomes bits_of_zero, Two-way becomes TwoWay.
Run it at the top of the repository. Only names that the repository's .antt files define are turned, where they stand in .antt, .rt
and .edit files: a name that the prover makes (a goal, a step, an arm) keeps its dashes, and so do strings and comments.
With --list it only prints the names, old and new, and those that would fall together.
"""
import os
import re
import sys

# New names for those that would fall together with a name that is there already.
OTHERWISE = {
    "Degree-rule": "IsDegreeNumber",
    "First-group": "FirstGroupStands",
    "Not-begun": "IsNotBegun",
    "Pair-rule": "IsPairNumber",
    "Read-back": "ReadsBack",
    "all-marks": "marks_of_both",
}
# A lemma that would have a function's name gets _lem, as the library's do; a definition may share it.
LEMMAS = """
    accepted-when-good calls-are-exact computed-is-the-same formulas-stand is-measured law-over-runs lists-rise making-is-exact
    offers-are-taken parts-are-plexes rules-are-lawful sighted-both-ways stands-in-measured stands-in-pairs test-finds-plexes
    word-of-pair words-combine words-hold-sets worked-examples
""".split()
# Steps that the prover made, which have the name of a field.
MADE = {("crates/search/proofs/searches/making/first_state/Answers.antt", "count-is")}
WORDS = r"(?:(?:abbrev|unfoldable|pub|record|data|ruleset)\s+)*"
DEFINED = re.compile(r"^(\s*)(" + WORDS + r")([^\s:(){}\[\]\"]+(?:\s+[^\s:(){}\[\]\"]+)*?)\s*(?:[({].*)?:(?=\s|$)")
# A string or a comment, a word, and what stands between words.
TOKEN = re.compile(r"(--[ -][^\n]*|//[^\n]*|\"(?:[^\"\\]|\\.)*\")|([^\s(){}\[\],.;«»\"]+)|(.)", re.S)


def files(endings):
    for folder, dirs, names in os.walk("crates"):
        dirs[:] = sorted(d for d in dirs if d != "out")
        for name in sorted(names):
            if name.endswith(endings):
                yield os.path.join(folder, name)


def read(path):
    with open(path, encoding="utf-8") as f:
        return f.read()


def respelt(name):
    if name in OTHERWISE:
        return OTHERWISE[name]
    if name in LEMMAS:
        return name.replace("-", "_") + "_lem"
    if re.match(r"(invariant|decreases)-", name):
        return name
    name = name.replace("′", "'")
    if "-" not in name or "◌" in name:
        return name
    if name[0].isupper():
        return "".join(w[0].upper() + w[1:] for w in name.split("-"))
    return name.replace("-", "_")


def defined():
    """The names that the repository defines, with whether a name is that of a record's field; and the names that the prover makes."""
    own, fields, made = {}, set(), set()
    for path in files((".antt",)):
        for line in read(path).splitlines():
            if line.lstrip().startswith(("--", "|")):
                continue
            imported = re.match(r"use (\S+)\.\{(.*)\}", line)
            if imported:
                if re.search(r"\.(Goals|Given|Needs|TheVariants|specs\.declared\..*)$", imported[1]):
                    made.update(n.strip().split(" as ")[0] for n in imported[2].split(","))
                continue
            m = DEFINED.match(line)
            if not m:
                continue
            if re.search(r":\s*goal\.", line) or re.search(r"goal\.", line.split(":", 1)[1]) and m[1] == "":
                made.update(m[3].split())
                continue
            for name in m[3].split():
                own.setdefault(name, path)
                if m[1] and "pub" in m[2]:
                    fields.add(name)
    return own, fields, made


def turned(path, text, own, fields):
    modules = set(re.findall(r"(?m)^use Rattle\.\w+\.(?:specs|proofs)\.\S*(?<!Goals)(?<!Given) as (\S+)", text))
    out, before, after_dot = [], "", False
    for string, word, other in TOKEN.findall(text):
        if word:
            bare = not after_dot or before in modules
            if (word in fields or word in own and bare) and (path, word) not in MADE:
                out.append(respelt(word))
            else:
                out.append(word)
            before = word
        else:
            out.append(string or other)
        after_dot = other == "."
    return "".join(out)


def main():
    own, fields, made = defined()
    names = {n for n in own if respelt(n) != n}
    if "--list" in sys.argv:
        there = set()
        for path in files((".antt", ".rt")):
            there.update(w for _, w, _ in TOKEN.findall(read(path)) if w)
        for n in sorted(names):
            new = respelt(n)
            marks = [m for m, bad in (("FALLS TOGETHER", new in there), ("MADE", n in made), ("TWICE", sum(respelt(o) == new for o in names) > 1)) if bad]
            print(n, new, own[n], *marks)
        return
    for path in files((".antt", ".rt", ".edit")):
        text = read(path)
        new = turned(path, text, own, fields)
        if new != text:
            with open(path, "w", encoding="utf-8") as f:
                f.write(new)


main()
