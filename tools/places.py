#!/usr/bin/env python3
"""Lists the places in crates/*/src that read like an older language, by kind, and counts them.

Run it at the top of the repository: `tools/places.py` prints a count for each kind, `tools/places.py --all` each place too.
It reads text and knows no types, so a line that it prints is a place to look at, not a fault.
"""
import glob
import re
import sys
from collections import defaultdict

WORDS = {"fn", "let", "mut", "if", "else", "for", "in", "while", "return", "match", "self", "true", "false", "as", "loop", "pub", "usize",
         "u32", "i32", "u8", "bool", "Some", "None", "Ok", "Err"}
FUNCTION = re.compile(r"^( *)(?:pub(?:\([a-z]+\))? )?fn (\w+)", re.M)


def functions(text):
    """Each function as (line, name, head, clauses, body)."""
    for m in FUNCTION.finditer(text):
        indent = m.group(1)
        end = re.compile(r"^%s\}|^%s.*\{ \}$|^%s\{\}$" % (indent, indent, indent), re.M).search(text, m.end())
        stop = re.compile(r"\{$|;$", re.M).search(text, m.end())
        if not end or not stop or text[stop.start()] == ";":
            continue
        whole = text[m.start():end.end()]
        opening = re.search(r"^%s\{" % indent, whole, re.M)
        if opening:
            before, body = whole[:opening.start()], whole[opening.start():]
        else:
            first = whole.index("{")
            before, body = whole[:first], whole[first:]
        clause = re.search(r"^\s+(requires|ensures)", before, re.M)
        head = before[:clause.start()] if clause else before
        clauses = re.findall(r"^\s+(?:requires|ensures)(?: \w+)? \{ (.*) \}\s*;?$", before, re.M)
        yield text.count("\n", 0, m.start()) + 1, m.group(2), head, clauses, body


def shape(body):
    """The tokens of a body with names, types and numbers put out."""
    out = []
    for word in re.findall(r"\w+|[^\w\s]", re.sub(r"//.*", "", body)):
        if re.fullmatch(r"0x\w+|\d\w*", word):
            out.append("0")
        elif re.fullmatch(r"[A-Z]\w*", word) and word not in WORDS:
            out.append("T")
        else:
            out.append(word)
    return tuple(out)


LINES = [
    ("1 an Option or a Result taken apart and put together", r"^\s*(None => None|Some\((\w+)\) => Some\(\2\)|Some\((\w+)\) => \3|Ok\((\w+)\) => Ok\(\4\)|Ok\(_\) => Ok|Err\((\w+)\) => Err|None => \w+,|let .* else \{$(?=\n\s*return None;\n)|else \{ None \}|else \{$(?=\n\s*None\n))"),
    ("1 a flag beside a value: a field", r"^\s*(pub )?\w+: bool,"),
    ("1 a number for a kind", r"kind(_of\(.*\))?( as usize)? [=!]= (\d|3 \+)"),
    ("1 a number for a refusal", r"=> \d\d,$"),
    ("3 a loop that walks by hand", r"\bwhile\b|\bloop \{"),
    ("3 a number counted up in a loop", r"^\s+\w+ \+= 1;$|^\s+\w+ = \w+\.saturating_add\(1\);$|^\s+first \+= 32"),
    ("4 a conversion, an equality or a printing by hand", r"fn (eq|cmp|clone|nothing|from_\w+|to_\w+|as_\w+|numbers_line|push_number|word_of)\b|fn show\w*\(&?self"),
    ("6 a buffer or a list with its length or its top beside it", r"^\s*(pub(\(crate\))? )?(len|count): (usize|u32),"),
    ("6 a sorted list searched by hand", r"\blet mid\b"),
    ("7 a table of functions, or a value that is a function", r"\bdyn\b|: fn\(|\[fn\("),
    ("7 a switch on which step to take", r"match outcome|match step"),
]


def main():
    found = defaultdict(list)
    shapes = defaultdict(list)
    clauses = defaultdict(set)
    taken = {}
    for path in sorted(glob.glob("crates/*/src/**/*.rt", recursive=True)):
        text = open(path).read()
        lines = text.split("\n")
        for kind, pattern in LINES:
            for m in re.finditer(pattern, text, re.M):
                at = text.count("\n", 0, m.start() + len(m.group(0)) - len(m.group(0).lstrip("\n"))) + 1
                place = f"{path}:{at}: {lines[at - 1].strip()}"
                if not lines[at - 1].strip().startswith("//") and place not in found[kind]:
                    found[kind].append(place)
        for m in re.finditer(r"^( *)for (\w+) in .*\.\..*\{\n((?:.*\n)*?)\1\}", text, re.M):
            if re.search(r"\[[^\[\]]*\b%s\b[^\[\]]*\]" % m.group(2), m.group(3)):
                at = text.count("\n", 0, m.start()) + 1
                found["3 a loop over places"].append(f"{path}:{at}: {lines[at - 1].strip()}")
        for at, name, head, says, body in functions(text):
            where = f"{path}:{at}: {name}"
            if re.search(r"&mut self|sheet: &mut|&mut \[", head) and re.search(r"-> bool", head) and name != "in_tenths":
                found["1 a flag for whether it was done"].append(where)
            tokens = shape(body)
            if len(tokens) > 12:
                shapes[tokens].append(where)
            for clause in says:
                for fact in re.split(r" × ", clause):
                    clauses[fact.strip("() ") if fact.count("(") != fact.count(")") or fact.startswith("(") else fact].add(where)
            list_of = head[head.index("("):].split("->")[0]
            taken[where] = frozenset(re.findall(r"\w+: (?:&mut |&)?[\w<>\[\]]+", list_of))
    for tokens, places in shapes.items():
        if len(places) > 1:
            found["2 functions of one shape"] += places
    for clause, places in clauses.items():
        if len(places) > 2:
            found["5 a clause that stands three times"].append(f"{len(places)} times: {clause}")
    groups = {a & b for a in taken.values() for b in taken.values() if len(a & b) > 1}
    for group in sorted(groups, key=sorted):
        times = sum(group <= params for params in taken.values())
        if times > 2:
            found["5 parameters that travel together three times"].append(f"{times} times: {', '.join(sorted(group))}")
    for kind in sorted(found):
        print(f"{len(found[kind]):4} {kind}")
        if "--all" in sys.argv:
            for place in found[kind]:
                print(f"       {place}")


main()
