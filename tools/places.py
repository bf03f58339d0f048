#!/usr/bin/env python3
"""Prints, for each point of docs/DESIGN-PASS.md, the lines of src/ that may be places of it, and how many.

    python3 tools/places.py [FOLDER]        FOLDER is a checkout; this one if left out
    python3 tools/places.py -n [FOLDER]     the counts alone

A line that is printed is a place to look at, not a verdict: the page says which are places and what became of them.
"""
import collections
import pathlib
import re
import sys

args = sys.argv[1:]
only_counts = "-n" in args
args = [a for a in args if a != "-n"]
root = pathlib.Path(args[0] if args else pathlib.Path(__file__).resolve().parent.parent)
FILES = sorted(root.glob("crates/*/src/*.rt"))


def lines():
    for path in FILES:
        for number, text in enumerate(path.read_text().splitlines(), 1):
            yield path.relative_to(root), number, text


def code(text):
    return not text.lstrip().startswith("//")


def matching(*patterns):
    found = re.compile("|".join(patterns))
    return [(f"{path}:{number}", text.strip()) for path, number, text in lines() if code(text) and found.search(text)]


def functions():
    """Each function with its file, name, parameters and clauses."""
    head = re.compile(r"^\s*(?:pub(?:\(crate\))? )?(?:const |final )?fn (\w+)", re.M)
    for path in FILES:
        text = path.read_text()
        for match in head.finditer(text):
            rest = text[match.end():]
            body = re.search(r"^\s*\{$|\{$", rest, re.M)
            signature = rest[: body.start()] if body else rest[:400]
            yield path.relative_to(root), match.group(1), signature


def parameter_groups():
    """Two parameters, by name and type, that three or more functions have."""
    having = collections.defaultdict(set)
    for path, name, signature in functions():
        listed = re.match(r"(?:<[^(]*>)?\((.*?)\)\s*(?:->|requires|ensures|$)", signature, re.S)
        if not listed:
            continue
        names = [p for p in re.findall(r"(\w+): (&?(?:mut )?[\w<>'\[\]; ]+)", listed.group(1))]
        names = [n for n in names if n[0] not in ("heap",)]
        for i in range(len(names)):
            for j in range(i + 1, len(names)):
                having[(names[i], names[j])].add(f"{path}:{name}")
    groups = [(pair, where) for pair, where in having.items() if len(where) >= 3]
    return [("  ".join(f"{n}: {t.strip()}" for n, t in pair), ", ".join(sorted(where))) for pair, where in sorted(groups)]


def repeated_facts():
    """A fact of a `requires` that three or more functions of a crate ask."""
    having = collections.defaultdict(set)
    for path, name, signature in functions():
        for clause in re.findall(r"requires (?:\w+ )?\{(.*)\}", signature):
            for fact in re.split(r"[()] × [()]|\) × \(|×", clause):
                fact = re.sub(r"\b(self|board)\.(old|now|entry)\b", r"\1", fact.strip(" ()"))
                having[(path.parts[1], fact)].add(f"{path}:{name}")
    return [(f"{crate}: {fact}", ", ".join(sorted(where))) for (crate, fact), where in sorted(having.items()) if len(where) >= 3]


def named_twice():
    """Functions and methods of one name in two or more crates, those of a trait with them."""
    having = collections.defaultdict(set)
    for path, name, _ in functions():
        having[name].add(str(path))
    return [(name, ", ".join(sorted(where))) for name, where in sorted(having.items()) if len({w.split("/")[1] for w in where}) >= 2]


POINTS = [
    ("1 an error handed on by a match", matching(r"Err\((\w+)\) => (return )?Err\(\1\)")),
    ("1 a number for a kind, a refusal or a cause", matching(r"Refused\(u8\)", r"fn \w+\(.*-> u8 \{", r"\b(kind|cause|due): u8\b", r"\(u8, usize\)", r"\((\w+: )?&?self\) -> u8$")),
    ("1 a flag beside a value", matching(r"\(u\d+, bool\)")),
    ("1 enums of the repository", matching(r"^\s*(pub(\(crate\))? )?enum ")),
    ("2 one name in two crates", named_twice()),
    ("3 a loop over a range of numbers", matching(r"\bfor .* in [^|]*\.\.")),
    ("3 a while loop", matching(r"\bwhile ")),
    ("4 a match that turns a value of an enum into another", matching(r"^\s*match (\*?self|\w+|self\.\w+|answer\.verdict)( as \w+)? \{")),
    ("4 an own conversion or comparison by name", matching(r"fn (number|numbered|word|shown|letter|same|is_same|same_bytes|is_rule|said|agrees)\b")),
    ("5 a requires of facts joined by ×", matching(r"requires .*×")),
    ("5 a fact that three functions of a crate require", repeated_facts()),
    ("5 two parameters that three functions have", parameter_groups()),
    ("6 a field that is an array or a vector", matching(r"^\s*(pub(\(crate\))? )?\w+: (\[[^&]*; *\w+\]|Vec<.*>),")),
    ("6 an element by its place, or a default", matching(r"\.get\(.*\)\.copied\(\)", r"^\s*\.get\(", r"get_mut\(")),
    ("7 an enum that is matched", matching(r"^\s*match .*\{$")),
]

for title, found in POINTS:
    print(f"{len(found):4}  {title}")
    if not only_counts:
        for where, text in found:
            print(f"        {where}  {text}")
answers = list(root.glob("crates/*/proofs/**/*.antt"))
print(f"{len(answers):4}  8 files of proofs, {sum(len(a.read_text().splitlines()) for a in answers)} lines")
