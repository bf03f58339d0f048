#!/usr/bin/env python3
"""Spells the repository's own definitions and lemmas as the language's library spells its names.

usage: python3 tools/respell_names.py [--list]        at the top of the repository

A name with a dash that specs/ or proofs/ declare, bind or give an import is written in upper camel case if it begins with a capital
(a type or a fact), and in snake case otherwise: In-range -> InRange, move-of -> move_of. A name that a `ghost use` gives in mixed
case is written in snake case: highestOf -> highest_of. Names that the language makes of the code (goals, and the steps and fields
of a goal's context) are left, as are comments, strings, functions of src/ and must-fail edits. A second run changes nothing.
With --list nothing is written: each name is printed with its new spelling.
"""

import collections
import glob
import re
import sys

WORD = r"[^\s(){}\[\],;.«»@\"\\|]+"
TOKEN = re.compile(r"«[^»]*»|\"(?:[^\"\\]|\\.)*\"|" + WORD)
# Two variables of one clause, and a lemma named after a word of the older library.
OTHERS = {"e-r": "e_r", "e-s": "e_s", "getD-two": "get_or_two", "getD_two": "get_or_two"}

# Where the code has a function of the plain name, a definition comes in under another one.
BESIDE_A_FUNCTION = {
    "drillCalls": "calls_of_drill",
    "boundCalls": "calls_of_bound_drill",
    "meetingCalls": "calls_of_meeting",
}
ALIAS = re.compile(r"\bas ([a-z][a-z0-9]*[A-Z]\w*)")


def paths(ending):
    return [p for p in sorted(glob.glob("crates/**/*" + ending, recursive=True)) if "/out/" not in p]


def code_of(line, mark):
    """The line without its comment."""
    at = re.search(r"(^|\s)" + re.escape(mark) + r"(\s|$)", line)
    return (line, "") if at is None else (line[: at.start()], line[at.start() :])


def made_names(texts):
    """The names of goals, as proof files cite them."""
    made = set()
    for text in texts:
        made.update(re.findall(r"\b(?:goal|given)\.(" + WORD + ")", text))
        for names in re.findall(r"\.(?:Goals|Given)\.\{([^}]*)\}", text):
            made.update(name.strip().split(" as ")[0] for name in names.split(","))
    return made


def declared_names(texts):
    found = set()
    for text in texts:
        for line in text.split("\n"):
            code, _ = code_of(line, "--")
            found.update(re.findall(r"^(?:(?:abbrev|unfoldable|pub|record|data|ruleset) )*(" + WORD + r")\s*[:({]", code))
            found.update(re.findall(r"^\s+(?:(?:abbrev|unfoldable|pub|record|data) )+(" + WORD + r")\s*[:({]", code))
            found.update(re.findall(r"^\s+(" + WORD + r") : ", code))
            found.update(re.findall(r"^\s*\| (" + WORD + r") : ", code))
            found.update(re.findall(r"\blet (" + WORD + r") [:=]", code))
            found.update(re.findall(r"^(?:ghost )?use .*?\bas (" + WORD + ")", code))
            for names in re.findall(r"[({]((?:" + WORD + r" )+): ", code):
                found.update(names.split())
            for fields in re.findall(r"record \{([^}]*)\}", code):
                found.update(re.findall(r"(?:^|;)\s*(" + WORD + r") :", fields))
    return found


def spelled(name):
    if not re.search(r"[A-Za-z]", name):
        return name
    if name[0].isupper():
        parts = re.split(r"[-_]", name)
        return "".join(p[:1].upper() + p[1:] for p in parts)
    return name.replace("-", "_")


def snake(name):
    return re.sub(r"(?<=[a-z0-9])([A-Z])", lambda m: "_" + m.group(1).lower(), name)


def renamings():
    proofs = [open(p, encoding="utf-8").read() for p in paths(".antt")]
    sources = [open(p, encoding="utf-8").read() for p in paths(".rt")]
    made = made_names(proofs)
    new = {}
    for name in declared_names(proofs):
        if re.search(r"\w-\w", name) and name not in made:
            new[name] = spelled(name)
    for text in sources:
        for line in text.split("\n"):
            if line.startswith("ghost use"):
                for name in ALIAS.findall(line):
                    new[name] = BESIDE_A_FUNCTION.get(name, snake(name))
                for name in re.findall(r"\bas «?(\w+-[\w-]+)", line):
                    new[name] = spelled(name)
    new.update(OTHERS)
    return new


def main():
    new = renamings()
    words = collections.Counter()
    for p in paths(".antt") + paths(".rt"):
        mark = "--" if p.endswith(".antt") else "//"
        for line in open(p, encoding="utf-8"):
            words.update(w.strip("«»") for w in TOKEN.findall(code_of(line, mark)[0]))
    if "--list" in sys.argv:
        for old in sorted(new):
            print(old, new[old])
        back = collections.defaultdict(list)
        for old, to in new.items():
            back[to].append(old)
        for to, olds in sorted(back.items()):
            if len(olds) > 1 or words[to]:
                print("falls together:", to, olds, words[to])
        return
    for p in paths(".antt") + paths(".rt"):
        mark = "--" if p.endswith(".antt") else "//"
        text = open(p, encoding="utf-8").read()
        lines = []
        for line in text.split("\n"):
            code, comment = code_of(line, mark)

            def turn(match):
                word = match.group(0)
                bare = word.strip("«»")
                if bare not in new:
                    return word
                return new[bare]

            lines.append(TOKEN.sub(turn, code) + comment)
        turned = "\n".join(lines)
        if turned != text:
            open(p, "w", encoding="utf-8").write(turned)
            print(p)


if __name__ == "__main__":
    main()
