#!/usr/bin/env python3
"""Brings the repository's own definitions and lemmas to today's spelling: words in snake case, types and facts in
camel case. Run once, at the top of the repository, right after the kit's port.py. Functions and
strings of src/, inputs, outputs and must-fail edits are left alone."""

import glob
import re
import sys

WORD = r"[A-Za-z_ℤℕ][A-Za-z0-9_ℤℕ']*(?:-[A-Za-z0-9_ℤℕ']+)*"
TOKEN = re.compile(r"(?<![\w'-])" + WORD + r"(?![\w'-])")
DECLARED = re.compile(r"^\s*(?:(?:pub|abbrev|unfoldable) )*((?:" + WORD + r" )+): ")
NAMED = re.compile(r"^\s*(?:pub )?(?:record|data) (" + WORD + r")")
GOAL = re.compile(r"^\s*(?:(?:pub|abbrev) )*" + WORD + r" : goal\.")
GHOST = re.compile(r"^\s*(ghost use|requires|ensures|(?:pub )?ghost \w+)\b")

# a word of the library that has another name today stands inside some names; one name was garbled by port.py
OTHER = {
    "getD-line": "get_or_line",
    "getD-taken": "get_or_taken",
    "Group-of": "group_of",
    "keyOf": "key_of",
    "groupOf": "group_of",
    "days-carried": "days_carried",
    "std-written": "std_written",
}


def snake(name):
    if name[0].isupper():
        first, *rest = name.split("-")
        return first + "".join(r[:1].upper() + r[1:] for r in rest)
    name = name.replace("-", "_")
    return re.sub(r"(?<=[a-zℤℕ0-9])([A-Z])", lambda m: "_" + m[1].lower(), name)


def antt_files():
    return sorted(glob.glob("crates/*/specs/**/*.antt", recursive=True) + glob.glob("crates/*/proofs/**/*.antt", recursive=True))


def table():
    found = dict(OTHER)
    for path in antt_files():
        for line in open(path, encoding="utf-8"):
            line = line.split("-- ")[0]
            if GOAL.match(line) or line.lstrip().startswith(("use ", "let ", "in ")):
                continue
            names = []
            m = DECLARED.match(line)
            if m:
                names += m[1].split()
            m = NAMED.match(line)
            if m:
                names.append(m[1])
            for name in names:
                # bound variables and constructors of one word, and names of two capitals, have today's spelling
                if name not in found and snake(name) != name and "-" in name or re.fullmatch(r"[a-z]+ℤ?[A-Z]\w*", name):
                    found.setdefault(name, snake(name))
    return found


def respell(line, names):
    return TOKEN.sub(lambda m: names.get(m[0], m[0]), line)


def clashes(path, text, names):
    tokens = set(TOKEN.findall(re.sub(r"--.*", "", text)))
    taken = {}
    for t in tokens:
        new = names.get(t, t)
        taken.setdefault(new, set()).add(t)
    for new, olds in sorted(taken.items()):
        if len(olds) > 1:
            print(f"clash: {path}: {' '.join(sorted(olds))} -> {new}")


def main():
    names = table()
    if "--table" in sys.argv:
        for old, new in sorted(names.items()):
            print(old, new)
        return
    for path in antt_files():
        text = open(path, encoding="utf-8").read()
        clashes(path, text, names)
        lines = []
        for line in text.split("\n"):
            code, dash, said = line.partition("--")
            lines.append(respell(code, names) + dash + said)
        if "--clashes" not in sys.argv:
            open(path, "w", encoding="utf-8").write("\n".join(lines))
    for path in sorted(glob.glob("crates/*/src/**/*.rt", recursive=True)):
        lines = open(path, encoding="utf-8").read().split("\n")
        clashes(path, "\n".join(l for l in lines if GHOST.match(l)), names)
        lines = [respell(l, names) if GHOST.match(l) else l for l in lines]
        if "--clashes" not in sys.argv:
            open(path, "w", encoding="utf-8").write("\n".join(lines))
    for path in sorted(glob.glob("docs/*.md") + ["README.md"]):
        text = open(path, encoding="utf-8").read()
        if "--clashes" not in sys.argv:
            open(path, "w", encoding="utf-8").write(re.sub(r"`[^`\n]*`", lambda m: respell(m[0], names), text))


main()
