#!/usr/bin/env python3
"""Respells the repository's own definitions and lemmas, once, behind the kit's port.py.

usage: python3 tools/respell.py        at the top of the repository

A word or lemma goes into snake case (rulesOf and read-row are rules_of and read_row), a statement or a
type into camel case (Some-empty is SomeEmpty). A lemma that would then have the name of a definition
or of a function gets _lem. Left as they are: functions and names of src/, strings, comments but for
names in backticks, answers to goals (their names are made by the check), inputs and outputs.
"""
import collections
import os
import re

ANSWERS = ("/Answers.antt", "/Invariants.antt", "/Choices.antt")
SIGNATURE = re.compile(r"^ *(?:(?:pub|abbrev|unfoldable) )*([^\s:(){}.,;]+) :(?: |$)")
DECLARED = re.compile(r"^\s*(?:pub )?(?:record|data) ([^\s:(){}.,;]+)")
FUNCTION = re.compile(r"\bfn (\w+)")
TOKEN = re.compile(r'[^\s(){}\[\],;".]+|[(){}\[\],;".]')


def files(ending):
    for folder, below, names in os.walk("crates"):
        below[:] = sorted(d for d in below if d != "out")
        for name in sorted(names):
            if name.endswith(ending):
                yield os.path.join(folder, name)


def read(path):
    with open(path, encoding="utf-8") as f:
        return f.read()


def spelled(name):
    if name[0].isupper():
        return "".join(part[0].upper() + part[1:] for part in name.split("-")) if "-" in name else name
    snake = re.sub(r"([a-z0-9])([A-Z])", lambda m: m.group(1) + "_" + m.group(2).lower(), name)
    return snake.replace("-", "_").replace("′", "'")


def names():
    """The new name of each definition and lemma that changes."""
    where = collections.defaultdict(set)
    for path in files(".antt"):
        if "/proofs/" in path and path.endswith(ANSWERS):
            continue
        for line in read(path).split("\n"):
            found = DECLARED.match(line) or SIGNATURE.match(line)
            if found and found.group(1) != "--":
                where[found.group(1)].add(path)
    functions = {m.group(1) for path in files(".rt") for m in FUNCTION.finditer(read(path))}
    words = {spelled(name) for name in where if any("/specs/" in path for path in where[name])}
    turned = {}
    for name, paths in where.items():
        lemma = all("/proofs/" in path for path in paths)
        to = spelled(name)
        if lemma and not name[0].isupper() and to in words | functions and (to != name or to in words):
            to += "_lem"
        if to != name:
            turned[name] = to
    return turned


def turn_code(code, turned):
    out, last = [], ""
    for m in re.finditer(r'"[^"\n]*"|' + TOKEN.pattern + r"|\s+", code):
        word = m.group(0)
        out.append(turned.get(word, word) if last != "." else word)
        last = word[-1]
    return "".join(out)


def turn(text, comment, turned):
    lines = []
    for line in text.split("\n"):
        at = line.find(comment)
        code, said = (line, "") if at < 0 or line[:at].count('"') % 2 else (line[:at], line[at:])
        said = re.sub(r"`([^`\s]+)`", lambda m: "`" + turned.get(m.group(1), m.group(1)) + "`", said)
        lines.append(turn_code(code, turned) + said)
    return "\n".join(lines)


def main():
    turned = names()
    for ending, comment in ((".antt", "--"), (".rt", "//")):
        for path in files(ending):
            before = read(path)
            after = turn(before, comment, turned)
            if after != before:
                with open(path, "w", encoding="utf-8") as f:
                    f.write(after)
    together = collections.defaultdict(list)
    for name, to in turned.items():
        together[to].append(name)
    for to, old in sorted(together.items()):
        if len(old) > 1:
            print(f"fall together: {' '.join(old)} are {to}")
    print(f"{len(turned)} names")


main()
