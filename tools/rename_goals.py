#!/usr/bin/env python3
"""Brings the names of goals and steps in a crate's answers to today's, where only dashes became underscores.

usage: python3 tools/rename_goals.py NAME..        at the top of the repository

What the check makes of a name of the code keeps that name's spelling now: `zero-from` is `zero_from`.
Each name in an answer that the check no longer makes, and that is one of today's but for that, is turned.
"""
import collections
import json
import os
import re
import subprocess
import sys
import tempfile

NAME = re.compile(r"(?<![\w'-])[A-Za-z][\w'+]*(?:-[\w'+]+)+(?![\w'-])")


def strings(value):
    if isinstance(value, str):
        yield value
    elif isinstance(value, dict):
        for key, below in value.items():
            yield key
            yield from strings(below)
    elif isinstance(value, list):
        for below in value:
            yield from strings(below)


def turn(crate):
    with tempfile.TemporaryDirectory() as out:
        subprocess.run(["rt", "check", "--generated", out, "--old-names"], cwd=f"crates/{crate}", stdout=subprocess.DEVNULL, stderr=subprocess.STDOUT)
        with open(os.path.join(out, "names.json")) as f:
            made = json.load(f)
    root = f"crates/{crate}/proofs"
    for folder, _, files in os.walk(root):
        key = f"Rattle-{crate}-proofs." + os.path.relpath(folder, root).replace("/", ".") + ".Lts"
        found = [made[k] for k in made if k == key or k.startswith(key + "-")]
        if not found:
            continue
        now = {s for s in strings(found) if re.fullmatch(r"[\w'+-]+", s)}
        now |= {p + "-" + s for s in list(now) for p in ("After", "In", "Then", "Else", "Start")}
        now |= {"invariant_of-self", "invariant_of-result", "in_default"}
        alike = collections.defaultdict(set)
        for s in now:
            alike[s.replace("_", "-")].add(s)
        for name in files:
            path = os.path.join(folder, name)
            with open(path, encoding="utf-8") as f:
                text = f.read()

            def part(word):
                if word in now:
                    return word
                fit = alike.get(word.replace("_", "-"), set())
                return next(iter(fit)) if len(fit) == 1 else word

            def new(m):
                # the ways into a join are named by their parts, with + and -via- between
                word = part(m.group(0))
                return "-via-".join("+".join(map(part, w.split("+"))) for w in word.split("-via-"))

            turned = NAME.sub(new, text)
            if turned != text:
                with open(path, "w", encoding="utf-8") as f:
                    f.write(turned)


for crate in sys.argv[1:]:
    turn(crate)
