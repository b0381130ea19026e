#!/usr/bin/env python3
"""Brings the names that pages cite between backquotes to the spelling of the sources: tools/spell-pages.py PAGE...

A name in camel case or with dashes is turned where the sources define its snake case form, or that form with `_lem`, and not the name itself."""
import os
import re
import sys

TOP = os.path.join(os.path.dirname(os.path.realpath(__file__)), "..")
TABLE = dict(line.rstrip("\n").split("\t") for line in open(os.path.join(TOP, "tools/spelling.tsv")))
WORD = re.compile(r"[^\W\d][\w'′-]*")


def defined():
    names = set()
    for root, dirs, files in os.walk(os.path.join(TOP, "crates")):
        dirs[:] = [d for d in dirs if d not in ("out", "must-fail")]
        for name in files:
            if name.endswith((".antt", ".rt")):
                with open(os.path.join(root, name)) as file:
                    names.update(WORD.findall(file.read()))
    return names


NAMES = defined()


def turned(match):
    name = match.group()
    if name in TABLE:
        return TABLE[name]
    if name in NAMES or not (re.match("[a-z]", name) and (re.search("[A-Z]", name) or "-" in name)):
        return name
    new = re.sub(r"(?<=[a-z0-9])([A-Z])", lambda m: "_" + m.group(1).lower(), name).replace("-", "_").replace("′", "'")
    return new if new in NAMES else name


for path in sys.argv[1:]:
    with open(path) as file:
        text = file.read()
    after = re.sub(r"`[^`\n]+`", lambda m: WORD.sub(turned, m.group()), text)
    if after != text:
        with open(path, "w") as file:
            file.write(after)
        print(path)
