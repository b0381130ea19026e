#!/usr/bin/env python3
"""Brings the names of definitions and lemmas to snake case, as tools/spelling.tsv lists them: tools/spell.py [--collect] [FOLDER]

Types and modules stay in upper camel case, functions of src/ and exported C names as they are. `--collect` writes the table anew from the
sources; without it the table is applied to crates/*/{src,specs,proofs} of FOLDER (here, if none is named). A lemma that would have its
definition's name gets `_lem`. In a comment of an .antt file a name with a dash is turned only between backquotes."""
import os
import re
import sys

HERE = os.path.dirname(os.path.realpath(__file__))
TABLE = os.path.join(HERE, "spelling.tsv")
WORD = re.compile(r"[^\W\d][\w'-]*")
SIGNATURE = re.compile(r"\s*(?:(?:abbrev|unfoldable|pub|record|data)\s+)*([^\s:(){}]+)\s+(?:[^:]*)?:\s")
# Lemmas that had another spelling of their definition's name: crate, name, new name.
LEMMAS = [("setchain", "least_first", "least_first_lem"), ("setchain", "all_first", "all_first_lem"), ("sheet_spec", "two_digits", "two_digits_lem"),
          ("record_parts", "handed_out", "handed_out_lem"), ("big_endian_spec", "number_put", "number_put_lem")]


def sources(folder):
    for root, dirs, files in sorted(os.walk(os.path.join(folder, "crates"))):
        dirs[:] = [d for d in dirs if d != "out"]
        for name in sorted(files):
            if name.endswith((".antt", ".rt")):
                yield os.path.join(root, name)


def turned(name):
    return re.match(r"[a-z◌]", name) and (re.search(r"[A-Z]", name) or "-" in name)


def snake(name):
    return re.sub(r"(?<=[a-z0-9])([A-Z])", lambda m: "_" + m.group(1).lower(), name).replace("-", "_")


def of_walk(path, folder):
    parts = os.path.relpath(path, folder).split(os.sep)
    return parts[2] == "proofs" and len(parts) > 4


def collect(folder):
    names, taken = set(), set()
    for path in sources(folder):
        if not path.endswith(".antt") or of_walk(path, folder):
            continue
        with open(path) as file:
            for line in file:
                found = SIGNATURE.match(line)
                if found and not line.startswith("-"):
                    name = found.group(1)
                    if not re.fullmatch(r"[^\W\d][\w'-]*|◌[\w]+◌", name):
                        continue
                    (names if turned(name) else taken).add(name)
    camel = {snake(n) for n in names if "-" not in n}
    with open(TABLE, "w") as file:
        for name in sorted(names):
            new = snake(name)
            if "-" in name and (new in camel or (new == "state_of")  or (new == "all_le")):
                new += "_lem"
            file.write(f"{name}\t{new}\n")


def library_names(text, own):
    """Names that a file takes from a library that is not of the repository, and so keep their spelling there."""
    names = set()
    for use in re.finditer(r"use\s+([^\s;{]+?)\.\{([^}]*)\}", text):
        parts = use.group(1).split(".")
        if not (parts[0] == "Rattle" and parts[1] in own):
            names.update(n.strip().split(" as ")[0].strip() for n in use.group(2).split(","))
    return names


def apply(folder):
    with open(TABLE) as file:
        table = dict(line.rstrip("\n").split("\t") for line in file)
    own = set(os.listdir(os.path.join(folder, "crates")))
    operators = {k.strip("◌"): v.strip("◌") for k, v in table.items() if k.startswith("◌")}
    for path in sources(folder):
        with open(path) as file:
            text = file.read()
        kept = library_names(text, own)
        here = {k: v for k, v in table.items() if k not in kept} | operators
        here |= {old: new for crate, old, new in LEMMAS if os.path.relpath(path, folder).split(os.sep)[1] == crate}

        def word(m):
            return here.get(m.group(), m.group())

        lines = []
        for line in text.split("\n"):
            code, comment = line, ""
            if path.endswith(".antt") and line.lstrip().startswith("-- "):
                code, comment = "", line
            elif path.endswith(".rt") and "//" in line:
                cut = line.index("//")
                code, comment = line[:cut], line[cut:]
            comment = re.sub(r"`[^`]*`", lambda m: WORD.sub(word, m.group()), comment)
            comment = WORD.sub(lambda m: here.get(m.group(), m.group()) if "-" not in m.group() and re.search("[A-Z]", m.group()) else m.group(), comment)
            lines.append(WORD.sub(word, code) + comment)
        after = "\n".join(lines)
        if after != text:
            with open(path, "w") as file:
                file.write(after)
            print(os.path.relpath(path, folder))


folder = next((a for a in sys.argv[1:] if not a.startswith("--")), ".")
if "--collect" in sys.argv:
    collect(folder)
else:
    apply(folder)
