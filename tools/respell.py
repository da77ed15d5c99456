#!/usr/bin/env python3
"""Spells the repository's own definitions and lemmas as today's Rattle does: words in snake case, types in camel case.

usage: python3 tools/respell.py        at the top of the repository, once, after the kit's own script

A name is one that a file of specs/, or a lemma file of proofs/, declares: a definition, a field, a constructor or a lemma.
Functions of src/ keep their names. The crate `either` has the name of a library of the kit, and becomes `either_kind`.
It stops, and changes nothing, where two names would fall together.
"""

import os
import re
import shutil
import sys

DECLARED = re.compile(
    r"^\s*(?:(?:pub|abbrev|unfoldable|private|mutual)\s+)*(?:(?:data|record)\s+)?"
    r"([^\s:(){}.;,\[\]]+)(?:\s+[({].*?)?\s+:(?:\s|$)"
)
PREFIXED = re.compile(r"[A-Za-z][A-Za-z0-9_'\u2032]*(?:-[A-Za-z0-9_'\u2032]+)*")
OLD_CRATE, NEW_CRATE = "either", "either_kind"


def files(ending):
    for folder, folders, names in os.walk("crates"):
        folders[:] = sorted(d for d in folders if d != "out")
        for name in sorted(names):
            if name.endswith(ending):
                yield os.path.join(folder, name)


def read(path):
    with open(path, encoding="utf-8") as f:
        return f.read()


def write(path, text):
    with open(path, "w", encoding="utf-8") as f:
        f.write(text)


def declares(path):
    parts = path.split(os.sep)
    return len(parts) == 4 and parts[2] in ("specs", "proofs")


def declared_names():
    names = set()
    for path in files(".antt"):
        if not declares(path):
            continue
        for line in read(path).splitlines():
            if line.lstrip().startswith(("--", "use ")):
                continue
            found = DECLARED.match(line)
            if found and PREFIXED.fullmatch(found.group(1)):
                names.add(found.group(1))
    return names


def today(name):
    name = name.replace("\u2032", "'")
    if name[0].isupper():
        return "".join(part[:1].upper() + part[1:] for part in name.split("-"))
    return name.replace("-", "_")


def renamings():
    names = declared_names()
    turned = {name: today(name) for name in names if today(name) != name}
    taken = {}
    for name in names:
        taken.setdefault(turned.get(name, name), []).append(name)
    clashes = [olds for olds in taken.values() if len(olds) > 1]
    if clashes:
        sys.exit("these would fall together: " + str(clashes))
    return turned


def respelled(line, turned):
    code, mark, comment = line.partition("--") if line.lstrip().startswith("--") else (line, "", "")

    def one(found):
        before = code[: found.start()]
        if before.endswith(("goal.", "Goals.", "Given.")):
            return found.group(0)
        return turned.get(found.group(0), found.group(0))

    return PREFIXED.sub(one, code) + mark + comment


def respell(turned):
    for ending in (".antt", ".rt"):
        for path in list(files(ending)):
            old = read(path)
            new = "\n".join(
                line if ending == ".rt" and line.lstrip().startswith("//") else respelled(line, turned)
                for line in old.split("\n")
            )
            new = new.replace(f"Rattle.{OLD_CRATE}.", f"Rattle.{NEW_CRATE}.")
            if ending == ".rt":
                new = re.sub(rf"\b{OLD_CRATE}::", f"{NEW_CRATE}::", new)
            if new != old:
                write(path, new)


def rename_crate():
    if os.path.isdir(f"crates/{OLD_CRATE}"):
        shutil.move(f"crates/{OLD_CRATE}", f"crates/{NEW_CRATE}")
    lines = read("crates.txt").split("\n")
    write(
        "crates.txt",
        "\n".join(
            line if line.startswith("#") else re.sub(rf"\b{OLD_CRATE}\b", NEW_CRATE, line) for line in lines
        ),
    )


def main():
    turned = renamings()
    respell(turned)
    rename_crate()
    print(f"{len(turned)} names respelled")


main()
