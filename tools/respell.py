#!/usr/bin/env python3
"""Brings the names that the crates define to the spelling of today's Rattle.

usage: python3 tools/respell.py        once, at the top, after the toolchain's own script has turned the files

Words are in snake case: a definition, field or constructor in camel case, as ifTrue, becomes if_true, and a dash in
the name of a field or a constructor becomes an underscore. Lemmas keep the dash that joins the names in them, types
and modules keep their capitals, and functions of src/ keep their names: a definition may then have the name of the
function whose answer it is. Names that would fall together are in APART.
"""

import os
import re

# What would otherwise have the name of something else that is seen in the same file.
APART = {
    "first_of": "first_place",  # first_of is a tactic
    "tooWide": "is_too_wide",  # too_wide is a case of a finding and of a tested outcome
    "all_pass": "all_pass_lem",  # the law about all_pass, in crate writer
}

NAME = re.compile(r"(?<![A-Za-z0-9_'·])[A-Za-z][A-Za-z0-9_']*(?:-[A-Za-z0-9_'+*]+)*")
CAMEL = re.compile(r"[a-z][A-Za-z0-9]*")
SIGNATURE = re.compile(r"\s*(?:(?:abbrev|unfoldable|pub)\s+)*([a-z][A-Za-z0-9_'-]*)[^:=]*\s:\s")
BLOCK = re.compile(r"\s*(?:pub )?(data|record)\s+[^\s{]+")
MEMBER = re.compile(r"\s*(?:pub )?([^:]+?)\s*:\s")
ALIAS = re.compile(r"use \S+ as ([a-z]\w*)")


def files(endings):
    for folder, folders, names in os.walk("crates"):
        folders[:] = sorted(f for f in folders if f != "out")
        for name in sorted(names):
            if name.endswith(endings):
                yield os.path.join(folder, name)


def snake(name):
    return re.sub(r"(?<=[a-z0-9])[A-Z]", lambda m: "_" + m.group().lower(), name)


def camel_names(lines):
    """The definitions, fields and constructors in camel case, and the names that an import gets."""
    for line in lines:
        for m in (SIGNATURE.match(line), ALIAS.match(line)):
            if m and CAMEL.fullmatch(m.group(1)) and m.group(1) != m.group(1).lower():
                yield m.group(1)


def dashed_members(lines):
    """The fields and constructors that have a dash."""
    at = None
    for line in lines:
        if not line.strip() or line.lstrip().startswith("--"):
            continue
        indent = len(line) - len(line.lstrip())
        if at and indent <= at[0]:
            at = None
        if BLOCK.match(line):
            at = (indent, None)
        elif at:
            at = (at[0], at[1] or indent)
            m = MEMBER.match(line)
            if m and indent == at[1]:
                yield from (w for w in m.group(1).split() if "-" in w)


def main():
    to = {}
    for path in files(".antt"):
        with open(path, encoding="utf-8") as f:
            lines = f.read().split("\n")
        to |= {n: snake(n) for n in camel_names(lines)}
        to |= {n: n.replace("-", "_") for n in dashed_members(lines)}
    to |= APART
    changed = 0
    for path in files((".antt", ".rt", ".edit")):
        with open(path, encoding="utf-8") as f:
            text = f.read()
        new = NAME.sub(lambda m: to.get(m.group(), m.group()), text)
        if new != text:
            changed += 1
            with open(path, "w", encoding="utf-8") as f:
                f.write(new)
    print(f"{len(to)} names, {changed} files")


if __name__ == "__main__":
    main()
