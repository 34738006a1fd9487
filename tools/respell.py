#!/usr/bin/env python3
"""Respells the repository's own definitions and lemmas as Rattle does: words in snake case.

usage: python3 tools/respell.py     at the top of the repository, once, after /opt/rattle/port/port.py

A name that begins small and has a capital inside becomes snake case (faultOf: fault_of), in specs/, proofs/, must-fail/, the clauses of src/
and the pages. Where a lemma had that snake name already, the lemma gets _lem, as Rattle names a lemma after its function. Types, modules,
functions of src/, exported names, strings, inputs and outputs keep theirs.
"""

import os
import re

LETTERS = r"A-Za-z0-9_'≢≡→∈⊹⊖⊕⊗◌\-βΣλ₀-₉"
NAME = re.compile(rf"(?<![{LETTERS}])[a-zβ][{LETTERS}]*")
CAMEL = re.compile(r"(?<=[a-z0-9])[A-Z]")
# names of the library, and what is no name
KEPT = re.compile(r"PathP|^\d|^x[0-9A-F]+$|^u\d+|^w\d+$")
DECLARED = re.compile(r"(?m)^\s*(?:(?:pub|abbrev|unfoldable|opaque|data|record)\s+)*([^\s:(){},.]+)\s*(?:\{[^}]*\}\s*)*:(?=\s)")


def snake(name):
    name = name.replace("getD", "get_or")
    return CAMEL.sub(lambda m: "_" + m.group(0).lower(), name)


def files(tops, endings):
    for top in tops:
        if os.path.isfile(top):
            yield top
        for folder, dirs, names in os.walk(top):
            dirs[:] = sorted(d for d in dirs if d not in ("out", ".git", "target"))
            for name in sorted(names):
                if name.endswith(endings):
                    yield os.path.join(folder, name)


def text_of(path):
    with open(path, encoding="utf-8") as f:
        return f.read()


def is_camel(name):
    return bool(CAMEL.search(name)) and not KEPT.search(name)


def main():
    proofs = list(files(["crates"], (".antt",)))
    seen, declared = set(), {}
    for path in proofs:
        text = text_of(path)
        code = "\n".join(line for line in text.split("\n") if not line.lstrip().startswith("--"))
        seen |= {it for it in NAME.findall(code) if is_camel(it)}
        for it in DECLARED.findall(code):
            declared.setdefault(it, set()).add(path)
    for path in files(["crates"], (".rt",)):
        for line in text_of(path).split("\n"):
            if line.lstrip().startswith("ghost use"):
                seen |= {it for it in NAME.findall(line) if is_camel(it)}
    turned = {it: snake(it) for it in seen}
    # two names that fall together: the lemma's gives way
    taken = {new for new in turned.values() if new in declared}
    for new in sorted(taken):
        turned[new] = new + "_lem"
    told = {}
    for old, new in turned.items():
        told.setdefault(new, []).append(old)
    for new, olds in sorted(told.items()):
        if len(olds) > 1 or (new in declared and new not in turned):
            print("falls together:", new, olds)
    touched = 0
    for path in [*proofs, *files(["crates"], (".rt",)), *files(["README.md", "docs"], (".md",))]:
        text = text_of(path)
        if path.endswith(".antt"):
            new = NAME.sub(lambda m: turned.get(m.group(0), m.group(0)), text)
        elif path.endswith(".rt"):
            # Rust's own names are in snake case already, so only the clauses have these; a lemma stands in no clause
            new = NAME.sub(lambda m: turned[m.group(0)] if is_camel(m.group(0)) and m.group(0) in turned else m.group(0), text)
        else:
            new = NAME.sub(lambda m: turned[m.group(0)] if is_camel(m.group(0)) and m.group(0) in turned else m.group(0), text)
        if new != text:
            touched += 1
            with open(path, "w", encoding="utf-8") as f:
                f.write(new)
    print(f"respelled: {len(turned)} names in {touched} files")
    for old, new in sorted(turned.items()):
        print(f"  {old}: {new}")


main()
