#!/usr/bin/env python3
"""Respells this repository's own definitions and lemmas: words in snake case, facts and types in upper camel case.

usage: python3 tools/respell.py          at the top of a checkout, once, after the kit's port.py
       python3 tools/respell.py --list   only prints each name with its new spelling

A name is ours where it has a dash (or is in the table below) and is no name that a file imports from the kit, no goal's name and no name
that the check made (those follow `goal.`, `c.`, `l.` or `w.`). Comments and strings stay. Names that would fall together are printed, and nothing is written.
"""

import os
import re
import sys

CAMEL = {"eqZ": "eq_z", "eqZ-yes": "eq_z_yes", "eqZ-no": "eq_z_no"}
WORD = re.compile(r"(?<![\w'·-])([A-Za-z]\w*'?(?:-\w+'?)+|eqZ)(?![\w'-])")
KEPT = re.compile(r"^(invariant-|decreases-|returns|loop-|overflow|bounds|slice_bounds|invariant_of)")
MADE_ROOTS = {"c", "l", "w", "goal", "need", "g"}


def files(root):
    for folder, dirs, names in os.walk(os.path.join(root, "crates")):
        dirs[:] = sorted(d for d in dirs if d not in ("out", ".git"))
        for n in sorted(names):
            if n.endswith((".antt", ".rt", ".edit")):
                yield os.path.join(folder, n)


def read(path):
    with open(path, encoding="utf-8") as f:
        return f.read()


def kit_names(root, own):
    """The names with a dash that some file imports from the kit."""
    found = set()
    for path in files(root):
        for m in re.finditer(r"^(?:ghost )?(?:pub )?use ([\w.]+?)\.\{([^}]*)\}", read(path), re.M):
            parts = m.group(1).split(".")
            if parts[0] == "Rattle" and parts[1] in own:
                continue
            found |= {w.strip().split(" as ")[0] for w in m.group(2).split(",")}
    return found


def goals(text):
    """The names of goals that a file of answers or invariants gives."""
    return set(re.findall(r"^(?:abbrev )?(?:unfoldable )?(?:pub )?(\S+) : goal\.", text, re.M))


def new_name(name):
    if name in CAMEL:
        return CAMEL[name]
    if name[0].isupper():
        return "".join(p[:1].upper() + p[1:] for p in name.split("-"))
    return name.replace("-", "_")


def spans(path, text):
    """The parts of a file that may hold names: all but comments and strings."""
    mark = "--" if path.endswith(".antt") else "//"
    at = 0
    for line in text.splitlines(keepends=True):
        end = len(line)
        m = re.search(r"(?:^|\s)" + re.escape(mark) + r"(?:\s|$)", line)
        if m:
            end = m.start()
        cut = [s.span() for s in re.finditer(r'b?"(?:[^"\\]|\\.)*"', line[:end])]
        start = 0
        for a, b in cut + [(end, end)]:
            if start < a:
                yield at + start, at + a
            start = b
        at += len(line)


def root_of(text, at):
    """The first word of the dotted path that ends before place at; None where no dot stands before it."""
    if at == 0 or text[at - 1] != ".":
        return None
    path = re.search(r"([\w'.«»-]+)\.$", text[:at][-200:])
    return path.group(1).split(".")[0] if path else ")"


def turned(path, text, kit, table):
    skip = goals(text)
    out, last = [], 0
    for a, b in spans(path, text):
        for m in WORD.finditer(text, a, b):
            name = m.group(1)
            if name in kit or name in skip or (KEPT.match(name) and name not in table["own"]):
                continue
            root = root_of(text, m.start(1))
            if root in MADE_ROOTS or (root is not None and name not in table["fields"] and name not in table["own"]):
                continue
            table["used"].add(name)
            out += [text[last : m.start(1)], new_name(name)]
            last = m.end(1)
    return "".join(out) + text[last:]


def main():
    root = os.getcwd()
    own = set(os.listdir(os.path.join(root, "crates")))
    kit = kit_names(root, own)
    table = {"own": set(), "fields": set(), "used": set()}
    every = set()
    for path in files(root):
        text = read(path)
        every |= set(re.findall(r"[A-Za-z][\w']*", text))
        if path.endswith(".antt"):
            skip = goals(text)
            for m in re.finditer(r"^( *)(?:(?:abbrev|unfoldable|pub|record) )*([A-Za-z][\w'-]*)(?: [^:\n]*)? :(?:\s|$)", text, re.M):
                if m.group(2) not in skip and "-" in m.group(2) or m.group(2) in CAMEL:
                    table["own"].add(m.group(2))
                    if m.group(1):
                        table["fields"].add(m.group(2))
    table["own"] -= kit
    texts = {p: turned(p, read(p), kit, table) for p in files(root)}
    meets = {}
    for name in table["used"]:
        meets.setdefault(new_name(name), []).append(name)
    together = {new: sorted(olds) for new, olds in meets.items() if len(olds) > 1}
    for new, olds in sorted(together.items()):
        print("fall together:", new, olds)
    if "--list" in sys.argv:
        for name in sorted(table["used"]):
            new = new_name(name)
            print(name, new, "(there already)" if new in every else "", "" if name in table["own"] else "(bound where it is used)")
        return 0
    if together:
        return 1
    for path, text in texts.items():
        if text != read(path):
            with open(path, "w", encoding="utf-8") as f:
                f.write(text)
    print(f"{len(table['used'])} names respelled")
    return 0


sys.exit(main())
