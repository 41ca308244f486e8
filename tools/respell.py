#!/usr/bin/env python3
"""Brings the repository's own definitions and lemmas to today's spelling: words in snake case, types and modules in camel case.

usage: python3 tools/respell.py        at the top, once, right after port.py

Names that a library of the kit declares, names of goals, and names of src/ stay. A lemma that would have its definition's name gets `_lem`.
What was renamed is printed, old and new."""
import collections
import os
import re

KIT = re.compile(r"use ((?:mathlib|native|lib|Prim|borrow|denote|types|contract|mir|Rattle\.std|Rattle\.core)[^{;\n]*)\.\{([^}]*)\}")
TOKEN = re.compile(r"(?<![\w'])[^\W\d][\w']*(?:-[\w']+)*")
DECLARED = re.compile(r"^ *(?:(?:abbrev|unfoldable|pub|record|data|opaque) )*([^\W\d][\w']*(?:-[\w']+)*) (?::|\()", re.M)


def files():
    for folder, folders, names in os.walk("crates"):
        folders[:] = sorted(f for f in folders if f != "out")
        for name in sorted(names):
            if name.endswith((".antt", ".rt")):
                yield os.path.join(folder, name)


def parts(text, mark):
    """The text in pieces: code, then comment, then code, and so on. A string or a byte of src/ counts as a comment."""
    at = 0
    inside = r'"(?:[^"\\\n]|\\.)*"|' + r"\bb'(?:[^'\\\n]|\\.)'|" if mark == "//" else ""
    for m in re.finditer(inside + re.escape(mark) + r"[^\n]*", text):
        if mark == "--" and m.start() and text[m.start() - 1] not in " \n":
            continue
        yield True, text[at:m.start()]
        yield False, m.group(0)
        at = m.end()
    yield True, text[at:]


def mark_of(path):
    return "//" if path.endswith(".rt") else "--"


def code_of(path, text):
    return "".join(piece if code else "" for code, piece in parts(text, mark_of(path)))


def snake(name):
    name = name.replace("-", "_")
    if name[0].islower():
        name = re.sub(r"(?<=[a-z0-9'])([A-Z])", lambda m: "_" + m.group(1).lower(), name)
    return name


def main():
    texts = {p: open(p, encoding="utf-8").read() for p in files()}
    kit, tokens, declared, goals = set(), collections.defaultdict(set), collections.defaultdict(set), collections.defaultdict(set)
    for p, t in texts.items():
        for m in KIT.finditer(t):
            kit |= {n.strip() for n in m.group(2).replace("\n", " ").split(",")}
        code = code_of(p, t)
        for m in TOKEN.finditer(code):
            tokens[m.group(0)].add(p)
        if p.endswith(".antt"):
            for m in DECLARED.finditer(code):
                declared[m.group(1)].add(p)
            if p.endswith("Proof.antt"):
                goals[p] = set(re.findall(r"^([^\W\d][\w'\-]*) : tie\.", code, re.M)) | set(re.findall(r"^abbrev (?:invariant|decreases)[\w-]*", code, re.M))
    laws = {n for n, ps in declared.items() if any(not p.endswith("Proof.antt") for p in ps)}
    new = {}
    for n, ps in tokens.items():
        if n in kit or snake(n) == n:
            continue
        if n in laws or any(not p.endswith("Proof.antt") for p in ps) or any(n not in goals[p] for p in declared[n]):
            new[n] = snake(n)
    camel = {snake(n) for n in declared if n in new and "-" not in n}
    definitions = camel | {n for n in declared if n == snake(n) and n not in kit and any("/specs/" in p for p in declared[n])}
    for n in list(new):
        if "-" in n and n in declared and new[n] in definitions | {m for m in declared if m == snake(m) and "-" not in m}:
            new[n] += "_lem"
    # A lemma that port.py gave its definition's name.
    for n in declared:
        if n not in kit and n not in new and n in camel:
            new[n] = n + "_lem"
    for p, t in texts.items():
        antt = p.endswith(".antt")
        here = {}
        for n, to in new.items():
            if p.endswith("Proof.antt"):
                if n in goals[p] or (n not in laws and n not in declared):
                    continue
                if n not in laws and p not in declared[n]:
                    continue
            here[n] = to
        def turn(m, comment=False):
            n = m.group(0)
            if n not in here or (comment and ("-" in n or n.endswith("_lem") or here[n].endswith("_lem"))):
                return n
            before = m.string[max(0, m.start() - 4):m.start()]
            if before.endswith("tie."):
                return n
            if here[n] == n + "_lem" and (before.endswith(".") or not antt):
                return n
            return here[n]
        out = []
        for code, piece in parts(t, mark_of(p)):
            out.append(TOKEN.sub(turn if code else (lambda m: turn(m, True)), piece))
        with open(p, "w", encoding="utf-8") as f:
            f.write("".join(out))
    for n in sorted(new):
        print(n, new[n])


main()
