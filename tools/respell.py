#!/usr/bin/env python3
"""Respells the repository's own definitions and lemmas: words in snake case, types in camel case.

usage: python3 tools/respell.py     at the top of the repository, once, after port.py

A name with a dash that a file of specs/ or proofs/ defines becomes `word_word`, or `TypeType` where it begins with a
capital letter. A file's names are those that it defines and those that it imports from a crate of this repository;
names of the library, and names of goals, keep their dashes. Names that would fall together are printed.
"""
import os
import re

WORD = r"[A-Za-z][\w']*(?:-[\w']+)+"
TOKEN = re.compile(r"(?<![\w'.-])" + WORD + r"(?![\w'-])")
DEFINED = re.compile(r"^\s*(?:(?:abbrev|unfoldable|pub|data|record|let)\s+)*(" + WORD + r")\s*(?:[({][^:]*:[^)}]*[)}]\s*)*:(?!:)(.*)")
IMPORT = re.compile(r"\buse\s+Rattle\.(\w+)\.([\w.+-]+)\.\{([^}]*)\}")
# names that would fall together with a cause of `fault`
OTHERWISE = {"No-line": "HasNoLine", "No-form": "HasNoForm", "Wrong-record": "IsWrongRecord", "Wrong-counter": "RefusesWrongCounter"}
COMMENT = {".antt": "--", ".rt": "//"}


def files(root):
    for folder, dirs, names in os.walk(os.path.join(root, "crates")):
        dirs[:] = sorted(d for d in dirs if d != "out")
        for name in sorted(names):
            if name.endswith((".antt", ".rt")):
                yield os.path.join(folder, name)


def spelled(name):
    if name in OTHERWISE:
        return OTHERWISE[name]
    if name[0].isupper():
        return "".join(part[:1].upper() + part[1:] for part in name.split("-"))
    return name.replace("-", "_")


def code(path, line):
    return line.split(COMMENT[os.path.splitext(path)[1]])[0]


def defined(path, text):
    found = set()
    if path.endswith(".antt"):
        for line in text.split("\n"):
            m = DEFINED.match(code(path, line))
            if m and not m.group(2).strip().startswith("goal."):
                found.add(m.group(1))
    return found


def respelled(path, text, names):
    out = []
    for line in text.split("\n"):
        kept = code(path, line)
        rest = line[len(kept):]
        kept = TOKEN.sub(lambda m: spelled(m.group()) if m.group() in names else m.group(), kept)
        out.append(kept + rest)
    return "\n".join(out)


def main():
    texts = {p: open(p, encoding="utf-8").read() for p in files(".")}
    crates = {p.split(os.sep)[2] for p in texts}
    own = {p: defined(p, t) for p, t in texts.items()}
    every = set().union(*own.values())
    for path, text in texts.items():
        names = set(own[path])
        for crate, _, items in IMPORT.findall(text):
            if crate in crates:
                names |= {i.strip().split(" as ")[0].strip() for i in items.split(",")} & every
        plain = set(re.findall(r"(?<![\w'-])[A-Za-z][\w']*(?![\w'-])", "\n".join(code(path, l) for l in text.split("\n"))))
        for name in sorted(names):
            if spelled(name) in plain and TOKEN.search(text):
                print(f"{path}: {name} falls together with {spelled(name)}")
        new = respelled(path, text, names)
        if new != text:
            with open(path, "w", encoding="utf-8") as f:
                f.write(new)


main()
