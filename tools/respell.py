#!/usr/bin/env python3
"""Brings this repository's own names in specs/, proofs/ and contracts to one spelling.

usage: python3 tools/respell.py [--list]     at the top of the repository

Words (definitions, lemmas, fields, bound variables) become snake case, types camel case: few-lines is
few_lines, Copy-of is CopyOf. Names of the library, and the names that the checker gives to goals and to what
is known at them, stay. With --list it only prints what it would rename. It was run once, right after the
kit's own script, and changes nothing where no such name is left.
"""

import os
import re
import sys

TOKEN = re.compile(r"[^\s(){};,.:\u00ab\u00bb\[\]\"@]+")
DEFINES = re.compile(
    r"^\s*(?:unfoldable\s+|abbrev\s+|pub\s+|record\s+|data\s+)*([^\s(){};,.:]+-[^\s(){};,.:]*)\s*(?::(?!=)|\(|\{)(.*)$", re.M
)
BINDS = re.compile(r"[({]((?:[^\s(){};,.:]+\s+)*[^\s(){};,.:]+)\s*:(?!=)|λ\s+([^.(){}]*)\.|\blet\s+([^\s(){};,.:=]+)")
IMPORT = re.compile(r"use\s+(Rattle\.)?([\w.]+)\.\{([^}]*)\}")
# names that cite a word that the library no longer has
OTHER = {"getD-zeros": "index_zeros"}
# bound variables that the patterns below miss
FURTHER = {"allowed-sym", "joined-sym", "on-n"}


def files():
    for folder, dirs, names in os.walk("crates"):
        dirs[:] = sorted(d for d in dirs if d != "out")
        for name in sorted(names):
            if name.endswith((".antt", ".rt")):
                yield os.path.join(folder, name)


def respelled(name):
    if name in OTHER:
        return OTHER[name]
    if name[0].isupper():
        return "".join(part[:1].upper() + part[1:] for part in name.split("-"))
    return name.replace("-", "_")


def own_crates():
    return set(os.listdir("crates"))


def names_of(texts):
    own, kept = set(FURTHER), set()
    crates = own_crates()
    for path, text in texts.items():
        for match in IMPORT.finditer(text):
            if match.group(2).split(".")[0] not in crates:
                for part in re.split(r"[,\s]+", match.group(3)):
                    kept.add(part)
        if path.endswith(".rt"):
            continue
        for match in DEFINES.finditer(text):
            if "goal." in match.group(2)[:40]:
                kept.add(match.group(1))
            else:
                own.add(match.group(1))
        for match in BINDS.finditer(text):
            for name in re.split(r"\s+", " ".join(g for g in match.groups() if g)):
                if re.fullmatch(r"[A-Za-z][\w']*(?:-[\w']+)+", name):
                    own.add(name)
    own = {n for n in own if re.fullmatch(r"[A-Za-z][\w']*(?:-[\w']+)+", n)}
    return own - kept, own & kept, kept


def rename(path, text, own):
    """Every whole name, but what an import takes from a library."""
    crates = own_crates()
    foreign = set()
    for match in IMPORT.finditer(text):
        if match.group(2).split(".")[0] not in crates:
            foreign.update(re.split(r"[,\s]+", match.group(3)))

    def one(match):
        name = match.group(0)
        if name in own and name not in foreign:
            return respelled(name)
        return name

    return TOKEN.sub(one, text)


def main():
    texts = {}
    for path in files():
        with open(path, encoding="utf-8") as f:
            texts[path] = f.read()
    own, both, kept = names_of(texts)
    if "--list" in sys.argv:
        for name in sorted(own):
            print(name, respelled(name))
        print("left, as the library or the checker has the same name:", " ".join(sorted(both)))
        for path, text in texts.items():
            tokens = set(TOKEN.findall(text))
            new = [n for n in tokens & own if respelled(n) in tokens]
            if new:
                print("fall together in", path, new)
        return
    for path, text in texts.items():
        new = rename(path, text, own)
        if new != text:
            with open(path, "w", encoding="utf-8") as f:
                f.write(new)


main()
