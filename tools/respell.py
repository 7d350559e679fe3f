#!/usr/bin/env python3
"""Spells this repository's own definitions and lemmas as Rattle's library does: words in snake case, types in camel case.

usage: tools/respell.py [FOLDER]     in a tree that port.py has just turned; FOLDER is its top, by default this repository's

respell.tsv beside this file has a row for each name: old, a tab, new, and for a name that means two things the file that it
turns in. All rows turn at once, in proof files as whole words, in .rt files within clauses and `ghost use` lines alone, and in
comments only names with a hump. A word that a file imports from a library stays there. Functions of src/, exported names,
strings, inputs and outputs are not touched. It prints names that fall together in a file, and changes nothing then.
"""
import collections
import os
import re
import sys

HERE = os.path.dirname(os.path.realpath(__file__))
WORD = re.compile(r"[^\s(){}.;,@\"«»\[\]]+")
HUMP = re.compile(r"(?<![\w.])[a-z]+[a-z0-9]*[A-Z]\w*")
CLAUSE = re.compile(r"\b(?:requires|ensures|ghost)\b[^{;]*\{")
USE = re.compile(r"\buse ([^\s;{]+?)\.?(?:\{([^}]*)\})?(?: as [^\s;]+)?(?:;|\n|$)")


def rows():
    everywhere, local = {}, collections.defaultdict(dict)
    with open(os.path.join(HERE, "respell.tsv"), encoding="utf-8") as f:
        for line in f:
            old, new, *where = line.rstrip("\n").split("\t")
            (local[where[0]] if where else everywhere)[old] = new
    return everywhere, local


def from_library(code):
    names = set()
    for path, items in USE.findall(code):
        steps = path.split(".")
        if steps[0] != "Rattle" or steps[1] in ("std", "core"):
            names.update(WORD.findall(items))
    return names


def in_code(text, table):
    return WORD.sub(lambda m: table.get(m[0], m[0]), text)


def in_comment(text, table):
    return HUMP.sub(lambda m: table.get(m[0], m[0]), text)


def antt(text, table):
    out = []
    for line in text.split("\n"):
        code, dashes, comment = line.partition("--") if line.lstrip().startswith("--") else (line, "", "")
        if not dashes and "  -- " in line:
            code, dashes, comment = line.partition("  -- ")
        out.append(in_code(code, table) + dashes + in_comment(comment, table))
    return "\n".join(out)


def closing(text, at):
    depth = 0
    for i in range(at, len(text)):
        depth += {"{": 1, "}": -1}.get(text[i], 0)
        if depth == 0:
            return i
    return len(text) - 1


def rt(text, table):
    text = re.sub(r"ghost use [^;]*;", lambda m: in_code(m[0], table), text)
    out, at = [], 0
    for m in CLAUSE.finditer(text):
        if m.start() < at:
            continue
        end = closing(text, m.end() - 1)
        out += [text[at : m.end()], in_code(text[m.end() : end], table)]
        at = end
    text = "".join(out) + text[at:]
    return re.sub(r"//[^\n]*", lambda m: in_comment(m[0], table), text)


def names_in(text, kind):
    if kind == ".rt":
        return set(WORD.findall(" ".join(re.findall(r"ghost use [^;]*;", text))))
    code = "\n".join(l for l in text.split("\n") if not l.lstrip().startswith("--"))
    return set(WORD.findall(code))


def main(argv):
    top = os.path.realpath(argv[0] if argv else os.path.join(HERE, ".."))
    everywhere, local = rows()
    changes, together = {}, []
    for folder, dirs, files in os.walk(os.path.join(top, "crates")):
        dirs[:] = sorted(d for d in dirs if d not in ("out", "must-fail", "target"))
        for name in sorted(files):
            kind = os.path.splitext(name)[1]
            if kind not in (".antt", ".rt"):
                continue
            path = os.path.join(folder, name)
            short = os.path.relpath(path, top)
            with open(path, encoding="utf-8") as f:
                text = f.read()
            table = {**everywhere, **local.get(short, {})}
            stays = from_library(text)
            table = {o: n for o, n in table.items() if o not in stays}
            here = names_in(text, kind)
            meet = collections.defaultdict(set)
            for it in here:
                meet[table.get(it, it)].add(it)
            if name != "Proof.antt":
                together += [f"{short}: {sorted(olds)} are {new}" for new, olds in meet.items() if len(olds) > 1]
            new = antt(text, table) if kind == ".antt" else rt(text, table)
            if new != text:
                changes[path] = new
    for it in together:
        print("together: " + it)
    if together:
        return 1
    for path, text in changes.items():
        with open(path, "w", encoding="utf-8") as f:
            f.write(text)
    print(f"{len(changes)} files")
    return 0


if __name__ == "__main__":
    raise SystemExit(main(sys.argv[1:]))
