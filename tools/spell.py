#!/usr/bin/env python3
"""Respells this repository's own definitions and lemmas as today's Rattle spells them.

usage: python3 tools/spell.py        at the top of the repository, once, after /opt/rattle/port/port.py

A dash inside a name becomes an underscore (`ran-from`, `ran_from`), and a name that begins with a capital loses its dashes
(`Run-decides`, `RunDecides`). Names given by `as` follow (`mergeStep`, `merge_step`). It takes the names that are declared in specs/ and in the lemma files of proofs/: those of goals and
steps, which the check makes, keep theirs, and so do functions of src/, comments and strings. It prints each name that falls together
with another.
"""

import os
import re

TOKEN = re.compile(r"[\w'\-]+")
SIGNATURE = re.compile(r"^\s*(?:(?:abbrev|pub|unfoldable) )*([\w'\-]+(?: [\w'\-]+)*) :(?= |$)")
BLOCK = re.compile(r"^\s*(?:(?:abbrev|pub|unfoldable) )*(?:data|record|ruleset) ([\w'\-]+)")
ALIAS = re.compile(r" as ([a-z]+[A-Z]\w*)")


def files(*endings):
    for folder, dirs, names in os.walk("crates"):
        dirs[:] = sorted(d for d in dirs if d != "out")
        for name in sorted(names):
            if name.endswith(endings):
                yield os.path.join(folder, name)


def is_lemmas(path):
    """A file of specs/, or one that lies in proofs/ itself."""
    parts = path.split(os.sep)
    return parts[2] == "specs" or (parts[2] == "proofs" and len(parts) == 4)


def code(line, mark):
    """The line up to its comment, and the comment."""
    at = re.search(r"(^|\s)" + re.escape(mark), line)
    return (line, "") if at is None else (line[: at.start()], line[at.start() :])


def respelled(name):
    if "-" not in name:
        return re.sub("[A-Z]", lambda m: "_" + m.group(0).lower(), name)
    if name[0].isupper():
        return "".join(part[:1].upper() + part[1:] for part in name.split("-"))
    return name.replace("-", "_")


def declared():
    """The names that files of definitions and lemmas declare."""
    found = set()
    for path in files(".antt"):
        if is_lemmas(path):
            with open(path, encoding="utf-8") as f:
                for line in f:
                    text = code(line, "--")[0]
                    block, signature = BLOCK.match(text), SIGNATURE.match(text)
                    if block:
                        found.add(block.group(1))
                    elif signature:
                        found.update(signature.group(1).split(" "))
    return found


def aliases():
    """The names that a line of imports gives by `as`, where they are not in snake case."""
    found = set()
    for path in files(".antt", ".rt"):
        with open(path, encoding="utf-8") as f:
            for line in f:
                if re.match(r"\s*(ghost )?use ", line):
                    found.update(ALIAS.findall(line))
    return found


def turn(text, names):
    return TOKEN.sub(lambda m: names.get(m.group(0), m.group(0)), text)


def turn_line(line, names, mark):
    """A line of code: its comment and its strings stay."""
    text, comment = code(line, mark)
    parts = re.split(r'("(?:[^"\\]|\\.)*")', text)
    return "".join(p if p.startswith('"') else turn(p, names) for p in parts) + comment


def main():
    names = {n: respelled(n) for n in declared() if "-" in n.strip("-")}
    names |= {n: respelled(n) for n in aliases()}
    back = {}
    for old, new in sorted(names.items()):
        back.setdefault(new, []).append(old)
    for new, olds in sorted(back.items()):
        if len(olds) > 1:
            print(f"falls together: {', '.join(olds)} as {new}")
    for path in files(".antt", ".rt"):
        mark = "--" if path.endswith(".antt") else "//"
        with open(path, encoding="utf-8") as f:
            lines = f.readlines()
        before = {t for l in lines for t in TOKEN.findall(code(l, mark)[0])}
        for old in sorted(before & names.keys()):
            if names[old] in before:
                print(f"falls together: {path}: {old} as {names[old]}")
        with open(path, "w", encoding="utf-8") as f:
            f.writelines(turn_line(l, names, mark) for l in lines)
    path = os.path.join("docs", "PROOFS.md")
    with open(path, encoding="utf-8") as f:
        text = f.read()
    text = re.sub(r"`[^`\n]*`", lambda m: turn(m.group(0), names), text)
    with open(path, "w", encoding="utf-8") as f:
        f.write(text)


main()
