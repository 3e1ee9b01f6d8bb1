#!/usr/bin/env python3
"""Lists places of older forms in crates/*/src, by kind: `tools/places.py [COMMIT]` (the working tree if none is named).

Each kind is a pattern over lines, or a small reading of functions; docs/DESIGN-PASS.md says what was made of each place.
"""
import collections
import re
import subprocess
import sys

LINES = {
    "1 flags in structs and parameters": r"^\s*(pub(\(\w+\))? )?\w+: bool,|, \w+: bool\)",
    "1 flags that a loop sets": r"let mut \w+ = (true|false);",
    "1 own variants for nothing": r"^\s*(Nothing|Absent|Unknown),",
    "1 refusals as an Option": r"-> Option<Refusal>",
    "1 numbers for kinds": r"match (number|i) \{|fn of\(number",
    "1 a place in place of a refusal": r"-> Result<\w+, usize>",
    "1 matches that are a method of Option or Result": r"^\s*(None|Err\(\w+\)|_|other) => (None|true|false|0|other|value|return Err\(.*\)|Err\(refusal\)|\w+\.\w+\(variable\)),?$",
    "3 loops over a range": r"^\s*for \w+ in [^{]*\.\.",
    "3 other loops": r"^\s*(while|loop)\b",
    "3 counters": r"\b(at|count|first|end|all|held) [+-]= 1\b",
    "4 casts that widen": r"\bas usize\b",
    "4 conversions, order and equality by hand": r"^impl.* (PartialEq|Eq|PartialOrd|Ord|Clone|From<.*>|TryFrom<.*>) for |fn (same_value|both_differ|of)\b",
    "6 arrays": r"\[[\w<>\[\]; ]+; \d+\]",
    "6 a buffer and a place in it": r"\bat: usize\b|out: &mut \[",
    "7 switches on what to run": r"match \*step|match by\b|match &self.subject|if effects\b|strip_prefix\(",
}


def files(commit):
    """Each source file with its lines."""
    if commit:
        names = subprocess.check_output(["git", "ls-tree", "-r", "--name-only", commit, "crates"], text=True).split()
    else:
        names = subprocess.check_output(["git", "ls-files", "-co", "--exclude-standard", "crates"], text=True).split()
    for name in sorted(n for n in names if re.fullmatch(r"crates/\w+/src/.*\.rt", n)):
        text = subprocess.check_output(["git", "show", f"{commit}:{name}"], text=True) if commit else open(name).read()
        yield name, text.split("\n")


def functions(name, lines):
    """(file, line, name, head with clauses, body) of each function that has a body."""
    at = 0
    while at < len(lines):
        start = re.match(r"(\s*)(pub(\(\w+\))? )?(extern \"C\" )?fn (\w+)", lines[at])
        if not start or lines[at].rstrip().endswith(";"):
            at += 1
            continue
        end = at
        while end < len(lines) and not re.match(start[1] + r"\}|" + start[1] + r".*\{\}$", lines[end]):
            end += 1
        text = lines[at:end]
        opens = next((k for k, l in enumerate(text) if l == start[1] + "{" or (l.endswith("{") and not re.search(r"requires|ensures", l))), 0)
        yield name, at + 1, start[5], text[: opens + 1], text[opens + 1 :]
        at = end + 1


def shape(body):
    """A body with its names, numbers and types made one, so that twins are equal."""
    text = re.sub(r"//.*", "", "\n".join(body))
    return re.sub(r"\s+", " ", re.sub(r"\b\d+\b", "0", re.sub(r"\b(?!for\b|if\b|in\b|match\b|return\b|let\b|mut\b)[A-Za-z_]\w*\b", "x", text))).strip()


def main():
    commit = sys.argv[1] if len(sys.argv) > 1 else None
    found, shapes, needs, pairs = collections.defaultdict(list), collections.defaultdict(list), collections.defaultdict(list), collections.defaultdict(list)
    for name, lines in files(commit):
        tests = name.endswith("tests.rt")
        for kind, pattern in LINES.items():
            for k, line in enumerate(lines):
                if not tests and re.search(pattern, line) and not re.match(r"\s*//|\s*ghost|\s*(requires|ensures)", line):
                    found[kind].append(f"{name}:{k + 1}: {line.strip()}")
        for file, at, fn, head, body in functions(name, lines):
            place = f"{file}:{at}: {fn}"
            if not tests and len(shape(body)) > 60:
                shapes[shape(body)].append(place)
            for line in head:
                for clause in re.findall(r"requires \w* ?\{(.*)\}", line):
                    for fact in re.split(r" × ", clause):
                        needs[re.sub(r"[()\s]", "", fact).replace(".old", ".now").replace(".new", ".now")].append(place)
            names = re.findall(r"(\w+): ", " ".join(head).split(") ->")[0].split("requires")[0].split("ensures")[0])
            for k in range(len(names) - 1):
                if not tests:
                    pairs[(names[k], names[k + 1])].append(place)
    for body, places in shapes.items():
        if len(places) > 1:
            found["2 functions of one shape"] += [f"{p} (of {len(places)})" for p in places]
    for fact, places in needs.items():
        if len(places) > 2:
            found["5 facts in the clauses of three functions or more"].append(f"{fact}: {', '.join(places)}")
    for pair, places in pairs.items():
        if len(places) > 2:
            found["5 parameters that travel together in three functions or more"].append(f"{' '.join(pair)}: {', '.join(places)}")
    for kind in sorted(found):
        print(f"== {kind}: {len(found[kind])}")
        print("\n".join(f"   {p}" for p in found[kind]))


main()
