#!/usr/bin/env python3
"""Spells the repository's own definitions and lemmas in snake case, and its own types in camel case.

Run once, at the top, after port.py. A name that has a dash and is declared in specs/ or proofs/ gets underscores in
its place, wherever it is named: in specs/, in proofs/, in the contracts of src/ and, between backticks, in the pages.
The names of goals, which Rattle makes, stay; so do functions of src/, strings, inputs and outputs. Names that would
fall together are printed, and nothing is written; a function and its definition may share a name, as in the library.
"""
import glob
import re
import sys

TYPES = {
    "Levels-fit": "LevelsFit",
    "Openings-fit": "OpeningsFit",
    "Verdict-fits": "VerdictFits",
    "Never-contradicted": "NeverContradicted",
    "By-verdict": "ByVerdict",
}
DECLARED = re.compile(
    r"^\s*(?:(?:abbrev|unfoldable)\s+)?(?:pub\s+)?(?:(?:record|data)\s+)?([^\s:(){}|]+)\s*(?:[({].*?[)}]\s*)*:\s+(\S.*)$"
)
TOKEN = re.compile(r"[^\s(){}.,;`]+")


def antt_files():
    return sorted(glob.glob("crates/*/specs/**/*.antt", recursive=True) + glob.glob("crates/*/proofs/**/*.antt", recursive=True))


def code_of(line, comment):
    """The line up to its comment, and the comment."""
    at = line.find(comment)
    return (line, "") if at < 0 else (line[:at], line[at:])


def declared():
    names = set()
    for path in antt_files():
        for line in open(path):
            code = code_of(line, "--")[0]
            found = DECLARED.match(code)
            if found and not found.group(2).startswith("goal."):
                names.add(found.group(1))
    return {n for n in names if "-" in n and re.fullmatch(r"[A-Za-z][\w'-]*", n)}


def respelled(text, table):
    return TOKEN.sub(lambda m: table.get(m.group(0), m.group(0)), text)


def in_rust(line, table):
    code, comment = code_of(line, "//")
    parts = re.split(r'("(?:[^"\\]|\\.)*")', code)
    return "".join(p if p.startswith('"') else respelled(p, table) for p in parts) + comment


def in_antt(line, table):
    code, comment = code_of(line, "--")
    return respelled(code, table) + comment


def in_page(line, table):
    return re.sub(r"`[^`]*`", lambda m: respelled(m.group(0), table), line)


def main():
    names = declared()
    table = {n: TYPES.get(n, n.replace("-", "_")) for n in names}
    files = (
        [(p, in_antt) for p in antt_files()]
        + [(p, in_rust) for p in sorted(glob.glob("crates/*/src/**/*.rt", recursive=True))]
        + [(p, in_page) for p in ["README.md"] + sorted(glob.glob("docs/*.md"))]
    )
    clashes = []
    for path, _ in files:
        if path.endswith(".md"):
            continue
        rust = path.endswith(".rt")
        code = "".join(code_of(line, "//" if rust else "--")[0] + "\n" for line in open(path))
        tokens = set(TOKEN.findall(code))
        for old, new in table.items():
            # A function may have the name of its definition; a parameter, a field or a variable may not.
            taken = rf"\b{new}\s*:[^:]" if rust else rf"(?<![\w.·-]){re.escape(new)}(?![\w'-])"
            if old in tokens and re.search(taken, code):
                clashes.append((path, old, new))
    for new in sorted(set(table.values())):
        olds = sorted(o for o in table if table[o] == new)
        if len(olds) > 1:
            clashes.append(("", " ".join(olds), new))
    for path, old, new in clashes:
        print(f"falls together: {path}: {old} and {new}")
    if clashes:
        return 1
    for path, turn in files:
        before = open(path).read()
        after = "".join(turn(line, table) for line in before.splitlines(keepends=True))
        if after != before:
            open(path, "w").write(after)
    print(f"{len(table)} names")
    return 0


sys.exit(main())
