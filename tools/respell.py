#!/usr/bin/env python3
"""Respells the names of this repository's own definitions, lemmas, record fields, constructors and short names of modules:
facts and types in camel case (First-fault: FirstFault), all else in snake case (breach-of: breach_of). Goals, which the
prover names, stay.

usage: python3 tools/respell.py [--list]     at the top of the repository, once, after port.py
"""

import re
import sys
from pathlib import Path

SIGNATURE = re.compile(r"^\s*(?:(?:unfoldable|abbrev|pub|record|data|ruleset)\s+)*([^\s:(){};,.\"]+)((?:\s+[({][^:]*:[^)}]*[)}])*)\s*:\s+(.*)")
OWN = "specs", "proofs"


def antt_files(root):
    return [p for c in sorted((root / "crates").iterdir()) for f in OWN for p in sorted((c / f).rglob("*.antt"))]


def respelled(name):
    parts = name.split("-")
    if name[0].isupper():
        return "".join(p[:1].upper() + p[1:] for p in parts)
    return "_".join(parts)


def names(root):
    """The declared names that have a dash, but for goals, with the files that declare them."""
    found, goals = {}, set()
    for path in antt_files(root):
        for line in path.read_text(encoding="utf-8").splitlines():
            goals.update(re.findall(r"\bgoal\.([\w'-]+)", line))
            for alias in re.findall(r"^use [\w.]+ as (the-\w+)$", line):
                found.setdefault(alias, []).append(path)
            m = SIGNATURE.match(line)
            if m and "-" in m.group(1).strip("-") and not line.lstrip().startswith("--"):
                found.setdefault(m.group(1), []).append(path)
    return {n: ps for n, ps in found.items() if n not in goals and re.fullmatch(r"[\w'-]+", n)}


def split_code(text, suffix):
    """Text in parts, each with whether it is code: comments and strings are not."""
    comment = r"--[^\n]*" if suffix == ".antt" else r"//[^\n]*"
    pattern = re.compile(r'"(?:\\.|[^"\\])*"|' + (r"(?<![\w'-])" if suffix == ".antt" else "") + comment)
    at = 0
    for m in pattern.finditer(text):
        yield True, text[at:m.start()]
        yield False, m.group(0)
        at = m.end()
    yield True, text[at:]


def token(names):
    alternatives = "|".join(re.escape(n) for n in sorted(names, key=len, reverse=True))
    return re.compile(r"(?<![\w'·-])(" + alternatives + r")(?![\w'·-])")


def turn(path, table, pattern):
    text = path.read_text(encoding="utf-8")
    if path.suffix == ".md":
        new = re.sub(r"`([^`\n]+)`", lambda m: "`" + table.get(m.group(1), m.group(1)) + "`", text)
    else:
        new = "".join(pattern.sub(lambda m: table[m.group(1)], part) if code else
                      re.sub(r"`([^`\n]+)`", lambda m: "`" + table.get(m.group(1), m.group(1)) + "`", part)
                      for code, part in split_code(text, path.suffix))
    if new != text:
        path.write_text(new, encoding="utf-8")
    return new != text


def main(argv):
    root = Path(".")
    found = names(root)
    table = {n: respelled(n) for n in found}
    sources = sorted((root / "crates").glob("*/src/**/*.rt"))
    texts = {p: p.read_text(encoding="utf-8") for p in antt_files(root) + sources}
    words = {p: set(re.findall(r"[\w'·-]+", t)) for p, t in texts.items()}
    taken = {}
    for old, new in table.items():
        taken.setdefault(new, []).append(old)
    for new, olds in sorted(taken.items()):
        if len(olds) > 1:
            print(f"fall together: {', '.join(olds)}: {new}")
        for p in sorted(words):
            if new in words[p] and any(o in words[p] for o in olds):
                print(f"there already: {p}: {', '.join(olds)}: {new}")
    if "--list" in argv:
        for old in sorted(table):
            print(old, table[old])
        return
    pattern = token(table)
    pages = [root / "README.md", *sorted((root / "docs").glob("*.md"))]
    changed = [p for p in [*texts, *pages] if turn(p, table, pattern)]
    print(f"{len(table)} names, {len(changed)} files")


main(sys.argv[1:])
