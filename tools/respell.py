#!/usr/bin/env python3
"""Brings the repository's own names in specs/ and proofs/ to today's spelling: words in snake case, types in camel case.

usage: python3 tools/respell.py [--list]     at the top of the repository, once, after the toolchain's own port.py

A name is respelled where a file declares or imports it: in .antt files, in the clauses and imports of .rt files, in the texts of
must-fail edits, and between back quotes in pages. Names of functions, strings, and names that Rattle makes or the library has stay.
"""

import collections
import os
import re
import sys

ROOT = "crates"
# A name ends at white space, brackets and punctuation; a path's parts are names of their own.
WORD = re.compile(r"[^\s(){}\[\],;.«»⌜⌝\"`]+")
DECLARED = re.compile(
    r"^[ \t]*(?:(?:unfoldable|abbrev|pub|record|data|ruleset)[ \t]+)*([^\s(){}\[\],;.\"]+)(?=[ \t]*(?::|\{|\())(?=[^=\n]*:)", re.M
)
SORT = re.compile(r":\s*(?:[^:=]*→\s*)?Type \d\s*$")
COMMENT = re.compile(r"--[^\n]*")
IMPORT = re.compile(r"^[ \t]*(?:ghost )?use ([^\s{;]+?)(?:\.\{([^}]*)\})?(?: as \S+)?;?[ \t]*$", re.M)


def files(*endings):
    for folder, dirs, names in sorted(os.walk(ROOT)):
        dirs[:] = [d for d in dirs if d != "out"]
        for name in sorted(names):
            if name.endswith(endings):
                yield os.path.join(folder, name)


def text_of(path):
    with open(path, encoding="utf-8") as f:
        return f.read()


def statements(text):
    """(name, what stands behind it up to the end of its signature) of each declaration; a signature ends where a line begins that is no deeper."""
    text = COMMENT.sub("", text)
    for m in DECLARED.finditer(text):
        line = text.rfind("\n", 0, m.start(1)) + 1
        depth = len(text[line : m.end()]) - len(text[line : m.end()].lstrip())
        lines = text[m.end(1) :].split("\n")
        signature = [lines[0]]
        for l in lines[1:]:
            if l.strip() and len(l) - len(l.lstrip()) <= depth:
                break
            signature.append(l)
        yield m[1], "\n".join(signature)


def camel(name):
    return "".join(p[:1].upper() + p[1:] for p in name.split("-"))


def collected():
    """The repository's own names with a dash, and what each becomes."""
    places, sorts, every = collections.defaultdict(set), set(), collections.defaultdict(set)
    for path in files(".antt"):
        text = text_of(path)
        proof = path.endswith("/Proof.antt")
        for name, signature in statements(text):
            every[name].add(path)
            if "-" not in name.strip("-") or not re.search(r"[^\W\d_]", name):
                continue
            if proof and not name.endswith("-spec"):
                continue
            places[name].add(path)
            body = re.sub(r"\s+", " ", signature).rstrip(" where").strip()
            if re.search(r"(?:^|→|:) ?Type \d$", body.split(" where")[0].strip()):
                sorts.add(name)
    for path in files(".antt"):
        if not path.endswith("/Proof.antt"):
            # Names of arguments, and those that stand together before one colon.
            for name in set(WORD.findall(COMMENT.sub("", text_of(path)))) - foreign(text_of(path)):
                if "-" in name.strip("-") and re.search(r"[^\W\d_]", name):
                    places[name].add(path)
    made = {n: camel(n) if n in sorts else n.replace("-", "_") for n in places}
    return made, places, every, sorts


def own(path):
    crates = set(os.listdir(ROOT))
    parts = path.split(".")
    return parts[0] == "Rattle" and len(parts) > 1 and parts[1] in crates


def foreign(text):
    """Names that a file has from elsewhere."""
    names = set()
    for m in IMPORT.finditer(text):
        if not own(m[1]):
            for item in (m[2] or "").split(","):
                names.update(item.replace(" as ", " ").split())
    return names


def respelled(text, made, keep):
    return WORD.sub(lambda m: made[m[0]] if m[0] in made and m[0] not in keep else m[0], text)


def outside_strings(text, made, keep):
    parts = re.split(r'("(?:\\.|[^"\\])*")', text)
    return "".join(p if i % 2 else respelled(p, made, keep) for i, p in enumerate(parts))


def main():
    made, places, every, sorts = collected()
    if "--list" in sys.argv:
        for n in sorted(made):
            print(n, made[n], "type" if n in sorts else "", *sorted(places[n])[:2])
        return
    for path in files(".antt", ".rt"):
        text = text_of(path)
        new = outside_strings(text, made, foreign(text)) if path.endswith(".rt") else respelled(text, made, foreign(text))
        if new != text:
            with open(path, "w", encoding="utf-8") as f:
                f.write(new)
    for path in files(".edit"):
        text = text_of(path)
        new = "".join(
            m[1] + respelled(m[2], made, set()) if (m := re.match(r"((?:old|new): ?)(.*)$", l, re.S)) else l for l in text.splitlines(True)
        )
        if new != text:
            with open(path, "w", encoding="utf-8") as f:
                f.write(new)
    pages = ["README.md"] + sorted(
        os.path.join(d, n) for d, _, ns in os.walk("docs") for n in ns if n.endswith(".md")
    )
    for path in pages:
        text = text_of(path)
        new = re.sub(r"`[^`\n]+`", lambda m: respelled(m[0], made, set()), text)
        if new != text:
            with open(path, "w", encoding="utf-8") as f:
                f.write(new)


main()
