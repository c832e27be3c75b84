#!/usr/bin/env python3
"""Respells the repository's own definitions and lemmas, once: words in snake case, types in camel case.

usage: python3 tools/respell.py        at the repository's top, after the kit's port.py

A name is the repository's own if a file of specs/ or proofs/ gives it a signature. Names of goals, which the checker makes, and names of the library stay as they are, and so do the functions of src/.
It prints each new name that fell together with another one.
"""

import glob
import re
import sys

WORDS = "abbrev|unfoldable|pub|record|data|mutual|ruleset"
DEFINED = re.compile(r"^\s*(?:(?:" + WORDS + r")\s+)*([^\s(){}\[\],;.@«»λ:]+(?:\s+[^\s(){}\[\],;.@«»λ:]+)*?)\s+(?:[({][^=]*|)(?::|where\b)")
OPENED = re.compile(r"^\s*(?:(?:" + WORDS + r")\s+)*(?:record|data|let)\s+([^\s(){}\[\],;.:]+)")
BOUND = re.compile(r"[({]([^\s(){}\[\],;.:@]+(?: [^\s(){}\[\],;.:@]+)*) : ")
TOKEN = re.compile(r"[^\s(){}\[\],;.@«»`]+")
GOAL = re.compile(r":\s*(?:goal|need|given)\.|:\s*the[-_]")
LIBRARY = re.compile(r"use Rattle\.std\.[\w.'-]*\{([^}]*)\}")


# names whose plain respelling is taken
OTHERWISE = {"bit-xor": "bit_of_xor"}


def new_name(name):
    if name in OTHERWISE:
        return OTHERWISE[name]
    parts = name.split("-")
    if parts[0][:1].isupper():
        return "".join(p[:1].upper() + p[1:] for p in parts)
    return "_".join(parts)


def is_ours(name):
    return "-" in name.strip("-") and re.fullmatch(r"[A-Za-z][A-Za-z0-9_'-]*", name) is not None


def texts(kind):
    for path in sorted(glob.glob("crates/*/**/*." + kind, recursive=True)):
        if "/out/" not in path:
            yield path, open(path, encoding="utf-8").read()


def own_names():
    own, library, seen = set(), set(), set()
    for path, text in texts("antt"):
        for group in LIBRARY.findall(text):
            library |= {w.strip() for w in re.split(r"[,\s]+| as ", group)}
        for line in text.splitlines():
            if line.lstrip().startswith("--") or line.lstrip().startswith("use "):
                continue
            seen |= set(TOKEN.findall(line))
            if GOAL.search(line):
                continue
            for m in (DEFINED.match(line), OPENED.match(line)):
                if m:
                    own |= {w for w in m.group(1).split() if is_ours(w)}
            for group in BOUND.findall(line):
                own |= {w for w in group.split() if is_ours(w)}
    return own, library, seen


def main():
    own, library, seen = own_names()
    for name in sorted(own & library):
        print(f"respell: {name} is a name of the library too")
    renamed = {n: new_name(n) for n in own - library}
    for name, new in sorted(renamed.items()):
        if new in seen or new in library:
            print(f"respell: {name} falls together with {new}")

    def respell(text):
        return TOKEN.sub(lambda m: renamed.get(m.group(0), m.group(0)), text)

    # port.py has respelled some names already, in the crates alone
    def in_prose(name):
        return renamed.get(name) or (new_name(name) if is_ours(name) and new_name(name) in seen else name)

    for path, text in texts("antt"):
        after = respell(text)
        if after != text:
            open(path, "w", encoding="utf-8").write(after)
    for path, text in texts("rt"):
        after, clause = [], 0
        for line in text.splitlines(keepends=True):
            bare = line.lstrip()
            begins = re.match(r"(?:ghost|requires|ensures)\b", bare) is not None
            if (begins or clause) and not bare.startswith("//"):
                clause = max(0, clause + line.count("{") - line.count("}"))
                line = respell(line)
            after.append(line)
        if "".join(after) != text:
            open(path, "w", encoding="utf-8").write("".join(after))
    for path in sorted(glob.glob("docs/*.md")) + ["README.md"]:
        text = open(path, encoding="utf-8").read()
        after = re.sub(r"`[^`\n]+`", lambda m: TOKEN.sub(lambda t: in_prose(t.group(0)), m.group(0)), text)
        if after != text:
            open(path, "w", encoding="utf-8").write(after)
    print(f"respell: {len(renamed)} names")
    return 0


sys.exit(main())
