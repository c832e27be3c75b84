#!/usr/bin/env python3
# Lists the lines of src/ at which an older form may stand, a heading for each point of docs/DESIGN-PASS.md.
#
#   tools/places.py            the files as they are
#   tools/places.py COMMIT     the files of that commit
#   tools/places.py -c [..]    how many lines each heading has, and no line
#
# A line listed here is a candidate; which ones are places, and what became of them, says the page.
import collections
import re
import subprocess
import sys

POINTS = [
    ("1 enums, a flag or a sentinel beside a value, an error handed on by hand", [
        r"\benum [A-Z]",
        r"\b(fresh|changed): bool",
        r"\bnumber: u8,$",
        r"\bword == 0|\bword: 0 }|const NONE|\bvacant\b.*\{$",
        r"Err\(e\) => Err\(|Err\(_\) => (0|false)\b|Word::End",
    ]),
    ("3 loops that count an index", [
        r"\bfor [^ ]+ in [^{]*\.\.[^{]*\{$",
        r"\bwhile\b.*\{$|\bloop \{$",
    ]),
    ("4 equality, conversion and printing by hand", [
        r"as u8 == |\.number\(\) == ",
        r"\bfn (text|channels|numbered|word_of|pack|unpack|is_like|number|sentence|stands_under|told|done)\b",
        r"\bimpl .*\b(PartialEq|Eq|PartialOrd|Ord|Clone|Copy|Debug) for ",
        r"16777216|65536",
    ]),
    ("6 arrays with a length, or beside one another; indices for references", [
        r"\[[A-Za-z0-9]+; [0-9]+\]",
        r"\bwords: &.*\bcells: &",
        r"\bcount: usize,$",
    ]),
    ("7 a switch on a step, tables of functions", [
        r"\bdyn |\bfn\(|\bBox<",
        r"\bmatch (self|call|request|rule|kind|step) \{$",
    ]),
]


def source(commit):
    """The lines of all sources, without comments and `ghost use`: (file, line's number, text)."""
    names = ["git", "grep", "-nE", ".", *commit, "--", "crates/*/src/*.rt"]
    for line in subprocess.run(names, capture_output=True, text=True, check=True).stdout.splitlines():
        if commit:
            line = line.partition(":")[2]
        name, number, text = line.split(":", 2)
        if not re.match(r"\s*(//|ghost use|use )", text):
            yield name, number, text


def report(heading, found, only_count):
    print(f"{heading}: {len(found)}")
    if not only_count:
        for line in found:
            print("    " + line)


def repeated(texts, least):
    counts = collections.Counter(texts)
    return [f"{n:3} {text}" for text, n in counts.most_common() if n >= least]


def main():
    words = sys.argv[1:]
    only_count = "-c" in words
    lines = list(source([w for w in words if w != "-c"]))
    for heading, patterns in POINTS:
        found = [f"{name}:{number}: {text.strip()}" for name, number, text in lines
                 if any(re.search(p, text) for p in patterns)]
        report(heading, found, only_count)
    functions = [m.group() for _, _, text in lines for m in [re.search(r"\bfn [a-z_0-9]+", text)] if m]
    report("2 names of functions that stand more than once", repeated(functions, 2), only_count)
    clauses = [text.strip() for _, _, text in lines if re.match(r"\s*(ensures|requires|ghost [a-z_]+:)", text)]
    report("5 clauses that stand three times or more", repeated(clauses, 3), only_count)


main()
