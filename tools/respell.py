#!/usr/bin/env python3
"""Brings the names of the repository's own definitions and lemmas to the spelling of today's Rattle.

usage: tools/respell.py [ROOT]

Words are in snake case and types in upper camel case; tools/respell.tsv has each name with its new spelling.
In specs/, proofs/ and the clauses of src/ and of must-fail edits a name of the table is replaced, comments of .rt and strings left alone.
In specs/ and the lemma files of proofs/ every other name with a dash that no `use` line takes from a library is local, and gets underscores too.
In the answers to goals only names of the table are replaced: the others there are made by the check.
A field behind a word and a dot, as in `laws.name-bound`, stays: such a name may be one that the check made.
"""

import os
import re
import sys

ROOT = sys.argv[1] if len(sys.argv) > 1 else "."
HERE = os.path.dirname(os.path.realpath(__file__))
NAME = re.compile(r"(?<![\w'.·-])(\.?)([A-Za-zℕ_][\w']*(?:-[\w'*]+)*)")


def table():
    with open(os.path.join(HERE, "respell.tsv"), encoding="utf-8") as f:
        return dict(line.rstrip("\n").split("\t") for line in f)


def imported(text):
    """The names that `use` lines take from a library."""
    names = set()
    for m in re.finditer(r"(?m)^ *(?:ghost )?(?:pub )?use ([^\s{]+)(?:\{([^}]*)\})?", text):
        if m[1].startswith("Rattle.") and not re.match(r"Rattle\.(core|std|std_\w+|libc|io|os)\.", m[1]):
            continue
        for part in (m[2] or m[1].rsplit(".", 1)[-1]).split(","):
            names.add(part.split(" as ")[0].strip())
    return names


def respell(text, names, locals_too, kept):
    def one(m):
        dot, name = m[1], m[2]
        if name in kept and not dot:
            return m[0]
        if name in names:
            return dot + names[name]
        if locals_too and not dot and "-" in name:
            return name.replace("-", "_")
        return m[0]

    return NAME.sub(one, text)


def split_comment(line, mark):
    at = line.find(mark)
    return (line, "") if at < 0 else (line[:at], line[at:])


def turn_antt(text, names, locals_too):
    kept = imported(text)
    out = []
    for line in text.split("\n"):
        code, comment = split_comment(line, "--")
        out.append(respell(code, names, locals_too, kept) + comment)
    return "\n".join(out)


def turn_rt(text, names):
    kept = imported(text)
    out = []
    for line in text.split("\n"):
        code, comment = split_comment(line, "//")
        parts = re.split(r'(b?"(?:[^"\\]|\\.)*")', code)
        parts[::2] = [respell(p, names, False, kept) for p in parts[::2]]
        out.append("".join(parts) + comment)
    return "\n".join(out)


def turn(path, names):
    with open(path, encoding="utf-8") as f:
        text = f.read()
    if path.endswith(".antt"):
        answers = re.search(r"/proofs/.*/(Answers|Invariants|Proof)[^/]*\.antt$", path)
        new = turn_antt(text, names, not answers)
    else:
        new = turn_rt(text, names)
    if new != text:
        with open(path, "w", encoding="utf-8") as f:
            f.write(new)
        return True
    return False


def main():
    names = table()
    turned = 0
    for folder, dirs, files in os.walk(os.path.join(ROOT, "crates")):
        dirs[:] = [d for d in dirs if d != "out"]
        for name in sorted(files):
            if name.endswith((".antt", ".rt", ".edit")):
                turned += turn(os.path.join(folder, name), names)
    print(f"respell: {turned} files turned")


main()
