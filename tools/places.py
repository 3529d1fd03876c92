#!/usr/bin/env python3
"""Lists the places of docs/DESIGN-PASS.md's points in the crates' src/: python3 tools/places.py [DIR]"""
import pathlib
import re
import sys
from collections import defaultdict

top = pathlib.Path(sys.argv[1] if len(sys.argv) > 1 else ".")
files = sorted(p for p in top.glob("crates/*/src/**/*.rt") if "/out/" not in str(p))
WORD = re.compile(r"[A-Za-z_][A-Za-z_0-9]*|\d+|\S")
FN = re.compile(r"^( *)(?:pub(?:\(crate\))? )?(?:final )?fn (\w+)", re.M)


def name(path):
    parts = path.parts
    crate = parts[parts.index("crates") + 1]
    return f"{crate}/{path.name}"


def functions(path):
    """(name, signature, clauses, body) of each function with a body."""
    text = path.read_text()
    for m in FN.finditer(text):
        indent = m.group(1)
        end = text.find(f"\n{indent}}}\n", m.start())
        line_end = text.find("\n", m.start())
        if text[m.start():line_end].rstrip().endswith("}") or end < 0:
            end = line_end
        whole = text[m.start():end]
        clauses = re.findall(r"^\s+((?:requires|ensures)\b[^\n]*)", whole, re.M)
        brace = re.search(r"^ *\{$|\{$", whole, re.M)
        cut = min([whole.find(c) for c in clauses] + [brace.start() if brace else len(whole)])
        yield m.group(2), whole[:cut], clauses, whole[brace.end():] if brace else ""


def show(title, rows):
    print(f"{title}: {len(rows)}")
    for row in rows:
        print(f"    {row}")


def grep(pattern, keep=lambda line: True):
    rows = []
    for p in files:
        for i, line in enumerate(p.read_text().splitlines(), 1):
            if re.search(pattern, line) and keep(line):
                rows.append(f"{name(p)}:{i}: {line.strip()}")
    return rows


# 1. enums, numbers as errors, sentinels that a comment tells of, flags beside a value
show("1a enums", grep(r"^\s*(pub(\(crate\))? )?enum "))
show("1b a number as an error", grep(r"Result<.*, (usize|u32|u8|bool)>", lambda x: not x.strip().startswith("//")))
show("1c a value that stands for none", grep(r"^\s*//.*(; |, )(0|empty|the length|none|all of it) where|or 0\.$"))
show("1d a flag as a field", grep(r"^\s+(pub(\(crate\))? )?\w+: bool,", lambda x: True))

# 2. functions whose bodies have one shape: names and numbers are left out
shapes = defaultdict(list)
for p in files:
    if "tests" in name(p):
        continue
    for f, _, _, body in functions(p):
        tokens = WORD.findall(re.sub(r"//[^\n]*", "", body))
        if len(tokens) >= 12:
            shape = " ".join("a" if re.match(r"\w", t) and t not in ("if", "else", "match", "for", "while", "let", "return") else t for t in tokens)
            shapes[shape].append(f"{name(p)} {f}")
show("2 bodies of one shape", [", ".join(fs) for fs in shapes.values() if len(fs) > 1])

# 3. loops
show("3 while loops, and loops over numbers", grep(r"^\s*(while\b|for \w+ in [^{]*\.\.)"))
show("3 loops over elements", grep(r"^\s*for ", lambda x: ".." not in x))

# 4. implementations by hand, types without equality
show("4a implementations by hand of what can be derived or converted", grep(r"impl.* (From<|TryFrom<|Clone|Copy|PartialEq|Eq|PartialOrd|Ord|Default|fmt::Display|Display)\b.* for "))
bare = []
for p in files:
    text = p.read_text()
    for m in re.finditer(r"(#\[derive\(([^)]*)\)\]\n)?^(?:pub(?:\(crate\))? )?(struct|enum) (\w+)", text, re.M):
        if "PartialEq" not in (m.group(2) or ""):
            bare.append(f"{name(p)} {m.group(4)}: {m.group(2) or 'no derives'}")
show("4b types without derived equality", bare)

# 5. a clause that stands in three functions or more; parameters that stand together in three or more
clauses = defaultdict(list)
groups = defaultdict(list)
for p in files:
    for f, signature, cs, _ in functions(p):
        for c in cs:
            clauses[name(p).split("/")[0] + " " + re.sub(r"\s+", " ", c)].append(f)
        names = re.findall(r"(\w+): &?(?:mut )?[\w\[&(]", signature)
        names = [n for n in names if n not in ("self",)]
        for i in range(len(names)):
            for j in range(i + 3, len(names) + 1):
                groups[name(p).split("/")[0] + " " + ", ".join(sorted(names[i:j]))].append(f)
show("5a one clause in three functions or more", [f"{len(fs)} {c}" for c, fs in sorted(clauses.items()) if len(fs) > 2])
show("5b three parameters or more together in three functions or more", [f"{len(fs)} {g}" for g, fs in sorted(groups.items()) if len(fs) > 2])

# 6. a lent area with a number beside it
rows = []
for p in files:
    for m in re.finditer(r"struct (\w+)[^{;]*\{([^}]*)\}", p.read_text()):
        if re.search(r"&'\w+ (mut )?\[|\[\w+; ", m.group(2)) and re.search(r": usize", m.group(2)):
            rows.append(f"{name(p)} {m.group(1)}")
show("6 buffers with a number beside them", rows)

# 7. a match on what is to be done
show("7 matches on a syntax, a call or a kind", grep(r"match (\*?self\.)?(syntax|call|kind|completion|action|op|body)\b"))

# 8. proof files
answers = sorted(top.glob("crates/*/proofs/**/Answers.antt"))
lemmas = sorted(p for p in top.glob("crates/*/proofs/*.antt"))
print(f"8 answer files: {len(answers)}, {sum(len(p.read_text().splitlines()) for p in answers)} lines; lemma files: {len(lemmas)}, {sum(len(p.read_text().splitlines()) for p in lemmas)} lines")
