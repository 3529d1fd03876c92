#!/usr/bin/env python3
"""Makes session scripts (docs/SCRIPTS.md).

    python3 tools/make_scripts.py short LENGTH      every text of up to that length over `$ { } A C : - ? +` and newline, in each syntax
    python3 tools/make_scripts.py nested SEED N     N sessions of nested texts at random: every syntax, tight and ample limits, scopes, redactions
    python3 tools/make_scripts.py sample            the sample that the program `replay` runs
"""
import itertools
import random
import sys

LETTERS = "${}AC:-?+\n"
SYNTAXES = ("braced", "bare", "compose")
MANY = 2**64 - 1


def word(text):
    return text.encode().hex() or "-"


def block(entries):
    return "source block " + "".join(f"{n}={v}\0" for n, v in entries).encode().hex()


def short_texts(length):
    for n in range(length + 1):
        for letters in itertools.product(LETTERS, repeat=n):
            yield "".join(letters)


def short(length):
    yield block([("C", "12"), ("AC", "")])
    yield "memory 64 4 4 64"
    for syntax in SYNTAXES:
        yield f"session {syntax} 8 {MANY}"
        for text in short_texts(length):
            yield f"value {word(text)}"


NAMES = ["A", "C", "E", "_a1", "LIMIT", "ſ", "Kk", "é"]
PLAIN = ["", "a", "12", " ", "x}", "{", "é", "\n", "$", "$$", "$C", "$LIMIT1", "cell 12", ":", "ababa"]
OPERATORS = ["", "-", ":-", "+", ":+", "?", ":?", "!", ":"]


def text(rng, depth):
    parts = []
    for _ in range(rng.randint(0, 3)):
        if depth and rng.random() < 0.6:
            operator = rng.choice(OPERATORS)
            inner = text(rng, depth - 1) if operator or rng.random() < 0.1 else ""
            close = "}" if rng.random() < 0.93 else ""
            parts.append("${" + rng.choice(NAMES) + operator + inner + close)
        else:
            parts.append(rng.choice(PLAIN))
    return "".join(parts)


def calls(rng, made):
    kind = rng.choice(["key", "value", "value", "value", "message", "dynamic", "identifier"])
    if kind in ("key", "value"):
        made.append(text(rng, rng.randint(0, 4)))
        return f"{kind} {word(made[-1])}"
    shown = rng.choice(["12", "cell 12 bad", "12 12", "s0l${LIMIT}ar", text(rng, 2)] + made[-3:])
    return f"message {word(shown)}" if kind == "message" else f"{kind} {word(shown)} {word(rng.choice(['', '?', 'redacted']))}"


def nested(seed, n):
    rng = random.Random(seed)
    yield "memory 65536 1700 512 65536"
    for _ in range(n):
        values = ["", "12", "a", "s0l${LIMIT}ar", "$C", "}", "12 12", "é"]
        yield block([(name, rng.choice(values)) for name in NAMES if rng.random() < 0.6])
        depth = rng.choice([0, 1, 2, 3, 8, MANY])
        work = rng.choice([rng.randint(0, 60), rng.randint(0, 400), MANY, MANY])
        yield f"session {rng.choice(SYNTAXES)} {depth} {work}"
        made, scopes = [], 0
        for _ in range(rng.randint(1, 10)):
            turn = rng.random()
            if turn < 0.2:
                scopes += 1
                yield "open"
            elif turn < 0.3 and scopes:
                scopes -= 1
                yield "end"
            yield calls(rng, made)
        for _ in range(scopes):
            yield "end"


def sample():
    yield "# every text of up to two bytes"
    yield from short(2)
    yield "# nested texts at random, with scopes and redactions"
    yield from nested(2026, 250)


def main(words):
    kind, *rest = words or ["sample"]
    make = {"short": short, "nested": nested, "sample": sample}[kind]
    for line in make(*map(int, rest)):
        print(line)


main(sys.argv[1:])
