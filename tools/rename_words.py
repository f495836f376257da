#!/usr/bin/env python3
"""Spells this repository's own definitions and lemmas as today's Rattle does: words in snake case, a prime as an apostrophe.

usage: python3 tools/rename_words.py        at the top of a checkout on which port.py has been run, once

A name of ours is one with a signature, or bound by a `let`, in specs/ or proofs/; the names of goals and of steps, which Rattle
makes (`c.f-x.result`, `loop-x-preserved`), keep their dashes. Where a lemma would fall together with the definition that it
speaks of, the lemma gets `_lem`.
"""

import os
import re

WORD = r"[^\s(){}\[\];,.:λ⟨⟩]"
SIGNATURE = re.compile(r"^\s*(?:(?:abbrev pub|pub abbrev|abbrev|unfoldable pub|unfoldable|pub data|pub record|data|record|pub) +)?(" + WORD + r"+(?: +" + WORD + r"+)*) :(?: |$)(.*)")
LET = re.compile(r"let (" + WORD + r"+) (?::|=)")
LAMBDA = re.compile(r"λ ((?:" + WORD + r"+ ?)+)\.")
MADE = re.compile(r"(goal|given|need)\.")
# bound by a pattern
PARTS = "fit-wishes made-wishes fit-rules made-rules fit-alternatives made-alternatives h-is h-makes length-is".split()
# lemmas that would fall together with a definition, and a local fact
LEMMAS = {
    "set-bytes": "set_bytes_lem",
    "condition-bytes": "condition_bytes_lem",
    "frame-bytes": "frame_bytes_lem",
    "wish-in": "wish_in_lem",
    "alternative-in": "alternative_in_lem",
    "book-frames": "book_frames_lem",
    "in-book": "in_book_lem",
    "first-bad": "first_bad_lem",
    "in-range": "in_range_lem",
    "row_count": "row_count_lem",
    "All-owned": "AllOwned",
}


def snake(name):
    name = name.replace("′", "'")
    if name[:1].isupper():
        return name
    return re.sub(r"([a-z0-9])([A-Z])", lambda m: m.group(1) + "_" + m.group(2).lower(), name).replace("-", "_")


def sources():
    for folder, dirs, files in os.walk("crates"):
        dirs[:] = sorted(d for d in dirs if d not in ("out", "must-fail"))
        for f in sorted(files):
            if f.endswith((".antt", ".rt")):
                yield os.path.join(folder, f)


def read(path):
    with open(path, encoding="utf-8") as f:
        return f.read()


def names_of(text):
    """The names that a file of specs/ or proofs/ gives, without goals."""
    ours, made = set(), set()
    for line in text.split("\n"):
        m = SIGNATURE.match(line)
        if m:
            (made if MADE.match(m.group(2)) else ours).update(m.group(1).split())
        ours.update(LET.findall(line))
        for words in LAMBDA.findall(line):
            ours.update(words.split())
    return ours, made


def main():
    ours, made = set(), set()
    for path in sources():
        if path.endswith(".antt"):
            a, b = names_of(read(path))
            ours |= a
            made |= b
    plan = {n: snake(n) for n in ours - made if snake(n) != n and re.match(r"[A-Za-z]", n)}
    plan.update({n: snake(n) for n in PARTS})
    plan.update(LEMMAS)
    word = re.compile(r"(?<![\w'′-])(?<!\bc\.)(" + "|".join(sorted((re.escape(n) for n in plan), key=len, reverse=True)) + r")(?![\w'′+-])")
    for path in sources():
        old = read(path)
        new = word.sub(lambda m: plan[m.group(1)], old)
        if new != old:
            with open(path, "w", encoding="utf-8") as f:
                f.write(new)
    print(f"{len(plan)} names")


main()
