#!/usr/bin/env python3
"""Lists places in crates/*/src that today's forms of the language may make plainer, by the points of docs/DESIGN-PASS.md.

usage: python3 tools/count_places.py [POINT..]        at the top of a checkout; points 1 to 8, all if none is given

A line here is a place to look at, and not a verdict.
"""

import collections
import glob
import re
import sys

SOURCES = sorted(glob.glob("crates/*/src/**/*.rt", recursive=True))
TEXTS = {path: open(path, encoding="utf-8").read() for path in SOURCES}


def lines(pattern, but=None):
    """Each line of code that the pattern fits, as `path:number: text`."""
    found = []
    for path, text in TEXTS.items():
        for number, line in enumerate(text.split("\n"), 1):
            code = line.split("//")[0]
            if re.search(pattern, code) and not (but and re.search(but, code)):
                found.append(f"{path}:{number}: {line.strip()}")
    return found


def functions():
    """Each function as (path, name, parameters, clauses)."""
    for path, text in TEXTS.items():
        for m in re.finditer(r"fn (\w+)(?:<[^(]*?>)?\(([^)]*)\)(.*?)(?:\{\n|;\n|\{\})", text, re.S):
            parameters = [p.strip() for p in re.sub(r"\s+", " ", m[2]).split(",") if p.strip()]
            clauses = re.findall(r"(?:requires|ensures)(?: \w+)? \{ (.*?) \}(?=\s|$)", m[3], re.S)
            yield path, m[1], parameters, clauses


def flags_and_numbers():
    """Flags in structs, enums shaped as Option or Result, numbers for kinds and refusals."""
    return (lines(r"^\s*(pub(\(crate\))? )?\w+: bool,$")
            + lines(r"0x[0-9A-F]{2}( =>|,|\]|;)")
            + lines(r"=> \d+,$")
            + lines(r"\b(number|kind): u8\b"))


def twins():
    """Functions of one body but for names and types, in one crate; and names that stand in more than one place."""
    shapes = collections.defaultdict(list)
    for path, text in TEXTS.items():
        for m in re.finditer(r"fn (\w+)[^\n]*?(?:\n[^\n{]*?)*?\{\n(.*?)\n( *)\}\n", text, re.S):
            body = re.sub(r"//[^\n]*", "", m[2])
            shape = re.sub(r"\s+", " ", re.sub(r"\b[A-Za-z_]\w*\b|\b0x\w+|\b\d+\b", "w", body)).strip()
            if len(shape) >= 8:
                shapes[path.split("/")[1], shape].append(f"{path}: {m[1]}")
    return [" ~ ".join(places) for places in shapes.values() if len(places) > 1]


def index_loops():
    """Loops, and counters raised by hand."""
    return lines(r"^\s*(for|while|loop)\b") + lines(r"^\s*\w+ \+= ")


def written_by_hand():
    """Comparisons, conversions and printing with names of their own."""
    return lines(r"fn (is_same|is_before|eq|ne|lt|cmp|clone|new|row|from|of|shown|written|number|line)\b") + lines(r"Refusal \{$")


def said_again():
    """Clauses that stand in three or more functions of a crate, and parameters that travel together through three or more."""
    clauses, parameters = collections.defaultdict(set), collections.defaultdict(set)
    for path, name, taken, said in functions():
        crate = path.split("/")[1]
        for clause in said:
            clauses[crate, re.sub(r"\s+", " ", clause)].add(name)
        pairs = [p for p in taken if ":" in p]
        for i, a in enumerate(pairs):
            for b in pairs[i + 1:]:
                parameters[crate, a, b].add(name)
    return ([f"{crate}: clause {clause}: {', '.join(sorted(names))}" for (crate, clause), names in clauses.items() if len(names) >= 3]
            + [f"{crate}: ({a}, {b}): {', '.join(sorted(names))}" for (crate, a, b), names in parameters.items() if len(names) >= 3])


def buffers():
    """Fixed buffers, counts and indices beside tables, slices cut by a count."""
    return (lines(r"= \[0; ") + lines(r"^\s*(pub )?(at|count|used|rule|wish|alternative|frames|bytes|lengths|\w+_count): (usize|u16|u8|BookSize),$")
            + lines(r"\[[^\]]*\.\.[^\]]*\]", r"@ \.\.|\.\.=|derive"))


def switches():
    """A value that tells which step to run."""
    return lines(r"match \*?(kind|side|name)\b") + lines(r"\b(dyn|fn\()")


def proofs():
    """Answers in proof files."""
    found = []
    for path in sorted(glob.glob("crates/*/proofs/**/Answers.antt", recursive=True)):
        for m in re.finditer(r"^pub ([\w+'-]+) :", open(path, encoding="utf-8").read(), re.M):
            found.append(f"{path}: {m[1]}")
    return found


POINTS = [flags_and_numbers, twins, index_loops, written_by_hand, said_again, buffers, switches, proofs]


def main(chosen):
    for point in chosen or range(1, len(POINTS) + 1):
        found = POINTS[point - 1]()
        print(f"{point}. {POINTS[point - 1].__doc__.strip()} {len(found)}")
        if point != 8 or chosen:
            print("".join(f"   {line}\n" for line in found), end="")


main([int(word) for word in sys.argv[1:]])
