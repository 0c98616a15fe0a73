#!/usr/bin/env python3
"""Holds docs/BUILDER-BESIDE-THE-ARTICLE.md, and the example of a repeat's halves in docs/SPECIFICATION.md, to
what is printed: the page's command to the program, its matrix to the article's, its tables of differences to
the step rule and to the evaluator's net, its table of functions to the code.

Run in the repository, after `rt run </dev/null` in crates/shares and `cargo build --release --offline` in evaluator/.
"""
import re
import subprocess
import sys
from itertools import accumulate
from pathlib import Path

sys.path.append(str(Path(__file__).resolve().parents[1]))
from evaluator import ROOT, net, widths

PAGE = ROOT / "docs/BUILDER-BESIDE-THE-ARTICLE.md"
SPECIFICATION = ROOT / "docs/SPECIFICATION.md"
SHAPE, M = (2, 1, 1, 1), 2
# The matrix of 2, 1, 1 as the article prints it, with 1/2 before it: z from the largest, then x.
MATRIX = [
    (0, 0, 0, 0, 0, 0, 0),
    (0, 0, 0, 1, 1, 0, 0),
    (0, 0, 1, 2, 1, 0, 0),
    (0, 0, 1, 1, 0, 0, 0),
    (0, 0, 0, 0, 0, 0, 0),
]

# Tetrahedra 1 and 5 of the article by their corners in its order, for both axis orders that each can have.
TETRAHEDRA = [
    [[(0, 0, 0), (1, 0, 0), (1, 1, 0), (1, 1, 1)], [(0, 0, 0), (1, 0, 0), (1, 0, 1), (1, 1, 1)]],
    [[(0, 1, 1), (1, 1, 1), (0, 1, 0), (0, 0, 0)], [(0, 1, 1), (1, 1, 1), (0, 0, 1), (0, 0, 0)]],
]


def same(what, found, right):
    if found != right:
        sys.exit(f"{PAGE.name}, {what}: {found}, not {right}")


def numbers(text):
    return tuple(map(int, re.findall(r"-?\d+", text.replace("−", "-"))))


def rows(text, first):
    """The rows of tables whose first cell is of this form, as lists of cells."""
    found = re.findall(rf"^\| ({first}) \| (.*) \|$", text, re.M)
    return [[cell, *rest.split(" | ")] for cell, rest in found]


def check_command(text):
    """The page's one command prints the lines below it."""
    [box] = re.findall(r"(?:^    .*\n)+", text, re.M)
    command, *lines = [line[4:] for line in box.splitlines()]
    same("the command begins", command[:2], "$ ")
    ran = subprocess.run(command[2:], shell=True, cwd=ROOT, capture_output=True, text=True, check=True)
    same(command, lines, ran.stdout.splitlines())


def check_matrix(text):
    """The matrix is the article's, and the plane y = 2 of the net, row and column as the page says."""
    w1, w2, w3 = widths(SHAPE)
    for x, z in ((x, z) for x in range(w1) for z in range(w3)):
        same(f"({x}, 2, {z})", net(SHAPE)[x + w1 * (2 + w2 * z)], MATRIX[w3 - z - 1][x])
    table = rows(text, r"z = \d")
    same("z of the matrix", [numbers(row[0]) for row in table], [(z,) for z in reversed(range(w3))])
    same("the matrix", [tuple(map(int, row[1:])) for row in table], MATRIX)


def rule(q):
    """Cell, remainder, lowered remainder and place of q at degree 2 and direction 1, and the two numbers of
    the simple net whose difference is the right side."""
    k, u = [c // M for c in q], [c % M for c in q]
    w = [c - (c > u[0]) for c in u]
    near = [(M - 1) * a + b for a, b in zip(k, w)]
    far = [near[0] - (M - 1), *near[1:]]
    return k, u, w, near, int(near == [1, 1, 1]), int(far == [1, 1, 1])


def line(y, z):
    """The differences on a line of direction 1, and their sums, which are the net's numbers."""
    w1, w2, _ = widths(SHAPE)
    found = [rule((x - 1, y, z)) for x in range(w1)]
    differences = [near - far for *_, near, far in found]
    sums = list(accumulate(differences))
    start = w1 * (y + w2 * z)
    same(f"sums at y = {y}, z = {z}", sums, net(SHAPE)[start : start + w1])
    return differences, sums


def check_line(text):
    differences, sums = line(1, 1)
    table = rows(text, r"\(\d,1,1\)")
    same("places of the line", [numbers(row[0]) for row in table], [(x, 1, 1) for x in range(len(sums))])
    for (q, before, parts, lowered, near, far, difference, sum_), right in zip(table, zip(differences, sums)):
        x, y, z = numbers(q)
        same(f"q − d of {q}", numbers(before), (x - 1, y, z))
        k, u, w, place, *both = rule(numbers(before))
        same(f"k, u, w of {q}", numbers(parts), (*k, *u, *w))
        same(f"L of {q}", numbers(lowered), tuple(place))
        same(f"numbers of {q}", [int(near), int(far)], both)
        same(f"difference and sum of {q}", numbers(difference) + numbers(sum_), right)


def told(places):
    """Places as the page writes them, each once."""
    return " or ".join(dict.fromkeys("({},{},{})".format(*place) for place in places))


def check_example(text):
    """Equation 15: where each line's coefficients stand, by the corners of the tetrahedra."""
    units = [tuple(int(a == b) for a in range(4)) for b in range(4)]
    table = rows(text, r"\d, \d, \d, \d")
    same("rows of equation 15", [numbers(row[0]) for row in table], units)
    for unit, (_, *cells) in zip(units, table):
        right = []
        for tetrahedron in TETRAHEDRA:
            lower = [[sum(n * c[b] for n, c in zip(unit, corners)) for b in range(3)]
                     for corners in tetrahedron]
            places = [[a + b for a, b in zip(low, corners[0])] for low, corners in zip(lower, tetrahedron)]
            same(f"L of {places}", [rule(place)[3] for place in places], lower)
            right += [told(places), told(lower)]
        same(f"row {unit} of equation 15", cells, right)


def check_functions(text):
    """Every function of these crates, and no other, stands in the last table with its module."""
    table = text.split("## From the code to the article\n")[1]
    listed = set()
    for cell in re.findall(r"^\| (`.*?) \|", table, re.M):
        for path, names in re.findall(r"`([\w:]+)`:? ?((?:(?:, )?`\w+`(?!:))*)", cell):
            crate, *module = path.split("::")
            found = re.findall(r"`(\w+)`", names)
            if names.startswith(", ") or not names:
                *module, name = module
                found.append(name)
            listed |= {"::".join([crate, *module, name]) for name in found}
    written = set()
    for crate in ("words", "fitting", "orders", "cells", "differences", "edges", "summations", "net"):
        for source in sorted((ROOT / "crates" / crate / "src").glob("*.rt")):
            module = [] if source.stem == "lib" else [source.stem]
            names = re.findall(r"^(?:pub(?:\(crate\))? )?fn (\w+)", source.read_text(), re.M)
            written |= {"::".join([crate, *module, name]) for name in names}
    same("functions of the last table, and of the code", sorted(listed ^ written), [])


def check_specification():
    first, second = [", ".join(map(str, part)).replace("-", "−") for part in line(2, 2)]
    text = " ".join(SPECIFICATION.read_text().split())
    sentence = f"the first half writes {first}, and the second {second}."
    same(f"{SPECIFICATION.name} has '{sentence}'", sentence in text, True)


def main():
    text = PAGE.read_text()
    check_command(text)
    check_matrix(text)
    check_line(text)
    check_example(text)
    check_functions(text)
    check_specification()
    print("docs/BUILDER-BESIDE-THE-ARTICLE.md: its print and tables are current")


main()
