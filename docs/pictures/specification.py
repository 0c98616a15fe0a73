#!/usr/bin/env python3
"""Draws the pictures of docs/SPECIFICATION.md: nets as program `shares` lists them, points as the
evaluator answers them.

    python3 docs/pictures/specification.py            writes docs/pictures/specification-*.svg
    python3 docs/pictures/specification.py --check    says whether they are current, whether the page's
                                                      example is the evaluator's (example.py), and whether
                                                      README.md quotes what is printed

Run after `rt run </dev/null` in crates/shares, and `cargo build --release --offline` in evaluator/.
"""
import itertools
import subprocess
import sys
from pathlib import Path

from example import CORRECTIONS, DIVISOR, GAP, POINT, ROOT, SHAPE, SIZES, answered, not_said, written

HERE = Path(__file__).resolve().parent
SHARES = ROOT / "crates/shares/out/shares"

INK, RULE, FRAME, PLAIN, MARKED = "#1a1a1a", "#1f5fa8", "#8a8a8a", "#ffffff", "#ffd27f"


def svg(width, height, lines):
    """A picture on a ground of its own, so that it reads on light and dark pages."""
    size = f'width="{width}" height="{height}"'
    head = f'<svg xmlns="http://www.w3.org/2000/svg" {size} font-family="sans-serif">'
    ground = f'<rect {size} rx="8" fill="#fafafa"/>'
    return "\n".join([head, ground, *lines, "</svg>", ""])


def text(x, y, words, anchor="start", size=13):
    return f'<text x="{x:g}" y="{y:g}" text-anchor="{anchor}" font-size="{size}" fill="{INK}">{words}</text>'


def cell(x, y, side, marked, *words):
    """A square with words below each other in its middle."""
    fill = MARKED if marked else PLAIN
    square = f'<rect x="{x}" y="{y}" width="{side}" height="{side}" fill="{fill}" stroke="{FRAME}"/>'
    first = y + side / 2 + 5 - 8 * (len(words) - 1)
    return [square] + [text(x + side / 2, first + 17 * i, word, "middle") for i, word in enumerate(words)]


# ---- nets


def printed(order):
    return subprocess.run([SHARES], input=order, capture_output=True, text=True, check=True).stdout


def listed(order):
    """The box of the net that an order builds, and its numbers that are not 0."""
    head, *lines = printed(order).splitlines()
    numbers = [list(map(int, line.split())) for line in lines]
    return list(map(int, head.split()[1:4])), {tuple(n[:3]): n[3] for n in numbers}


def layers(order, title, top):
    """A net by its layers z, from a height on; where the lines end, and how wide they are."""
    (w1, w2, w3), numbers = listed(order)
    side, gap = 24, 18
    lines, left = [text(gap, top + 14, title, size=15)], gap
    for z in range(w3):
        lines.append(text(left, top + 38, f"z = {z}"))
        for y, x in itertools.product(range(w2), range(w1)):
            number = numbers.get((x, y, z), 0)
            lines += cell(left + x * side, top + 46 + (w2 - 1 - y) * side, side, number != 0, number)
        left += w1 * side + gap
    return lines, top + 46 + w2 * side, left


def nets_picture():
    before, middle, _ = layers("", "the simple net, multiplicities 1, 1, 1, 1: box 3, 3, 3", 12)
    title = "with one repeat of direction 1, multiplicities 2, 1, 1, 1: box 7, 5, 5"
    after, bottom, width = layers("1", title, middle + 28)
    return svg(width, bottom + 36, before + after + [text(18, bottom + 24, "x to the right, y upwards")])


# ---- points


def counted(j):
    """How much entry j counts at the example's point: N where it alone is 1."""
    word, numerator, _, _ = answered(SHAPE, SIZES, {j: 1}, POINT, DIVISOR)
    assert word == "answer"
    return int(numerator)


def in_window(j):
    extents = [SHAPE[b] + SHAPE[3] for b in range(3)]
    return all(x // DIVISOR - e < i <= x // DIVISOR for i, e, x in zip(j, extents, POINT))


def window_picture():
    _, _, _, whole = answered(SHAPE, SIZES, CORRECTIONS, POINT, DIVISOR)
    (n1, n2, n3), side, gap = SIZES, 62, 30
    title = f"correction of each entry, and how much it counts at the point {POINT} over {DIVISOR}"
    lines = [text(gap, 26, title)]
    for j3 in range(n3):
        left = gap + j3 * (n1 * side + gap)
        lines.append(text(left, 54, f"j3 = {j3}"))
        for j2, j1 in itertools.product(range(n2), range(n1)):
            j = (j1, j2, j3)
            correction = CORRECTIONS.get(j, 0)
            words = ["gap" if correction == GAP else written(correction)]
            words += [f"{counted(j)}/{whole}"] if in_window(j) else []
            lines += cell(left + j1 * side, 64 + (n2 - 1 - j2) * side, side, in_window(j), *words)
    bottom = 64 + n2 * side + 24
    legend = "j1 to the right, j2 upwards; shaded: the window, from (0,0,0) to (2,1,1)"
    lines.append(text(gap, bottom, legend))
    return svg(n3 * (n1 * side + gap) + gap, bottom + 16, lines)


# ---- tetrahedra

CUBE = list(itertools.product((0, 1), repeat=3))

# where the words of a corner stand beside it, clear of the lines
BESIDE = {place: (7, -5, "start") for place in CUBE}
BESIDE |= {(0, 0, 0): (-7, 14, "end"), (0, 0, 1): (-7, 14, "end")}
BESIDE |= {(0, 1, 0): (-6, -6, "end"), (0, 1, 1): (-6, -6, "end")}
BESIDE |= {(1, 0, 0): (0, 18, "middle"), (1, 0, 1): (8, 17, "start")}


def corners(remainders):
    """The corners of a point's tetrahedron. At degree 3 each corner of the cell has an inner place of its
    own, a third of the way to the opposite corner; a wrong number there is refused by 23 where that place is
    one of the tetrahedron's, and then so is the corner."""
    sizes, wrong = (3, 3, 2), 7
    point = [4 * (n - 1) + u for n, u in zip(sizes, remainders)]
    found = []
    for x, y, z in CUBE:
        place = (x + 1) + 10 * ((y + 1) + 10 * (z + 1))
        words = answered((2, 2, 1, 1), sizes, {}, point, 4, f"{place}={wrong}")
        if words[:2] == ["refused", "23"]:
            found.append((x, y, z))
    return sorted(found, key=sum)


def tetrahedron(order, left, top):
    remainders = [3 - order.index(axis) for axis in (1, 2, 3)]

    def at(place):
        x, y, z = place
        return left + 20 + 110 * x + 52 * y, top + 160 - 36 * y - 110 * z

    def line(a, b, style):
        (x1, y1), (x2, y2) = at(a), at(b)
        return f'<line x1="{x1}" y1="{y1}" x2="{x2}" y2="{y2}" {style}/>'

    found = corners(remainders)
    edges = [(a, b) for a, b in itertools.combinations(CUBE, 2) if sum(i != j for i, j in zip(a, b)) == 1]
    lines = [line(a, b, f'stroke="{FRAME}" stroke-dasharray="3 3"') for a, b in edges]
    for face in itertools.combinations(found, 3):
        points = " ".join(f"{x},{y}" for x, y in map(at, face))
        lines.append(f'<polygon points="{points}" fill="{MARKED}" fill-opacity="0.35"/>')
    lines += [line(a, b, f'stroke="{RULE}" stroke-width="1"') for a, b in itertools.combinations(found, 2)]
    lines += [line(a, b, f'stroke="{RULE}" stroke-width="3"') for a, b in zip(found, found[1:])]
    for i, corner in enumerate(found):
        x, y = at(corner)
        dx, dy, anchor = BESIDE[corner]
        lines.append(f'<circle cx="{x}" cy="{y}" r="4" fill="{RULE}"/>')
        lines.append(text(x + dx, y + dy, f"L{i}", anchor))
    p, r, s = order
    lines.append(text(left + 96, top + 204, f"u{p} ≥ u{r} ≥ u{s}: axis order {p}, {r}, {s}", "middle"))
    return lines


def tetrahedra_picture():
    axes = "axis 1 to the right, axis 2 to the back, axis 3 upwards"
    lines = [text(20, 28, f"{axes}; the thick line steps along p, then r, then s")]
    for i, order in enumerate(itertools.permutations((1, 2, 3))):
        lines += tetrahedron(order, 24 + 232 * (i % 3), 44 + 230 * (i // 3))
    return svg(712, 500, lines)


# ---- all


def pictures():
    yield HERE / "specification-nets.svg", nets_picture()
    yield HERE / "specification-window.svg", window_picture()
    yield HERE / "specification-tetrahedra.svg", tetrahedra_picture()


def readme_quotes():
    """Whether README.md has the prints of `shares` and of the examples, indented."""
    readme = (ROOT / "README.md").read_text()
    prints = [printed("1\n"), (ROOT / "examples/expected").read_text()]
    return all("".join(f"    {line}\n" for line in text.splitlines()) in readme for text in prints)


def main():
    if sys.argv[1:] != ["--check"]:
        for path, drawn in pictures():
            path.write_text(drawn)
        return
    stale = [path.name for path, drawn in pictures() if not path.exists() or path.read_text() != drawn]
    stale += [f"the example of the page, which does not say {words}" for words in not_said()]
    if not readme_quotes():
        stale.append("what README.md quotes")
    if stale:
        sys.exit("not current: " + ", ".join(stale))
    print("pictures, example and quotes are current")


main()
