#!/usr/bin/env python3
"""Makes the pictures of docs/HOW-A-FIGURE-COMES-ABOUT.md: those of the pages that `explain` writes, and one
of a table with its origin, which is drawn here from what `explain` prints.

    python3 docs/pictures/make.py            writes them
    python3 docs/pictures/make.py --check    says whether they are current

Build the program first: `tools/explain/run --help`.
"""
import re
import subprocess
import sys
import tempfile
from pathlib import Path

HERE = Path(__file__).resolve().parent
ROOT = HERE.parents[1]
PROGRAM = ROOT / "target/tools/explain"
FIELD = ROOT / "examples/table.field"
MOVED = ROOT / "examples/about-the-middle.field"

# Of each point: the net as `explain` takes it, the point over 10, and which of its page's pictures are shown.
POINTS = {
    "middle": ("1", (34, 23, 26), {"tetrahedron": "cell", "window": "layers1"}),
    "far-face": ("1", (60, 49, 39), {"tetrahedron": "cell", "window": "layers1"}),
    "factory": ("factory", (34, 23, 26), {"window": "layers1"}),
    "gap": ("factory", (24, 45, 26), {"window": "layers1"}),
}
MOVED_POINT = (-6, -7, -4)  # over 10, in the factory shape


def printed(*words):
    ran = subprocess.run([PROGRAM, *map(str, words)], capture_output=True, text=True)
    return ran.stdout


# ---- the table with its origin

SIDE = 70  # of a cell
LEFT, TOP, RIGHT, BELOW = 172, 84, 64, 120  # the room around the table


def numbers(text, pattern):
    """The numbers of the line that begins so."""
    [line] = re.findall(rf"(?m)^  {pattern}.*$", text)
    return re.findall(r"-?[\d.]*\d", line)


class Plan:
    """The table from above, axis 1 to the right and axis 2 upwards, drawn by positions."""

    def __init__(self, sizes, origin):
        self.sizes, self.origin, self.elements = sizes, origin, []
        self.width, self.height = LEFT + SIDE * sizes[0] + RIGHT, TOP + SIDE * sizes[1] + BELOW
        self.bottom = TOP + SIDE * sizes[1]

    def at(self, x, y):
        return LEFT + SIDE * (x - self.origin[0]), self.bottom - SIDE * (y - self.origin[1])

    def line(self, kind, x1, y1, x2, y2):
        self.elements.append(f'<line class="{kind}" x1="{x1:g}" y1="{y1:g}" x2="{x2:g}" y2="{y2:g}"/>')

    def dot(self, kind, x, y, radius):
        self.elements.append(f'<circle class="{kind}" cx="{x:g}" cy="{y:g}" r="{radius}"/>')

    def text(self, kind, anchor, x, y, words):
        place = f'class="{kind}" text-anchor="{anchor}" x="{x:g}" y="{y:g}"'
        self.elements.append(f"<text {place}>{str(words).replace('-', '−')}</text>")

    def shaded(self, low, high):
        (x, bottom), (right, y) = self.at(*low), self.at(*high)
        frame = f'x="{x:g}" y="{y:g}" width="{right - x:g}" height="{bottom - y:g}"'
        self.elements.append(f'<rect class="shade" {frame} fill-opacity="0.30"/>')

    def grid(self):
        """The cells, with the positions below and at the left, and their numbers above and at the right; the
        lines of the position 0 are thick."""
        (left, bottom), (n1, n2) = self.at(*self.origin), self.sizes
        right, top = left + SIDE * n1, bottom - SIDE * n2
        for i in range(n1 + 1):
            x, position = left + SIDE * i, self.origin[0] + i
            self.line("edge" if position else "cell", x, bottom, x, top)
            self.text("" if position else "strong", "middle", x, bottom + 18, position)
        for i in range(n2 + 1):
            y, position = bottom - SIDE * i, self.origin[1] + i
            self.line("edge" if position else "cell", left, y, right, y)
            self.text("" if position else "strong", "end", left - 8, y + 5, position)
        for i in range(n1):
            self.text("small", "middle", left + SIDE * (i + 0.5), top - 8, i)
        for i in range(n2):
            self.text("small", "start", right + 8, bottom - SIDE * (i + 0.5) + 4, i)

    def measured(self, point, read):
        """The point, and how far it is from the origin on both axes."""
        (left, bottom), (x, y) = self.at(*self.origin), self.at(*map(float, point))
        self.line("drop", x, y, x, bottom + 38)
        self.line("drop", x, y, left - 48, y)
        self.line("blue", left, bottom + 34, x, bottom + 34)
        self.line("blue", left - 44, bottom, left - 44, y)
        less = [f"{p} - ({o})" for p, o in zip(point, self.origin)]
        self.text("strong", "middle", (left + x) / 2, bottom + 54, f"{less[0]} = {read[0]}")
        self.text("strong", "end", left - 54, (bottom + y) / 2 - 4, less[1])
        self.text("strong", "end", left - 54, (bottom + y) / 2 + 14, f"= {read[1]}")
        self.dot("corner", left, bottom, 4.5)
        self.text("", "start", left + 9, bottom - 10, "origin")
        self.dot("point", x, y, 6)
        self.text("", "start", x - 14, y - 14, "point")

    def finished(self, style, name):
        size = f'width="{self.width}" height="{self.height}"'
        box = f'viewBox="0 0 {self.width} {self.height}" role="img" aria-label="{name}"'
        head = f'<svg xmlns="http://www.w3.org/2000/svg" id="origin" class="explain" {size} {box}>'
        ground = f'<rect class="paper" x="0" y="0" {size}/>'
        return "\n".join([head, style, ground, *self.elements, "</svg>", ""])


def origin_picture(style):
    """What `explain` prints of the table about its middle: sizes, origin, what is inside, and the point."""
    told = printed(MOVED, "factory", *MOVED_POINT, 10)
    inside = printed(MOVED, "factory", "--refused", 12, 0)
    sizes, origin = (list(map(int, numbers(told, word)[:2])) for word in ("sizes", "origin"))
    ends = [list(map(int, numbers(inside, f"axis {axis}: inside")[1:3])) for axis in (1, 2)]
    point, read = numbers(told, ".* over 10: position")[4:6], numbers(told, "the origin")[-3:-1]
    plan = Plan(sizes, origin)
    plan.shaded(*zip(*ends))
    plan.grid()
    plan.measured(point, read)
    (low1, high1), (low2, high2) = ends
    plan.text("", "start", 16, 24, "axis 1 to the right, axis 2 upwards; positions below and at the left")
    plan.text("", "start", 16, 44, "the small numbers are the cells, counted from the origin")
    plan.text("", "start", 16, plan.height - 36, "thick lines: the machine's zero")
    legend = f"shaded: inside in the factory shape, {low1} to {high1} on axis 1, {low2} to {high2} on axis 2"
    plan.text("", "start", 16, plan.height - 16, legend)
    return plan.finished(style, "the table about its middle, with its origin and the point")


# ---- all


def pictures():
    with tempfile.TemporaryDirectory() as folder:
        page = Path(folder) / "page.html"
        for name, (net, point, shown) in POINTS.items():
            printed(FIELD, net, *point, 10, "--page", page)
            drawn = dict(re.findall(r'(?s)(?=<svg [^>]*id="(\w+)")(<svg .*?</svg>\n)', page.read_text()))
            for kind, id in shown.items():
                yield HERE / f"{name}-{kind}.svg", drawn[id]
    # the colours of the pages, light and dark
    [style] = re.findall(r"(?s)<style>.*?</style>", drawn["layers1"])
    yield HERE / "origin.svg", origin_picture(style)


def main():
    made = dict(pictures())
    if sys.argv[1:] != ["--check"]:
        for path, svg in made.items():
            path.write_text(svg)
        return
    stale = [path.name for path, svg in made.items() if not path.exists() or path.read_text() != svg]
    if stale:
        sys.exit("not current: " + ", ".join(stale))
    print("the pictures are current")


main()
