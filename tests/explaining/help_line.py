"""Holds docs/HOW-A-FIGURE-COMES-ABOUT.md to what `explain` prints: its boxes line by line and in order, the
numbers and sums of its prose, its table of a step, and its lists of refusals."""
import itertools
import math
import re
import shlex
import struct
import xml.etree.ElementTree as ElementTree
from fractions import Fraction

from evaluator import ROOT, net, prints, widths
from explaining.scene import FACTORY, LARGEST, LARGEST_LIVE
from explaining.pictures import SVG, check_labels
from explaining.refusals import NUMBERS
from explaining.told import numbers, run, same, sections, stop

PAGE = ROOT / "docs/HOW-A-FIGURE-COMES-ABOUT.md"
FIELD = "examples/table.field"
MOVED, OLD = "examples/about-the-middle.field", "examples/without-origin.field"
FIELDS = FIELD, MOVED, OLD, "examples/uncertain-gaps.field"
ACTS = {"The fitter acts": "the fitter", "The surveyor acts": "the surveyor", "Firmware acts": "firmware"}
# Numbers in the lists of refusals that are no limits of the library: bytes of sizes and text, powers, places.
OTHERS = {0, 1, 2, 4, 6, 14, 37, 48, 49, 52, 2197}


def printed(command):
    """The lines that a command of the page prints."""
    program, *words = shlex.split(command)
    if program == "printf":
        return prints([words[0].replace("\\n", "\n").encode()])[0].splitlines()
    same(command, "command", (program, words[0] in FIELDS), ("tools/explain/run", True))
    text, _ = run(ROOT / words[0], *words[1:], status=None)
    return text.splitlines()


class Quotes:
    """What the page quotes: a box goes on in the print of the last command; `...` is for lines left out."""

    def __init__(self):
        self.lines, self.count, self.seen = [], 0, ""

    def box(self, lines):
        skip = True
        for line in lines:
            if line.startswith("$ "):
                self.lines, skip = printed(line[2:]), False
                self.seen += "\n".join(self.lines) + "\n"
            elif line == "...":
                skip = True
            else:
                self.line(line, skip)
                skip = False

    def line(self, line, skip):
        """The line must be the next one, or a later one."""
        if line not in self.lines or (not skip and self.lines[0] != line):
            stop("the help line's page", f"quotes {line!r}, which is not printed there")
        self.lines = self.lines[self.lines.index(line) + 1 :]
        self.count += 1


def parted(text):
    """The page as sections: heading, prose with tables, and boxes as lists of lines."""
    for section in re.split(r"(?m)^##+ ", text)[1:]:
        heading, body = section.split("\n", 1)
        prose, *rest = body.split("```\n")
        yield heading, prose + "".join(rest[1::2]), [box.splitlines() for box in rest[::2]]


def value(text):
    """A sum of products as it is written on the page."""
    text = re.sub(r"(\d+)!", lambda found: str(math.factorial(int(found[1]))), text)
    text = text.replace("×", "*").replace("−", "-").replace("^", "**").replace("/", "/1/")
    return eval(re.sub(r"\d+(\.\d+)?", lambda found: f"Fraction('{found[0]}')", text), {"Fraction": Fraction})


TERM = r"[−(]*\d[\d.]*[!)]*(?:\^\d+)?"
SIDE = rf"{TERM}(?: [×+−] {TERM})*"
EQUATION = re.compile(rf"{SIDE}(?: = {SIDE})+")


NUMBER = r"-?\d+(?:\.\d+)?"


def check_sums(prose):
    """Every equation of numbers or of places is true; the right sides of those of numbers."""
    prose = re.sub(r"\n(?![\n|])", " ", prose)
    for factor, a, b, c in re.findall(r"(\d) × \((.*?)\) \+ \((.*?)\) = \((.*?)\)", prose):
        right = [int(factor) * x + y for x, y in zip(numbers(a), numbers(b))]
        same("the help line's page", f"{factor} × ({a}) + ({b})", numbers(c), right)
    found = EQUATION.findall(re.sub(r"\(\d+(, \d+)+\)", "place", prose))
    found = [equation.rstrip(".,").split(" = ") for equation in found]
    for sides in found:
        same("the help line's page", " = ".join(sides), len({value(side) for side in sides}), 1)
    return [sides[-1] for sides in found]


def check_numbers(heading, prose, seen, sums):
    """Every number of the prose is one that was printed there or before, or that an equation comes to."""
    known = set(re.findall(NUMBER, seen + " ".join(sums).replace("−", "-")))
    text = re.sub(r"(?m)^\*\*\d\. |`[^`]*`|\]\([^)]*\)|^\|.*$", "", prose)
    # a minus between two numbers takes away; before one alone it is its sign
    text = re.sub(r"(?<=\d) − ", " ", text).replace("−", "-")
    found = set(re.findall(rf"(?<!\w){NUMBER}", text))
    same("the help line's page", f"numbers of '{heading}' that are not printed", sorted(found - known), [])


def rows(prose):
    """The cells of the tables' rows."""
    lines = re.findall(r"(?m)^\| (.*) \|$", prose)
    return [[cell.strip() for cell in line.split(" | ")] for line in lines]


def check_step(prose):
    """The step of direction 1 from the simple net, by the step rule."""
    table, m, old = (
        [[numbers(cell) for cell in row] for row in rows(prose) if len(row) == 6 and numbers(row[0])],
        2,
        {},
    )
    for new, back, quotients, remainders, place, [number] in table:
        case = f"the step at {new}"
        steps = len(old.setdefault(tuple(new), [])) + 1
        same(case, "step", back, [new[0] - steps, *new[1:]])
        same(case, "divided", (quotients, remainders), ([x // m for x in back], [x % m for x in back]))
        lowered = [(m - 1) * k + u - (u > remainders[0]) for k, u in zip(quotients, remainders)]
        same(case, "old place", place, lowered)
        same(case, "old number", number, net((1, 1, 1, 1))[place[0] + 3 * (place[1] + 3 * place[2])])
        old[tuple(new)].append(number)
    box, right = widths((2, 1, 1, 1)), net((2, 1, 1, 1))
    for (x, y, z), found in old.items():
        same("the step", "sum", (len(found), sum(found)), (m, right[x + box[0] * (y + box[1] * z)]))
    same("the step", "places", len(old), 2)


def check_refusals(by_heading):
    """Every number once, concerning whom `explain` says; checks and limits as the header has them."""
    told = {}
    header, limits = ((ROOT / f"include/torskavel{part}.h").read_text() for part in ("", "_limits"))
    limits = set(map(int, re.findall(r"(?m)^#define TORSKAVEL_MAX_\w+ (\d+)$", limits))) | OTHERS
    for heading, concerned in ACTS.items():
        for number, _call, why, to_do in (
            row for row in rows(by_heading[heading]) if row[0].isdigit() and len(row) == 4
        ):
            told[int(number)] = concerned
            same(f"refusal {number}", "limits", set(numbers(why + to_do)) - limits - {int(number), 3}, set())
    same("refusals", "numbers", sorted(told), NUMBERS)
    for (number, concerned), order in itertools.product(told.items(), ("132", FACTORY)):
        text, _ = run(ROOT / FIELD, order, "--refused", number, 0)
        same(
            f"refusal {number}", "concerned", f"  concerns {concerned}" in sections(text)[1]["Refused"], True
        )
    declared = re.findall(r"Refused by\s+([\d, \n*]*\d)", header)
    checks = [row[1] for row in rows(by_heading["When the unit refuses"]) if row[0] != "call"]
    same("checks", "order", [numbers(check) for check in checks], [numbers(check) for check in declared])
    check_divisors({row[0]: row[1:] for row in rows(by_heading["Firmware acts"])})


def check_divisors(table):
    """The largest divisors by degree, of the exact call and of the live call."""
    same("divisors", "degrees", table["degree"], [str(m) for m in range(1, 10)])
    for name, divisors, power in (("largest divisor", LARGEST, 48), ("in a live call", LARGEST_LIVE, 37)):
        same("divisors", name, table[name], list(map(str, divisors)))
        for m, divisor in enumerate(divisors, 1):
            fits = [d <= 4096 and math.factorial(m) * d**m <= 2**power for d in (divisor, divisor + 1)]
            same("divisors", f"{name} of degree {m}", fits, [True, False])


def check_origin(prose):
    """The picture has the positions that the origin gives the table, and what is read from it."""
    table, moved, old = ((ROOT / name).read_bytes() for name in (FIELD, MOVED, OLD))
    files = moved[:6] + bytes(6) + moved[12:], old[:6] + bytes(6) + old[6:]
    same("the examples", "but for the origin", files, (table, table))
    sizes, origin = struct.unpack_from("<2H", moved), struct.unpack_from("<2h", moved, 6)
    [name] = re.findall(r"\(pictures/(.*)\)", prose)
    svg, case = ElementTree.parse(PAGE.parent / "pictures" / name).getroot(), f"the picture {name}"
    check_labels(case, svg)
    texts = [text.text.replace("−", "-") for text in svg.iter(SVG + "text")]
    labels = [text for text in texts if re.fullmatch(NUMBER, text)]
    positions = [str(o + i) for o, n in zip(origin, sizes) for i in range(n + 1)]
    same(case, "labels", labels, positions + [str(cell) for n in sizes for cell in range(n)])
    said = " ".join(text for text in texts if " - (" in text or text.startswith("= "))
    for o, found in zip(origin, re.findall(rf"({NUMBER}) - \(({NUMBER})\) = ({NUMBER})", said), strict=True):
        x, from_x, read = map(Fraction, found)
        same(case, "read", (from_x, x - from_x), (o, read))
    ends = [f"{o + 2} to {o + n} on axis {axis}" for axis, (o, n) in enumerate(zip(origin, sizes), 1)]
    same(case, "inside", texts[-1], "shaded: inside in the factory shape, " + ", ".join(ends))
    zero = [line for line in svg.iter(SVG + "line") if line.get("class") == "cell"]
    same(case, "lines of the machine's zero", len(zero), 2)


def tried(_folder):
    quotes, by_heading, count = Quotes(), {}, 0
    for heading, prose, boxes in parted(PAGE.read_text()):
        for box in boxes:
            quotes.box(box)
        by_heading[heading] = prose
        sums = check_sums(prose)
        count += len(sums)
        if boxes:
            check_numbers(heading, prose, quotes.seen, sums)
    check_step(by_heading["What the unit holds"])
    check_origin(by_heading["What an origin is"])
    check_refusals(by_heading)
    same("the help line's page", "lines and sums enough", quotes.count > 200 and count > 20, True)
    return 2 * len(NUMBERS)
