"""Runs the program `explain`, and takes apart what it prints. Build it first: `tools/explain/run --help`."""
import itertools
import re
import struct
import subprocess
import sys

from evaluator import ROOT

PROGRAM = ROOT / "target/tools/explain"
GAP = -32768
WAIT = 10  # seconds, in which a run must have ended


def stop(case, message):
    sys.exit(f"explain, {case}: {message}")


def same(case, what, found, right):
    if found != right:
        stop(case, f"{what} {found!r}, not {right!r}")


def run(*words, status=0, program=PROGRAM, **streams):
    """What the program wrote and what it complained of; it must end so (None: anyhow), and never panic."""
    command = [str(program), *(word if isinstance(word, bytes) else str(word) for word in words)]
    streams = {"stdout": subprocess.PIPE} | streams
    ran = subprocess.run(command, stderr=subprocess.PIPE, timeout=WAIT, **streams)
    complaint = ran.stderr.decode()
    case = " ".join(map(str, words))
    if status not in (None, ran.returncode) or "panicked" in complaint:
        stop(case, f"ended with {ran.returncode}, not {status}: {complaint[:300]}")
    return (ran.stdout or b"").decode(), complaint


def field(sizes, corrections, uncertainties, origin=(0, 0, 0)):
    """The bytes of a field file."""
    n = len(corrections)
    return struct.pack(f"<3H3h{n}h{n}H", *sizes, *origin, *corrections, *uncertainties)


def words(numbers):
    return " ".join(map(str, numbers))


def numbers(text):
    return [int(word) for word in re.findall(r"-?\d+", text)]


def place(index, sizes):
    """Index x + w1×(y + w2×z) as (x, y, z)."""
    return index % sizes[0], index // sizes[0] % sizes[1], index // sizes[0] // sizes[1]


def sections(text):
    """What stands above all, without the title, and the lines below each heading."""
    above, *rest = text.split("\n\n")
    found, name = {}, None
    for part in rest:
        lines = part.rstrip("\n").split("\n")
        if not lines[0].startswith(" "):
            name = lines.pop(0)
            found[name] = []
        found[name] += lines
    return above.partition("\n")[2].strip(), found


def live(text):
    """What is told of the live call, line by line."""
    return [line.strip() for line in sections(text)[1].get("The live call", [])]


def matched(lines, pattern):
    """The numbers of the one line that begins like this."""
    [line] = [line for line in lines if re.match("  " + pattern, line)]
    return numbers(line)


class LocalPlace:
    """A local place as it is printed: its head, a row for each share, what it blends to, and what it adds."""

    def __init__(self, head, lines):
        *self.b, x, y, z = numbers(head)
        self.local = (x, y, z)
        _names, *rows, blended, below = lines
        self.rows = [numbers(row) for row in rows]
        self.shares, self.correction, self.uncertainty = numbers(blended)
        ways, weights, added = re.fullmatch(r" +ways (\d+), weights (.*): (adds .*)", below).groups()
        self.ways, *factors = numbers(ways + " " + weights)
        self.factors, self.weights = factors[:-1] or factors, factors[-1]
        self.to_n, self.to_u = numbers(added)


class Told:
    """What is printed for a point that is answered."""

    def __init__(self, text):
        self.above, self.sections = sections(text)
        name = "factory shape" if "The factory shape" in self.sections else "order"
        file, order, point = (self.sections["The " + name] for name in ("file", name, "point"))
        *self.sizes, self.entries, self.gaps = matched(file, "sizes")
        self.origin = [line.strip() for line in file if line.startswith("  origin")]
        *self.multiplicities, self.degree = matched(order, "multiplicities")
        self.extents, self.box = (matched(order, "extents")[i : i + 3] for i in (0, 3))
        before = itertools.takewhile(lambda line: not line.startswith("  cell "), point)
        self.position = [line.strip() for line in before]
        self.cell, self.remainders = (matched(point, "cell")[i : i + 3] for i in (0, 3))
        self.axes, self.weights = matched(point, "axis order")[:3], matched(point, "axis order")[3:7]
        self.low, self.high = (matched(point, "window")[i : i + 3] for i in (0, 3))
        [reading] = [line for line in point if "it reads the table at" in line]
        self.reading = re.findall(r"-?[\d.]+", reading.split("at ")[1])
        [plain] = [line for line in point if "plain reading" in line]
        self.plain = re.findall(r"-?\d[\d.]*", plain)
        self.window = self.sections["The window"]
        [names] = [i for i, line in enumerate(self.window) if line.startswith("    entry ")]
        *self.window_rows, self.window_together = self.window[names + 1 :]
        self.places = list(self.local_places())
        *self.rows, self.together = self.sections["The sum"][1:]
        self.figure = self.answer()

    def local_places(self):
        lines = self.sections["The local places"]
        self.listed, self.all = matched(lines, r"\d+ of")
        heads = [i for i, line in enumerate(lines) if line.startswith("  b ")]
        for first, after in zip(heads, heads[1:] + [len(lines)]):
            yield LocalPlace(lines[first], lines[first + 1 : after])

    def answer(self):
        answer = self.sections["The answer"]
        n, u, *_power, denominator = matched(answer, "N ")
        return n, u, denominator
