#!/usr/bin/env python3
"""Makes what examples/c and examples/rust must print: their calls one after the other, answered by the evaluator.

Run in the repository, after `cargo build --release --offline` in evaluator/:

    python3 tests/expect/examples.py            writes examples/expected
    python3 tests/expect/examples.py --check    says whether it is current

The evaluator has no unit without a net and no order by bytes, so 21 and 2 are told here by their conditions.
"""
import math
import struct
import sys
import tempfile
from pathlib import Path

sys.path.append(str(Path(__file__).resolve().parents[1]))
from evaluator import ROOT, ask, live, net, widths
from stored import keep

STORED = ROOT / "examples/expected"
FIELD = ROOT / "examples/machine.field"
SECOND = ROOT / "examples/second-axis.field"
ABOUT = ROOT / "examples/about-the-middle.field"
SHOWN = (6, 6, 6)  # the place whose number is shown of a net


def refused(number, place=0):
    return f"refused {number}, place {place}"


def told_exact(word, *numbers):
    """The shift and its uncertainty, or the refusal, from the evaluator's words."""
    if word == "refused":
        return refused(*numbers)
    shift, uncertainty, over = numbers
    return f"shift {shift}/{over}, uncertainty {uncertainty}/{over}"


def file_refused(file, sizes, origin):
    """Number and place where the evaluator refuses a file. A point outside is asked, the origin itself, so that 12
    says it passes."""
    with tempfile.NamedTemporaryFile() as lent:
        lent.write(file)
        lent.flush()
        call = 1, 1, 1, 1, *sizes, *origin, *origin, 1
        _, number, place = ask("point", *call, "--file", lent.name).split()
    return None if number == "12" else (number, place)


class Unit:
    """A unit with its lent net and block, neither of which it has at first."""

    def __init__(self):
        self.multiplicities = self.block = None  # a block is its sizes, then its origin
        self.damage = {}  # numbers that stand in the lent net in place of the defined ones
        self.lines = []

    def factory(self):
        self.tell("factory", self.got((2, 2, 2, 1)))

    def build(self, *order):
        bad = [position for position, byte in enumerate(order) if byte not in (1, 2, 3, 4)]
        v = tuple(1 + order.count(direction) for direction in (1, 2, 3, 4))
        self.tell("build " + " ".join(map(str, order)), refused(2, bad[0]) if bad else self.got(v))

    def got(self, v):
        """The unit has got this net, over whatever the lent slice held."""
        self.multiplicities, self.damage = v, {}
        (x, y, z), (w1, w2, _) = SHOWN, widths(v)
        number = net(v)[x + w1 * (y + w2 * z)]
        return "multiplicities {} {} {} {}, number {} at {}".format(*v, number, SHOWN)

    def load(self, file):
        block = struct.unpack_from("<3H3h", file)
        refusal = file_refused(file, block[:3], block[3:])
        self.block = self.block if refusal else block
        told = refused(*refusal) if refusal else "block {} {} {}, origin {} {} {}".format(*block)
        self.tell(f"load {len(file)} bytes", told)

    def inspect(self):
        v = self.multiplicities
        differs = [place for place, number in sorted(self.damage.items()) if net(v)[place] != number]
        answer = refused(14, differs[0]) if differs else "passed"
        self.tell("inspect {} {} {} {}".format(*v), answer)

    def point(self, *place, divisor=2, file=FIELD):
        self.tell(f"point {place}/{divisor}", told_exact(*self.exact(place, divisor, file)))

    def live(self, *place, divisor=2, with_uncertainty=True):
        how = "" if with_uncertainty else ", uncertainty switched off"
        words = self.floats(place, divisor, with_uncertainty)
        self.tell(f"live {place}/{divisor}{how}", self.told_floats(divisor, *words))

    def place(self, *place, divisor=2):
        """The ten numbers of a point's placing, as words; the point is inside."""
        word, *placed = ask("place", *self.multiplicities, *self.block, *place, divisor).split()
        assert word == "placing"
        told = "cell {} {} {}, axis order {} {} {}, weights {} {} {} {}".format(*placed)
        self.tell(f"place {place}/{divisor}", told)
        return placed

    def value(self, name, placed, *entries, block=None):
        """The placing as a unit with this block, or else with its own, values it."""
        call = *self.multiplicities, *(block or self.block), *placed, *entries
        self.tell(f"value, {name}", told_exact(*ask("value-at", *call).split()))
        divisor = sum(map(int, placed[-4:]))
        self.tell(f"live value, {name}", self.told_floats(divisor, *live("live-value-at", 1, *call)))

    def exact(self, place, divisor, file):
        """What the evaluator says of a point, by the lent net and, where that is whole, by the recurrence."""
        if self.multiplicities is None:
            return "refused", 21
        call = self.words(place, divisor, file)
        words = ask("lent-point", *call).split()
        if words[0] == "answer" and not self.damage and ask("point", *call).split() != words:
            sys.exit(f"point {place}: the net and the recurrence do not agree")
        return words

    def floats(self, place, divisor, with_uncertainty):
        """The same for the live call."""
        call = int(with_uncertainty), *self.words(place, divisor, FIELD)
        words = live("lent-live", *call)
        if not self.damage and live("live", *call) != words:
            sys.exit(f"live {place}: the net and the recurrence do not agree")
        return words

    def words(self, place, divisor, file):
        """A call on the lent net and the block of a file, as the evaluator takes it."""
        call = [*self.multiplicities, *self.block, *place, divisor, "--file", file]
        return call + [f"{place}={number}" for place, number in self.damage.items()]

    def told_floats(self, divisor, word, *numbers):
        """N and U with what they are once divided, or the refusal."""
        if word == "refused":
            return refused(*numbers)
        m = sum(self.multiplicities) - 3
        over = math.factorial(m) * divisor**m
        told = zip(("N", "U"), ("shift", "uncertainty"), numbers)
        return ", ".join(f"{name} {number:.1f}, {what} {number / over:.4f}" for name, what, number in told)

    def tell(self, call, answer):
        self.lines.append(f"{call}: {answer}\n")


def expected():
    unit = Unit()
    unit.point(5, 5, 5)
    unit.factory()
    file = bytearray(FIELD.read_bytes())
    unit.load(file)
    unit.point(5, 5, 5)
    unit.point(5, 6, 5)
    unit.point(5, 7, 5)
    unit.point(7, 5, 5)
    file[-2] = 11  # the last entry's uncertainty
    unit.load(file)
    unit.live(5, 5, 5)
    unit.live(5, 5, 5, with_uncertainty=False)
    unit.point(690, 690, 690, divisor=276)
    unit.live(690, 690, 690, divisor=276)
    unit.load(ABOUT.read_bytes())
    for x in (-6, 20, -41):
        unit.point(x, -7, -4, divisor=10, file=ABOUT)
    unit.load(SECOND.read_bytes())
    placed = unit.place(5, 6, 5)
    unit.value("first axis", placed, "--file", FIELD)
    unit.value("second axis", placed, "--file", SECOND)
    unit.value("another block", placed, "--seed", 1, block=(4, 4, 3, 0, 0, 0))  # 17 looks at no entry
    unit.inspect()
    unit.damage[0] = 1
    unit.inspect()
    unit.point(4, 4, 4)
    unit.build(1, 5)
    unit.build(1, 3, 2, 1)
    return "".join(unit.lines)


keep(STORED, expected())
