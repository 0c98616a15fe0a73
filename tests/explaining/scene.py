"""Tables in files, with the net that is asked for at their points."""
import math

from evaluator import ask
from explaining.told import GAP, field

SEED = 14
LARGEST = (4096, 4096, 4096, 1850, 297, 85, 34, 17, 9)  # divisors for the degrees 1 to 9
LARGEST_LIVE = (4096, 4096, 2840, 275, 64, 23, 11, 6, 4)  # and in a live call
LIVE = 137438953472  # the largest denominator there, 2^37


FACTORY = "factory"  # in place of an order


class Scene:
    """A table in a file, and the net of an order, or the factory's."""

    def __init__(self, path, order, sizes, numbers_of, gaps=(), origin=(0, 0, 0)):
        self.path, self.order, self.sizes, self.origin = path, order, sizes, origin
        self.v = (2, 2, 2, 1) if order == FACTORY else tuple(1 + order.count(d) for d in "1234")
        self.m, self.extents = sum(self.v) - 3, [self.v[b] + self.v[3] for b in range(3)]
        n = math.prod(sizes)
        self.corrections, self.uncertainties = numbers_of(n)
        for gap in gaps:
            self.corrections[gap], self.uncertainties[gap] = GAP, 0
        path.write_bytes(field(sizes, self.corrections, self.uncertainties, origin))

    def evaluated(self, point, divisor):
        call = *self.v, *self.sizes, *self.origin, *point, divisor
        return ask("point", *call, "--file", self.path).split()

    def read(self, point, divisor):
        """A point's coordinates as they are read from the origin."""
        return [x - o * divisor for x, o in zip(point, self.origin)]

    def moved(self, read, divisor):
        """The point whose coordinates are read so."""
        return [x + o * divisor for x, o in zip(read, self.origin)]

    def live(self, divisor, answer, *numbers):
        """What is told of the live call, where the exact call is answered or refused with these numbers."""
        m, before = self.m, f", looked at before {numbers[0]}" if answer == "refused" else ""
        denominator = math.factorial(m) * divisor**m
        if before and numbers[0] in ("10", "11"):
            return []
        if denominator > LIVE:
            power = f"{m}! x {divisor}^{m} = {denominator}"
            largest = f"the largest divisor for degree {m} in a live call is {LARGEST_LIVE[m - 1]}"
            return [f"refused by 15{before}: {power} is above 2^37 = {LIVE}", largest]
        if before:
            return []
        n, u = map(float, numbers[:2])
        told = f"N {n}, U {u}: the same numbers as floats, over the same denominator"
        return [told, f"with the uncertainty switched off: N {n}, U 0.0"]

    def index(self, entry):
        return entry[0] + self.sizes[0] * (entry[1] + self.sizes[1] * entry[2])

    def inside(self, rng, divisor, remainders=None):
        """A point inside the table; a remainder that is the divisor is for the far face."""
        remainders = remainders or [rng.randrange(divisor) for _ in range(3)]
        point = []
        for extent, size, u in zip(self.extents, self.sizes, remainders):
            cell = size - 1 if u == divisor else rng.randrange(extent - 1, size)
            point.append(cell * divisor + u)
        return self.moved(point, divisor)


def random_numbers(rng, most):
    return lambda n: ([rng.randint(-most, most) for _ in range(n)], [rng.randint(0, most) for _ in range(n)])
