"""The live call: around the largest divisors that it takes, where N is 0, and what is told of 15. Its numbers are
the evaluator's exact ones."""
import random

from explaining.points import ORDERS, answered
from explaining.refusals import refused, told
from explaining.scene import LARGEST, LARGEST_LIVE, SEED, Scene, random_numbers
from explaining.told import field, run, same


def limits(folder):
    """The largest divisor, and one more where the exact call takes it: inside, outside, and over a gap."""
    rng, count = random.Random(SEED), 0
    for order in ORDERS:
        extents = [2 + order.count(d) + order.count("4") for d in "123"]
        sizes = tuple(extent + 1 for extent in extents)
        scene = Scene(folder / "live.field", order, sizes, random_numbers(rng, 32767), gaps=[0])
        largest = LARGEST_LIVE[scene.m - 1]
        divisors = [largest, largest + 1] if largest < LARGEST[scene.m - 1] else [largest]
        for divisor in divisors:
            answered(scene, [n * divisor - rng.randrange(divisor) for n in sizes], divisor)
            same(order, "outside", refused(scene, [n * divisor + 1 for n in sizes], divisor)[0], "12")
            same(order, "a gap", refused(scene, [(n - 2) * divisor for n in sizes], divisor)[0], "13")
            count += 3
    return count


def zeros(folder):
    """N is 0: opposites meet, or negative corrections are weighed with 0."""
    tables = {(3, 2, 2, 2): [40, -40] + [0] * 6, (2, 1, 1, 1): [-7, 0] + [-7] * 6}
    tables[1, 1, 1, 1] = [0] + [-7] * 7
    for (*point, divisor), corrections in tables.items():
        scene = Scene(folder / "zero.field", "", (2, 2, 2), lambda _n: (corrections, [5] * 8))
        same(f"{point} over {divisor}", "figure", answered(scene, point, divisor), (0, 5 * divisor, divisor))
    return len(tables)


def words(folder):
    """What 15 means, for a net of each degree."""
    path = folder / "good.field"
    path.write_bytes(field((6, 5, 4), [0] * 120, [1] * 120))
    looked_at = "looked at in a live call alone, after 11 and before 12: the point itself was not looked at; "
    looked_at += "of a placing after 17 and before 4"
    for m, divisor in enumerate(LARGEST_LIVE, 1):
        case = f"--refused 15, degree {m}"
        [(wrong, said)] = told(case, run(path, "4" * (m - 1), "--refused", 15, 0)[0])
        same(case, "wrong", wrong, f"15: the denominator {m}! x D^{m} would pass 2^37, the most in a live call")
        largest = f"a divisor from 1 to {divisor}, the largest for degree {m} in a live call"
        right = [looked_at, "concerns firmware", f"to do: send {largest}, or ask the exact call"]
        same(case, "said", said, right)
    return len(LARGEST_LIVE)


def tried(folder):
    return limits(folder) + zeros(folder) + words(folder)
