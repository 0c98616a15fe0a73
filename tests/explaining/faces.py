"""Far faces of the table: points on them are answered, a step past them refused by 12."""
import itertools
import random

from explaining.points import ORDERS, answered
from explaining.refusals import refused
from explaining.scene import LARGEST, SEED, Scene, random_numbers
from explaining.told import same

# The axes whose far faces a point is on: three faces, three edges, the corner.
FACES = [axes for count in (1, 2, 3) for axes in itertools.combinations(range(3), count)]


def by_hand(folder):
    """The simple net reads an entry at the position 1 past it: on the far face of axis 1 entry (1, 0, 0)."""
    numbers = [100, -40, 0, 0, 0, 0, 0, 0], [5] * 8
    scene = Scene(folder / "hand.field", "", (2, 2, 2), lambda _n: numbers)
    figures = {((2, 1, 1), 1): (-40, 5, 1), ((6, 3, 4), 3): (-80, 15, 3), ((2, 2, 2), 1): (0, 5, 1)}
    for (point, divisor), figure in figures.items():
        same(f"{point} over {divisor}", "figure", answered(scene, point, divisor), figure)
    for point in ((0, 1, 1), (3, 1, 1), (2, 3, 2)):
        same(point, "refused", refused(scene, point, 1)[0], "12")
    return len(figures) + 3


def all_degrees(folder):
    """Points on faces, edges and the corner, and a step past each."""
    rng, count = random.Random(SEED), 0
    for order in ORDERS:
        extents = [2 + order.count(d) + order.count("4") for d in "123"]
        sizes = tuple(extent + rng.randrange(3) for extent in extents)
        scene = Scene(folder / "faces.field", order, sizes, random_numbers(rng, 99))
        largest = LARGEST[scene.m - 1]
        for axes in FACES:
            divisor = rng.choice((1, min(7, largest), largest))
            u = [divisor if b in axes else rng.randrange(divisor) for b in range(3)]
            point = scene.inside(rng, divisor, u)
            answered(scene, point, divisor, all_places=scene.m <= 5 and rng.random() < 0.5)
            past = [x + (b == axes[0]) for b, x in enumerate(point)]
            same(past, "refused", refused(scene, past, divisor)[0], "12")
            count += 2
    return count


def gaps(folder):
    """A gap in the window of a face point is wanted, also one that counts 0; one outside of it is not."""
    rng, sizes, point = random.Random(SEED), (3, 2, 2), (6, 3, 3)
    for gap in range(12):
        scene = Scene(folder / "gaps.field", "", sizes, random_numbers(rng, 99), [gap])
        if gap % 3 == 0:
            answered(scene, point, 2)
        else:
            same(f"gap {gap}", "refused", refused(scene, point, 2)[0], "13")
    return 12


def tried(folder):
    return by_hand(folder) + all_degrees(folder) + gaps(folder)
