"""Placings of points by section 9 of the specification, and the points that they stand for. Coordinates are
those that are read from the block's origin: a placing does not have the origin in it."""
import math

MAX_DIVISOR, MAX_DENOMINATOR = 4096, 2**48


def placing(point, divisor, sizes):
    """Cell, remainders, axes and weights; a far face is in the last cell, with the divisor as remainder."""
    cell = [x // divisor - (x == n * divisor) for x, n in zip(point, sizes)]
    u = [x - k * divisor for x, k in zip(point, cell)]
    axes = sorted(range(3), key=lambda b: (-u[b], b))
    p, r, s = (u[b] for b in axes)
    return cell, u, axes, [divisor - p, p - r, r - s, s]


def numbers_of(point, divisor, sizes):
    """The ten numbers of a placing: the cell, the axis order, the weights."""
    cell, _, axes, weights = placing(point, divisor, sizes)
    return [*cell, *(axis + 1 for axis in axes), *weights]


def stands_for(numbers):
    """Point and divisor of ten numbers whose axes are 1, 2, 3 in some order; no other point can have them."""
    cell, axes, weights = numbers[:3], numbers[3:6], numbers[6:]
    divisor, u = sum(weights), {axis: sum(weights[i + 1 :]) for i, axis in enumerate(axes)}
    return [k * divisor + u[b] for b, k in enumerate(cell, 1)], divisor


def possible(v, sizes, numbers):
    """Whether some point of a unit has these ten numbers: the one that they stand for, or none."""
    if sorted(numbers[3:6]) != [1, 2, 3]:
        return False
    point, divisor = stands_for(numbers)
    m = sum(v) - 3
    if not 1 <= divisor <= MAX_DIVISOR or math.factorial(m) * divisor**m > MAX_DENOMINATOR:
        return False
    inside = all((v[b] + v[3] - 1) * divisor <= point[b] <= sizes[b] * divisor for b in range(3))
    return inside and numbers_of(point, divisor, sizes) == list(numbers)
