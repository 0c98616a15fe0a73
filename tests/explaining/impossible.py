"""Placings that are impossible, and refused by 17. Which they are is worked out from the only point that can
have one; by which rules, and what the caller likely did, from the ten numbers."""
import itertools
import math
import random

from explaining.placings import AXES, MOST, WEIGHTS, alike, section
from explaining.refusals import REFUSED, told
from explaining.scene import FACTORY, LARGEST, SEED, Scene, random_numbers
from explaining.told import run, same, sections, words
from placings import numbers_of, possible, stands_for

ZEROS = [0] * 10


def of_axis(scene, b, numbers):
    """What is told of an axis of an impossible placing."""
    cell, extent, size, divisor = numbers[b], scene.extents[b], scene.sizes[b], sum(numbers[WEIGHTS])
    if size < extent:
        never = "no point is inside with this net and this table, the far face neither"
        yield f"{size} entries are fewer than the extent {extent}: {never}"
    elif not extent - 1 <= cell < size:
        wrong = "too low" if cell < extent - 1 else "past the table"
        yield f"cell {cell} is {wrong}; inside are the cells {extent - 1} to {size - 1}"
    elif sorted(numbers[AXES]) == [1, 2, 3] and divisor > 0 and cell < size - 1:
        if sum(numbers[WEIGHTS][numbers[AXES].index(b + 1) + 1 :]) == divisor:
            only = f"only on the far face, in the last cell, {size - 1}, and not in cell {cell}"
            yield f"the remainder is the divisor, which is so {only}"


def rules(scene, numbers):
    """The rules that a placing breaks, as they are told."""
    axes, weights, m = numbers[AXES], numbers[WEIGHTS], scene.m
    divisor, largest, right_axes = sum(weights), LARGEST[m - 1], sorted(axes) == [1, 2, 3]
    if not right_axes:
        yield f"the axis order is {words(axes)}: each of 1, 2, 3 must stand in it once"
    together = f"the weights add up to {divisor}, which is the divisor"
    if not 1 <= divisor <= 4096:
        yield f"{together}: it must be at " + ("least 1" if divisor == 0 else "most 4096")
    elif divisor > largest:
        power = f"{m}! x {divisor}^{m} would pass 2^48"
        yield f"{together}: {power}, and {largest} is the largest for degree {m}"
    for i in (1, 2):
        if right_axes and weights[i] == 0 and axes[i - 1] > axes[i]:
            both = f"the axes {axes[i - 1]} and {axes[i]} have the same remainder"
            yield f"weight L{i} is 0, so {both}: the lower axis must come first"
    for b in range(3):
        yield from (f"axis {b + 1}: {line}" for line in of_axis(scene, b, numbers))


def likely(numbers):
    """What the caller likely did, and what to do. Where any unit gives it, one of the simple net does."""
    sizes = [k + 1 for k in numbers[:3]]
    if numbers == ZEROS:
        said = "all ten numbers are 0: likely the placing call was refused, and its number says why"
        return said, "look at the number that the placing call gave, and value no placing that it refused"
    if max(sizes) <= 64 and math.prod(sizes) <= 4096 and possible((1, 1, 1, 1), sizes, numbers):
        said = "another unit gives it: likely the point was placed with another net or table"
        to_do = "place the point with the net and the table that it is valued with"
        return f"{said}, or else a field was changed", f"{to_do}, and hand on all ten numbers as they came"
    said = "no unit gives such a placing: likely a field was changed, or read from the wrong bytes"
    return said, "hand on all ten numbers as the placing call gave them"


def impossible(scene, numbers):
    """17 with the rules, and nothing of a point or a live call."""
    text, _ = run(scene.path, scene.order, "placing", *numbers, status=REFUSED)
    broken = [] if numbers == ZEROS else list(rules(scene, numbers))
    (said, to_do), concerned = likely(numbers), "firmware"
    if any(size < extent for size, extent in zip(scene.sizes, scene.extents)):
        to_do, concerned = "a table at least as large as the extents, or an order with fewer repeats", "the fitter"
    right = "17: no point has this placing, with this net and this table", [*broken, said]
    right[1].extend([f"concerns {concerned}", f"to do: {to_do}"])
    same(numbers, "told", told(numbers, text), [right])
    last = list(sections(text)[1])[-2:]
    same(numbers, "last sections", last, ["The placing", "Refused"])
    same(numbers, "the placing", section(numbers) in text, True)


def valued(scene, numbers):
    """Tries a placing whose fields may be any; whether it was possible."""
    is_possible = possible(scene.v, scene.sizes, numbers)
    same(numbers, "rules broken", not list(rules(scene, numbers)), is_possible)
    if is_possible:
        read, divisor = stands_for(numbers)
        point = scene.moved(read, divisor)
        status = 0 if scene.evaluated(point, divisor)[0] == "answer" else REFUSED
        alike(scene, point, divisor, status=status)
    else:
        impossible(scene, numbers)
    return is_possible


def changed(folder):
    """Fields of a possible placing changed, one or two at a time."""
    rng, seen = random.Random(SEED), []
    cells = 0, 1, 2, 3, 4, 5, 63, 64, 255, 256 + 2, 2**16 + 2, 2**31 + 2, MOST
    axes, weights = (0, 1, 2, 3, 4, 255), (0, 1, 2, 9, 10, 1850, 1851, 4095, 4096, 4097, 2**31, MOST)
    others = [cells] * 3 + [axes] * 3 + [weights] * 4
    for order, sizes in ((FACTORY, (4, 5, 3)), ("1", (4, 3, 2)), ("", (64, 32, 2)), ("44", (3, 7, 7))):
        scene = Scene(folder / "changed.field", order, sizes, random_numbers(rng, 99))
        inside = all(size >= extent for size, extent in zip(sizes, scene.extents))
        placed = numbers_of(scene.inside(rng, 7) if inside else [20, 20, 20], 7, sizes)
        cases = [placed, ZEROS, [MOST] * 3 + [255] * 3 + [MOST] * 4, placed[:6] + [0] * 4]
        for at in range(10):
            cases += [placed[:at] + [number] + placed[at + 1 :] for number in others[at]]
        for _ in range(60):
            at, also = rng.sample(range(10), 2)
            case = list(placed)
            case[at], case[also] = rng.choice(others[at]), rng.choice(others[also])
            cases.append(case)
        seen += [valued(scene, case) for case in cases]
    same("changed placings", "possible and impossible", seen.count(True) > 50 < seen.count(False), True)
    return len(seen)


def elsewhere(folder):
    """Placings of one unit valued with another: other sizes and nets, all axis orders, ties, far faces."""
    rng, count = random.Random(SEED), 0
    tables = [(FACTORY, (4, 5, 3)), ("1", (4, 3, 3)), ("", (5, 5, 4))]
    for (placed_by, sizes), (valued_by, others) in itertools.permutations(tables, 2):
        maker = Scene(folder / "maker.field", placed_by, sizes, random_numbers(rng, 99))
        scene = Scene(folder / "other.field", valued_by, others, random_numbers(rng, 99))
        for u in itertools.product((0, 2, 3, 5), repeat=3):
            valued(scene, numbers_of(maker.inside(rng, 5, u), 5, sizes))
            count += 1
    return count


def tried(folder):
    return changed(folder) + elsewhere(folder)
