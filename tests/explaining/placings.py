"""A placing in place of a point. What is told of a possible one is what is told of the point that it stands
for, whose figure is the evaluator's; impossible.py has the others."""
import random

from explaining.faults import DIFFERS, complained, liar
from explaining.page import page
from explaining.points import ORDERS, answered
from explaining.refusals import REFUSED, refused, told
from explaining.scene import FACTORY, LARGEST, SEED, Scene, random_numbers
from explaining.told import field, run, same, stop, words
from placings import numbers_of, stands_for

AXES, WEIGHTS = slice(3, 6), slice(6, 10)  # of the ten numbers
MOST = 2**32 - 1


def section(numbers, point=None, divisor=None, is_moved=False):
    """What is told of the placing itself, and of the point that it stands for, in a table with an origin or
    without."""
    cell, axes, weights = numbers[:3], numbers[AXES], numbers[WEIGHTS]
    head = f"cell {words(cell)}, axis order {words(axes)}, weights {words(weights)}"
    lines = ["\nThe placing", f"{head}, together {sum(weights)}"]
    if point:
        parts = [weights[i:] for i in (1, 2, 3)]
        sums = [" + ".join(map(str, part)) + f" = {sum(part)}" * (len(part) > 1) for part in parts]
        lines.append("remainders: " + ", ".join(f"{u} on axis {axis}" for u, axis in zip(sums, axes)))
        cell = "the origin and the cell together" if is_moved else "the cell"
        each = f"on each axis {cell} times {divisor}, and the remainder"
        lines.append(f"it stands for the point {words(point)} over {divisor}: {each}")
    return "\n  ".join(lines) + "\n"


def alike(scene, point, divisor, *options, status=0):
    """The placing of a point is told as the point is, but for the title and the placing itself."""
    read = scene.read(point, divisor)
    placed = numbers_of(read, divisor, scene.sizes)
    same(placed, "stands for", stands_for(placed), (read, divisor))
    text, _ = run(scene.path, scene.order, *point, divisor, *options, status=status)
    right = text.replace(f", point {words(point)} over {divisor}\n", f", placing {words(placed)}\n", 1)
    told = section(placed, point, divisor, any(scene.origin))
    right = right.replace("\nThe point\n", told + "\nThe point\n", 1)
    text, _ = run(scene.path, scene.order, "placing", *placed, *options, status=status)
    same(placed, "told", text, right)


def as_points(folder):
    """Nets of all degrees: within a cell, on its faces, on far faces, the largest divisors; over a gap."""
    rng, count = random.Random(SEED), 0
    for order in [FACTORY, *ORDERS]:
        gapless = Scene(folder / "placed.field", order, (10, 10, 10), random_numbers(rng, 99))
        sizes = [extent + 1 for extent in gapless.extents]
        scene = Scene(folder / "gap.field", order, sizes, random_numbers(rng, 99), gaps=[0])
        largest = LARGEST[scene.m - 1]
        for u in (None, (0, 0, 0), (1, 1, 0), (largest, 0, largest)) if scene.m <= 5 else (None,):
            u = u and [min(largest, x) for x in u]
            point = gapless.inside(rng, largest, u)
            answered(gapless, point, largest)
            alike(gapless, point, largest, *["--all"] * (scene.m <= 4))
            count += 2
        low = [(e - 1) * largest for e in scene.extents]
        same(order, "over a gap", refused(scene, low, largest)[0], "13")
        alike(scene, low, largest, status=REFUSED)
        count += 2
    return count


# ---- words, pages and faults


def asked(folder):
    """17 as a unit gave it, without the placing."""
    path = folder / "good.field"
    path.write_bytes(field((6, 5, 4), [0] * 120, [1] * 120))
    [(wrong, said)] = told("--refused 17", run(path, FACTORY, "--refused", 17, 0)[0])
    how = "to see which rule it breaks, ask with its ten numbers: explain FILE ORDER placing"
    same("--refused 17", "wrong", wrong, "17: no point has this placing, with this net and this table")
    same("--refused 17", "said", said[:2], [f"{how} K1 K2 K3 P R S L0 L1 L2 L3", "concerns firmware"])
    return 1


def faults(folder):
    """Too few numbers or too many, what is no number, an axis that is no byte, another word."""
    path = folder / "good.field"
    path.write_bytes(field((6, 5, 4), [0] * 120, [1] * 120))
    good = [3, 2, 2, 3, 1, 2, 4, 2, 1, 3]
    for count in (0, 4, 9, 11):
        fragment = f"ten numbers are wanted, K1 K2 K3 P R S L0 L1 L2 L3, and not {count}"
        complained(path, "1", "placing", *(good + good)[:count], fragment=fragment)
    names = "K1 K2 K3 P R S L0 L1 L2 L3".split()
    bad = [(at, word) for at in range(10) for word in ("x", "-1", "", "1.5", MOST + 1)]
    for at, word in bad + [(3, 256), (4, 256), (5, MOST)]:
        most = 255 if at in (3, 4, 5) else MOST
        fragment = f"{names[at]} is '{word}', which is no whole number from 0 to {most}"
        complained(path, "1", "placing", *good[:at], word, *good[at + 1 :], fragment=fragment)
    complained(path, "1", "Placing", *good, fragment="six words and not 13")
    complained(path, "1", "placing", *good, "--refused", 17, 0, fragment="no point is wanted")
    return 9 + len(bad)


def pages(folder):
    """A page has the text's words; the pictures are those of the point."""
    rng = random.Random(SEED)
    scene = Scene(folder / "page.field", FACTORY, (6, 5, 4), random_numbers(rng, 99))
    placed = numbers_of((60, 49, 39), 10, scene.sizes)
    calls = ("placing", *placed), (60, 49, 39, 10)
    found = [page(folder, scene.path, FACTORY, *call)[0] for call in calls]
    drawn = [[svg.get("aria-label") for svg in root.iter() if svg.get("aria-label")] for root in found]
    same("the page of a placing", "pictures", drawn[0], drawn[1])
    same("the page of a placing", "some pictures", len(drawn[0]) > 1, True)
    page(folder, scene.path, FACTORY, "placing", *[0] * 10, status=REFUSED)
    return 3


LIAR = """
#include "torskavel.h"
typedef struct torskavel_{kind}point_answer answer;
typedef struct torskavel_unit unit;
typedef struct torskavel_placing placing;
answer true_{kind}value(unit, const uint32_t *, size_t, const int16_t *, size_t, const uint16_t *, size_t,
    placing{type});
answer torskavel_{kind}value(unit held, const uint32_t *net, size_t net_length, const int16_t *c,
    size_t c_length, const uint16_t *u, size_t u_length, placing placed{type}{flag}) {{
    answer answered = true_{kind}value(held, net, net_length, c, c_length, u, u_length, placed{comma}{flag});
    {lie}
    return answered;
}}
"""
EXACT = {"kind": "", "type": "", "flag": "", "comma": ""}
LIVE = {"kind": "live_", "type": ", uint8_t", "flag": " with_uncertainty", "comma": ","}
LIES = {"another figure": (EXACT, "answered.numerator += answered.number == 0;")}
LIES["17 for what is possible"] = EXACT, "answered.number = 17;"
LIES["no 17"] = EXACT, "if (answered.number == 17) answered.number = 0;"
LIES["another live figure"] = LIVE, "answered.uncertainty += with_uncertainty;"


def liars(folder):
    """Libraries whose valuing call gives something else than the point call."""
    path = folder / "good.field"
    path.write_bytes(field((3, 2, 2), range(12), range(12)))
    call = (path, "1", "placing")
    for name, (kind, lie) in LIES.items():
        program = liar(folder / f"valuing {name}", f"{kind['kind']}value", LIAR.format(**kind, lie=lie))
        numbers = [2, 1, 1, 1, 2, 3] + ([0] * 4 if name == "no 17" else [4, 3, 2, 1])
        text, complaint = run(*call, *numbers, program=program, status=DIFFERS)
        what = "LIVE CALL" if kind is LIVE else "VALUING CALL"
        if f"THE {what} DOES NOT AGREE" not in text or "does not agree with the" not in complaint:
            stop(f"a library with {name}", "nothing is said")
    return len(LIES)


def tried(folder):
    parts = as_points, asked, faults, pages, liars
    return sum(part(folder) for part in parts)
