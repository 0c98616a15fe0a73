"""Tables with an origin: points are answered and refused as the evaluator has it, and a table that is moved
by its origin tells of the moved point what it told of the point before."""
import itertools
import random
import xml.etree.ElementTree as ElementTree

from evaluator import ROOT
from explaining.faults import DIFFERS, liar
from explaining.page import XHTML, page
from explaining.pictures import SVG
from explaining.placings import alike
from explaining.points import answered
from explaining.refusals import ENDS, REFUSED, SEE_ORIGIN, refused, told
from explaining.scene import FACTORY, LARGEST, LARGEST_LIVE, SEED, Scene, random_numbers
from explaining.told import field, run, same, sections, stop, words

LEAST, MOST = -32768, 32767  # of the numbers of an origin
# On each axis alone, on all, and at both ends.
ORIGINS = [tuple(o * (b == axis) for b in range(3)) for axis in range(3) for o in (-2, 1, LEAST, MOST)]
ORIGINS += [(-4, -3, -3), (5, 6, 7), (LEAST, MOST, -1), (MOST, -1, LEAST), (LEAST,) * 3, (MOST,) * 3]


def pair(folder, rng, order, sizes, origin, gaps=()):
    """The same entries in a table at the origin 0, and in one with this origin."""
    at_0 = Scene(folder / "0.field", order, sizes, random_numbers(rng, 99), gaps)
    entries = at_0.corrections, at_0.uncertainties
    return at_0, Scene(folder / "moved.field", order, sizes, lambda _n: entries, origin=origin)


def without_place(text):
    """What is printed, but for the title, the origin, the position, and coordinates of far faces."""
    lines = text.splitlines()[1:]
    told = "  origin", "  the origin", "  it stands for"
    kept = (line for line in lines if not line.startswith(told) and ": position" not in line)
    return [line.partition("is the far face")[2] or line for line in kept]


def same_moved(at_0, moved, read, divisor, *options, status=0):
    """All that is told of the moved point is what was told of the point, but for where it is."""
    texts = []
    for scene in (at_0, moved):
        point = scene.moved(read, divisor)
        texts.append(run(scene.path, scene.order, *point, divisor, *options, status=status)[0])
    same(f"{read} over {divisor}, moved by {moved.origin}", "told", *map(without_place, texts))


def moved(folder):
    """Points within cells, on faces of cells and of the table, one call and placed first."""
    rng, count, negative = random.Random(SEED), 0, 0
    for origin, order in zip(ORIGINS, itertools.cycle((FACTORY, "", "1", "14", "1234"))):
        sizes = (6, 5, 5)
        at_0, there = pair(folder, rng, order, sizes, origin)
        largest = LARGEST[there.m - 1]
        asked = [(1, None), (10, None), (largest, None), (10, (0, 10, 10)), (largest, (0, 0, largest))]
        for divisor, u in asked:
            point = there.inside(rng, divisor, u)
            read, all_places = there.read(point, divisor), rng.random() < 0.3
            same(point, "figure", answered(there, point, divisor, all_places), answered(at_0, read, divisor))
            same_moved(at_0, there, read, divisor)
            alike(there, point, divisor)
            negative += min(point) < 0
            count += 5
    same("moved tables", "points with negative coordinates", negative > 20, True)
    return count


def outside(folder):
    """Before the origin, too low, past the far face and far away, axis by axis; and over a gap. A divisor
    that is refused is told before all of these."""
    rng, count, seen = random.Random(SEED), 0, []
    divisors = itertools.cycle((1, 10, LARGEST_LIVE[3] + 1, LARGEST[3]))
    for origin in ORIGINS:
        at_0, there = pair(folder, rng, FACTORY, (4, 5, 3), origin, gaps=[0])
        low = [2, 2, 2]
        same(origin, "over a gap", refused(there, there.moved(low, 1), 1)[0], "13")
        same_moved(at_0, there, low, 1, status=REFUSED)
        for b, divisor in zip(range(3), divisors):
            inside = [n * divisor for n in there.sizes]
            for t in (-1, 0, 2 * divisor - 1, there.sizes[b] * divisor + 1):
                read = inside[:b] + [t] + inside[b + 1 :]
                seen.append(refused(there, there.moved(read, divisor), divisor)[0])
            point = there.moved(inside, divisor)
            ends = [point[:b] + [end] + point[b + 1 :] for end in ENDS]
            seen += [refused(there, end, divisor)[0] for end in ends]
            count += 6
        for divisor, number in ((0, "10"), (4097, "10"), (1851, "11")):
            same(origin, "refused", refused(there, there.moved([-1, 5, 5], divisor), divisor)[0], number)
            count += 1
    same("outside", "refusals", set(seen), {"12"})
    return count + 3 * len(ORIGINS)


def inside_told(folder):
    """12 as a unit gave it, without the point: the positions that are inside."""
    for origin in ORIGINS:
        path = folder / "good.field"
        path.write_bytes(field((6, 5, 4), [0] * 120, [1] * 120, origin))
        text, _ = run(path, "132", "--refused", 12, 0)
        [(_, said)] = told("--refused 12", text)
        right = []
        for axis, (o, n) in enumerate(zip(origin, (6, 5, 4)), 1):
            ends = f"both included: cells 2 to {n - 1}, the last with the far face"
            right.append(f"axis {axis}: inside are the positions {o + 2} to {o + n}, {ends}")
        same(f"--refused 12, origin {origin}", "axes", said[:-2], right)
        same(f"--refused 12, origin {origin}", "what to do", said[-1], f"to do: {SEE_ORIGIN}")
        same(origin, "file", f"  origin {words(origin)}: coordinates are read from there" in text, True)
    return len(ORIGINS)


def pages(folder):
    """The pictures are those of the table at the origin 0; what is said below them names the origin."""
    rng, count = random.Random(SEED), 0
    for origin in ORIGINS[::4] + ORIGINS[-6:]:
        at_0, there = pair(folder, rng, FACTORY, (6, 5, 4), origin)
        for read in ((34, 23, 26), (60, 49, 39)):
            roots = [page(folder, s.path, s.order, *s.moved(read, 10), 10)[0] for s in (at_0, there)]
            drawn = [[ElementTree.tostring(svg) for svg in root.iter(SVG + "svg")] for root in roots]
            same(origin, "pictures", drawn[1], drawn[0])
            below = [[caption.text for caption in root.iter(XHTML + "figcaption")] for root in roots]
            counted = f" Entries are counted from the table's origin, {words(origin)}."
            same(origin, "below", below[1], [below[0][0], below[0][1] + counted])
            count += 2
    return count


def example():
    """The example is the table of the help line's page about its middle: it gives the same figures there."""
    table, about = ((ROOT / f"examples/{name}.field") for name in ("table", "about-the-middle"))
    points = ((34, 23, 26), (-6, -7, -4)), ((60, 49, 39), (20, 19, 9)), ((24, 45, 26), (-16, 15, -4))
    for net, (point, there) in itertools.product((FACTORY, "1"), points):
        texts = [run(file, net, *at, 10, status=None)[0] for file, at in ((table, point), (about, there))]
        same(there, "told", *map(without_place, texts))
        same(there, "above", sections(texts[0])[0], sections(texts[1])[0])
        as_printed = [str(x).replace("-", "\u2212") for x in there]
        same(as_printed, "told", run(about, net, *as_printed, 10, status=None)[0], texts[1])
    return 6 * len(points)


LIAR = """
#include "torskavel.h"
typedef struct torskavel_point_answer answer;
typedef struct torskavel_unit unit;
answer true_answer(unit, const uint32_t *, size_t, const int16_t *, size_t, const uint16_t *, size_t,
    int32_t, int32_t, int32_t, uint32_t);
answer torskavel_answer(unit held, const uint32_t *net, size_t net_length, const int16_t *c, size_t c_length,
    const uint16_t *u, size_t u_length, int32_t x, int32_t y, int32_t z, uint32_t d) {
    held.o2 = 0;
    return true_answer(held, net, net_length, c, c_length, u, u_length, x, y, z, d);
}
"""


def liars(folder):
    """A library that does not look at the origin of an axis."""
    program = liar(folder / "no origin", "answer", LIAR)
    scene = Scene(folder / "moved.field", "", (3, 3, 3), lambda n: (range(n), range(n)), origin=(-1, -1, -1))
    text, complaint = run(scene.path, "", 1, 1, 1, 1, program=program, status=DIFFERS)
    said = "THE SUMS DO NOT COME TO THIS ANSWER", "the sums do not come to the library's answer"
    if said[0] not in text or said[1] not in complaint:
        stop("a library that does not look at an origin", "nothing is said")
    same("the library itself", "complaint", run(scene.path, "", 1, 1, 1, 1)[1], "")
    return 2


def tried(folder):
    parts = moved, outside, inside_told, pages, liars
    return sum(part(folder) for part in parts) + example()
