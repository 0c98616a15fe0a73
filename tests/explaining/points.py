"""Points that are answered: what `explain` tells of them against the evaluator's numbers. N, U and the
denominator are those of the recurrence; shares and blended numbers are worked out here over its net."""
import functools
import itertools
import math
import random
from fractions import Fraction

from evaluator import ask, net, widths
from explaining.scene import LARGEST, SEED, Scene, random_numbers
from explaining.told import Told, field, live, numbers, run, same, words
from placings import placing


def check_place(case, scene, found, cell, axes, weights):
    """A local place against the evaluator's net."""
    b0, b1, b2, b3 = found.b
    local = [0, 0, 0]
    for axis, steps in zip(axes, (b1 + b2 + b3, b2 + b3, b3)):
        local[axis] = steps
    same(case, "local place", list(found.local), local)
    box, shares, rows = widths(scene.v), net(scene.v), []
    for back in itertools.product(*(range(scene.extents[b]) for b in (2, 1, 0))):
        entry = [k - i for k, i in zip(cell, back[::-1])]
        x, y, z = (scene.m * i + a for i, a in zip(back[::-1], local))
        share = shares[x + box[0] * (y + box[1] * z)]
        if share:
            index = scene.index(entry)
            c, u = scene.corrections[index], scene.uncertainties[index]
            rows.append([*entry, x, y, z, share, c, share * c, u, share * u])
    same(case, f"shares at b {found.b}", found.rows, rows)
    right = [math.factorial(scene.m), sum(row[8] for row in rows), sum(row[10] for row in rows)]
    same(case, "blended", [found.shares, found.correction, found.uncertainty], right)
    ways = math.factorial(scene.m) // math.prod(map(math.factorial, found.b))
    factors = [w for w, b in zip(weights, found.b) for _ in range(b)]
    right = (ways, factors, math.prod(factors))
    same(case, "ways and weights", (found.ways, found.factors, found.weights), right)
    product = ways * found.weights
    same(case, "added", (found.to_n, found.to_u), (found.correction * product, found.uncertainty * product))
    blended = [found.correction, found.uncertainty]
    return [*found.b, *blended, ways, found.weights, product, found.to_n, found.to_u]


def check_sums(case, scene, told, all_places):
    """The local places listed, and that the columns of the sum add up."""
    cell, axes, weights = told.cell, [axis - 1 for axis in told.axes], told.weights
    triples = [a for a in itertools.product(range(scene.m + 1), repeat=3) if a[0] >= a[1] >= a[2]]
    b = [[scene.m - a1, a1 - a2, a2 - a3, a3] for a1, a2, a3 in triples]
    wanted = [b for b in b if all_places or math.prod(w**n for w, n in zip(weights, b))]
    same(case, "local places", [found.b for found in told.places], wanted)
    same(case, "counted places", (told.listed, told.all), (len(wanted), math.comb(scene.m + 3, 3)))
    rows = [check_place(case, scene, found, cell, axes, weights) for found in told.places]
    same(case, "rows of the sum", [numbers(row) for row in told.rows], rows)
    n, u, _ = told.figure
    same(case, "together", numbers(told.together), [sum(weights) ** scene.m, n, u])
    same(case, "columns", [sum(row[i] for row in rows) for i in (8, 9, 10)], numbers(told.together))


@functools.cache
def sharing(v, axes):
    """How far back from the cell the entries are that have a share at some local place of a tetrahedron."""
    m, box, shares = sum(v) - 3, widths(v), net(v)
    backs = list(itertools.product(*(range(v[b] + v[3]) for b in range(3))))
    found = set()
    for a in itertools.product(range(m + 1), repeat=3):
        local = [a[axes.index(b)] for b in range(3)]
        for i, j, k in backs if a[0] >= a[1] >= a[2] else ():
            if shares[m * i + local[0] + box[0] * (m * j + local[1] + box[1] * (m * k + local[2]))]:
                found.add((i, j, k))
    return found


def check_window(case, scene, told, all_entries):
    """What the entries count adds up to the answer, entry by entry."""
    n, u, denominator = told.figure
    counts, without = {}, set()
    for row in told.window_rows:
        j1, j2, j3, c, uncertainty, *count = numbers(row.replace("no share", "0"))
        index = scene.index((j1, j2, j3))
        same(case, "entry", (c, uncertainty), (scene.corrections[index], scene.uncertainties[index]))
        counts[index] = count[0]
        without |= {index} if "no share" in row else set()
    ranges = (range(low, high + 1) for low, high in zip(told.low, told.high))
    window = {scene.index(entry) for entry in itertools.product(*ranges)}
    backs = sharing(scene.v, tuple(axis - 1 for axis in told.axes))
    share = {scene.index([k - i for k, i in zip(told.cell, back)]) for back in backs}
    same(case, "entries", set(counts), window if all_entries else share)
    same(case, "entries without a share", without, set(counts) - share)
    said = [numbers(line)[:2] for line in told.window if "have no share here" in line]
    same(case, "said", said, [[len(window - share), len(window)]] * (share != window))
    together = numbers(told.window_together)[0]
    same(case, "counts", [sum(counts.values()), together], [denominator, denominator])
    same(case, "counts of N", sum(scene.corrections[i] * count for i, count in counts.items()), n)
    same(case, "counts of U", sum(scene.uncertainties[i] * count for i, count in counts.items()), u)


def shown(fraction, decimals):
    """A decimal as it is printed: short where it is exact, else rounded, halves away from 0."""
    scaled = abs(fraction) * 10**decimals
    whole = math.floor(scaled + Fraction(1, 2))
    digits = f"{whole % 10**decimals:0{decimals}}"
    digits = digits.rstrip("0") if scaled == whole else digits
    sign, point = "-" if fraction < 0 and whole else "", "." if digits else ""
    return f"{sign}{whole // 10**decimals}{point}{digits}"


def positions(scene, point, divisor):
    """What is told of a point's position; where the origin is not 0, of what is read from it too."""
    position = words(shown(Fraction(x, divisor), 3) for x in point)
    yield f"{words(point)} over {divisor}: position {position}"
    if any(scene.origin):
        at, read = (words(scene.moved((0, 0, 0), divisor)), scene.read(point, divisor))
        position = words(shown(Fraction(t, divisor), 3) for t in read)
        there = f"read from there the point is {words(read)}, position {position}"
        yield f"the origin {words(scene.origin)} is at {at} over {divisor}: {there}"


def check_faces(case, scene, told, u, divisor):
    """What is said of the far faces that the point is on; without one, nothing."""
    faces, right = [(b + 1, n) for b, n in enumerate(scene.sizes) if u[b] == divisor], []
    for b, n in faces:
        last = f"belongs to the last cell, {n - 1}, with the remainder {divisor}"
        origin = scene.origin[b - 1]
        end = f"({origin} + {n})" if origin else n
        face = f"{(origin + n) * divisor} = {end} x {divisor} is the far face"
        right.append(f"axis {b}: {face}, which {last}")
    if faces:
        right.append("the first weight is 0, as on every far face: the corner (0, 0, 0) does not count")
        past = ", ".join(f"{n} on axis {b}" for b, n in faces)
        right.append(f"no entry past the table is missing: the next, {past}, would count only further out")
    said = [line.strip() for line in told.sections["The point"]]
    words = "far face", "first weight", "missing"
    same(case, "far faces", [line for line in said if any(word in line for word in words)], right)


def check_plain(case, scene, told, point, divisor):
    """Where the point reads the table, and the plain reading there."""
    read = scene.read(point, divisor)
    at = [Fraction(t, divisor) - Fraction(extent, 2) for t, extent in zip(read, scene.extents)]
    same(case, "reading", told.reading, [shown(a, 3) for a in at])
    sums = [0, 0]
    for corner in itertools.product((0, 1), repeat=3):
        low = [math.floor(a) for a in at]
        weight = math.prod(a - j if up else 1 - a + j for a, j, up in zip(at, low, corner))
        if weight:
            index = scene.index([j + up for j, up in zip(low, corner)])
            sums[0] += weight * scene.corrections[index]
            sums[1] += weight * scene.uncertainties[index]
    same(case, "plain reading", told.plain, [shown(value, 3) for value in sums])


def rounded(value, decimals):
    return ("" if value * 10**decimals % 1 == 0 else "about ") + shown(value, decimals)


def check_answer(case, told):
    """The shift in both units, below and above all that is told."""
    n, u, denominator = told.figure
    above = []
    for name, number in (("shift", n), ("uncertainty", u)):
        [line] = [line for line in told.sections["The answer"] if line.startswith(f"  {name} ")]
        tenths = rounded(Fraction(number, denominator), 3)
        micrometres = rounded(Fraction(number, 10 * denominator), 4)
        right = f"  {name} {number} / {denominator} = {tenths} tenths of a micrometre"
        same(case, "units", line, f"{right} = {micrometres} micrometres")
        above.append(f"{name} {micrometres} micrometres")
    same(case, "above", told.above, ", ".join(above))


def answered(scene, point, divisor, all_places=False):
    case = f"order {scene.order!r}, point {point} over {divisor}"
    text, _ = run(scene.path, scene.order, *point, divisor, *["--all"] * all_places)
    told = Told(text)
    answer, *figure = scene.evaluated(point, divisor)
    same(case, "answer", ("answer", *told.figure), (answer, *map(int, figure)))
    same(case, "live call", live(text), scene.live(divisor, answer, *figure))
    cell, u, axes, weights = placing(scene.read(point, divisor), divisor, scene.sizes)
    origin = [f"origin {words(scene.origin)}: coordinates are read from there"] * any(scene.origin)
    same(case, "origin", told.origin, origin)
    same(case, "position", told.position, list(positions(scene, point, divisor)))
    right = (list(scene.v), scene.m, scene.extents, widths(scene.v), list(scene.sizes))
    same(case, "shape", (told.multiplicities, told.degree, told.extents, told.box, told.sizes), right)
    placed = (told.cell, told.remainders, [axis - 1 for axis in told.axes], told.weights)
    same(case, "placing", placed, (cell, u, axes, weights))
    same(case, "window", (told.low, told.high), ([k + 1 - e for k, e in zip(cell, scene.extents)], cell))
    check_faces(case, scene, told, u, divisor)
    check_plain(case, scene, told, point, divisor)
    check_sums(case, scene, told, all_places)
    check_window(case, scene, told, all_places)
    check_answer(case, told)
    return told.figure


def counts(folder):
    """What each entry counts is N of a table that has 1 there and 0 elsewhere."""
    rng, path, sizes = random.Random(SEED), folder / "one.field", (3, 4, 3)
    scene = Scene(folder / "some.field", "132", sizes, random_numbers(rng, 99))
    point, divisor = [20, 23, 18], 7
    text, _ = run(scene.path, "132", *point, divisor, "--all")
    for row in Told(text).window_rows:
        *entry, _c, _u, count = numbers(row.replace("no share", "0"))[:6]
        ones = [int(i == scene.index(entry)) for i in range(len(scene.corrections))]
        path.write_bytes(field(sizes, ones, ones))
        answer = ask("point", *scene.v, *sizes, 0, 0, 0, *point, divisor, "--file", path).split()
        same(f"entry {entry}", "counts", count, int(answer[1]))
    return 1


def straight(folder):
    """Where the table is straight, the plain reading is the answer."""
    rng, sizes = random.Random(SEED), (6, 7, 6)
    for order in ("", "1", "132", "14", "3344"):
        p, *slopes = (rng.randint(-50, 50) for _ in range(4))
        entries = [(j1, j2, j3) for j3 in range(sizes[2]) for j2 in range(sizes[1]) for j1 in range(sizes[0])]
        values = [p + sum(slope * j for slope, j in zip(slopes, entry)) for entry in entries]
        scene = Scene(folder / "straight.field", order, sizes, lambda n: (values, [7] * n))
        told = Told(run(scene.path, order, *scene.inside(rng, 10), 10)[0])
        n, u, denominator = told.figure
        right = [shown(Fraction(number, denominator), 3) for number in (n, u)]
        same(f"order {order}, a straight table", "plain reading", told.plain, right)
    return 5


# Orders of all degrees.
ORDERS = ["", "1", "4", "23", "132", "321", "1324", "44", "31111", "121212", "1234123"]
ORDERS += ["11111111", "12341234", "44444444"]


def tried(folder):
    """Nets of all degrees: points within, on faces, edges and corners of cells, D = 1 and the largest D."""
    rng, count = random.Random(SEED), counts(folder) + straight(folder)
    for order in ORDERS:
        extents = [2 + order.count(d) + order.count("4") for d in "123"]
        sizes = tuple(extent + rng.randrange(4) for extent in extents)
        most = rng.choice((50, 32767))
        scene = Scene(folder / "some.field", order, sizes, random_numbers(rng, most))
        largest = LARGEST[scene.m - 1]
        tries = [(largest, None), (1, None)]
        if scene.m <= 7:
            tries += [(largest, (0, 0, largest - 1)), (min(7, largest), None)]
        if scene.m <= 5:
            tries += [(5, u) for u in ((4, 4, 4), (0, 3, 0), (2, 2, 4), (1, 3, 2), (3, 1, 1))]
            tries += [(largest, [rng.choice((0, 1, largest // 2)) for _ in range(3)])]
        for divisor, remainders in tries:
            answered(scene, scene.inside(rng, divisor, remainders), divisor, all_places=rng.random() < 0.5)
        far = [n * largest - 1 for n in scene.sizes]
        answered(scene, far, largest)
        count += len(tries) + 1
    return count
