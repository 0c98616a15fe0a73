"""What is refused: numbers and places as the evaluator has them, told in words."""
import itertools
import random

from evaluator import ask, prints
from explaining.faults import complained
from explaining.points import positions
from explaining.scene import LARGEST, SEED, Scene, random_numbers
from explaining.told import field, live, place, run, same, sections, stop

NUMBERS = [*range(1, 18), 21, 22, 23]
CONCERNED = ("the fitter", "the surveyor", "firmware")
REFUSED = 1  # the status
ENDS = -(2**31), 2**31 - 1  # of coordinates


def told(case, text):
    """The refusals as they are told: what is wrong, and what is said with it."""
    above, found = sections(text)
    refusals = []
    for line in found.get("Refused", []):
        if line.split(":")[0].strip().isdigit():
            refusals.append((line.strip(), []))
        else:
            refusals[-1][1].append(line.strip())
    if above:
        same(case, "above", above, "refused by " + " and ".join(wrong.split(":")[0] for wrong, _ in refusals))
    for _wrong, said in refusals:
        *_reasons, concerns, to_do = said
        same(case, "concerned", concerns.removeprefix("concerns ") in CONCERNED, True)
        same(case, "what to do", to_do.startswith("to do: ") and len(to_do) > 15, True)
    return refusals


def begins(case, text, *wanted):
    """Each refusal begins so, and there are no others."""
    found = [wrong for wrong, _said in told(case, text)]
    if len(found) != len(wanted) or not all(wrong.startswith(right) for wrong, right in zip(found, wanted)):
        stop(case, f"told {found}, not {wanted}")


# ---- points

WORDS = {
    "8": "8: entry {} has an uncertainty above 32767",
    "10": "10: the divisor is 0 or above 4096",
    "11": "11: the denominator ",
    "12": "12: the point is not inside the table",
    "13": "13: entry {} was never measured",
}


def outside(scene, point, divisor):
    """What is said of each axis that keeps a point outside."""
    shape = zip(point, scene.origin, scene.extents, scene.sizes)
    for axis, (x, origin, extent, size) in enumerate(shape, 1):
        low, high = (origin + extent - 1) * divisor, (origin + size) * divisor
        ends = f"both included: cells {extent - 1} to {size - 1}, the last with the far face"
        wrong = "past the far face" if x > high else "too low"
        if x < origin * divisor:
            wrong = f"before the origin, which is at {origin * divisor}"
        if size < extent:
            never = "no point is inside with this net and this table, the far face neither"
            yield f"axis {axis}: {size} entries are fewer than the extent {extent}: {never}"
        elif not low <= x <= high:
            yield f"axis {axis}: {x} over {divisor} is {wrong}; inside are {low} to {high}, {ends}"


FURTHER = "probe further in; the far face itself is inside"
SEE_ORIGIN = "probe further in, or see whether the file has the origin that the controller counts from"


def inwards(scene, point, divisor):
    """What to do about a point outside; the origin is named where it is not 0, or the point before it."""
    if any(size < extent for size, extent in zip(scene.sizes, scene.extents)):
        return "a table at least as large as the extents, or an order with fewer repeats"
    return SEE_ORIGIN if any(scene.origin) or min(scene.read(point, divisor)) < 0 else FURTHER


def check_point(case, scene, point, divisor, lines):
    """The position is told, and nothing more of a point before the origin."""
    right = list(positions(scene, point, divisor))
    same(case, "position", [line.strip() for line in lines[: len(right)]], right)
    same(case, "before the origin", len(lines) == len(right), min(scene.read(point, divisor)) < 0)


def refused(scene, point, divisor):
    case = f"order {scene.order!r}, point {point} over {divisor}"
    answer, number, index = scene.evaluated(point, divisor)
    same(case, "evaluated", answer, "refused")
    text, _ = run(scene.path, scene.order, *point, divisor, status=REFUSED)
    same(case, "above", sections(text)[0], f"refused by {number}")
    same(case, "live call", live(text), scene.live(divisor, answer, number, index))
    begins(case, text, WORDS[number].format(place(int(index), scene.sizes)))
    [(_, said)] = told(case, text)
    same(case, "axes", said[:-2], list(outside(scene, point, divisor)) if number == "12" else [])
    if number == "12":
        same(case, "what to do", said[-1], f"to do: {inwards(scene, point, divisor)}")
    if divisor:
        check_point(case, scene, point, divisor, sections(text)[1]["The point"])
    if number in ("10", "11"):
        right = f"to do: send a divisor from 1 to {LARGEST[scene.m - 1]}, the largest for degree {scene.m}"
        same(case, "what to do", said[-1], right)
    return number, text


def points(folder):
    rng, count, seen = random.Random(SEED), 0, set()
    for m, order in enumerate(("", "1", "14", "132", "1234", "44123", "123123", "1234123", "12341234"), 1):
        extents = [2 + order.count(d) + order.count("4") for d in "123"]
        sizes = tuple(extent + 1 for extent in extents)
        scene = Scene(folder / "refused.field", order, sizes, random_numbers(rng, 99), gaps=[0])
        largest, inside = LARGEST[m - 1], [extent - 1 for extent in extents]
        beyond = [(b, k) for b in range(3) for k in (inside[b] - 1, sizes[b] + 1, -1, *ENDS)]
        beside = [inside[:b] + [k] + inside[b + 1 :] for b, k in beyond]
        asked = [(inside, 1), (inside, 0), (inside, 4097), (inside, 2**32 - 1), ([-1] * 3, 0)]
        asked += [([end] * 3, divisor) for end in ENDS for divisor in (1, 2**32 - 1)]
        asked += [(point, 1) for point in beside] + [([n * largest + 1 for n in sizes], largest)]
        asked += [(inside, largest + 1)] if largest < 4096 else []
        seen |= {refused(scene, point, divisor)[0] for point, divisor in asked}
        count += len(asked)
    same("points", "refusals seen", sorted(seen), ["10", "11", "12", "13"])
    return count


def gaps(folder):
    """A gap at each entry of a window, with and without a share; the lowest of several is told."""
    rng = random.Random(SEED)
    for gap in [[i] for i in range(27)] + [[5, 20, 26], [26, 1]]:
        scene = Scene(folder / "gaps.field", "132", (3, 3, 3), random_numbers(rng, 99), gap)
        _, text = refused(scene, (5, 5, 5), 2)
        gap_line = ", ".join(str(place(i, (3, 3, 3))) for i in sorted(gap))
        same("gaps", "file", sections(text)[1]["The file"][-1], f"  never measured: {gap_line}")
    return 29


def small_tables(folder):
    """Tables with fewer entries than the extent on one axis or more: nothing is inside, the faces neither."""
    rng, count = random.Random(SEED), 0
    for sizes in ((2, 3, 1), (2, 2, 2), (3, 3, 2), (1, 4, 4)):
        scene = Scene(folder / "small.field", "132", sizes, random_numbers(rng, 9))
        for divisor, step in itertools.product((1, 7), (-1, 0, 1)):
            number, _ = refused(scene, [n * divisor + step for n in sizes], divisor)
            same("a small table", "refused", number, "12")
            count += 1
    return count


# ---- files and orders


def files(folder):
    """Files cut off, with something appended, with bad sizes and numbers: as the evaluator refuses them."""
    good = field((2, 2, 2), [0] * 8, [1] * 8)
    bad = [good[:length] for length in range(len(good))] + [good + b"\n", good * 500, bytes(6), b"\xff" * 12]
    sizes = (65, 1, 1), (1, 0, 1), (64, 64, 2), (65535, 65535, 65535), (3, 3, 3)
    bad += [field(sizes, [], []) for sizes in sizes]
    bad += [field((2, 2, 2), [0] * 8, [1] * i + [32768] * (8 - i)) for i in range(8)]
    path = folder / "bad.field"
    for data in bad:
        path.write_bytes(data)
        case = f"a file of {len(data)} bytes that begins {data[:9]}"
        call = 1, 1, 1, 1, 2, 2, 2, 0, 0, 0, 1, 1, 1, 1
        [answer, number, index] = ask("point", *call, "--file", path).split()
        same(case, "evaluated", answer, "refused")
        text, _ = run(path, "", 1, 1, 1, 1, status=REFUSED)
        begins(case, text, WORDS.get(number, number + ": ").format(place(int(index), (2, 2, 2))))
    begins("/dev/zero", run("/dev/zero", "", 1, 1, 1, 1, status=REFUSED)[0], "6: ")
    return len(bad) + 1


def orders(folder):
    path = folder / "good.field"
    path.write_bytes(field((4, 4, 4), [0] * 64, [1] * 64))
    bad = [
        b"0",
        b"5",
        b"1,3,2",
        b"1 3 2",
        b"132\n1",
        b"\xff",
        b"1\xc3\xa4",
        b"\x01",
        b"\x03\x02",
        b"-1",
        b"<&>",
    ]
    bad += [b"1" * 9, b"123412341x", b"?" * 9, b"?" * 8, b"1" * 100000]
    for order, printed in zip(bad, prints(bad)):
        number = printed.split()[1]
        first = next((i for i, byte in enumerate(order) if byte not in b"1234"), None)
        right = "1: the order has more than 8 repeats" if number == "1" else f"2: byte {first} of the order"
        begins(f"order {order[:20]}", run(path, order, 1, 1, 1, 1, status=REFUSED)[0], right)
    begins("both", run("/dev/null", "9", 1, 1, 1, 1, status=REFUSED)[0], "2: byte 0 ", "5: ")
    return len(bad) + 1


def asked(folder):
    """Refusals that a unit gave, told for a file and an order: every number, with places."""
    path = folder / "good.field"
    path.write_bytes(field((6, 5, 4), [0] * 120, [1] * 120))
    right = {n: f"{n}: " for n in NUMBERS}
    right |= {
        2: "2: byte 24 of the order",
        8: "8: entry (0, 4, 0) ",
        13: "13: entry (0, 4, 0) was never measured",
        16: "16: entry (0, 4, 0) is marked as never measured",
    }
    differs = "14: the net differs from the defined one, first at net place "
    right |= {14: differs + "(11, 1, 0)"}
    for number in NUMBERS:
        text, _ = run(path, "132", "--refused", number, 24)
        begins(f"--refused {number}", text, right[number])
    [(_, said)] = told("--refused 12", run(path, "132", "--refused", 12, 0)[0])
    inside = "axis {}: inside are the positions 2 to {}, both included: cells 2 to {}, the last with the far face"
    same("--refused 12", "axes", said[:-2], [inside.format(b, n, n - 1) for b, n in ((1, 6), (2, 5), (3, 4))])
    same("--refused 12", "what to do", said[-1], f"to do: {FURTHER}")
    for number in (8, 13, 16):
        text, _ = run(path, "132", "--refused", number, 120)
        begins("no entry", text, f"{number}: entry number 120, which this file does not have")
    begins("no net place", run(path, "132", "--refused", 14, 2197)[0], differs + "number 2197, which")
    begins("beside another", run(path, "9", "--refused", 21, 0, status=REFUSED)[0], "2: ", "21: ")
    bad = [(number, 0) for number in (0, 18, 20, 24, -1, "x", 2**32)]
    for words in bad + [(13, "x"), (13, -1), (13,), (13, 0, 1, 1, 1, 1)]:
        complained(path, "132", "--refused", *words)
    return len(NUMBERS) + 17


def tried(folder):
    return sum(part(folder) for part in (points, gaps, small_tables, files, orders, asked))
