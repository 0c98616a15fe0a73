"""The example that runs through docs/SPECIFICATION.md: its block as a file, what the evaluator answers, and
what the page has to say of both."""
import struct
import sys
import tempfile
from pathlib import Path

ROOT = Path(__file__).resolve().parents[2]
PAGE = ROOT / "docs/SPECIFICATION.md"
sys.path.append(str(ROOT / "tests"))
from evaluator import ask

# Multiplicities, the block's sizes and origin, the point and its divisor, the point on a far face; another
# origin, by which block and point are moved; the corrections that are not 0.
SHAPE, SIZES, ORIGIN, POINT, DIVISOR = (2, 1, 1, 1), (4, 3, 2), (0, 0, 0), (10, 5, 7), 4
FACE_POINT = (16, 5, 7)
MOVED_ORIGIN = (-3, 1, 0)
GAP = -32768
CORRECTIONS = {(0, 0, 0): 10, (1, 0, 0): 20, (2, 1, 1): -30, (3, 2, 1): GAP}
UNCERTAINTY = 3  # but 0 at a gap
HEAD = 12  # bytes before the corrections: sizes and origin


def file(sizes, corrections, origin):
    n1, n2, n3 = sizes
    entries = [corrections.get((j1, j2, j3), 0) for j3 in range(n3) for j2 in range(n2) for j1 in range(n1)]
    uncertainties, n = [0 if entry == GAP else UNCERTAINTY for entry in entries], len(entries)
    return struct.pack(f"<3H3h{n}h{n}H", *sizes, *origin, *entries, *uncertainties)


def answered(shape, sizes, corrections, point, divisor, *changes, origin=ORIGIN):
    """The words of a point's answer, from the numbers of the lent net with these changes."""
    with tempfile.NamedTemporaryFile() as lent:
        lent.write(file(sizes, corrections, origin))
        lent.flush()
        words = [*shape, *sizes, *origin, *point, divisor, "--file", lent.name, *changes]
        return ask("lent-point", *words).split()


def written(*numbers):
    """Numbers as the page writes them."""
    return ", ".join(map(str, numbers)).replace("-", "−")


def of_file():
    """Its first bytes, where the correction of entry (2,1,1) stands, and the bytes of the other origin."""
    lent, (n1, n2, _), (j1, j2, j3) = file(SIZES, CORRECTIONS, ORIGIN), SIZES, (2, 1, 1)
    index = j1 + n1 * (j2 + n2 * j3)
    at = HEAD + 2 * index
    yield f"{len(lent)} bytes."
    yield f"The file begins `{lent[: HEAD + 4].hex(' ')}`."
    yield f"stands at byte {HEAD} + 2·{index} = {at}: `{lent[at : at + 2].hex(' ')}`,"
    moved = file(SIZES, CORRECTIONS, MOVED_ORIGIN)[:HEAD]
    yield f"With the origin {written(*MOVED_ORIGIN)} bytes 6 to 11 are `{moved[6:].hex(' ')}`."


def of_points():
    """The answers at both points; the moved point, which has the same answer in the moved block; and one
    before the origin there."""
    answer, *numbers = answered(SHAPE, SIZES, CORRECTIONS, POINT, DIVISOR)
    yield "= {}, U = 6·16 = {}, and 2!·4² = {}.".format(*numbers)
    _, *on_face = answered(SHAPE, SIZES, CORRECTIONS, FACE_POINT, DIVISOR)
    yield "weigh anything: N = {}, U = {}, over {}.".format(*map(written, on_face))
    moved = [x + o * DIVISOR for x, o in zip(POINT, MOVED_ORIGIN)]
    assert answered(SHAPE, SIZES, CORRECTIONS, moved, DIVISOR, origin=MOVED_ORIGIN) == [answer, *numbers]
    yield f"With the origin {written(*MOVED_ORIGIN)} the same point is {written(*moved)} over {DIVISOR}"
    start = MOVED_ORIGIN[0] * DIVISOR
    before = [start - POINT[0], *moved[1:]]  # as far before the origin as the point is past it
    _, number, _ = answered(SHAPE, SIZES, CORRECTIONS, before, DIVISOR, origin=MOVED_ORIGIN)
    by = f"by {-before[0]} − {-start} = {POINT[0]}"
    yield f"there the point {written(*before)} is before the origin, {by}, and is refused by {number}."


def not_said():
    """What the page should say of the example, and does not."""
    page = " ".join(PAGE.read_text().split())
    return [f"'{words}'" for words in [*of_file(), *of_points()] if words not in page]
