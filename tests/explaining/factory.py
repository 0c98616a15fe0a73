"""The word `factory` in place of an order, for the net that the library copies. Figures are the evaluator's,
and all that is told, written and drawn is that of the order 132 but for the words on the net; other words are
faults; and a library that copies another net is found out."""
import random
import xml.etree.ElementTree as ElementTree

from explaining import page, points
from explaining.faults import DIFFERS, complained, liar
from explaining.refusals import NUMBERS, REFUSED, begins, refused, told
from explaining.scene import FACTORY, SEED, Scene, random_numbers
from explaining.told import field, run, same, stop

COPIED = "  the net is copied ready-made, with the same numbers as the order 132 builds\n"


def alike(path, *words, status=0):
    """What is told for the word is what is told for 132, but for where the net comes from."""
    copied, built = (run(path, order, *words, status=status)[0] for order in (FACTORY, "132"))
    right = built.replace(", order 132, ", ", factory shape, ", 1)
    same(words, "told", copied, right.replace("\nThe order\n", f"\nThe factory shape\n{COPIED}", 1))


def figures(folder):
    rng, count = random.Random(SEED), 0
    for sizes in ((3, 3, 3), (6, 5, 4), (20, 9, 3)):
        most = rng.choice((50, 32767))
        scene = Scene(folder / "factory.field", FACTORY, sizes, random_numbers(rng, most))
        for divisor in (1, 10, 275, 276, 1850):
            far = [n * divisor for n in sizes]
            for point in (scene.inside(rng, divisor), scene.inside(rng, divisor, (0, 0, divisor)), far):
                all_places = rng.random() < 0.5
                points.answered(scene, point, divisor, all_places)
                alike(scene.path, *point, divisor, *["--all"] * all_places)
                count += 3
    return count


def refused_points(folder):
    rng, seen = random.Random(SEED), []
    scene = Scene(folder / "factory.field", FACTORY, (4, 5, 3), random_numbers(rng, 99), gaps=[0])
    small = Scene(folder / "small.field", FACTORY, (2, 3, 3), random_numbers(rng, 99))
    cases = [(scene, (8, 9, 5), 0), (scene, (2, 2, 2), 1851), (scene, (9, 5, 5), 2), (scene, (4, 4, 4), 2)]
    for scene, point, divisor in cases + [(small, (2, 3, 3), 1)]:
        seen.append(refused(scene, point, divisor)[0])
        alike(scene.path, *point, divisor, status=REFUSED)
    same("the factory's net", "refusals", seen, ["10", "11", "12", "13", "12"])
    alike("/dev/null", 1, 1, 1, 1, status=REFUSED)
    return 3 * len(seen) + 2


# What is to be done where it is not what the order's net wants.
NO_ORDER = (
    "the factory's net is copied without an order: find out what other net was to be built, and give its order "
    "in place of factory"
)
TO_DO = {
    1: NO_ORDER,
    2: NO_ORDER,
    3: "hand in 2 2 2 1, which the factory's net has",
    4: "lend W1 x W2 x W3 places for the net and for each work slice, 2197 for this net; to copy the "
    "factory's net no work slice is wanted",
    14: "have the factory's net copied again",
    21: "have the factory's net copied",
    23: "inspect the net (14 tells where it differs) and have the factory's copied again; the memory may be "
    "bad",
}


def asked(folder):
    """Refusals that a unit gave, each number."""
    path = folder / "good.field"
    path.write_bytes(field((6, 5, 4), [0] * 120, [1] * 120))
    for number in NUMBERS:
        texts = (run(path, order, "--refused", number, 24)[0] for order in (FACTORY, "132"))
        [copied], [(wrong, said)] = (told(f"--refused {number}", text) for text in texts)
        to_do = f"to do: {TO_DO[number]}" if number in TO_DO else said[-1]
        same(f"--refused {number}", "told", copied, (wrong, said[:-1] + [to_do]))
    differs = "14: the net differs from the defined one, first at net place number 2197, which"
    begins("no net place", run(path, FACTORY, "--refused", 14, 2197)[0], differs)
    return 2 * len(NUMBERS) + 1


def words(folder):
    """The word misspelt, in capitals, or with something beside it, is told as it was typed; with a digit it
    is an order, and refused as one."""
    path, out = folder / "good.field", folder / "none.html"
    path.write_bytes(field((3, 3, 3), [0] * 27, [1] * 27))
    bad = ["Factory", "FACTORY", "factroy", "factor", "factorys", " factory", "factory ", "x", "x" * 9]
    bad += ["f<&>", "\u0192actory"]
    wanted = "which is neither the word factory, in small letters, nor an order in digits"
    for word in bad:
        for rest in ((2, 2, 2, 1), (2, 2, 2, 1, "--page", out), ("--refused", 13, 0)):
            complained(path, word, *rest, fragment=f"ORDER is '{word}', {wanted}")
    complained(path, b"\xfffactory\x1b", 2, 2, 2, 1, fragment=f"ORDER is '\ufffdfactory\ufffd', {wanted}")
    same("misspelt words", "page", out.exists(), False)
    orders = {"factory1": "2: byte 0", "132x": "2: byte 3", "1factory": "2: byte 1"}
    orders["factory,132"] = "1: the order"
    for word, wrong in orders.items():
        begins(word, run(path, word, 2, 2, 2, 1, status=REFUSED)[0], wrong)
    return 3 * len(bad) + 1 + len(orders)


def drawn(root):
    """The pictures of a page as text, with what is said below them."""
    return [ElementTree.tostring(figure) for figure in root.iter(page.XHTML + "figure")]


def pages(folder):
    rng, count = random.Random(SEED), page.answered(folder, FACTORY, (6, 5, 4), 99, 10, 9)
    scene = Scene(folder / "factory.field", FACTORY, (6, 5, 4), random_numbers(rng, 99), gaps=[24])
    statuses = {(34, 23, 26): 0, (60, 49, 39): 0, (24, 45, 26): REFUSED, (61, 23, 26): REFUSED}
    for point, status in statuses.items():
        calls = ((scene.path, net, *point, 10) for net in (FACTORY, "132"))
        copied, built = (drawn(page.page(folder, *call, status=status)[0]) for call in calls)
        same(point, "pictures", copied, built)
        same(point, "a picture of what is inside", bool(copied), point[0] != 61)
    return count + 2 * len(statuses)


# ---- libraries that copy another net

LIAR = """
#include "torskavel.h"
typedef struct torskavel_unit_answer answer;
answer true_factory(struct torskavel_unit, uint32_t *, size_t);
answer torskavel_factory(struct torskavel_unit unit, uint32_t *net, size_t length) {{
    answer answered = true_factory(unit, net, length);
    {lie}
    return answered;
}}
"""
LIES = {
    "number": "net[1098]++;",
    "number far from the point": "net[0]++;",
    "shape": "answered.unit.v1 = 1, answered.unit.v4 = 2;",
    "number past the box": "net[2197]++;",
}


def liars(folder):
    path, out = folder / "good.field", folder / "liar.html"
    path.write_bytes(field((3, 3, 3), range(27), range(27)))
    call = (path, FACTORY, 5, 5, 5, 2)
    said = "THE COPIED NET IS NOT THE ONE THAT THE ORDER 132 BUILDS"
    complains = "the factory's net is not the one that the order 132 builds"
    for name, lie in LIES.items():
        program = liar(folder / f"factory {name}", "factory", LIAR.format(lie=lie))
        text, complaint = run(*call, program=program, status=DIFFERS)
        run(*call, "--page", out, program=program, status=DIFFERS)
        if said not in text or said not in out.read_text() or complains not in complaint:
            stop(f"a library that copies another {name}", "nothing is said")
        run(path, "132", 5, 5, 5, 2, program=program)
    program = liar(folder / "factory refusal", "factory", LIAR.format(lie="answered.number = 4;"))
    text, _ = run(*call, program=program, status=REFUSED)
    begins("a copy that is refused", text, "4: the memory lent for the net")
    return 3 * len(LIES) + 1


def tried(folder):
    return sum(part(folder) for part in (figures, refused_points, asked, words, pages, liars))
