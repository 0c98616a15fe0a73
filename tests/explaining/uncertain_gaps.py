"""16: files that give an entry never measured an uncertainty. Number and place are the evaluator's; which
entries are so, with which uncertainties, is worked out here from the numbers that the file was made of."""
import itertools
import random

from evaluator import ROOT, ask
from explaining.page import page, pictures
from explaining.points import answered
from explaining.refusals import REFUSED, WORDS, begins, told
from explaining.scene import SEED, Scene, random_numbers
from explaining.told import GAP, field, place, run, same

LARGEST = 32767  # of the uncertainties of a file
LISTED = 12  # entries that are listed without --all
BESIDE = [
    "a unit that an earlier version loaded with this file answers as ever: such an uncertainty changes no figure",
    "concerns the surveyor",
    "to do: send the file back: if the entry was never measured, set its uncertainty to 0; if it was, put its "
    "correction in",
]


class File:
    """A field file of random numbers, all measured, in which entries are then set."""

    def __init__(self, folder, sizes, rng):
        self.path, self.sizes = folder / "uncertain.field", sizes
        entries = sizes[0] * sizes[1] * sizes[2]
        self.corrections = [rng.randint(-LARGEST, LARGEST) for _ in range(entries)]
        self.uncertainties = [rng.randint(0, LARGEST) for _ in range(entries)]

    def set(self, entry, correction, uncertainty):
        self.corrections[entry], self.uncertainties[entry] = correction, uncertainty

    def evaluated(self):
        """Number and place of the evaluator's refusal."""
        self.path.write_bytes(field(self.sizes, self.corrections, self.uncertainties))
        call = 1, 1, 1, 1, *self.sizes, 0, 0, 0, 0, 0, 0, 1
        _, number, index = ask("point", *call, "--file", self.path).split()
        return int(number), int(index)

    def right(self, all_entries=False):
        """What 16 is told with, and the index that it names."""
        pairs = enumerate(zip(self.corrections, self.uncertainties))
        found = [(index, u) for index, (correction, u) in pairs if correction == GAP and u != 0]
        lowest, uncertainty = found[0]
        marked = f"16: entry {place(lowest, self.sizes)} is marked as never measured"
        listed = [f"{place(index, self.sizes)} with {u}" for index, u in found]
        shown = listed if all_entries else listed[:LISTED]
        more = f" and {len(listed) - len(shown)} more" if len(shown) < len(listed) else ""
        in_all = f"{len(listed)} such entries in all: {', '.join(shown)}{more}"
        in_all = in_all if len(listed) > 1 else "it is the only such entry"
        return lowest, (f"{marked}, but the file gives it the uncertainty {uncertainty}", [in_all, *BESIDE])


def refused_by_16(file, all_entries=False):
    number, index = file.evaluated()
    lowest, right = file.right(all_entries)
    case = f"a file with an uncertain gap at {lowest}"
    same(case, "evaluated", (number, index), (16, lowest))
    text, _ = run(file.path, "132", 5, 5, 5, 2, *["--all"] * all_entries, status=REFUSED)
    same(case, "told", told(case, text), [right])
    return 1


def each_entry(folder):
    rng, sizes, count = random.Random(SEED), (2, 3, 2), 0
    for entry, uncertainty in itertools.product(range(12), (1, 256, LARGEST)):
        file = File(folder, sizes, rng)
        file.set(entry, GAP, uncertainty)
        count += refused_by_16(file)
    return count


def several(folder):
    """Gaps with uncertainties among gaps without, from two up to every entry."""
    rng, sizes, count = random.Random(SEED), (3, 4, 3), 0
    for gaps, all_entries in itertools.product((2, 3, LISTED, LISTED + 1, 20, 36), (False, True)):
        file = File(folder, sizes, rng)
        for entry in range(0, 36, 5):
            file.set(entry, GAP, 0)
        for entry in rng.sample(range(36), gaps):
            file.set(entry, GAP, rng.randint(1, LARGEST))
        count += refused_by_16(file, all_entries)
    return count


def beside_8(folder):
    """8 is told, wherever it stands; also where the gap itself has too large an uncertainty."""
    rng, sizes = random.Random(SEED), (2, 2, 2)
    pairs = list(itertools.product(range(8), repeat=2))
    for gap, other in pairs:
        file = File(folder, sizes, rng)
        file.set(gap, GAP, 5)
        file.uncertainties[other] = rng.randint(LARGEST + 1, 65535)
        case = f"an uncertain gap at {gap} and 8 at {other}"
        same(case, "evaluated", file.evaluated(), (8, other))
        text, _ = run(file.path, "", 1, 1, 1, 1, status=REFUSED)
        begins(case, text, WORDS["8"].format(place(other, sizes)))
    return len(pairs)


def passes(folder):
    """The lowest correction that is no gap, with any uncertainty; and gaps with the uncertainty 0."""
    lowest = Scene(folder / "lowest.field", "132", (4, 3, 3), lambda n: ([-LARGEST] * n, [LARGEST] * n))
    answered(lowest, (5, 5, 5), 2)
    some = random_numbers(random.Random(SEED), 99)
    answered(Scene(folder / "gaps.field", "132", (4, 3, 3), some, gaps=range(3, 36, 4)), (5, 5, 5), 2)
    return 2


def asked(folder):
    """The refusal of a unit, told for the file that it was given and for others."""
    file = File(folder, (6, 5, 4), random.Random(SEED))
    file.set(24, GAP, 7)
    file.set(119, GAP, 5)
    file.evaluated()
    _, right = file.right()
    text, _ = run(file.path, "132", "--refused", 16, 24, status=REFUSED)
    same("the same file", "told", told("the same file", text), [right])
    begins("an order too", run(file.path, "9", 1, 1, 1, 1, status=REFUSED)[0], "2: byte 0 ", right[0])
    text, _ = run(file.path, "132", "--refused", 13, 24, status=REFUSED)
    begins("13 too", text, right[0], "13: entry (0, 4, 0) was never measured")
    file.set(3, 0, LARGEST + 1)
    file.evaluated()
    text, _ = run(file.path, "132", "--refused", 16, 24, status=REFUSED)
    eight = WORDS["8"].format("(3, 0, 0)"), ["concerns the surveyor", told("8", text)[0][1][-1]]
    never_loaded = right[0], [line for line in right[1] if line != BESIDE[0]]
    same("a file that 8 is found in", "told", told("8", text), [eight, never_loaded])
    for entry in (3, 24, 119):
        file.set(entry, 0, 5)
    file.evaluated()
    [(wrong, said)] = told("another file", run(file.path, "132", "--refused", 16, 24)[0])
    another = "in this file it is not so: the unit was given another"
    marked = "16: entry (0, 4, 0) is marked as never measured, but has an uncertainty"
    same("another file", "told", (wrong, said), (f"{marked}; {another}", BESIDE[1:]))
    return 5


def on_a_page(folder):
    file = File(folder, (4, 4, 4), random.Random(SEED))
    file.set(40, GAP, 9)
    file.evaluated()
    root, _ = page(folder, file.path, "132", 5, 5, 5, 2, status=REFUSED)
    same("an uncertain gap", "pictures", pictures(root), {})
    return 1


def example():
    """The example's file is the table of the help line's page, but for its two uncertain gaps."""
    table, example = ((ROOT / f"examples/{name}.field").read_bytes() for name in ("table", "uncertain-gaps"))
    differs = [i for i, (a, b) in enumerate(zip(table, example)) if a != b]
    same("the example", "length and bytes that differ", (len(example), differs), (492, [250, 251, 300]))
    return 1


def tried(folder):
    parts = each_entry, several, beside_8, passes, asked, on_a_page
    return sum(part(folder) for part in parts) + example()
