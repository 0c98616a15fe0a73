"""Files of the layout before 0.7.0, which have no origin, and libraries that take no others: what is told of
5 and 7, and how such a file is converted."""
import random
import re
import subprocess

from evaluator import ROOT, ask
from explaining.refusals import REFUSED, told
from explaining.scene import SEED, random_numbers
from explaining.told import field, run, same, words

FITTER = "concerns the fitter"
LOST = "or it is a new one that lost six bytes: converted, it would give wrong figures"
CONVERT = "copy it again; only if it stays so long, and was written for a library before 0.7.0, "
CONVERT += "put six zero bytes behind its first six"
UNDER_12 = "5: the file has under 12 bytes, too few for its sizes and its origin"


def wants(sizes):
    n = sizes[0] * sizes[1] * sizes[2]
    return f"7: the file's length does not fit its sizes: {words(sizes)} want {12 + 4 * n} bytes"


def as_old(sizes):
    """What is told of a file that is as long as an old one of these sizes."""
    n = sizes[0] * sizes[1] * sizes[2]
    had = f"one of these sizes had 6 + 4 x {n} = {6 + 4 * n} bytes"
    may_be = f"it may be an old file: before 0.7.0 a file had no origin, and {had}"
    return UNDER_12 if n == 1 else wants(sizes), [may_be, LOST, FITTER, f"to do: {CONVERT}"]


def as_any(number, sizes):
    """What is told of 5 or 7 where nothing more is known."""
    if number == 5:
        return UNDER_12, [FITTER, "to do: it is cut off, or not a field file: copy it again"]
    return wants(sizes), [FITTER, "to do: it is cut off, or something is appended to it: copy it again"]


def converted(data):
    return data[:6] + bytes(6) + data[6:]


def old_files(folder):
    """Refused by 5 or 7 and told to be such, of this number alone; converted, they pass."""
    rng, path = random.Random(SEED), folder / "old.field"
    tables = (1, 1, 1), (2, 1, 1), (1, 1, 3), (4, 4, 4), (6, 5, 4), (64, 64, 1), (64, 1, 64), (16, 16, 16)
    for sizes in tables:
        n = sizes[0] * sizes[1] * sizes[2]
        new = field(sizes, *random_numbers(rng, 99)(n))
        path.write_bytes(new[:6] + new[12:])
        call = 1, 1, 1, 1, *sizes, 0, 0, 0, 1, 1, 1, 1
        [_, number, _] = ask("point", *call, "--file", path).split()
        met, other = (5, 7) if n == 1 else (7, 5)
        same(sizes, "evaluated", int(number), met)
        for question, right in (
            ((1, 1, 1, 1), [as_old(sizes)]),
            (("--refused", met, 0), [as_old(sizes)]),
            (("--refused", other, 0), [as_old(sizes), as_any(other, sizes)]),
        ):
            text, _ = run(path, "", *question, status=REFUSED)
            same(sizes, f"told of {question}", told(f"an old file of {sizes}", text), right)
        same(sizes, "converted", converted(path.read_bytes()), new)
        path.write_bytes(new)
        text, _ = run(path, "", 1, 1, 1, 1, status=None)
        same(sizes, "converted", f"sizes {words(sizes)}: {n} entries" in text, True)
    return 4 * len(tables)


def cut_off(folder):
    """A new file that lost six bytes may be an old one by its length. Why it has to be copied first:
    converted, it is loaded, with its origin as the first corrections, and gives another figure."""
    path, sizes = folder / "cut.field", (2, 2, 2)
    new = field(sizes, range(10, 18), [5] * 8, (0, 0, 0))
    figures = []
    for data in (new, converted(new[:-6])):
        path.write_bytes(data)
        figures.append(run(path, "", 2, 2, 2, 1)[0].split("\n")[1])
    same("a file that is cut off", "wrong figure", figures[0] != figures[1], True)
    path.write_bytes(new[:-6])
    text, _ = run(path, "", 2, 2, 2, 1, status=REFUSED)
    same("a file that is cut off", "told", told("a file that is cut off", text), [as_old(sizes)])
    return 3


def other_lengths(folder):
    """No other file is told to be an old one."""
    path, good = folder / "other.field", field((2, 2, 2), [0] * 8, [1] * 8)
    for length in range(len(good)):
        path.write_bytes(good[:length])
        text, _ = run(path, "", 1, 1, 1, 1, status=REFUSED)
        same(f"{length} bytes", "an old file", "an old file" in text, length == 6 + 4 * 8)
    for sizes in ((0, 1, 1), (65, 1, 1), (64, 64, 2)):
        n = sizes[0] * sizes[1] * sizes[2]
        path.write_bytes(field(sizes, [0] * n, [1] * n)[:-6])
        same(sizes, "an old file", "an old file" in run(path, "", 1, 1, 1, 1, status=REFUSED)[0], False)
    return len(good) + 3


def older_libraries(folder):
    """A file that passes may have been refused by an older library, by 7. It takes the table without its
    origin only where this is 0."""
    path, sizes = folder / "new.field", (2, 2, 2)
    origins = (0, 0, 0), (1, 0, 0), (0, -1, 0), (0, 0, 256), (-4, -3, -3), (-32768, 32767, 1)
    older = "its library is older than 0.7.0 and takes files without an origin alone"
    passes = f"this file passes: the unit was given another, or {older}"
    acts = "to do: copy it to the unit again; for an older library firmware acts: it brings 0.7.0, "
    for origin in origins:
        path.write_bytes(field(sizes, [0] * 8, [1] * 8, origin))
        acted = "since no older one can take this origin"
        if not any(origin):
            acted = "or leaves out the six zero bytes of the origin"
        refusals = [told(origin, run(path, "", "--refused", number, 0)[0]) for number in (7, 5)]
        same(origin, "--refused 7", refusals[0], [(wants(sizes), [passes, FITTER, acts + acted])])
        same(origin, "--refused 5", refusals[1], [as_any(5, sizes)])
    return 2 * len(origins)


COMMAND = r"\(head -c 6 OLD; .* OLD\) > NEW"
PAGES = "docs/HOW-A-FIGURE-COMES-ABOUT.md", "README.md", "include/torskavel.h"


def command(folder):
    """The command that the pages give for the conversion makes our table of the old file."""
    new = folder / "new.field"
    for page in PAGES:
        [line] = re.findall(COMMAND, (ROOT / page).read_text())
        line = line.replace("OLD", '"$1"').replace("NEW", '"$2"')
        subprocess.run(["sh", "-c", line, "sh", ROOT / "examples/without-origin.field", new], check=True)
        same(page, "converted", new.read_bytes(), (ROOT / "examples/table.field").read_bytes())
        new.unlink()
    return len(PAGES)


def tried(folder):
    return sum(part(folder) for part in (old_files, cut_off, other_lengths, older_libraries, command))
