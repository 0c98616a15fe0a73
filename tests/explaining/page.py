"""The page that `--page` writes: well-formed, complete in itself, with the words of the text and pictures."""
import html.parser
import itertools
import random
import re
import xml.etree.ElementTree as ElementTree

from explaining.pictures import SVG, check_cell, check_labels, check_layers
from explaining.scene import SEED, Scene, random_numbers
from explaining.told import Told, numbers, run, same

XHTML = "{http://www.w3.org/1999/xhtml}"


class Balance(html.parser.HTMLParser):
    """Whether a browser, which reads HTML, finds each element closed where it should be."""

    def __init__(self, text):
        super().__init__()
        self.opened, self.fault = [], ""
        self.feed(text)
        self.close()
        self.fault = self.fault or " ".join(self.opened)

    def handle_starttag(self, tag, attributes):
        self.opened.append(tag)

    def handle_startendtag(self, tag, attributes):
        pass

    def handle_endtag(self, tag):
        if not self.opened or self.opened.pop() != tag:
            self.fault = self.fault or tag


def words_of(element):
    """The words outside pictures, in order."""
    if element.tag == XHTML + "figure":
        return
    yield from (element.text or "").split()
    for child in element:
        yield from words_of(child)
        yield from (child.tail or "").split()


def page(folder, *words, status=0):
    """The page and the text of one command line, which must hold the same words in the same order."""
    case = f"page for {words}"
    path = folder / "out.html"
    path.unlink(missing_ok=True)
    said, _ = run(*words, "--page", path, status=status)
    same(case, "said", said, f"{path}: written\n")
    source = path.read_text()
    root = ElementTree.fromstring(source)
    same(case, "elements not closed", Balance(source).fault, "")
    outside = re.findall(r"<script|<link|<img|url\(|@import|src=|href=|http[^\"]*", source)
    same(case, "what it needs from outside", set(outside) - {XHTML[1:-1], SVG[1:-1]}, set())
    text, _ = run(*words, status=status)
    same(case, "words", list(words_of(root.find(XHTML + "body"))), text.split())
    same(case, "title", root.find(f"{XHTML}head/{XHTML}title").text, text.split("\n")[0])
    return root, text


def pictures(root):
    """The pictures, those of the layers in a list."""
    found = {svg.get("id"): svg for svg in root.iter(SVG + "svg")}
    layers = [found[f"layers{i}"] for i in range(1, len(found))]
    return found | {"layers": layers} if found else {}


def check_caption(case, root, told):
    """The far faces that the point is on are named below the first picture."""
    caption = next(root.iter(XHTML + "figcaption")).text
    faces = [axis for axis in told.axes if told.remainders[axis - 1] == sum(told.weights)]
    same(case, "far faces", numbers(caption.partition("the point is on it: ")[2]), faces)


def answered(folder, order, sizes, most, divisor, points):
    """Pages and pictures of points within cells, on their faces, edges and corners, and on far faces of the
    table; the far corner, and so many others."""
    rng = random.Random(SEED)
    scene = Scene(folder / "page.field", order, sizes, random_numbers(rng, most))
    edges = sorted({0, 1, divisor // 2, divisor - 1, divisor})
    *others, corner = itertools.product(edges, repeat=3)
    asked = [corner, *rng.sample(others, min(points, len(others)))]
    for remainders in asked:
        point = scene.inside(rng, divisor, remainders)
        root, text = page(folder, scene.path, order, *point, divisor)
        told, found, case = Told(text), pictures(root), f"order {order!r}, {point} over {divisor}"
        check_caption(case, root, told)
        check_cell(case, found["cell"], told)
        check_layers(case, found["layers"], scene, told)
        check_labels(case, found["cell"])
        for svg in found["layers"]:
            check_labels(case, svg)
    return len(asked)


def all_answered(folder):
    """Every kind of remainders on the smallest table; some on tables with long numbers or many layers."""
    smallest = [answered(folder, "", (2, 2, 2), 9, divisor, 124) for divisor in (1, 3, 4096)]
    cases = [("1", (6, 5, 4), 32767, 10), ("132", (20, 9, 3), 99, 1850)]
    cases += [("44", (8, 9, 56), 9, 297), ("4444", (8, 6, 7), 9, 5), ("132", (3, 3, 3), 9, 1)]
    return sum(smallest) + sum(answered(folder, *case, 4) for case in cases)


def others(folder):
    """Pages of what is refused, of all local places, and of names that no page can hold as they are."""
    rng = random.Random(SEED)
    scene = Scene(folder / "gap.field", "132", (4, 4, 4), random_numbers(rng, 99), gaps=[0, 3, 40])
    root, _ = page(folder, scene.path, "132", 5, 5, 5, 2, status=1)
    [layers] = pictures(root)["layers"]
    gaps = [text.text for text in layers.iter(SVG + "text") if text.text == "gap"]
    same("gaps", "in the picture", len(gaps), 3)
    for words in ((scene.path, "132"), (scene.path, "1<&>\"'"), ("/dev/null", "132")):
        root, _ = page(folder, *words, 1, 1, 1, 1, status=1)
        same(words, "pictures", pictures(root), {})
    page(folder, scene.path, "132", "--refused", 13, 21)
    names = (
        b"a<b>&\"c'.field",
        b"\xff\xfe.field",
        b"tab\tline\nescape\x1b.field",
        "ä\ufffe\U0001f600".encode(),
    )
    for name in names:
        scene.path.rename(strange := folder / name.decode(errors="surrogateescape"))
        page(folder, strange, "132", 7, 7, 7, 2, "--all")
        strange.rename(scene.path)
    return 9


def tried(folder):
    return all_answered(folder) + others(folder)
