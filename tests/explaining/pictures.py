"""The pictures of a page: the numbers of the text where they belong, and no line that crosses a label."""
import itertools
import math
from fractions import Fraction

from explaining.told import numbers, same

SVG = "{http://www.w3.org/2000/svg}"


# ---- labels and lines


def size(text):
    return 11 if text.get("class") == "small" else 13


def label(text):
    """Left, top, right and bottom of a label, a little more than a common font takes."""
    width = len(text.text) * size(text) * 0.66
    x, y = float(text.get("x")), float(text.get("y"))
    left = x - {"start": 0, "middle": width / 2, "end": width}[text.get("text-anchor")]
    return left, y - 0.76 * size(text), left + width, y + 0.22 * size(text)


def segments(svg):
    """Every line that is drawn, with those of frames."""
    for line in svg.iter(SVG + "line"):
        yield tuple(float(line.get(name)) for name in ("x1", "y1", "x2", "y2"))
    for polygon in svg.iter(SVG + "polygon"):
        spots = [tuple(map(float, spot.split(","))) for spot in polygon.get("points").split()]
        yield from ((*a, *b) for a, b in zip(spots, spots[1:] + spots[:1]))
    for rect in svg.iter(SVG + "rect"):
        if rect.get("class") in ("edge", "blue", "cell"):
            x, y, w, h = (float(rect.get(name)) for name in ("x", "y", "width", "height"))
            spots = [(x, y), (x + w, y), (x + w, y + h), (x, y + h)]
            yield from ((*a, *b) for a, b in zip(spots, spots[1:] + spots[:1]))


def crosses(segment, box):
    """Whether a segment has a point in a box."""
    x1, y1, x2, y2 = segment
    left, top, right, bottom = box
    low, high = 0.0, 1.0
    for start, step, least, most in ((x1, x2 - x1, left, right), (y1, y2 - y1, top, bottom)):
        if step == 0:
            if not least <= start <= most:
                return False
        else:
            near, far = sorted(((least - start) / step, (most - start) / step))
            low, high = max(low, near), min(high, far)
    return low <= high


def check_labels(case, svg):
    labels = [(text.text, label(text)) for text in svg.iter(SVG + "text")]
    width, height = float(svg.get("width")), float(svg.get("height"))
    lines = list(segments(svg))
    for text, box in labels:
        within = box[0] >= 0 <= box[1] and box[2] <= width and box[3] <= height
        same(case, f"label {text!r} within the picture", within, True)
        crossing = [line for line in lines if crosses(line, box)]
        same(case, f"lines across label {text!r}", crossing, [])
    for (one, a), (other, b) in itertools.combinations(labels, 2):
        apart = a[2] <= b[0] or b[2] <= a[0] or a[3] <= b[1] or b[3] <= a[1]
        same(case, f"labels {one!r} and {other!r} apart", apart, True)


# ---- what the pictures show


def check_cell(case, svg, told):
    texts = [text.text for text in svg.iter(SVG + "text")]
    same(case, "weights", [numbers(text)[0] for text in texts if text.startswith("weight")], told.weights)
    corners, at = [[0, 0, 0]], [0, 0, 0]
    for axis in told.axes:
        at[axis - 1] = 1
        corners.append(list(at))
    same(case, "corners", [numbers(text) for text in texts if text.startswith("corner")], corners)
    remainders = [[axis, told.remainders[axis - 1]] for axis in told.axes]
    same(case, "remainders", [numbers(text) for text in texts if text.startswith("axis")], remainders)
    dots = list(svg.iter(SVG + "circle"))
    corners = [dot for dot in dots if dot.get("class") in ("corner", "idle")]
    hollow = ["corner" if weight else "idle" for weight in told.weights]
    same(case, "hollow corners", [dot.get("class") for dot in corners], hollow)
    corners = [number(dot, "cx", "cy") for dot in corners]
    check_point(case, dots[-1], corners, told.weights)
    check_shaded(case, of_class(svg, "face"), corners, told)


def check_point(case, dot, corners, weights):
    """The point, above all other dots, is the mean of the corners by their weights."""
    mean = [sum(w * at for w, at in zip(weights, line)) / sum(weights) for line in zip(*corners)]
    right = dot.get("class") == "point" and math.dist(mean, number(dot, "cx", "cy")) < 0.2
    same(case, "the point drawn where it is", right, True)


def check_shaded(case, sides, corners, told):
    """A side of the cell for each far face that the point is on, with the corners past its axis's step."""
    faces = [u for u in told.remainders if u == sum(told.weights)]
    same(case, "shaded sides", len(sides), len(faces))
    for steps, side in enumerate(sides):
        at = [list(map(float, spot.split(","))) for spot in side.get("points").split()]
        on_side = [corner in at for corner in corners]
        same(case, "corners of a shaded side", on_side, [i > steps for i in range(4)])


def number(element, *names):
    return [float(element.get(name)) for name in names]


def frame(rect):
    """Left, top, right and bottom of a frame."""
    x, y, width, height = number(rect, "x", "y", "width", "height")
    return x, y, x + width, y + height


def grouped(svg):
    """The elements of each layer, which end with its heading."""
    layer = []
    for element in svg:
        layer.append(element)
        if (element.text or "").startswith("layer "):
            yield numbers(element.text)[-1], layer
            layer = []


def of_class(elements, name):
    return [element for element in elements if element.get("class") == name]


class Layer:
    """A layer as it is drawn: the box and the words of each entry, found by the numbers at its edges."""

    def __init__(self, j3, elements):
        self.elements = elements
        texts = [element for element in elements if element.tag == SVG + "text"]
        self.boxes = [frame(rect) for rect in of_class(elements, "edge")]
        self.bottom, left = max(box[3] for box in self.boxes), min(box[0] for box in self.boxes)
        self.across = {int(t.text): number(t, "x")[0] for t in texts if number(t, "y")[0] > self.bottom}
        self.up = {int(t.text): number(t, "y")[0] for t in texts if number(t, "x")[0] < left}
        self.words = {}
        for j1, j2 in itertools.product(self.across, self.up):
            x1, y1, x2, y2 = self.box(j1, j2)
            inside = [t.text for t in texts if x1 < number(t, "x")[0] < x2 and y1 < number(t, "y")[0] < y2]
            self.words[j1, j2, j3] = inside

    def box(self, j1, j2):
        x, y = self.across[j1], self.up[j2]
        [box] = [box for box in self.boxes if box[0] < x < box[2] and box[1] < y - 4 < box[3]]
        return box


def percent(count, denominator):
    tenths = Fraction(1000 * count, denominator)
    rounded = math.floor(tenths + Fraction(1, 2))
    exact = rounded == tenths and rounded % 10 == 0
    shown = str(rounded // 10) if exact else f"{rounded // 10}.{rounded % 10}"
    return "<0.1%" if rounded == 0 else shown + "%"


def tip(polygon):
    """The tip of a triangle, which is its first corner."""
    return [float(word) for word in polygon.get("points").split()[0].split(",")]


def check_frames(case, layer, told, j3):
    """The window's frame, the cell's, and the triangles where the table is read."""
    (left, _, _, bottom), (_, top, right, _) = layer.box(*told.low[:2]), layer.box(*told.high[:2])
    same(
        case,
        "window",
        [frame(rect) for rect in of_class(layer.elements, "blue")],
        [(left, top, right, bottom)],
    )
    cells = [frame(rect) for rect in of_class(layer.elements, "cell")]
    same(case, "frames of the cell", len(cells), int(j3 == told.cell[2]))
    for x1, y1, x2, y2 in cells:
        box = layer.box(*told.cell[:2])
        same(case, "cell", box[0] < x1 < x2 < box[2] and box[1] < y1 < y2 < box[3], True)
    divisor = sum(told.weights)
    at = [
        k + Fraction(u, divisor) - Fraction(e, 2) for k, u, e in zip(told.cell, told.remainders, told.extents)
    ]
    marks = of_class(layer.elements, "point")
    same(case, "marks", len(marks), 2 * (abs(j3 - at[2]) < 1))
    for axis, mark in enumerate(marks):
        low = layer.box(*(math.floor(a) for a in at[:2]))
        middle, step = (low[axis] + low[axis + 2]) / 2, low[axis + 2] - low[axis]
        right = middle + (-step if axis else step) * (at[axis] - math.floor(at[axis]))
        same(case, "mark", abs(tip(mark)[axis] - right) < 0.2, True)


def check_layers(case, pictures, scene, told):
    """Each entry's words, and the frames, on each layer of the window."""
    rows = [numbers(row.replace("no share", "0")) for row in told.window_rows]
    counts = {tuple(row[:3]): row[5] for row in rows}
    layers = [(j3, Layer(j3, elements)) for svg in pictures for j3, elements in grouped(svg)]
    same(case, "layers", [j3 for j3, _ in layers], list(range(told.low[2], told.high[2] + 1)))
    for j3, layer in layers:
        for entry, words in layer.words.items():
            count = counts.get(entry, 0)
            right = [str(scene.corrections[scene.index(entry)])] + [percent(count, told.figure[2])] * (
                count > 0
            )
            same(case, f"entry {entry}", words, right)
        check_frames(case, layer, told, j3)
        shades = of_class(layer.elements, "shade")
        same(case, "shaded entries", len(shades), sum(counts.get(entry, 0) > 0 for entry in layer.words))
