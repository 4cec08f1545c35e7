"""Where the shapes of a picture stand, and how they are painted, read back from its text.

What is wanted comes from the session and its order: which records have a box in which column and row, which arrow goes from
which box to which, and what each sign looks like. Nothing stands outside the picture or upon another, and words have room.
"""
import functools
import re

from session_text import LOGS

SVG = "{http://www.w3.org/2000/svg}"
SHARED = 40  # half the room between two columns is less
LETTER = 6  # the least width of a letter
SIGN_HEIGHT, BESIDE = 16, 12  # of a sign of the legend, and of the room below the last one at least

# What a row's class says of the record, and the box and the figures that go with it, from right to left.
BOXES = {"row record faulty": ("box-faulty", "cross"), "row record faulty cause": ("box-faulty", "cross", "flag"),
         "row record cause": ("box-cause", "flag"), "row record against": ("box-against", "diamond"),
         "row record of-page": ("box-page",), "row record": ("box",), "row stuck": ("box-stuck",)}

# The outline of each figure, around its middle; the room to the right of the first one's middle, and from one to the next.
OUTLINES = {"cross": "M-4 -4L4 4M-4 4L4 -4", "flag": "M-3 6L-3 -6L5 -3L-3 0", "diamond": "M0 -5L5 0L0 5L-5 0z"}
FIGURE, NEXT_FIGURE = 12, 14

# How each class is painted: fill, stroke, width of the stroke, dashes.
PAINTS = {"box-faulty": ("#ffe3dc", "#c21e1e", "3.5", None), "box-against": ("#fff3d6", "#9a6700", "2.5", "7 3"),
          "box-cause": ("#efe6fd", "#6639ba", "2.5", None),
          "box-page": ("#dbeafe", "#0969da", "1.5", None), "box": ("#f6f8fa", "#818b98", None, None),
          "box-stuck": ("#fbe7f3", "#a40e6e", "2", "2 3"), "fold": ("#ffffff", "#818b98", None, "1 3"),
          "cross": ("none", "#c21e1e", "2.5", None), "diamond": ("#9a6700", None, None, None), "flag": ("#6639ba", "#6639ba", "1.5", None),
          "life": (None, "#d1d9e0", None, None), "paper": ("#ffffff", None, None, None),
          "ink": ("#1f2328", None, None, None), "soft": ("#59636e", None, None, None),
          "tip": ("#6e7781", None, None, None), "tip-page": ("#0969da", None, None, None), "tip-tied": ("#c21e1e", None, None, None)}
ARROWS = {"arrow": ("#6e7781", "1.2", "url(#head)"), "arrow-page": ("#0969da", "2", "url(#head-page)"),
          "arrow-tied": ("#c21e1e", "2", "url(#head-tied)")}

# The heads of arrows: the size of each, and the class of its tip. Each turns with its line, and has its tip at the line's end.
HEADS = {"head": ("9", "tip"), "head-page": ("10", "tip-page"), "head-tied": ("10", "tip-tied")}
HEAD = {"viewBox": "0 0 8 8", "refX": "8", "refY": "4", "markerUnits": "userSpaceOnUse", "orient": "auto"}
TIP = "M0 0L8 4L0 8z"

# On what texts stand, and the least contrast that they have with it, as WCAG 2.2 has it for texts.
GROUNDS = ("paper", "fold", "box", "box-page", "box-against", "box-cause", "box-faulty", "box-stuck")
CONTRAST = 4.5

# What the legend says of each sign: of a box with its figures, or an arrow, and whether it is dashed.
MEANINGS = {("box-faulty", "cross", False): {"the faulty record", "waits for another of these"},
            ("box-faulty", "cross", "flag", False): {"the faulty record, also the cause"}, ("box-cause", "flag", False): {"the cause"},
            ("box-against", "diamond", True): {"what it is set against"}, ("box-page", False): {"about the same page"},
            ("box", False): {"another record"}, ("box-stuck", True): {"the next of its log, not taken"},
            ("arrow", False): {"is received"}, ("arrow", True): {"is received; it has no row"},
            ("arrow-tied", False): {"has to come first"}, ("arrow-tied", True): {"one behind it has to come first"}}


def number(element, name):
    return int(element.get(name))


class Box:
    """The box of a record, or of what is folded, with its row's group."""

    def __init__(self, row):
        self.row, self.rect = row, row.find(SVG + "rect")
        self.left, self.top = number(self.rect, "x"), number(self.rect, "y")
        self.width, self.height = number(self.rect, "width"), number(self.rect, "height")
        self.right, self.middle = self.left + self.width, self.top + self.height // 2

    def has(self, x, y):
        """Which of its sides has this point: 'left', 'right', or None."""
        if not self.top < y < self.top + self.height:
            return None
        return {self.left: "left", self.right: "right"}.get(x)


def name_of(row):
    """The log and place of a row's record."""
    log, place = re.match(r"line \d+ \((\w+) (\d+)\): ", row.find(SVG + "title").text).groups()
    return log, int(place)


def is_fold(row):
    return "fold-row" in row.get("class").split()


class Drawing:
    """The shapes of a picture."""

    def __init__(self, picture):
        self.picture = picture
        rows = [group for group in picture.iter(SVG + "g") if (group.get("class") or "").startswith("row")]
        self.rows = [Box(row) for row in rows]
        self.boxes, self.sides = {name_of(box.row): box for box in self.rows if not is_fold(box.row)}, {}
        for name, box in self.boxes.items():
            for x in {box.left, box.right}:
                self.sides.setdefault(x, []).append((name, box))
        self.legend = picture.find(f".//{SVG}g[@class='legend']")
        self.lines = [line for line in picture.iter(SVG + "line") if line not in set(self.legend.iter(SVG + "line"))]
        self.columns = {text.text: number(text, "x") for text in picture.iter(SVG + "text") if text.get("font-weight") == "bold" and text.text in LOGS}

    def at(self, x, y):
        """The record at whose side a point is, and which side, or None."""
        return next(((name, box.has(x, y)) for name, box in self.sides.get(x, ()) if box.has(x, y)), None)


def columns_wrongly(drawing, session):
    """What is wrong with the columns, or None: one for each log but a lane without records, from left to right, with a line."""
    wanted = [log for log in LOGS if log != "lane" or session.logs["lane"]]
    if list(drawing.columns) != wanted:
        return f"columns {list(drawing.columns)}, not {wanted}"
    if any(text.get("text-anchor") != "middle" for text in drawing.picture.iter(SVG + "text") if text.text in drawing.columns):
        return "a column's name that is not in its middle"
    places = list(drawing.columns.values())
    lines = sorted(number(line, "x1") for line in drawing.lines if line.get("class") == "life" and line.get("x1") == line.get("x2"))
    return None if places == sorted(set(places)) == lines else f"columns at {places}, and lines down at {lines}"


def rows_wrongly(drawing):
    """What is wrong with where the boxes stand, or None: each in a row of its own below the one before, in its log's column."""
    middles = [box.middle for box in drawing.rows]
    steps = {low - high for high, low in zip(middles, middles[1:])}
    if len(steps) > 1 or any(step <= 0 for step in steps):
        return f"rows at {middles}"
    step = next(iter(steps), 26)
    low = max((number(line, "y2") for line in drawing.lines if line.get("class") == "life"), default=0)
    if middles and not middles[-1] < low <= middles[-1] + step:
        return f"columns as far as {low}, and a last row at {middles[-1]}"
    for name, box in drawing.boxes.items():
        if (box.left + box.right) // 2 != drawing.columns[name[0]]:
            return f"a box of {name} from {box.left} to {box.right}, not in the column at {drawing.columns[name[0]]}"
        line = [text for text in box.row.findall(SVG + "text") if text.get("text-anchor") == "end"]
        label = next(text for text in box.row.findall(SVG + "text") if text.get("text-anchor") is None)
        wanted = re.match(r"line (\d+) ", box.row.find(SVG + "title").text).group(1)
        if [text.text for text in line] != [wanted]:
            return f"{[text.text for text in line]} in the margin of line {wanted}"
        if not (box.left < number(label, "x") < box.right and box.top < number(label, "y") < box.top + box.height and number(line[0], "y") == number(label, "y")):
            return f"a label of {name} outside its box"
    for left, right in zip(LOGS, LOGS[1:]):
        if left in drawing.columns and right in drawing.columns and drawing.columns[right] - drawing.columns[left] < SHARED:
            return f"the columns of {left} and {right} are too near"
    return None


def arrow_of(drawing, line):
    """From which record's side to which record's side an arrow goes, or None for a stub."""
    ends = drawing.at(number(line, "x1"), number(line, "y1")), drawing.at(number(line, "x2"), number(line, "y2"))
    return ends


def side_to(own, other):
    return "left" if LOGS.index(other) < LOGS.index(own) else "right"


def is_marked(box):
    return box.row.get("class") not in ("row record", "row stuck")


def wanted_arrows(drawing, named):
    """The arrows between the rows of the order, each with its class, by what each record receives."""
    inside = {name: box for name, box in drawing.boxes.items() if "behind" not in box.row.get("class").split()}
    for name, box in inside.items():
        sent = named(name)
        if sent is not None and sent in inside:
            kind = "arrow-page" if is_marked(box) and is_marked(inside[sent]) else "arrow"
            yield kind, (sent, side_to(sent[0], name[0])), (name, side_to(name[0], sent[0]))
        elif sent is not None:
            yield "arrow", None, (name, side_to(name[0], sent[0]))


def wanted_ties(circle, named):
    """The arrows between records that wait for one another, each from the next of them, and whether it is dashed."""
    for name in circle:
        sent = named(name)
        after = next(other for other in circle if other[0] == sent[0])
        yield "arrow-tied", (after, side_to(after[0], name[0])), (name, side_to(name[0], after[0])), after != sent


def arrows_wrongly(drawing, named, circle):
    """What is wrong with the arrows, or None."""
    found, ends = [], set()
    for line in drawing.lines:
        kind = line.get("class")
        if kind == "life":
            continue
        both = frozenset((number(line, f"x{n}"), number(line, f"y{n}")) for n in (1, 2))
        if both in ends:
            return f"an arrow upon another: {line.attrib}"
        ends.add(both)
        if kind not in ARROWS or (line.get("stroke"), line.get("stroke-width"), line.get("marker-end")) != ARROWS[kind]:
            return f"an arrow {line.attrib}"
        begin, end = arrow_of(drawing, line)
        dashed = line.get("stroke-dasharray") is not None
        if end is None or kind == "arrow" and dashed != (begin is None):
            return f"an arrow that goes nowhere, or has the wrong dashes: {line.attrib}"
        out = number(line, "x1") - number(line, "x2")
        if begin is None and not (line.get("y1") == line.get("y2") and 0 < abs(out) < SHARED and (out < 0) == (end[1] == "left")):
            return f"the end of an arrow {line.attrib}"
        found.append((kind, begin, end) + ((dashed,) if kind == "arrow-tied" else ()))
    wanted = [*wanted_arrows(drawing, named), *wanted_ties(circle, named)]
    missing, more = [arrow for arrow in wanted if arrow not in found], [arrow for arrow in found if arrow not in wanted]
    return None if not missing and not more and len(found) == len(wanted) else f"arrows {more}, not {missing}"


def painted_wrongly(drawing):
    """What is wrong with how the parts are painted, or None."""
    for element in drawing.picture.iter():
        kind = element.get("class")
        if kind in PAINTS:
            found = tuple(element.get(name) for name in ("fill", "stroke", "stroke-width", "stroke-dasharray"))
            if found != PAINTS[kind]:
                return f"{kind} is painted {found}"
    for name, box in drawing.boxes.items():
        words = box.row.get("class").replace(" behind", "")
        if words not in BOXES:
            return f"a row '{words}'"
        if look_of(box.rect, box.row) != BOXES[words]:
            return f"a box {look_of(box.rect, box.row)} in a row '{words}'"
        wrong = figures_wrongly(box.row, box.right, box.middle)
        if wrong:
            return f"{wrong} in the box of {name}"
    entries = (entry for entry in drawing.legend.findall(SVG + "g") if entry.find(SVG + "rect") is not None)
    return next(filter(None, (figures_wrongly(entry, number(entry.find(SVG + "rect"), "width"), SIGN_HEIGHT // 2) for entry in entries)), None)


def look_of(sign, group):
    """The class of a box or an arrow, and the figures that stand with it."""
    return (sign.get("class"), *(path.get("class") for path in group.iter(SVG + "path")))


def figures_wrongly(group, right, middle):
    """What is wrong with the figures in a box, or None: each has its outline, and its place beside the one before."""
    for n, place in enumerate(group.findall(SVG + "g")):
        path = place.find(SVG + "path")
        if place.get("transform") != f"translate({right - FIGURE - n * NEXT_FIGURE} {middle})" or path.get("d") != OUTLINES[path.get("class")]:
            return f"a figure {path.attrib} at {place.get('transform')}"
    return None


def heads_wrongly(drawing):
    """What is wrong with the heads of arrows, or None."""
    found = {marker.get("id"): marker for marker in drawing.picture.iter(SVG + "marker")}
    if found.keys() != HEADS.keys():
        return f"heads of arrows {list(found)}"
    for name, (size, kind) in HEADS.items():
        tips = [(path.get("class"), path.get("d")) for path in found[name]]
        if found[name].attrib != {**HEAD, "id": name, "markerWidth": size, "markerHeight": size} or tips != [(kind, TIP)]:
            return f"a head {found[name].attrib} with {tips}"
    return None


def dark_paints(style):
    """How each class is painted on a dark page by a style: its attributes."""
    found, dark = {}, re.fullmatch(r"\n@media \(prefers-color-scheme: dark\) \{\n(.*)\n\}\n", style, re.S)
    for names, paints in re.findall(r"([^{}]*) \{ ([^{}]*) \}", dark[1] if dark else ""):
        for name in re.findall(r"\.([\w-]+)", names):
            found.setdefault(name, {}).update(paint.split(": ") for paint in paints.split("; "))
    return found


def contrast(one, other):
    """The contrast of two colours, as WCAG 2.2 defines it."""
    def luminance(colour):
        parts = [int(colour[at:at + 2], 16) / 255 for at in (1, 3, 5)]
        red, green, blue = (part / 12.92 if part <= 0.04045 else ((part + 0.055) / 1.055) ** 2.4 for part in parts)
        return 0.2126 * red + 0.7152 * green + 0.0722 * blue

    low, high = sorted((luminance(one), luminance(other)))
    return (high + 0.05) / (low + 0.05)


def darkened_wrongly(drawing):
    return styled_wrongly("".join(style.text for style in drawing.picture.iter(SVG + "style")))


@functools.cache
def styled_wrongly(style):
    """What is wrong with the colours on a dark page, or None: each part that has a colour has another there, and texts can be read on both."""
    light = {name: {"fill": fill, "stroke": stroke} for name, (fill, stroke, *_) in PAINTS.items()}
    light.update({name: {"stroke": stroke} for name, (stroke, *_) in ARROWS.items()})
    dark = dark_paints(style)
    for name, paints in light.items():
        wanted = {part for part, colour in paints.items() if colour and colour != "none"}
        if dark.get(name, {}).keys() != wanted or any(dark[name][part] == paints[part] for part in wanted):
            return f"{name} on a dark page is painted {dark.get(name)}"
    for page in light, dark:
        pale = [(ink, ground) for ink in ("ink", "soft") for ground in GROUNDS if contrast(page[ink]["fill"], page[ground]["fill"]) < CONTRAST]
        if pale:
            return f"texts that cannot be read: {pale}"
    return None


def explained_wrongly(drawing):
    """What is wrong with the legend, or None: a sign that does not occur or is missing, or one with another's meaning."""
    found = set()
    for entry in drawing.legend.findall(SVG + "g"):
        sign = next(element for element in entry if element.tag in (SVG + "rect", SVG + "line"))
        key = (*look_of(sign, entry), sign.get("stroke-dasharray") is not None)
        meaning = entry.find(SVG + "text").text
        if meaning not in MEANINGS.get(key, ()):
            return f"'{meaning}' of {key}"
        found.add((key, meaning))
    arrows = {(line.get("class").replace("-page", ""), line.get("stroke-dasharray") is not None) for line in drawing.lines if line.get("class") != "life"}
    boxes = {(*look_of(box.rect, box.row), box.rect.get("stroke-dasharray") is not None) for box in drawing.boxes.values()}
    occurs = arrows | boxes
    return None if {key for key, _ in found} == occurs else f"a legend of {sorted({key for key, _ in found})}, not {sorted(occurs)}"


def sized_wrongly(drawing):
    """What is wrong with the picture's extent, or None: all that is drawn is within it, and the heading is above the rest."""
    picture = drawing.picture
    width, height = number(picture, "width"), number(picture, "height")
    if picture.get("viewBox") != f"0 0 {width} {height}":
        return f"a view of {picture.get('viewBox')} of {width} by {height}"
    heading = [number(text, "y") for text in picture.findall(SVG + "text")]
    body = picture.find(SVG + "g")
    down = int(re.match(r"translate\(0 (\d+)\)$", body.get("transform")).group(1))
    top = min(number(text, "y") for text in body.findall(SVG + "text")) + down
    if heading != sorted(set(heading)) or not heading[-1] < top - 12:
        return f"a heading at {heading} above columns at {top}"
    if any(box.right > width for box in drawing.rows) or any(box.top + box.height + down > height for box in drawing.rows):
        return f"a box beyond {width} by {height}"
    wide = [text.text for text in picture.findall(SVG + "text")[1:] if LETTER * len(text.text) > width - 2 * number(text, "x")]
    if wide:
        return f"a line of the heading as wide as the picture, {width}: {wide}"
    folds = [(box, box.row.find(SVG + "text")) for box in drawing.rows if is_fold(box.row)]
    if any(text.get("text-anchor") != "middle" or number(text, "x") != (box.left + box.right) // 2 for box, text in folds):
        return "the words of a fold are not in the middle of its frame"
    wide = [text.text for box, text in folds if LETTER * len(text.text) > box.width]
    return f"folds wider than their frames: {wide}" if wide else legend_placed_wrongly(drawing, height - down)


def legend_placed_wrongly(drawing, height):
    """What is wrong with where the legend stands, or None: below all rows, with room below it, and each sign in a place of its own."""
    def moved(group):
        return tuple(map(int, re.match(r"translate\((\d+) (\d+)\)$", group.get("transform")).groups()))

    top, places = moved(drawing.legend)[1], [moved(entry) for entry in drawing.legend.findall(SVG + "g")]
    low = top + max((y + SIGN_HEIGHT for _, y in places), default=0)
    if any(box.top + box.height >= top for box in drawing.rows) or not low + BESIDE <= height:
        return f"a legend from {top} to {low}, of {height}"
    return None if len(set(places)) == len(places) else f"signs of the legend at {places}"


def looks_wrongly(drawing):
    """What is wrong with how the parts of a picture look, on a light page and on a dark one, or None."""
    return painted_wrongly(drawing) or heads_wrongly(drawing) or darkened_wrongly(drawing) or sized_wrongly(drawing)


def shown_wrongly(picture, session, named, circle):
    """What is wrong with the shapes of a picture of a session, or None."""
    drawing = Drawing(picture)
    return (columns_wrongly(drawing, session) or rows_wrongly(drawing) or arrows_wrongly(drawing, named, circle)
            or explained_wrongly(drawing) or looks_wrongly(drawing))


