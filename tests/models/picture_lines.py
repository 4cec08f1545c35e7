"""The shapes of a picture as lines of text, one for each, read back from the picture: so a case can be written by hand.

The box of a row is told with the number of the row, the line in the margin, the record, what the box says, its label, and the title behind the place of the
record. Arrows are told by the records at whose boxes they begin and end.
"""
import re

from picture_shapes import SVG, Drawing, is_fold, look_of, name_of

ROW = 26

# What a box with its figures, and a dash, say.
BOXES = {("box-faulty", "cross"): "faulty", ("box-faulty", "cross", "flag"): "faulty and the cause", ("box-cause", "flag"): "the cause",
         ("box-against", "diamond"): "against", ("box-page",): "of the page", ("box",): "plain", ("box-stuck",): "stuck"}
ARROWS = {("arrow", False): "arrow", ("arrow-page", False): "arrow of the page", ("arrow-tied", False): "tie", ("arrow-tied", True): "tie behind"}


def words(element):
    return "".join(element.itertext())


def spelled(name):
    return "{} {}".format(*name)


def row_line(drawing, box):
    """The line of a row: of a record, or of what is folded."""
    at = (box.middle - drawing.rows[0].middle) // ROW
    texts = box.row.findall(SVG + "text")
    if is_fold(box.row):
        return f"box {at}: fold of {words(texts[0])}"
    margin, label = (next((text for text in texts if text.get("text-anchor") == end), None) for end in ("end", None))
    number, done = (words(part) for part in label.findall(SVG + "tspan"))
    log, place = name_of(box.row)
    title = re.sub(r"^line \d+ \(\w+ \d+\): ", "", box.row.find(SVG + "title").text)
    behind = ", behind" if "behind" in box.row.get("class").split() else ""
    where = "no line" if margin is None else f"line {words(margin)}"
    return f"box {at}: {where}, {log} {number if int(number) == place else (number, place)}, {BOXES[look_of(box.rect, box.row)]}{behind}: {done} | {title}"


def arrow_line(drawing, line):
    """The line of an arrow, or of the end of one."""
    begin, end = (drawing.at(int(line.get(f"x{n}")), int(line.get(f"y{n}"))) for n in (1, 2))
    dashed = line.get("stroke-dasharray") is not None
    if begin is None:
        return f"end of an arrow to {spelled(end[0])} from the {end[1]}"
    return f"{ARROWS[line.get('class'), dashed]} from {spelled(begin[0])} to {spelled(end[0])}"


def legend_line(entry):
    """The line of an entry of the legend."""
    sign = next(element for element in entry if element.tag in (SVG + "rect", SVG + "line"))
    dashed = ", dashed" if sign.get("stroke-dasharray") is not None else ""
    return f"legend: {', '.join(look_of(sign, entry))}{dashed}: {words(entry.find(SVG + 'text'))}"


def lines_of(picture):
    """The lines of all shapes of a picture: its heading, columns, arrows, rows, and legend."""
    drawing = Drawing(picture)
    title, *told, order, facts = [words(text).rstrip("\n") for text in picture.findall(SVG + "text")]
    lines = [f"title: {title}", "told: " + " ".join(told), f"order: {order}", f"facts: {facts}"]
    lines += [f"column {log}" for log in drawing.columns]
    lines += [arrow_line(drawing, line) for line in drawing.lines if line.get("class") != "life"]
    lines += [row_line(drawing, box) for box in drawing.rows]
    return lines + [legend_line(entry) for entry in drawing.legend.findall(SVG + "g")]
