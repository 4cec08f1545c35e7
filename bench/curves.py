"""Draws curves of milliseconds over records, both by powers of ten, as an SVG that is readable on light and on dark paper."""
import math
from collections import namedtuple

# A curve: the name of its program, empty for ours, on how many processors, and its points of records and milliseconds.
Curve = namedtuple("Curve", "program count points")
Panel = namedtuple("Panel", "name curves")

FLOOR = "cat"
WIDTH, HEIGHT = 960, 460
TOP, BOTTOM = 100, 410
LEFT, PLOT, PITCH = 50, 228, 312
STEPS = (1, 2, 5)
APART = 13  # of two labels

STYLE = """<style>
.axis { stroke: #d1d9e0 } .ink { fill: #1f2328 } .soft { fill: #59636e } .paper { fill: #ffffff }
path { fill: none; stroke-width: 1.75 } .other { stroke-dasharray: 5 4 } .line-floor { stroke-dasharray: 1.5 3 }
.line-1 { stroke: #bc4c00 } .line-2 { stroke: #9a6700 } .line-3 { stroke: #1a7f37 } .line-4 { stroke: #0969da } .line-floor { stroke: #59636e }
.text-1 { fill: #bc4c00 } .text-2 { fill: #9a6700 } .text-3 { fill: #1a7f37 } .text-4 { fill: #0969da } .text-floor { fill: #59636e }
@media (prefers-color-scheme: dark) {
.axis { stroke: #3d444d } .ink { fill: #e6edf3 } .soft { fill: #9da7b1 } .paper { fill: #0d1117 }
.line-1 { stroke: #f0883e } .line-2 { stroke: #d6b32f } .line-3 { stroke: #3fb950 } .line-4 { stroke: #58a6ff } .line-floor { stroke: #9da7b1 }
.text-1 { fill: #f0883e } .text-2 { fill: #d6b32f } .text-3 { fill: #3fb950 } .text-4 { fill: #58a6ff } .text-floor { fill: #9da7b1 }
}
</style>
"""


def step_below(value):
    """The greatest of 1, 2, 5, 10 and so on that is no greater."""
    power = 10.0 ** math.floor(math.log10(value))
    return power * max(it for it in STEPS if it * power <= value * (1 + 1e-9))


def step_above(value):
    return next(it for it in steps(step_below(value), value * 10) if it >= value)


def steps(first, last):
    """1, 2, 5, 10 and so on, from the first to the last."""
    found = [step * 10.0 ** power for power in range(-3, 8) for step in STEPS]
    return [it for it in found if first * (1 - 1e-9) <= it <= last * (1 + 1e-9)]


def number(value):
    return f"{value:,.0f}" if value >= 1 else f"{value:g}"


def short(value):
    return f"{value:.1f}" if value < 9.95 else f"{value:,.0f}"


class Scale:
    """Puts values between two places, by their logarithms."""

    def __init__(self, first, last, start, end):
        self.first, self.last, self.start, self.end = first, last, start, end

    def at(self, value):
        share = math.log(value / self.first) / math.log(self.last / self.first)
        return self.start + share * (self.end - self.start)


def text(x, y, words, kind="ink", more=""):
    return f"<text class='{kind}' x='{x:.1f}' y='{y:.1f}'{more}>{words}</text>\n"


def line(x1, y1, x2, y2, kind):
    return f"<line class='{kind}' x1='{x1:.1f}' y1='{y1:.1f}' x2='{x2:.1f}' y2='{y2:.1f}'/>\n"


def kind_of(curve, counts):
    """The colour of a curve, by its number of processors."""
    return "floor" if curve.program == FLOOR else str(counts.index(curve.count) + 1)


def style_of(curve, counts):
    return f"line-{kind_of(curve, counts)}{' other' if curve.program not in ('', FLOOR) else ''}"


def spread(places):
    """Places of labels, each as near to where it should be as its neighbours above allow."""
    found = []
    for place in sorted(places):
        found.append(max(place, found[-1] + APART) if found else place)
    over = max(0, found[-1] - BOTTOM)
    return [place - over for place in found]


def ends(curves, counts, x, y):
    """The last value of each curve, at its end."""
    ordered = sorted(curves, key=lambda it: y.at(it.points[-1][1]))
    places = spread([y.at(it.points[-1][1]) for it in ordered])
    return "".join(text(x + 7, place + 4, short(it.points[-1][1]), f"text-{kind_of(it, counts)}", " font-size='11'") for it, place in zip(ordered, places))


def grid(x, y):
    drawn = ""
    for value in steps(y.first, y.last):
        drawn += line(x.start, y.at(value), x.end, y.at(value), "axis")
        drawn += text(x.start - 6, y.at(value) + 4, number(value), "soft", " text-anchor='end' font-size='11'")
    for value in [*steps(x.first, x.last / 1.2), x.last]:
        drawn += line(x.at(value), y.start, x.at(value), y.start + 4, "axis")
        if value in (x.first, x.last) or math.log10(value).is_integer():
            drawn += text(x.at(value), y.start + 18, number(value), "soft", " text-anchor='middle' font-size='11'")
    return drawn


def panel(it, x, y, counts):
    drawn = text(x.start, TOP - 14, it.name, "ink", " font-weight='bold'") + grid(x, y)
    for curve in it.curves:
        way = "L".join(f"{x.at(records):.1f} {y.at(value):.1f}" for records, value in curve.points)
        drawn += f"<path class='{style_of(curve, counts)}' d='M{way}'/>\n"
    return drawn + ends(it.curves, counts, x.end, y)


def cores(count):
    return f"{count} core{'s' if count != 1 else ''}"


def legend(curves, counts):
    """What the lines mean: a colour for a number of processors, dashes for another program."""
    drawn, at = "", LEFT
    others = sorted({it.program for it in curves} - {"", FLOOR})
    entries = [(f"line-{number}", cores(count)) for number, count in enumerate(counts, 1)]
    entries += [("line-1 other", f"{name}, in the colour of its cores") for name in others] + [("line-floor", "cat, which only reads")]
    for kind, words in entries:
        drawn += f"<path class='{kind}' d='M{at:.0f} 56h26'/>\n" + text(at + 32, 60, words)
        at += 56 + 6.4 * len(words)
    return drawn


def description(panels):
    """All points in words."""
    return "\n".join(f"{it.name}, {curve.program or 'postcopy'}{', ' + cores(curve.count) if curve.count else ''}: "
                     + ", ".join(f"{records:,} records {short(value)} ms" for records, value in curve.points)
                     for it in panels for curve in it.curves)


def drawn(title, panels):
    """The picture, with a panel beside another."""
    curves = [curve for it in panels for curve in it.curves]
    counts = sorted({it.count for it in curves if it.count})
    values = [value for it in curves for _, value in it.points]
    records = [count for it in curves for count, _ in it.points]
    y = Scale(step_below(min(values)), step_above(max(values)), BOTTOM, TOP)
    parts = f"<svg xmlns='http://www.w3.org/2000/svg' width='{WIDTH}' height='{HEIGHT}' viewBox='0 0 {WIDTH} {HEIGHT}' font-family='system-ui, sans-serif' font-size='12'>\n"
    parts += f"<title>{title}</title>\n<desc>{description(panels)}</desc>\n{STYLE}<rect class='paper' width='100%' height='100%'/>\n"
    parts += text(LEFT, 30, title, "ink", " font-size='16' font-weight='bold'") + text(LEFT + 170, 30, "milliseconds, by the number of records", "soft")
    parts += legend(curves, counts)
    for number_of_panel, it in enumerate(panels):
        start = LEFT + number_of_panel * PITCH
        parts += panel(it, Scale(min(records), max(records), start, start + PLOT), y, counts)
    return f"{parts}{text(LEFT, HEIGHT - 14, 'records', 'soft')}</svg>\n"
