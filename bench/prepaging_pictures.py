"""The two pictures of bench/prepaging, as SVG that is readable on light and on dark paper.

Their colours differ in brightness, too, and no meaning hangs on colour alone: the bars of a guest stand in the legend's order, and each
line has a mark of its own.
"""
import math

from curves import STYLE

WIDTH, PANEL, LEFT, PITCH = 960, 210, 120, 280
# Of the bars of a guest: the settings that are drawn, and their colours.
ROUND_TRIP = "4 pivots, a round trip"
BARS = {"demand only": "#6e7781", "in order *": "#d55e00", "1 pivot, window 16": "#56b4e9", "4 pivots, window 16": "#0072b2", ROUND_TRIP: "#f0e442"}
# A line for each guest: its colour on light and on dark paper, and its mark.
LINES = (("#d55e00", "#f0883e", "circle"), ("#0072b2", "#58a6ff", "square"), ("#009e73", "#3fb950", "triangle"), ("#1f2328", "#e6edf3", "cross"),
         ("#a6518f", "#d2a8ff", "diamond"), ("#9a6700", "#e3b341", "ring"), ("#59636e", "#9da7b1", "box"), ("#0a7ea4", "#76e3ea", "valley"),
         ("#cf222e", "#ff7b72", "plus"))
MARKS = {  # around a point, within 4 of it; those that are filled, and those that are drawn
    "circle": ("M-3.5 0a3.5 3.5 0 1 0 7 0a3.5 3.5 0 1 0-7 0z", True), "square": ("M-3-3h6v6h-6z", True), "triangle": ("M0-4L4 3H-4z", True),
    "cross": ("M-3-3L3 3M-3 3L3-3", False), "diamond": ("M0-4.5L4.5 0L0 4.5L-4.5 0z", True), "ring": ("M-3.5 0a3.5 3.5 0 1 0 7 0a3.5 3.5 0 1 0-7 0z", False),
    "box": ("M-3-3h6v6h-6z", False), "valley": ("M0 4L4-3H-4z", True), "plus": ("M-4 0H4M0-4V4", False),
}


def picture(height, title, told, parts):
    """A picture, with what it shows in words."""
    return "\n".join([f'<svg xmlns="http://www.w3.org/2000/svg" width="{WIDTH}" height="{height}" viewBox="0 0 {WIDTH} {height}" font-family="system-ui, sans-serif" font-size="12">',
                      f"<title>{title}</title>", f"<desc>{told}</desc>", STYLE.strip(), more_style(), f'<rect class="paper" width="{WIDTH}" height="{height}"/>',
                      words(16, 24, title, "ink", 15), *parts, "</svg>", ""])


def more_style():
    bars = " ".join(f".bar-{n} {{ fill: {colour}; stroke: #59636e; stroke-width: 0.5 }}" for n, colour in enumerate(BARS.values(), 1))
    light, dark = (" ".join(f".guest-{n} {{ stroke: {it[paper]} }} .mark-{n} {{ stroke: {it[paper]}; fill: {it[paper] if MARKS[it[2]][1] else 'none'} }}"
                            for n, it in enumerate(LINES, 1)) for paper in (0, 1))
    return f"<style>\n{bars}\n{light}\n.whole {{ stroke: #59636e; stroke-width: 1.5 }} .trip {{ stroke: #59636e; stroke-dasharray: 4 3 }}\n@media (prefers-color-scheme: dark) {{\n{dark}\n.whole, .trip {{ stroke: #9da7b1 }}\n}}\n</style>"


def words(x, y, text, kind="soft", size=12, anchor="start"):
    return f'<text class="{kind}" x="{x:.1f}" y="{y:.1f}" font-size="{size}" text-anchor="{anchor}">{text}</text>'


def stroke(x1, y1, x2, y2, kind="axis"):
    return f'<line class="{kind}" x1="{x1:.1f}" x2="{x2:.1f}" y1="{y1:.1f}" y2="{y2:.1f}"/>'


def mark(n, x, y):
    return f'<path class="mark-{n}" transform="translate({x:.1f} {y:.1f})" d="{MARKS[LINES[n - 1][2]][0]}"/>'


def legend(names, sign):
    """The names in a row, each behind its sign and as wide as it needs."""
    parts, x = [], 20
    for n, name in enumerate(names, 1):
        parts += [sign(n, x, 46), words(x + 10, 50, name)]
        x += 34 + 6.4 * len(name)
    return "".join(parts)


def found(rows, guest, link, name):
    return next(row.counts for row in rows if (row.guest, row.link, row.setting.name) == (guest, link, name))


def round_trip_of(whole):
    """The name of the setting with four pivots and the window of a round trip."""
    return f"4 pivots, window {whole}, a round trip"


def percent(part, whole):
    return 100 * part / whole if whole else 0


def told(values):
    """What is drawn, in words: a line for each link and guest."""
    return "\n".join(f"{link}, {guest}: " + ", ".join(f"{name} {value:.0f} %" for name, value in shown) for link, guest, shown in values)


def asked_picture(guests, links, rows, whole_of):
    """Of the pages that a guest used, the share that it had to ask for. `whole_of` says of a link how many pages it carries in a round trip."""
    step, top = 70, 92
    parts, values = [legend(BARS, lambda n, x, y: f'<rect class="bar-{n}" x="{x - 4:.1f}" y="{y - 5}" width="10" height="10"/>')], []
    for column, (link, (what, _)) in enumerate(links.items()):
        left = LEFT + column * PITCH
        parts.append(words(left, 80, f"{link}: {what}", "ink"))
        for place, guest in enumerate(guests):
            y = top + place * step
            if not column:
                parts.append(words(LEFT - 10, y + 31, guest.name, "ink", anchor="end"))
            shown = []
            for n, name in enumerate(BARS):
                counts = found(rows, guest.name, link, round_trip_of(whole_of(link)) if name == ROUND_TRIP else name)
                share = percent(counts.asked, counts.used)
                width = share / 100 * (PANEL - 30)
                parts.append(f'<rect class="bar-{n + 1}" x="{left}" y="{y + 11 * n}" width="{max(width, 0.5):.1f}" height="9"/>')
                parts.append(words(left + width + 4, y + 11 * n + 8, f"{share:.0f} %", size=10))
                shown.append((name, share))
            values.append((link, guest.name, shown))
    end = top + step * len(guests)
    windows = ", ".join(f"{whole_of(link)} {link}" for link in links)
    parts.append(words(16, end + 14, f"* a rule that the host does not have, with window 16. The window of a round trip: {windows}."))
    return picture(end + 28, "Pages that a guest had to ask for, of those that it used", told(values), parts)


def window_picture(guests, links, rows, windows, whole_of):
    """What a guest waits with four pivots, by the window, where demand only is 100 %. `whole_of` says of a link how many pages it carries in
    a round trip, which is drawn as well."""
    top, bottom, labels = 100, 420, 438
    parts, values = [legend([guest.name for guest in guests], mark)], []
    shares = {(link, guest.name): shares_of(rows, guest.name, link, windows, whole_of(link)) for link in links for guest in guests}
    highest = 20 * math.ceil(max(share for of_one in shares.values() for _, share in of_one) / 20)
    for column, (link, (what, _)) in enumerate(links.items()):
        left, whole = 60 + column * (PITCH + 25), whole_of(link)
        ends = math.log2(max(windows[-1], whole))

        def x(window):
            return left + math.log2(window) / ends * (PANEL + 30)

        def y(share):
            return bottom - share / highest * (bottom - top)
        parts.append(words(left, 80, f"{link}: {what}", "ink"))
        for share in range(0, highest + 1, 20):
            parts.append(stroke(x(1), y(share), left + PANEL + 30, y(share), "whole" if share == 100 else "axis"))
            parts.append(words(left - 9, y(share) + 4, f"{share} %", size=10, anchor="end"))
        parts += [words(x(window), labels, window, size=10, anchor="middle") for window in windows]
        parts += [stroke(x(whole), top, x(whole), bottom + 5, "trip"), words(x(whole), labels + 14, f"a round trip: {whole}", size=10, anchor="end" if whole > windows[-1] else "middle")]
        for n, guest in enumerate(guests, 1):
            shown = shares[link, guest.name]
            points = [(x(window), y(share)) for window, share in shown]
            parts.append(f'<path class="guest-{n}" d="M{"L".join(f"{a:.1f} {b:.1f}" for a, b in points)}"/>')
            parts += [mark(n, *point) for point in points]
            values.append((link, guest.name, [(f"window {window}", share) for window, share in shown]))
        parts.append(words(left + (PANEL + 30) / 2, labels + 30, "window, in packets", anchor="middle"))
    return picture(484, "Time that a guest waits with 4 pivots, where it waits 100 % by demand only", told(values), parts)


def shares_of(rows, guest, link, windows, whole):
    """By the window, what a guest waits."""
    demand = found(rows, guest, link, "demand only").waited
    names = {window: f"4 pivots, window {window}" for window in windows} | {whole: round_trip_of(whole)}
    return [(window, percent(found(rows, guest, link, names[window]).waited, demand)) for window in sorted(names)]
