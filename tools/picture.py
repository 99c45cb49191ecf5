#!/usr/bin/env python3
"""Draws one field of a trace: SVG on standard output.

    tools/picture.py TRACE FIELD > PICTURE.svg

TRACE is a file that `escrow run` printed, FIELD a name in its header. Over the entries are drawn the committed
value, what open transactions have set aside (infimum to supremum), floor and ceiling, the interval that each site
would answer to a read, and a bound as a site knows it where other sites have moved it; below, a row for each site
with what it did, and its free rights to raise and to lower wherever they change. Equal traces give equal bytes. Where
TRACE is no trace or FIELD no field of it, standard error says so and the status is 2. It needs Python 3.10 and its
standard library alone.
"""
import html
import itertools
import math
import re
import sys

from trace_entries import Fault, fronts_of, gifts_of, read_trace

TOP, CHART, ROW, LETTER, DIGIT = 72, 270, 48, 6.4, 6  # heights, and about how wide a letter and a figure are
FONT = "text { font: 11px 'DejaVu Sans', Verdana, sans-serif }"
STYLE = """
.title { font-size: 17px; font-weight: bold }
svg { color: INK }
text { fill: INK }
.mute { fill: MUTE }
.card { fill: CARD }
.grid { stroke: GRID }
.value { stroke: INK; stroke-width: 3; fill: none }
.open { fill: MUTE; fill-opacity: .35; shape-rendering: crispEdges }
.bound, .refused { stroke: BOUND; stroke-width: 2; fill: none }
.line { stroke: currentColor; stroke-width: 1.6; fill: none }
.read { stroke-width: 2.6; stroke-opacity: .55 }
.down { stroke-dasharray: 1 5 }
.gift { stroke-dasharray: 4 2 }
.known { stroke-dasharray: 7 4 }
.mark { stroke: currentColor; stroke-width: 1.6; fill: currentColor }
.hollow { fill: CARD }
.word { fill: currentColor }
.limit { fill: BOUND }
.free { font-size: 10px; paint-order: stroke; stroke: CARD; stroke-width: 3 }
"""
LIGHT = {"INK": "#1f2328", "MUTE": "#656d76", "CARD": "#ffffff", "GRID": "#d0d7de", "BOUND": "#cf222e"}
DARK = {"INK": "#e6edf3", "MUTE": "#9198a1", "CARD": "#0d1117", "GRID": "#30363d", "BOUND": "#ff7b72"}
LIGHT_SITES = ("#0969da", "#bc4c00", "#1a7f37", "#8250df", "#9a6700", "#bf3989", "#1b7c83", "#57606a")
DARK_SITES = ("#58a6ff", "#f0883e", "#3fb950", "#bc8cff", "#d29922", "#f778ba", "#39c5cf", "#b1bac4")

DISK, DIAMOND, SQUARE = "M-4 0A4 4 0 1 0 4 0A4 4 0 1 0-4 0Z", "M0-5.5L5.5 0L0 5.5L-5.5 0Z", "M-4-4H4V4H-4Z"
MARKS = {
    "begun": ("M4-5H-2V5H4", "line", "begun"),
    "lower": ("M-5-4H5L0 5Z", "mark", "set aside to lower"),
    "raise": ("M-5 4H5L0-5Z", "mark", "set aside to raise"),
    "committed": (DISK, "mark", "committed"),
    "aborted": (DISK, "mark hollow", "aborted"),
    "refused": ("M-4-4L4 4M4-4L-4 4", "refused", "refused"),
    "given": (DIAMOND, "mark hollow", "rights given"),
    "spared": (DIAMOND, "mark hollow", "rights given"),
    "stated": ("M0-4L4 0L0 4L-4 0Z", "mark hollow", "gifts told again"),
    "accepted": (DIAMOND, "mark", "rights accepted"),
    "tightened": ("M-5 5H5M0 5V-5M-4-1L0-5L4-1", "line", "rights given up"),
    "between": ("M-4-6H4M0-6V6M-4 6H4", "line", "read"),
    "share": ("M-4-1.5H4L0-6.5ZM-4 1.5H4L0 6.5Z", "mark hollow", "free rights asked"),
    "unsure": (SQUARE, "mark", "stopped, answer in doubt"),
    "still": (SQUARE, "mark hollow", "restart failed"),
    "restarted": ("M-4-5L5 0L-4 5Z", "mark hollow", "restarted"),
}


def tag(name, text=None, **attributes):
    """One element; class_ stands for class, and text_anchor for text-anchor."""
    told = ""
    for key, value in attributes.items():
        told += f' {key.strip("_").replace("_", "-")}="{round(value, 1) if isinstance(value, float) else value}"'
    return f"<{name}{told}/>" if text is None else f"<{name}{told}>{html.escape(text, False)}</{name}>"


def group(elements, **attributes):
    """Elements that share attributes."""
    return f"{tag('g', **attributes)[:-2]}>{''.join(elements)}</g>"


def figures(fronts, site, kind):
    """The free rights of a kind at a site, each with the front from which on it has them."""
    before = None
    for number, front in enumerate(fronts):
        free = front.sites[site] and front.sites[site].free[kind]
        if free not in (None, before):
            yield number, f"{free:,}"
        before = free


def step_of(fronts):
    """How wide an entry is: so that no two figures meet."""
    step = max(13, 700 / len(fronts))
    for site, kind in itertools.product(range(len(fronts[0].sites)), ("raise", "lower")):
        told = [*figures(fronts, site, kind), (len(fronts), "")]
        for (number, text), (after, _) in zip(told, told[1:]):
            step = max(step, (DIGIT * len(text) + 6) / (after - number))
    return step


class Plane:
    """Where fronts and values lie in the picture."""

    def __init__(self, fronts, top):
        lowest, highest = min(it.inf for it in fronts), max(it.sup for it in fronts)
        span = max(highest - lowest, 1)  # a bound that is ten spans away isn't drawn
        floor, ceiling, margin = fronts[0].floor, fronts[0].ceiling, max(span // 2, 1)
        self.low = min(floor, lowest) if lowest - floor <= 10 * span else lowest - margin
        self.high = max(ceiling, highest, self.low + 1) if ceiling - highest <= 10 * span else highest + margin
        self.top, self.bottom = top, top + CHART
        self.left = round(max(90, LETTER * max(len(f"{it:,}") for it in (self.low, self.high)) + 16))
        self.step = step_of(fronts)
        self.right = self.x(len(fronts))

    def x(self, number):
        """Where the front begins that so many entries have made."""
        return round(self.left + self.step * number, 1)

    def y(self, value):
        """Where a value lies; none where it isn't in the picture."""
        if value is not None and self.low <= value <= self.high:
            return round(self.bottom - CHART * (value - self.low) / (self.high - self.low), 1)
        return None

    def stairs(self, heights):
        """The path of a height for each front, with gaps where there is none."""
        path, before = "", None
        for number, y in enumerate(heights):
            if y is not None:
                path += f"{f'M{self.x(number)} {y}' if before is None else f'V{y}'}H{self.x(number + 1)}"
            before = y
        return path or "M0 0"


def scale(plane):
    """The grid, with round values at the left."""
    units = (unit * 10 ** power for power in range(17) for unit in (1, 2, 5))
    size = next(unit for unit in units if (plane.high - plane.low) / unit <= 7)
    for value in range(math.ceil(plane.low / size) * size, plane.high + 1, size):
        y = plane.y(value)
        yield tag("path", class_="grid", d=f"M{plane.left} {y}H{plane.right}")
        yield tag("text", f"{value:,}", class_="mute", x=plane.left - 8, y=y + 4, text_anchor="end")


def known(fronts, site, part):
    """A part of what a site knows, for each front; none while it is down."""
    return [front.sites[site] and getattr(front.sites[site], part) for front in fronts]


def moved(fronts, site, bound):
    """A bound as a site knows it, for each front behind which other sites have moved it."""
    return [None if value == getattr(front, bound) else value
            for front, value in zip(fronts, known(fronts, site, bound))]


def intervals(plane, fronts, sites):
    """The ends of each site's interval, and the bounds that it knows otherwise, a little aside, so that all are seen;
    a site that is alone knows the value."""
    for site in range(sites) if sites > 1 else ():
        aside = round((site - (sites - 1) / 2) * min(2.4, 10 / sites), 1)
        parts = [("line", known(fronts, site, end)) for end in ("low", "high")]
        parts += [("line known", moved(fronts, site, bound)) for bound in ("floor", "ceiling")]
        lines = (tag("path", class_=style, d=plane.stairs(map(plane.y, values))) for style, values in parts)
        yield group(lines, class_=f"s{site}", transform=f"translate(0 {aside})")


def reads(plane, trace):
    """What was answered to each read, where there is more than one site; an end that isn't in the picture has no bar
    across."""
    for number, (site, command, reply) in enumerate(trace.entries, 1):
        if trace.sites > 1 and command == ["read", trace.field.name] and reply[0] == "between":
            x, ends = plane.x(number), [int(end) for end in reply[1:]]
            low, high = (plane.y(min(max(end, plane.low), plane.high)) for end in ends)
            bars = "".join(f"M{x - 4:.1f} {plane.y(end)}h8" for end in ends if plane.y(end) is not None)
            yield tag("path", class_=f"line read s{site}", d=f"M{x} {low}V{high}{bars}")


def store_lines(plane, fronts):
    """Floor, ceiling and value, and where open transactions may take the value."""
    for number, front in enumerate(fronts):
        if front.inf < front.sup:
            x, y = plane.x(number), plane.y(front.sup)
            width, height = plane.x(number + 1) - x, plane.y(front.inf) - y
            yield tag("rect", class_="open", x=x, y=y, width=width, height=height)
    for style, part in (("bound", "ceiling"), ("bound", "floor"), ("value", "value")):
        yield tag("path", class_=style, d=plane.stairs(plane.y(getattr(front, part)) for front in fronts))


def end_names(plane, fronts):
    """The names at the right, one below the other where they meet, each with its style: of these three lines, and of
    the bounds as sites know them, where each site has a colour of its own."""
    last, before = fronts[-1], plane.top - 14
    sites = len(last.sites) if len(last.sites) <= len(LIGHT_SITES) else 0
    ends = [("ceiling", last.ceiling, "limit"), ("value", last.value, "word"), ("floor", last.floor, "limit")]
    for site, bound in itertools.product(range(sites), ("ceiling", "floor")):
        value = moved(fronts[-1:], site, bound)[0]
        if plane.y(value) is not None:
            ends.append((f"{bound} as site {site} knows it:", value, f"word s{site}"))
    for name, value, style in sorted(ends, key=lambda it: -it[1]):
        y, edge = plane.y(value), plane.top if value > plane.high else plane.bottom
        before = max(edge if y is None else y, before + 14)
        yield f"{name} {value:,}{' (not in sight)' if y is None else ''}", before + 4, style


def mark_of(entry, field):
    """The name of an entry's mark, where it has one and is about the field."""
    if entry.command[0] not in ("begin", "commit", "abort", "restart") and field not in entry.command:
        return None
    if entry.reply == ["granted"]:
        return "lower" if entry.command[-1].startswith("-") else "raise"
    return entry.reply[0] if entry.reply[0] in MARKS else None


def mark(name, site, x, y):
    """A mark in the colour of a site."""
    path, style, _ = MARKS[name]
    return tag("path", class_=f"{style} {site}".strip(), d=path, transform=f"translate({x} {y})")


def rows(plane, trace, fronts, top):
    """For each site a row with its marks, dotted while it is down, and its free rights above and below; and a line for
    each gift that arrived."""
    levels = [top + ROW * site + ROW // 2 for site in range(trace.sites)]
    for site, y in enumerate(levels):
        yield tag("text", f"site {site}", class_=f"word s{site}", x=plane.left - 8, y=y + 4, text_anchor="end")
        for style, is_up in (("line", True), ("line down", False)):
            path = plane.stairs(y if (front.sites[site] is not None) == is_up else None for front in fronts)
            yield tag("path", class_=f"{style} s{site}", d=path)
    for gift in gifts_of(trace):
        ends = f"M{plane.x(gift.start)} {levels[gift.giver]}L{plane.x(gift.end)} {levels[gift.receiver]}"
        yield tag("path", class_=f"line gift s{gift.giver}", d=ends)
    for (site, y), (kind, aside) in itertools.product(enumerate(levels), (("raise", -9), ("lower", 17))):
        yield tag("text", f"free to {kind}", class_="free mute", x=plane.left - 8, y=y + aside, text_anchor="end")
        for number, text in figures(fronts, site, kind):
            yield tag("text", text, class_=f"word free s{site}", x=plane.x(number) + 4, y=y + aside)
    for number, entry in enumerate(trace.entries, 1):
        name = mark_of(entry, trace.field.name)
        if name:
            yield mark(name, f"s{entry.site}", plane.x(number), levels[entry.site])


def words_of(trace):
    """The words of each entry, without its site and the field."""
    for number, entry in enumerate(trace.entries, 1):
        words = (word for word in entry.command if word != trace.field.name)
        yield f"{number}. {' '.join(words)} → {' '.join(entry.reply)}"


def signs(trace, fronts):
    """Each kind of line and of mark that the picture has and doesn't name, with what it tells."""
    yield tag("path", class_="value", d="M0 0H20"), "committed value"
    if any(front.inf < front.sup for front in fronts):
        yield tag("rect", class_="open", y=-6, width=20, height=12), "set aside by open transactions"
    if trace.sites > 1:
        two = group((tag("path", class_="line", d=f"M0 {y}H20") for y in (-5, 5)), class_="s0")
        yield two, "between these a site knows the value"
    bounds = itertools.product(range(trace.sites), ("floor", "ceiling"))
    if any(value is not None for site, bound in bounds for value in moved(fronts, site, bound)):
        yield tag("path", class_="line known s0", d="M0 0H20"), "a bound as a site knows it"
    used = {mark_of(entry, trace.field.name) for entry in trace.entries}
    yield from {told: (mark(name, "", 10, 0), told) for name, (_, _, told) in MARKS.items() if name in used}.values()


def legend(trace, fronts, width):
    """The signs in rows of this width: what is drawn, and how high it is."""
    x, y, drawn = 0, 0, []
    for sign, told in signs(trace, fronts):
        wide = 46 + round(LETTER * len(told))
        if x + wide > width:
            x, y = 0, y + 20
        drawn.append(group((sign, tag("text", told, x=27, y=4)), transform=f"translate({x} {y})"))
        x += wide
    return drawn, y + 20


def style_sheet(sites):
    """The styles, for light and for dark surroundings."""
    def coloured(colours, of_sites):
        own = "".join(f".s{site} {{ color: {of_sites[site % len(of_sites)]} }}\n" for site in range(sites))
        return re.sub("[A-Z]{3,}", lambda word: colours[word[0]], STYLE) + own
    dark = f"@media (prefers-color-scheme: dark) {{{coloured(DARK, DARK_SITES)}}}\n"
    return f"<style>\n{FONT}{coloured(LIGHT, LIGHT_SITES)}{dark}</style>"


def picture(trace):
    """The elements of the picture."""
    fronts, words = fronts_of(trace), list(words_of(trace))
    keys, key_height = legend(trace, fronts, max(820, 13 * len(fronts)))
    plane = Plane(fronts, TOP + key_height + 8)
    names = list(end_names(plane, fronts))
    row_top = plane.bottom + 14
    word_top = row_top + ROW * trace.sites + 12
    longest = LETTER * max((len(text) for text in words), default=0)
    ends = [plane.right + LETTER * len(name) for name, _, _ in names]
    ends += [plane.x(number) + .65 * LETTER * len(text) for number, text in enumerate(words, 1)]
    width, height = math.ceil(max(ends)) + 16, math.ceil(word_top + .77 * longest) + 16
    title = f"{trace.field.name} at {trace.sites} site{'s' * (trace.sites > 1)}, entry by entry"
    yield f'<svg xmlns="http://www.w3.org/2000/svg" width="{width}" height="{height}" viewBox="0 0 {width} {height}">'
    yield tag("title", title)
    yield style_sheet(trace.sites)
    yield tag("rect", class_="card", width=width, height=height, rx=8)
    yield tag("text", title, class_="title", x=20, y=30)
    yield tag("text", "Above, the value; below, each site's free rights and what it did: command → answer.",
              class_="mute", x=20, y=48)
    yield group(keys, transform=f"translate(20 {TOP})")
    yield from scale(plane)
    yield from intervals(plane, fronts, trace.sites)
    yield from store_lines(plane, fronts)
    yield from reads(plane, trace)
    yield from (tag("text", name, class_=style, x=plane.right + 8, y=y) for name, y, style in names)
    yield from rows(plane, trace, fronts, row_top)
    for number, (entry, text) in enumerate(zip(trace.entries, words), 1):
        turned = f"translate({round(plane.x(number) - 3, 1)} {word_top}) rotate(50)"
        yield tag("text", text, class_=f"word s{entry.site}", transform=turned)
    yield "</svg>"


def main(arguments):
    """Draws the field of the trace that the command line names, or says why not."""
    if len(arguments) != 2:
        print("use: tools/picture.py TRACE FIELD > PICTURE.svg", file=sys.stderr)
        return 2
    try:
        with open(arguments[0], encoding="utf-8", newline="\n") as file:
            drawn = "\n".join(picture(read_trace(file.read(), arguments[1])))
    except (OSError, UnicodeError, Fault) as fault:
        print(f"picture: {arguments[0]}: {fault}", file=sys.stderr)
        return 2
    sys.stdout.buffer.write(f"{drawn}\n".encode())
    return 0


if __name__ == "__main__":
    sys.exit(main(sys.argv[1:]))
