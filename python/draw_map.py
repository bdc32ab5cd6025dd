#!/usr/bin/env python3
"""Draws a map as SVG: its curves along one axis, the tested points, and points that are asked for.

There is a curve for each tested value of the other axis. A point that is asked for is marked as standing at a tested
point, between tested points, or outside the tested range, and its figure stands in the list beside the picture. Table
and points are the files of ../examples/heat_pump, whose README.md describes them. Every figure is worked out by the
library; this script only turns figures into places on the paper.
"""

import argparse
import math
import sys
from dataclasses import dataclass
from pathlib import Path

import corvezan
from svg import Picture, text_width

HEAT_PUMP = Path(__file__).resolve().parent.parent / "examples" / "heat_pump"
sys.path.append(str(HEAT_PUMP))

import sheet  # noqa: E402  (the reader of tables and points, and the words for where a point stands)

LEFT, TOP, WIDTH, HEIGHT = 92, 64, 640, 480
BELOW = 64
STEPS = 80  # straight pieces of a curve in the tested range
INK, FAINT, SHADE, ALERT = "#222222", "#dddddd", "#f3f3f3", "#b00020"
COLOURS = ["#1f3a93", "#1f8bc4", "#1b8a3a", "#d48806", "#c2410c", "#8e24aa", "#5d4037"]
SHOWN = {
    sheet.TESTED: "at a tested point",
    sheet.BETWEEN: "between tested points",
    sheet.OUTSIDE: "outside the tested range",
}


# ---- figures, from the library


@dataclass
class Drawn:
    """A fitted table and how it is drawn: along axis 0 or 1, with a curve for each value of the other."""

    table: sheet.Table
    map: corvezan.Rectilinear
    coeffs: object
    along: int

    @property
    def axis(self):
        return self.table.axes[self.along]

    @property
    def other(self):
        return self.table.axes[1 - self.along]

    def figures(self, along, others):
        """The figures at points, given by their two coordinates."""
        x = [along, others] if self.along == 0 else [others, along]
        return list(self.map.values(self.coeffs, x))

    def tested(self, i, j):
        """The tested figure at value i of the axis that is drawn along and value j of the other."""
        return self.table.values[i][j] if self.along == 0 else self.table.values[j][i]


def fitted(table, along, straight):
    """Fits a table, or says in the sheet's words why it is refused."""
    map = corvezan.Rectilinear([axis.values for axis in table.axes], linear=straight)
    try:
        return Drawn(table, map, map.fit(table.values), along)
    except corvezan.Refused as refused:
        where = {2: sheet.short_axis, 5: sheet.falling_axis}.get(refused.number, lambda table: f"{table.file}:")
        raise sheet.Fault(f"{where(table)} {refused}") from refused


# ---- places on the paper


@dataclass
class Scale:
    """From numbers to places: `low` stands at `start`, `high` at `end`."""

    low: float
    high: float
    start: float
    end: float

    def __call__(self, x):
        return self.start + (x - self.low) / (self.high - self.low) * (self.end - self.start)

    def ticks(self):
        """Round numbers across the range, with as many decimals as they need."""
        rough = (self.high - self.low) / 9
        size = 10.0 ** math.floor(math.log10(rough))
        step = next(size * k for k in (1, 2, 5, 10) if size * k >= rough)
        decimals = max(0, -math.floor(math.log10(step) + 1e-9))
        first = math.ceil(self.low / step - 1e-9)
        last = math.floor(self.high / step + 1e-9)
        return [(i * step, f"{i * step + 0.0:.{decimals}f}") for i in range(first, last + 1)]


def spread(values, part):
    """The range of numbers, wider by a part of it at both ends."""
    finite = [x for x in values if math.isfinite(x)]
    low, high = min(finite), max(finite)
    room = part * (high - low) or 1.0
    return low - room, high + room


def even(low, high, n):
    """n + 1 numbers from low to high."""
    return [low + (high - low) * i / n for i in range(n)] + [high]


def pieces(drawn, across):
    """The ranges along the axis: below the tested range, in it, and above; with how many steps each is drawn."""
    first, last = drawn.axis.values[0], drawn.axis.values[-1]
    ranges = [(across.low, first, STEPS // 8), (first, last, STEPS), (last, across.high, STEPS // 8)]
    return [(low, high, n) for low, high, n in ranges if low < high]


def scales(drawn, points, figures):
    """The two scales: all tested points, the curves between them and all points that are asked for are on the paper."""
    across = Scale(*spread(drawn.axis.values + [p.values[drawn.along] for p in points], 0.04), LEFT, LEFT + WIDTH)
    first, last = drawn.axis.values[0], drawn.axis.values[-1]
    xs = even(first, last, STEPS)
    heights = [y for value in drawn.other.values for y in drawn.figures(xs, [value] * len(xs))]
    heights += [x for row in drawn.table.values for x in row] + figures
    return across, Scale(*spread(heights, 0.05), TOP + HEIGHT, TOP)


# ---- the picture


def titled(axis):
    return f"{axis.name} [{axis.unit}]" if axis.unit else axis.name


def draw_frame(picture, drawn, across, up):
    """The paper's grid, its numbers, the names of the axes, and the part outside the tested range in grey."""
    table, bottom = drawn.table, TOP + HEIGHT
    for low, high, _ in pieces(drawn, across):
        if high <= drawn.axis.values[0] or low >= drawn.axis.values[-1]:
            width = across(high) - across(low)
            picture.add("rect", x=across(low), y=TOP, width=width, height=HEIGHT, fill=SHADE, class_="untested")
    for x, text in across.ticks():
        picture.line(across(x), TOP, across(x), bottom, FAINT)
        picture.text(across(x), bottom + 20, text, anchor="middle", class_="tick")
    for y, text in up.ticks():
        picture.line(LEFT, up(y), LEFT + WIDTH, up(y), FAINT)
        picture.text(LEFT - 8, up(y) + 4.5, text, anchor="end", class_="tick")
    picture.add("rect", x=LEFT, y=TOP, width=WIDTH, height=HEIGHT, fill="none", stroke=INK)
    picture.text(LEFT + WIDTH / 2, bottom + 46, titled(drawn.axis), size=14, anchor="middle")
    middle = f"rotate(-90 24 {TOP + HEIGHT / 2})"
    unit = f" [{table.unit}]" if table.unit else ""
    picture.text(24, TOP + HEIGHT / 2, f"{table.figure}{unit}", size=14, anchor="middle", transform=middle)


def colour(i, n):
    """The colour of curve i of n: far apart where there are few."""
    if n <= len(COLOURS):
        return COLOURS[i * (len(COLOURS) - 3) // max(1, n - 1)] if n <= len(COLOURS) - 2 else COLOURS[i]
    return COLOURS[i % len(COLOURS)]


def draw_curves(picture, drawn, across, up):
    """A curve for each tested value of the other axis, dashed outside, and the tested points on it."""
    n = len(drawn.other.values)
    for j, value in enumerate(drawn.other.values):
        for low, high, steps in pieces(drawn, across):
            xs = even(low, high, steps)
            places = zip(map(across, xs), map(up, drawn.figures(xs, [value] * len(xs))))
            places = [(x, y) for x, y in places if math.isfinite(y)]
            tested = drawn.axis.values[0] <= low < drawn.axis.values[-1]
            dashes = {} if tested else {"stroke_dasharray": "5 4"}
            picture.path(places, colour(j, n), class_="curve", clip_path="url(#plot)", **dashes)
            picture.boxes += [(x - 2, y - 2, x + 2, y + 2) for x, y in places]
        for i, x in enumerate(drawn.axis.values):
            spot = across(x), up(drawn.tested(i, j))
            picture.add("circle", cx=spot[0], cy=spot[1], r=3.4, fill=colour(j, n), class_="tested")
            picture.boxes.append((spot[0] - 4, spot[1] - 4, spot[0] + 4, spot[1] + 4))


def name_curves(picture, drawn, across, up):
    """The value of each curve at its right-hand end, pushed apart where the ends are close."""
    n = len(drawn.other.values)
    ends = drawn.figures([across.high] * n, drawn.other.values)
    order = sorted(range(n), key=lambda j: up(ends[j]))
    at = TOP - 10.0
    for j in order:
        at = max(at + 17, min(up(ends[j]) + 5, TOP + HEIGHT - 17 * (n - 1 - order.index(j))))
        text = f"{drawn.other.texts[j]} {drawn.other.unit}"
        picture.text(LEFT + WIDTH + 8, at, text, fill=colour(j, n), font_weight="bold", class_="curve-name")
    picture.text(LEFT + WIDTH + 8, TOP - 12, drawn.other.name, size=12)


def draw_mark(picture, word, x, y):
    """The mark of a point that is asked for; each word has a shape of its own."""
    style = {"fill": "#ffffff", "stroke": INK, "stroke_width": 1.8, "class_": f"asked {word.split()[0]}"}
    if word == sheet.TESTED:
        picture.add("circle", cx=x, cy=y, r=7, **{**style, "fill": "none"})
    elif word == sheet.BETWEEN:
        picture.add("path", d=f"M{x:.2f} {y - 7:.2f}l6.5 11.5h-13z", **style)
    else:
        picture.add("rect", x=x - 5.5, y=y - 5.5, width=11, height=11, **{**style, "stroke": ALERT})


def draw_points(picture, drawn, points, figures, across, up):
    """The points that are asked for, each with its number in the list."""
    spots = [(across(p.values[drawn.along]), up(y)) for p, y in zip(points, figures)]
    for (x, y), point in zip(spots, points):
        draw_mark(picture, sheet.place(drawn.table, point), x, y)
        picture.boxes.append((x - 8, y - 8, x + 8, y + 8))
    for i, spot in enumerate(spots):
        label(picture, spot, str(i + 1), [other for other in spots if other != spot])


def label(picture, spot, text, others, size=13):
    """A number beside a mark, at the place around it that is freest and cannot be taken for another mark's number."""
    width = text_width(text, size)
    places = [(12, 5), (-12 - width, 5), (10, -9), (-10 - width, -9), (10, 19), (-10 - width, 19)]
    places += [(-width / 2, -13), (-width / 2, 22)]

    def cost(place):
        x, y = spot[0] + place[0], spot[1] + place[1]
        box = (x, y - 0.8 * size, x + width, y + 0.2 * size)
        beyond = box[0] < LEFT or box[2] > LEFT + WIDTH or box[1] < TOP or box[3] > TOP + HEIGHT
        near = sum(math.dist(other, (x + width / 2, y - 0.3 * size)) < 26 for other in others)
        return picture.taken(box) + 4 * near + 4 * beyond

    dx, dy = min(places, key=cost)
    outline = {"stroke": "#ffffff", "stroke_width": 3, "paint_order": "stroke"}
    picture.text(spot[0] + dx, spot[1] + dy, text, size=size, font_weight="bold", class_="number", **outline)


# ---- what stands beside it


def draw_legend(picture, drawn, left, top, straight):
    """What dots and lines mean; gives the place below."""
    beyond = "a straight line" if straight else "the curve of the end"
    picture.add("circle", cx=left + 8, cy=top - 4, r=3.4, fill=INK)
    picture.text(left + 26, top, "tested")
    picture.line(left, top + 18, left + 16, top + 18, INK, 1.8)
    picture.text(left + 26, top + 22, "curve, between tested points")
    picture.line(left, top + 40, left + 16, top + 40, INK, 1.8, stroke_dasharray="5 4")
    picture.text(left + 26, top + 44, f"outside, {beyond}")
    picture.add("rect", x=left, y=top + 56, width=16, height=12, fill=SHADE, stroke=FAINT)
    picture.text(left + 26, top + 66, f"outside the tested {drawn.axis.name}")
    return top + 96


def draw_marks_legend(picture, left, top):
    """What the marks of the points mean that are asked for; gives the place below."""
    picture.text(left, top, "Points that are asked for, read off the curve:", font_weight="bold")
    for i, (word, meaning) in enumerate(SHOWN.items()):
        draw_mark(picture, word, left + 8, top + 18 + 22 * i)
        picture.text(left + 26, top + 23 + 22 * i, meaning)
    return top + 23 + 22 * len(SHOWN) + 16


def list_rows(drawn, points, figures):
    """The list of points: titles, units, and a row for each point."""
    table = drawn.table
    heads = ["no."] + [axis.name.split()[0] for axis in table.axes] + [table.figure.split()[0], "stands"]
    units = [""] + [axis.unit for axis in table.axes] + [table.unit, ""]
    rows = [
        [str(i), *point.texts, sheet.decimal(y, 6), sheet.place(table, point)]
        for i, (point, y) in enumerate(zip(points, figures), 1)
    ]
    return [heads, units] + rows


def draw_list(picture, rows, left, top):
    """The list in columns, set to the right but for the last; gives the place below."""
    widths = [max(text_width(row[k], 12.5) for row in rows) + 14 for k in range(len(rows[0]))]
    for i, row in enumerate(rows):
        x, y = left, top + 19 * i + (8 if i > 1 else 0)
        for k, cell in enumerate(row):
            x += widths[k]
            last = k == len(row) - 1
            style = {"font_weight": "bold"} if i == 0 else {}
            fill = ALERT if cell == sheet.OUTSIDE else INK
            at, anchor = (x - widths[k] + 14, "start") if last else (x, "end")
            if cell:
                picture.text(at, y, cell, size=12.5, anchor=anchor, fill=fill, class_="cell", **style)
    picture.line(left, top + 26, left + sum(widths), top + 26, FAINT)
    return top + 19 * len(rows) + 8


def picture_of(drawn, points, straight):
    """The whole picture, as the text of a file."""
    figures = drawn.figures(*([p.values[k] for p in points] for k in (drawn.along, 1 - drawn.along))) if points else []
    across, up = scales(drawn, points, figures)
    picture = Picture()
    picture.elements.append(
        f'<clipPath id="plot"><rect x="{LEFT}" y="{TOP}" width="{WIDTH}" height="{HEIGHT}"/></clipPath>'
    )
    draw_frame(picture, drawn, across, up)
    draw_curves(picture, drawn, across, up)
    name_curves(picture, drawn, across, up)
    draw_points(picture, drawn, points, figures, across, up)
    names = [f"{text} {drawn.other.unit}" for text in drawn.other.texts]
    room = max(text_width(text, 13) for text in names + [drawn.other.name])
    left = LEFT + WIDTH + 8 + room + 12
    below = draw_legend(picture, drawn, left, TOP, straight)
    if points:
        below = draw_marks_legend(picture, left, below)
        below = draw_list(picture, list_rows(drawn, points, figures), left, below)
    figure = drawn.table.figure[:1].upper() + drawn.table.figure[1:]
    title = f"{figure} over {drawn.axis.name}: a curve for each tested {drawn.other.name}"
    picture.text(LEFT, 32, title, size=17, font_weight="bold")
    right = max(box[2] for box in picture.boxes)
    return picture.whole(right + 24, max(TOP + HEIGHT + BELOW, below + 24), title)


# ---- the command


def arguments(given):
    parser = argparse.ArgumentParser(description="Draws a map as SVG: curves, tested points, points asked for.")
    parser.add_argument("table", nargs="?", help="tested figures, decimal CSV (that of examples/heat_pump)")
    parser.add_argument("points", nargs="?", help="points to mark, decimal CSV")
    parser.add_argument("--along", choices=["rows", "columns"], default="rows", help="the axis across the paper (rows)")
    parser.add_argument("--outside", choices=["straight", "curve"], default="straight", help="how it goes on outside")
    parser.add_argument("--out", help="the file to write (standard output)")
    return parser.parse_args(given)


def main(given):
    options = arguments(given)
    straight = options.outside == "straight"
    marked = options.points if options.table else HEAT_PUMP / "points.csv"
    try:
        table = sheet.read_table(options.table or HEAT_PUMP / "compressor.csv")
        points = sheet.read_points(marked, table) if marked else []
        drawn = fitted(table, ["rows", "columns"].index(options.along), straight)
    except (sheet.Fault, OSError) as fault:
        print(fault, file=sys.stderr)
        return 1
    text = picture_of(drawn, points, straight)
    if options.out:
        Path(options.out).write_text(text, encoding="utf-8")
    else:
        print(text, end="")
    return 0


if __name__ == "__main__":
    sys.exit(main(sys.argv[1:]))
