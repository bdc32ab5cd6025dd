#!/usr/bin/env python3
"""A rating sheet from a table of tested figures and a list of points.

The map program fits the curve and reads every figure off it; this script only turns decimals into the program's input,
its output back into decimals, and says beside each figure where it stands: at a tested point, between tested points, or
outside the tested range. README.md describes the two files.
"""

import argparse
import csv
import math
import re
import struct
import subprocess
import sys
from dataclasses import dataclass
from pathlib import Path

HERE = Path(__file__).resolve().parent
PROGRAM = HERE.parents[1] / "target" / "bin" / "map"

TESTED = "tested point"
BETWEEN = "between"
OUTSIDE = "outside"

LEGEND = """\
tested point  the figure stands at a tested point; what was tested there is in the last column
between       the figure stands between tested points
outside       the figure stands outside the tested range
Every {figure} and every slope on this sheet is read off the fitted curve. Only the last column was tested."""

# The map program's limits.
MOST_BYTES = 32768
MOST_POINTS = 512
LEAST_LENGTH = 4

DECIMAL = re.compile(r"[+-]?(\d+\.?\d*|\.\d+)([eE][+-]?\d+)?", re.ASCII)
HEXADECIMAL = re.compile(r"[0-9a-f]{16}", re.ASCII)


class Fault(Exception):
    """Something that the user has to mend; the text says what and where."""


# ---- floats, both ways


def hexadecimal(x):
    """The 64 bits of a float as 16 hexadecimal digits."""
    return struct.pack(">d", x).hex()


def from_hexadecimal(text):
    """The float with these 64 bits."""
    if not HEXADECIMAL.fullmatch(text):
        raise Fault(f"The map program printed {text!r} where a float of 16 hexadecimal digits should be.")
    return struct.unpack(">d", bytes.fromhex(text))[0]


def number(text, where):
    """The float nearest to a decimal of a file."""
    text = text.strip()
    if not text:
        raise Fault(f"{where}: a number is missing.")
    if not DECIMAL.fullmatch(text):
        hint = " Write a point, not a comma, before the decimals." if re.fullmatch(r"[+-]?\d+,\d+", text) else ""
        raise Fault(f"{where}: {text!r} is not a decimal number.{hint}")
    x = float(text)
    if math.isinf(x):
        raise Fault(f"{where}: {text} is too large.")
    return x


def decimal(x, digits=None):
    """A float in decimals: with all its digits, or with so many."""
    if math.isnan(x):
        return "no number"
    if math.isinf(x):
        return "infinite" if x > 0 else "-infinite"
    return repr(x) if digits is None else f"{x:#.{digits}g}"


# ---- the two files


@dataclass
class Axis:
    """The values of a table's rows or columns, as they are written and as floats, with the line of each in the file."""

    name: str
    unit: str
    texts: list
    values: list
    lines: list


@dataclass
class Table:
    """The tested figures, row by row, as they are written and as floats."""

    file: str
    figure: str
    unit: str
    rows: Axis
    columns: Axis
    texts: list
    values: list

    @property
    def axes(self):
        return [self.rows, self.columns]


@dataclass
class Point:
    """A point that is asked for, with its line in the file."""

    texts: list
    values: list
    line: int


def read_lines(path):
    """The cells of a file, line by line, with the line's number; blank lines are passed over."""
    try:
        with open(path, newline="", encoding="utf-8-sig") as file:
            reader = csv.reader(file, strict=True)
            return [(reader.line_num, [cell.strip() for cell in row]) for row in reader if row]
    except (OSError, UnicodeDecodeError, csv.Error) as error:
        raise Fault(f"{path} cannot be read: {error}.") from error


def numbers(file, line, cells, first=1):
    """The floats of a line's cells, of which the first has this number."""
    return [number(cell, f"{file}, line {line}, cell {i}") for i, cell in enumerate(cells, first)]


def read_table(path):
    """The table of a file: three lines of names, the column values, and the rows."""
    lines = read_lines(path)
    file = Path(path).name
    names = [read_names(file, lines, i, word) for i, word in enumerate(["figure", "rows", "columns"])]
    if len(lines) < 5:
        raise Fault(f"{file}: the table ends after line {lines[-1][0]}, with no rows.")
    (line, (corner, *heads)), rows = lines[3], lines[4:]
    if not heads:
        raise Fault(f"{file}, line {line}: the table has no columns.")
    if corner:
        raise Fault(f"{file}, line {line}: the first cell, above the row values, should be empty and is {corner!r}.")
    for at, cells in rows:
        if len(cells) != len(heads) + 1:
            raise Fault(
                f"{file}, line {at}: {len(cells) - 1} figures, but line {line} has {len(heads)} columns."
                f" Every row needs a figure in each column."
            )
    columns = Axis(*names[2], heads, numbers(file, line, heads, first=2), [line] * len(heads))
    values = [numbers(file, at, cells) for at, cells in rows]
    row_axis = Axis(*names[1], [cells[0] for _, cells in rows], [row[0] for row in values], [at for at, _ in rows])
    return Table(file, *names[0], row_axis, columns, [cells[1:] for _, cells in rows], [row[1:] for row in values])


def read_names(file, lines, i, word):
    """Name and unit from one of the first three lines."""
    if i >= len(lines):
        raise Fault(f"{file}: the line '{word},NAME,UNIT' is missing.")
    line, cells = lines[i]
    while cells and not cells[-1]:
        cells = cells[:-1]
    if len(cells) != 3 or cells[0] != word:
        raise Fault(f"{file}, line {line}: this line should read '{word},NAME,UNIT'.")
    return cells[1:]


def read_points(path, table):
    """The points of a file: the names of the axes, then a point a line."""
    lines = read_lines(path)
    file = Path(path).name
    names = [axis.name for axis in table.axes]
    if not lines or lines[0][1] != names:
        raise Fault(f"{file}: the first line should read '{','.join(names)}'.")
    points = []
    for line, cells in lines[1:]:
        if len(cells) != len(names):
            raise Fault(f"{file}, line {line}: {len(cells)} numbers, but a point has {len(names)}: {', '.join(names)}.")
        points.append(Point(cells, numbers(file, line, cells), line))
    if not points:
        raise Fault(f"{file}: no points.")
    return points


# ---- the map program


def program_input(table, points, straight):
    """What the map program reads: the table as a map of uneven axes, then the points."""
    lengths = [str(len(axis.values)) for axis in table.axes]
    knots = [x for axis in table.axes for x in axis.values]
    lines = [",".join(["R", "1" if straight else "0", str(len(lengths))] + lengths)]
    figures = [x for row in table.values for x in row]
    for floats in [knots, figures] + [point.values for point in points]:
        lines.append(",".join(hexadecimal(x) for x in floats))
    return "".join(line + "\n" for line in lines)


def run_program(program, text):
    """What the map program prints."""
    try:
        done = subprocess.run([str(program)], input=text.encode("ascii"), stdout=subprocess.PIPE, check=False)
    except OSError as error:
        raise Fault(
            f"The map program cannot be started: {error}. Build it with 'make map' in the repository's root, or"
            f" name another place with --program."
        ) from error
    if done.returncode < 0:
        raise Fault(f"The map program was stopped by signal {-done.returncode}.")
    return done.stdout.decode("ascii", errors="replace")


def read_answers(output, table, points, points_file="the points"):
    """The answer to each point: its figure and slopes, or the number of its refusal."""
    lines = output.split("\n")
    if lines.pop() != "" or not lines:
        raise Fault("The map program's output is cut off.")
    for line in lines:
        if line.startswith("X,"):
            raise Fault(explain_unreadable(line[2:], table, points, points_file))
    if lines[0] != "M,0":
        raise Fault(explain_refusal(lines[0], table))
    if len(lines) != len(points) + 2 or not re.fullmatch(rf"T,{len(points)},\d+", lines[-1]):
        raise Fault(f"The map program answered otherwise than asked: {len(points)} points, last line {lines[-1]!r}.")
    return [read_answer(line, 1 + len(table.axes)) for line in lines[1:-1]]


def read_answer(line, figures):
    """A line of the output: a list of floats, or the number of a refusal."""
    letter, *fields = line.split(",")
    if letter == "V" and len(fields) == 1 + figures and fields[0] == "0":
        return [from_hexadecimal(field) for field in fields[1:]]
    if letter == "V" and len(fields) == 1 and re.fullmatch("[1-9][0-9]*", fields[0]):
        return int(fields[0])
    raise Fault(f"The map program printed a line that is no answer: {line!r}.")


# ---- refusals in words


def explain_refusal(line, table):
    """Why the map was refused, and the line of the table at fault."""
    if not re.fullmatch("M,[1-9][0-9]*", line):
        return f"The map program printed a line that is no answer: {line!r}."
    refusal = int(line[2:])
    words = {
        1: lambda: f"{table.file}: the map program takes one to four axes.",
        2: lambda: short_axis(table),
        3: lambda: too_many_points(table),
        5: lambda: falling_axis(table),
    }
    why = words.get(refusal, lambda: f"{table.file}: the map program gives no reason that this script knows.")()
    return f"{why} (refusal {refusal})"


def short_axis(table):
    for axis in table.axes:
        if len(axis.values) < LEAST_LENGTH:
            return (
                f"{table.file}, line {axis.lines[-1]}: {axis.name} has {len(axis.values)} values only; the curve needs"
                f" at least {LEAST_LENGTH} on each axis."
            )
    return f"{table.file}: an axis has fewer than {LEAST_LENGTH} values."


def too_many_points(table):
    rows, columns = [len(axis.values) for axis in table.axes]
    fit = MOST_POINTS // columns
    where = f", line {table.rows.lines[fit]}" if fit < rows else ""
    return (
        f"{table.file}{where}: {rows} rows by {columns} columns are {rows * columns} points; the map program takes at"
        f" most {MOST_POINTS}. From this line on there are too many."
    )


def falling_axis(table):
    for axis in table.axes:
        for i in range(1, len(axis.values)):
            if not axis.values[i] > axis.values[i - 1]:
                return (
                    f"{table.file}, line {axis.lines[i]}: {axis.name} {axis.texts[i]} {axis.unit} comes after"
                    f" {axis.texts[i - 1]} {axis.unit} and is not above it. The values of an axis must rise."
                )
    return f"{table.file}: the values of an axis do not rise."


def explain_unreadable(text, table, points, points_file):
    """Which line of its input the program could not read, and where that line comes from."""
    if not re.fullmatch("[0-9]+", text):
        return f"The map program printed a line that is no answer: {'X,' + text!r}."
    if text == "0":
        return too_long(table, points, points_file)
    line = int(text)
    here = f"The map program could not read line {line} of its input"
    if line == 1:
        return f"{here}, the size of the map, from {table.file}."
    if line == 2:
        return f"{here}, the values of {table.rows.name} and {table.columns.name}, from {table.file}."
    if line == 3:
        return f"{here}, the figures of {table.file}, lines {table.rows.lines[0]} to {table.rows.lines[-1]}."
    if line - 4 < len(points):
        point = points[line - 4]
        return f"{here}, the point {', '.join(point.texts)} from {points_file}, line {point.line}."
    return f"{here}, behind the last point."


def too_long(table, points, points_file):
    map_bytes = len(program_input(table, [], False))
    each = len(program_input(table, points[:1], False)) - map_bytes
    fit = max(0, (MOST_BYTES - map_bytes) // each)
    where = f"{points_file}, line {points[fit].line}" if fit < len(points) else points_file
    return (
        f"{where}: {len(points)} points are too many for one run; with this table the map program takes {fit}. From"
        f" this line on put the points into another file."
    )


# ---- the sheet


def place(table, point):
    """Where a figure at this point stands."""
    pairs = list(zip(table.axes, point.values))
    if any(x < axis.values[0] or x > axis.values[-1] for axis, x in pairs):
        return OUTSIDE
    return TESTED if all(x in axis.values for axis, x in pairs) else BETWEEN


def tested_figure(table, point):
    """What the table has at this point, as it is written there, or nothing."""
    if place(table, point) != TESTED:
        return ""
    row, column = [axis.values.index(x) for axis, x in zip(table.axes, point.values)]
    return table.texts[row][column]


def sheet_columns(table):
    """The title of each column, line by line, and its unit."""
    stands, curve = (["stands"], ""), ["from curve"]
    columns = [(axis.name.split(), axis.unit) for axis in table.axes]
    columns += [(table.figure.split() + curve, table.unit), stands]
    for axis in table.axes:
        columns += [(["slope over"] + axis.name.split() + curve, f"{table.unit} per {axis.unit}"), stands]
    return columns + [(["tested"] + table.figure.split(), table.unit)]


def sheet_row(table, point, answer, digits=None):
    """The cells of one point: no figure stands without its place beside it."""
    if isinstance(answer, int):
        figures = [f"refused ({answer})"] * (1 + len(table.axes))
        words = [""] * len(figures)
    else:
        figures = [decimal(x, digits) for x in answer]
        words = [place(table, point)] * len(figures)
    beside = [cell for pair in zip(figures, words) for cell in pair]
    return point.texts + beside + [tested_figure(table, point)]


def sheet_csv(table, points, answers):
    """The sheet for a spreadsheet program, with all digits."""
    titles = [" ".join(title + [f"[{unit}]"] if unit else title) for title, unit in sheet_columns(table)]
    rows = [sheet_row(table, point, answer) for point, answer in zip(points, answers)]
    return "".join(",".join(quoted(cell) for cell in row) + "\n" for row in [titles] + rows)


def quoted(cell):
    return '"' + cell.replace('"', '""') + '"' if re.search('[,"]', cell) else cell


def sheet_text(table, points, answers, straight, digits):
    """The sheet to be read and printed."""
    columns = sheet_columns(table)
    height = max(len(title) for title, _ in columns)
    heads = [[title[i] if i < len(title) else "" for title, _ in columns] for i in range(height)]
    rows = [sheet_row(table, point, answer, digits) for point, answer in zip(points, answers)]
    grid = heads + [[unit for _, unit in columns]] + rows
    widths = [max(len(row[i]) for row in grid) for i in range(len(columns))]
    lines = ["  ".join(cell.rjust(width) for cell, width in zip(row, widths)).rstrip() for row in grid]
    lines.insert(height + 1, "  ".join("-" * width for width in widths))
    return "\n".join(sheet_top(table, points, straight) + lines + sheet_foot(table, answers)) + "\n"


def sheet_top(table, points, straight):
    """What the sheet is about, and how many of its points stand where."""
    size = " by ".join(str(len(axis.values)) for axis in table.axes)
    beyond = "a straight line" if straight else "the curve of the end"
    tested, between, outside = (sum(place(table, x) == word for x in points) for word in (TESTED, BETWEEN, OUTSIDE))
    return [
        f"{table.file}: {table.figure}, {size} tested points. Outside the tested range the sheet follows {beyond}.",
        f"{len(points)} points: {tested} at tested points, {between} between, {outside} outside.",
        "",
    ]


def sheet_foot(table, answers):
    """The words of the sheet, and the refusals on it."""
    refused = sorted({answer for answer in answers if isinstance(answer, int)})
    words = {6: "the point is no number, or too far away to be placed on an axis"}
    notes = [f"refused ({n})   {words.get(n, 'the map program gave no figure')}" for n in refused]
    return [""] + notes + [LEGEND.format(figure=table.figure)]


# ---- the command


def arguments(given):
    parser = argparse.ArgumentParser(description="A rating sheet from a table of tested figures and a list of points.")
    parser.add_argument("table", nargs="?", default=HERE / "compressor.csv", help="tested figures, decimal CSV")
    parser.add_argument("points", nargs="?", default=HERE / "points.csv", help="points to rate, decimal CSV")
    parser.add_argument("--program", default=PROGRAM, help="the map program (target/bin/map)")
    parser.add_argument("--outside", choices=["straight", "curve"], default="straight", help="how it goes on outside")
    parser.add_argument("--digits", type=int, choices=range(1, 18), default=6, metavar="N", help="digits printed (6)")
    parser.add_argument("--csv", action="store_true", help="print the sheet as CSV, with all digits")
    parser.add_argument("--input", action="store_true", help="print what the map program would read, and stop")
    return parser.parse_args(given)


def main(given):
    options = arguments(given)
    straight = options.outside == "straight"
    try:
        table = read_table(options.table)
        points = read_points(options.points, table)
        text = program_input(table, points, straight)
        if options.input:
            print(text, end="")
            return 0
        output = run_program(options.program, text)
        answers = read_answers(output, table, points, Path(options.points).name)
    except Fault as fault:
        print(fault, file=sys.stderr)
        return 1
    if options.csv:
        print(sheet_csv(table, points, answers), end="")
    else:
        print(sheet_text(table, points, answers, straight, options.digits), end="")
    return 0


if __name__ == "__main__":
    sys.exit(main(sys.argv[1:]))
