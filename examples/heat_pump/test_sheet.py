"""Tests of sheet.py: python3 -m unittest, in this folder.

The map program's output is stored in stored/, with the input that it answers. It was made by the reference over the
Rust that the library follows (oracle/README.md), and is made again by: python3 test_sheet.py PROGRAM
"""

import contextlib
import io
import math
import struct
import subprocess
import sys
import tempfile
import unittest
from pathlib import Path

import sheet
from sheet import BETWEEN, OUTSIDE, TESTED, Fault, Point

HERE = Path(__file__).resolve().parent
STORED = HERE / "stored"
TABLE = (HERE / "compressor.csv").read_text()
POINTS = (HERE / "points.csv").read_text()
NAMES = "evaporating temperature,condensing temperature\n"
HEAD = "figure,capacity,W\nrows,evaporating temperature,degC\ncolumns,condensing temperature,degC\n"


def grid(rows, columns):
    """A table with as many rows and columns, of whole numbers that rise."""
    lines = ["," + ",".join(str(c) for c in range(columns))]
    lines += [",".join(str(x) for x in [r] + [10 * r + c for c in range(columns)]) for r in range(rows)]
    return HEAD + "\n".join(lines) + "\n"


# Table, points, and whether it goes on in a straight line outside: the stored runs. In 'damaged' the third point loses
# a digit on its way to the program.
CASES = {
    "straight": (TABLE, POINTS, True),
    "curve": (TABLE, POINTS, False),
    "falling_rows": (TABLE.replace("\n-10,", "\n-16,"), POINTS, True),
    "equal_rows": (TABLE.replace("\n-10,", "\n-15.0,"), POINTS, True),
    "falling_columns": (TABLE.replace(",45,55,", ",55,45,"), POINTS, True),
    "three_rows": (grid(3, 5), NAMES + "1,1\n", True),
    "three_columns": (grid(5, 3), NAMES + "1,1\n", True),
    "most_points": (grid(32, 16), NAMES + "1,1\n", True),
    "too_many_points": (grid(27, 19), NAMES + "1,1\n", True),
    "too_long": (TABLE, NAMES + "-10,45\n" * 1000, True),
    "damaged": (TABLE, POINTS, True),
}


def read_case(name):
    """The table, the points and the program's input of a case."""
    table, points, straight = CASES[name]
    with tempfile.TemporaryDirectory() as folder:
        table = sheet.read_table(written(folder, "compressor.csv", table))
        points = sheet.read_points(written(folder, "points.csv", points), table)
    lines = sheet.program_input(table, points, straight).split("\n")
    if name == "damaged":
        lines[5] = lines[5][:-1]
    return table, points, "\n".join(lines)


def written(folder, name, text):
    path = Path(folder) / name
    path.write_text(text)
    return path


def stored(name, ending):
    return (STORED / f"{name}.{ending}").read_text()


def answers(name):
    """The stored answers of a case."""
    table, points, _ = read_case(name)
    return table, points, sheet.read_answers(stored(name, "output"), table, points, "points.csv")


class Stored(unittest.TestCase):
    def test_inputs(self):
        for name in CASES:
            self.assertEqual(read_case(name)[2], stored(name, "input"), name)

    @unittest.skipUnless(sheet.PROGRAM.exists(), "the map program is not built")
    def test_program(self):
        for name in CASES:
            self.assertEqual(sheet.run_program(sheet.PROGRAM, stored(name, "input")), stored(name, "output"), name)

    def test_curve_meets_tested_figures(self):
        table, points, rows = answers("straight")
        for point, row in zip(points, rows):
            if sheet.place(table, point) == TESTED:
                self.assertAlmostEqual(row[0], float(sheet.tested_figure(table, point)), places=6)

    def test_sheets(self):
        self.assertEqual(sheet.sheet_text(*answers("straight"), True, 6), stored("straight", "sheet"))
        self.assertEqual(sheet.sheet_csv(*answers("curve")), stored("curve", "csv"))

    def test_flag_shows_only_outside(self):
        table, points, straight = answers("straight")
        curve = answers("curve")[2]
        for point, one, other in zip(points, straight, curve):
            self.assertEqual(one == other, sheet.place(table, point) != OUTSIDE, point.texts)

    def test_most_points(self):
        self.assertEqual(len(answers("most_points")[2]), 1)


class Floats(unittest.TestCase):
    ENDS = [5e-324, 2.2250738585072014e-308, 1.7976931348623157e308]
    FLOATS = [0.0, -0.0, 1.0, -1.0, 0.1, 1 / 3, 38.5, -7.25, 2470.0] + ENDS

    def test_known_bits(self):
        self.assertEqual(sheet.hexadecimal(1.0), "3ff0000000000000")
        self.assertEqual(sheet.hexadecimal(-2.0), "c000000000000000")
        self.assertEqual(sheet.hexadecimal(-0.0), "8000000000000000")
        self.assertEqual(sheet.hexadecimal(0.1), "3fb999999999999a")
        self.assertEqual(sheet.from_hexadecimal("4009000000000000"), 3.125)

    def test_round_trip(self):
        for x in self.FLOATS + [math.inf, -math.inf]:
            back = sheet.from_hexadecimal(sheet.hexadecimal(x))
            self.assertEqual(struct.pack(">d", back), struct.pack(">d", x))

    def test_round_trip_in_decimals(self):
        for x in self.FLOATS:
            back = sheet.number(sheet.decimal(x), "here")
            self.assertEqual(struct.pack(">d", back), struct.pack(">d", x))

    def test_nan_and_infinities(self):
        self.assertTrue(math.isnan(sheet.from_hexadecimal("7ff8000000000000")))
        self.assertEqual(sheet.from_hexadecimal("7ff0000000000000"), math.inf)
        self.assertEqual(sheet.from_hexadecimal("fff0000000000000"), -math.inf)
        self.assertEqual(sheet.hexadecimal(math.nan), "7ff8000000000000")
        self.assertEqual(sheet.decimal(math.nan), "no number")
        self.assertEqual([sheet.decimal(math.inf), sheet.decimal(-math.inf, 6)], ["infinite", "-infinite"])

    def test_hexadecimals_of_another_form(self):
        good = "3ff0000000000000"
        for text in ["", good.upper(), good[1:], good + "0", "0x" + good[2:], "g" + good[1:], " " + good[1:], "1.0"]:
            with self.assertRaises(Fault, msg=text):
                sheet.from_hexadecimal(text)

    def test_decimals_of_another_form(self):
        for text in [
            *["", " ", "-", ".", "e5", "1e", "--1", "1-", "nan", "NaN", "inf", "-inf", "Infinity"],
            *["1_000", "1 000", "12 W", "3,5", "0x10", "1e999", "-1e999", "\u0663"],
        ]:
            with self.assertRaises(Fault, msg=text):
                sheet.number(text, "here")

    def test_digits(self):
        self.assertEqual(sheet.decimal(1234.56789, 6), "1234.57")
        self.assertEqual(sheet.decimal(3030.0, 6), "3030.00")


class Places(unittest.TestCase):
    def setUp(self):
        self.table = read_case("straight")[0]

    def place(self, row, column):
        return sheet.place(self.table, Point([str(row), str(column)], [float(row), float(column)], 1))

    def test_tested_point(self):
        for row in (-20, -10, 0, 7):
            for column in (30, 45, 65):
                self.assertEqual(self.place(row, column), TESTED)
        self.assertEqual(self.place("-0", "35.0"), TESTED)

    def test_between(self):
        for row, column in [(-7, 38.5), (-10, 40), (-12, 45), (-20, 31), (7, 64.9), (6.999999, 65), (0, 30.0000001)]:
            self.assertEqual(self.place(row, column), BETWEEN)

    def test_outside(self):
        for row, column in [(-20.01, 45), (7.000001, 45), (0, 29.999), (0, 66), (-25, 70), (100, -100), (1e300, 45)]:
            self.assertEqual(self.place(row, column), OUTSIDE)

    def test_no_figure_without_its_word(self):
        table, points, rows = answers("straight")
        for point, row in zip(points, rows):
            cells = sheet.sheet_row(table, point, row, 6)
            word = sheet.place(table, point)
            self.assertEqual(cells[3::2][:3], [word] * 3)
            self.assertEqual(cells[-1] != "", word == TESTED)

    def test_tested_figure_is_the_tables_own_text(self):
        point = Point(["-20", "65"], [-20.0, 65.0], 1)
        self.assertEqual(sheet.tested_figure(self.table, point), "1310")

    def test_nothing_else_is_called_tested(self):
        head = stored("curve", "csv").split("\n")[0].split(",")
        self.assertEqual([title for title in head if "tested" in title or "measured" in title], ["tested capacity [W]"])


class BadTables(unittest.TestCase):
    def fault(self, table, points=POINTS):
        with tempfile.TemporaryDirectory() as folder, self.assertRaises(Fault) as caught:
            read = sheet.read_table(written(folder, "table.csv", table))
            sheet.read_points(written(folder, "points.csv", points), read)
        return str(caught.exception)

    def test_missing_cell(self):
        text = self.fault(TABLE.replace("3690,3470,3030", "3690,,3030"))
        self.assertEqual(text, "table.csv, line 7, cell 3: a number is missing.")
        self.assertIn("line 4, cell 4", self.fault(TABLE.replace(",35,45,", ",35,,")))
        self.assertIn("line 6, cell 1", self.fault(TABLE.replace("\n-15,", "\n,")))

    def test_text_in_a_cell(self):
        text = self.fault(TABLE.replace("4460,4200", "4460,not tested"))
        self.assertEqual(text, "table.csv, line 8, cell 3: 'not tested' is not a decimal number.")
        self.assertIn("line 8, cell 3: 'nan'", self.fault(TABLE.replace("4460,4200", "4460,nan")))
        self.assertIn("Write a point", self.fault(TABLE.replace("4460,4200", '4460,"4200,5"')))

    def test_unequal_rows(self):
        text = self.fault(TABLE.replace("2110\n", "\n").replace(",2570,", ",2570"))
        self.assertIn("table.csv, line 7: 4 figures, but line 4 has 5 columns.", text)
        self.assertIn("line 10: 6 figures", self.fault(TABLE.replace("4220\n", "4220,4000\n")))

    def test_names(self):
        self.assertIn("line 1: this line should read 'figure,NAME,UNIT'", self.fault(TABLE.replace("figure,", "", 1)))
        self.assertIn("line 2", self.fault(TABLE.replace("rows,", "columns,")))
        self.assertIn("missing", self.fault("figure,capacity,W\n"))
        self.assertIn("no rows", self.fault(HEAD + ",1,2,3,4\n"))
        self.assertIn("no columns", self.fault(HEAD + '""\n1\n'))
        self.assertIn("should be empty", self.fault(TABLE.replace("\n,30", "\nx,30")))

    def test_padding_of_spreadsheet_programs(self):
        padded = TABLE.replace("W\n", "W,,,\n").replace("degC\n", "degC,,,\n").replace("\n", "\r\n")
        with tempfile.TemporaryDirectory() as folder:
            path = Path(folder) / "table.csv"
            path.write_bytes(b"\xef\xbb\xbf" + padded.encode())
            self.assertEqual(sheet.read_table(path).values, read_case("straight")[0].values)

    def test_points(self):
        swapped = "condensing temperature,evaporating temperature\n1,2\n"
        self.assertIn("first line should read", self.fault(TABLE, swapped))
        self.assertIn("points.csv, line 3: 1 numbers", self.fault(TABLE, NAMES + "1,2\n3\n"))
        self.assertIn("points.csv, line 2, cell 2: 'x'", self.fault(TABLE, NAMES + "1,x\n"))
        self.assertIn("no points", self.fault(TABLE, NAMES))

    def test_no_file(self):
        with self.assertRaises(Fault):
            sheet.read_table(HERE / "no such file")


class Refusals(unittest.TestCase):
    def fault(self, name):
        with self.assertRaises(Fault) as caught:
            answers(name)
        return str(caught.exception)

    def test_falling_axis(self):
        self.assertEqual(
            self.fault("falling_rows"),
            "compressor.csv, line 7: evaporating temperature -16 degC comes after -15 degC and is not above it."
            " The values of an axis must rise. (refusal 5)",
        )
        self.assertIn("line 7: evaporating temperature -15.0 degC comes after -15 degC", self.fault("equal_rows"))
        self.assertIn("line 4: condensing temperature 45 degC comes after 55 degC", self.fault("falling_columns"))

    def test_short_axis(self):
        text = self.fault("three_rows")
        self.assertIn("line 7: evaporating temperature has 3 values only; the curve needs at least 4", text)
        self.assertIn("(refusal 2)", text)
        self.assertIn("line 4: condensing temperature has 3 values only", self.fault("three_columns"))

    def test_too_many_points(self):
        text = self.fault("too_many_points")
        self.assertIn("compressor.csv, line 31: 27 rows by 19 columns are 513 points", text)
        self.assertIn("(refusal 3)", text)

    def test_too_long(self):
        text = self.fault("too_long")
        table, points, _ = read_case("too_long")
        self.assertIn("points.csv, line 944: 1000 points are too many for one run", text)
        self.assertIn("takes 942.", text)
        self.assertLessEqual(len(sheet.program_input(table, points[:942], True)), sheet.MOST_BYTES)
        self.assertGreater(len(sheet.program_input(table, points[:943], True)), sheet.MOST_BYTES)

    def test_damaged(self):
        self.assertEqual(
            self.fault("damaged"),
            "The map program could not read line 6 of its input, the point -20, 30 from points.csv, line 4.",
        )

    def test_every_line_has_words(self):
        table, points, _ = read_case("straight")
        wanted = [("1", "the size"), ("2", "the values of"), ("3", "lines 5 to 10"), ("14", "-23.5, 67")]
        for line, words in wanted + [("15", "behind the last point")]:
            self.assertIn(words, sheet.explain_unreadable(line, table, points, "points.csv"))
        self.assertIn("one to four axes. (refusal 1)", sheet.explain_refusal("M,1", table))
        self.assertIn("(refusal 99)", sheet.explain_refusal("M,99", table))

    def test_refused_point(self):
        table, points, rows = answers("straight")
        text = sheet.sheet_text(table, points, [6] + rows[1:], True, 6)
        self.assertIn("refused (6)   the point is no number, or too far away", text)
        self.assertEqual(sheet.sheet_row(table, points[3], 6)[2:], ["refused (6)", ""] * 3 + [""])

    def test_not_a_number(self):
        table, points, rows = answers("straight")
        self.assertEqual(sheet.sheet_row(table, points[3], [math.nan] * 3)[2:4], ["no number", BETWEEN])

    def test_output_of_another_form(self):
        table, points, _ = read_case("straight")
        good = stored("straight", "output")
        lines = good.split("\n")
        for bad in [
            "",
            "M,0",
            good[:-1],
            good + "\n",
            good.replace("M,0\n", ""),
            good.replace("T,11,", "T,10,"),
            "\n".join(lines[:5] + lines[6:]),
            good.replace(lines[3], "V,0"),
            good.replace(lines[3], lines[3].upper()),
            good.replace(lines[3], lines[3][:-1]),
            good.replace(lines[3], "X,?"),
            "M,x\n",
        ]:
            with self.assertRaises(Fault, msg=bad):
                sheet.read_answers(bad, table, points)


class Command(unittest.TestCase):
    def run_sheet(self, *given):
        out, err = io.StringIO(), io.StringIO()
        with contextlib.redirect_stdout(out), contextlib.redirect_stderr(err):
            status = sheet.main([str(argument) for argument in given])
        return status, out.getvalue(), err.getvalue()

    def with_program(self, name, *given):
        """A run whose program prints a stored output, whatever it reads."""
        with tempfile.TemporaryDirectory() as folder:
            program = written(folder, "program", f"#!/bin/sh\ncat > /dev/null\ncat '{STORED / name}.output'\n")
            program.chmod(0o755)
            return self.run_sheet("--program", program, *given)

    def test_sheet(self):
        self.assertEqual(self.with_program("straight"), (0, stored("straight", "sheet"), ""))
        self.assertEqual(self.with_program("curve", "--csv", "--outside", "curve"), (0, stored("curve", "csv"), ""))

    def test_input(self):
        self.assertEqual(self.run_sheet("--input"), (0, stored("straight", "input"), ""))

    def test_refusal(self):
        status, out, err = self.with_program("falling_rows")
        self.assertEqual((status, out), (1, ""))
        self.assertIn("(refusal 5)", err)

    def test_no_program(self):
        status, out, err = self.run_sheet("--program", HERE / "no such program")
        self.assertEqual((status, out), (1, ""))
        self.assertIn("cannot be started", err)


def store(program):
    """Writes what is stored, with this program's output."""
    STORED.mkdir(exist_ok=True)
    for name in CASES:
        text = read_case(name)[2]
        written(STORED, f"{name}.input", text)
        output = subprocess.run([program], input=text.encode(), stdout=subprocess.PIPE, check=True).stdout.decode()
        written(STORED, f"{name}.output", output)
    written(STORED, "straight.sheet", sheet.sheet_text(*answers("straight"), True, 6))
    written(STORED, "curve.csv", sheet.sheet_csv(*answers("curve")))


if __name__ == "__main__":
    if len(sys.argv) == 2 and not sys.argv[1].startswith("-"):
        store(sys.argv[1])
    else:
        unittest.main()
