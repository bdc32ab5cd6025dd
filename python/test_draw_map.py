"""Tests of draw_map.py: what the picture has, that nothing is clipped, and that no text stands on another.

The figures on the picture are held to those of ../examples/heat_pump/stored, which the reference over the Rust made.
"""

import contextlib
import csv
import io
import tempfile
import unittest
import xml.etree.ElementTree as tree
from pathlib import Path

import draw_map
from draw_map import HEAT_PUMP, sheet
from svg import Picture, number, text_width

TABLE = HEAT_PUMP / "compressor.csv"
POINTS = HEAT_PUMP / "points.csv"
SVG = "{http://www.w3.org/2000/svg}"


def run(*words):
    """Exit status, standard output and standard error of the command."""
    out, error = io.StringIO(), io.StringIO()
    with contextlib.redirect_stdout(out), contextlib.redirect_stderr(error):
        status = draw_map.main([str(word) for word in words])
    return status, out.getvalue(), error.getvalue()


def drawn(*words):
    status, text, error = run(*words)
    assert (status, error) == (0, ""), error
    return tree.fromstring(text)


def of_class(root, name):
    return [element for element in root.iter() if name in element.get("class", "").split()]


def texts(root):
    """Each text that is not turned, with its box."""
    for element in root.iter(SVG + "text"):
        if element.get("transform") is None:
            size, x, y = (float(element.get(key)) for key in ("font-size", "x", "y"))
            width = text_width(element.text, size)
            left = x - {"start": 0, "middle": 0.5, "end": 1}[element.get("text-anchor")] * width
            yield element.text, (left, y - 0.8 * size, left + width, y + 0.2 * size)


class Contents(unittest.TestCase):
    def test_curves_and_tested_points(self):
        for along, other in (("rows", 5), ("columns", 6)):
            root = drawn("--along", along)
            self.assertEqual(len(of_class(root, "curve")), 3 * other)
            self.assertEqual(len([x for x in of_class(root, "curve") if x.get("stroke-dasharray")]), 2 * other)
            # 30 figures of the table, 3 marks at tested points, and the mark of the legend.
            self.assertEqual(len(of_class(root, "tested")), 30 + 3 + 1)
            self.assertEqual(len({x.get("stroke") for x in of_class(root, "curve")}), other)

    def test_a_table_without_points(self):
        root = drawn(TABLE)
        self.assertEqual((len(of_class(root, "asked")), len(of_class(root, "cell"))), (0, 0))
        self.assertEqual(len(of_class(root, "tested")), 30)

    def test_marks_by_word(self):
        root = drawn()
        asked = [x.get("class").split()[1] for x in of_class(root, "asked")]
        # The stored sheet has 3, 4 and 4 of them; the legend has one of each more.
        self.assertEqual({word: asked.count(word) for word in set(asked)}, {"tested": 4, "between": 5, "outside": 5})

    def test_names_and_units(self):
        said = {element.text for element in drawn().iter(SVG + "text")}
        self.assertLessEqual({"evaporating temperature [degC]", "capacity [W]", "condensing temperature"}, said)
        self.assertLessEqual({"30 degC", "35 degC", "45 degC", "55 degC", "65 degC"}, said)
        said = {element.text for element in drawn("--along", "columns").iter(SVG + "text")}
        self.assertLessEqual({"condensing temperature [degC]", "capacity [W]", "-20 degC", "7 degC"}, said)

    def test_figures_are_those_of_the_rust(self):
        with open(HEAT_PUMP / "stored" / "curve.csv", encoding="ascii") as file:
            rows = list(csv.reader(file))[1:]
        for along in ("rows", "columns"):
            cells = [x.text for x in of_class(drawn("--along", along, "--outside", "curve"), "cell")][8:]
            found = [cells[i : i + 5] for i in range(0, len(cells), 5)]
            expected = [[str(i), *row[:2], sheet.decimal(float(row[2]), 6), row[3]] for i, row in enumerate(rows, 1)]
            self.assertEqual(found, expected)

    def test_nothing_asked_for_is_called_tested_but_at_tested_points(self):
        cells = [x.text for x in of_class(drawn(), "cell")][8:]
        for i in range(0, len(cells), 5):
            at_point = cells[i + 1] in "-20 -15 -10 -5 0 7".split() and cells[i + 2] in "30 35 45 55 65".split()
            self.assertEqual("tested" in cells[i + 4], at_point)


class Room(unittest.TestCase):
    def pictures(self):
        for along in ("rows", "columns"):
            for outside in ("straight", "curve"):
                yield drawn("--along", along, "--outside", outside)
                yield drawn(TABLE, "--along", along, "--outside", outside)

    def test_no_text_is_clipped(self):
        for root in self.pictures():
            width, height = float(root.get("width")), float(root.get("height"))
            for text, (left, top, right, bottom) in texts(root):
                self.assertTrue(0 <= left and right <= width and 0 <= top and bottom <= height, text)

    def test_no_text_stands_on_another(self):
        for root in self.pictures():
            boxes = list(texts(root))
            for i, (text, (left, top, right, bottom)) in enumerate(boxes):
                for other, (l, t, r, b) in boxes[i + 1 :]:
                    self.assertFalse(left < r and l < right and top < b and t < bottom, (text, other))

    def test_ticks(self):
        for low, high in ((0, 1), (-25, 10), (1000, 7500), (0.001, 0.0042), (-1e9, 3e9), (5, 5.5)):
            ticks = draw_map.Scale(low, high, 0, 100).ticks()
            self.assertTrue(4 <= len(ticks) <= 11, (low, high, ticks))
            for x, text in ticks:
                self.assertTrue(low <= x <= high and abs(float(text) - x) <= 1e-9 * (abs(x) + high - low), text)


class Faults(unittest.TestCase):
    def fault(self, old, new):
        with tempfile.TemporaryDirectory() as folder:
            path = Path(folder) / "table.csv"
            path.write_text(TABLE.read_text().replace(old, new))
            status, text, error = run(path)
        self.assertEqual((status, text), (1, ""))
        return error

    def test_refusals(self):
        fault = self.fault("\n-10,", "\n-15.0,")
        self.assertIn("table.csv, line 7: evaporating temperature -15.0 degC comes after -15 degC", fault)
        self.assertIn("refused (5)", fault)
        rows = TABLE.read_text().split("\n", 7)[7]
        self.assertIn("refused (2)", self.fault(rows, ""))

    def test_files(self):
        self.assertIn("line 8, cell 3", self.fault("4460,4200", "4460,not tested"))
        self.assertEqual(run("missing.csv")[0], 1)

    def test_out(self):
        with tempfile.TemporaryDirectory() as folder:
            path = Path(folder) / "map.svg"
            self.assertEqual(run("--out", path), (0, "", ""))
            self.assertEqual(path.read_text(encoding="utf-8"), run()[1])

    def test_names_are_escaped(self):
        with tempfile.TemporaryDirectory() as folder:
            path = Path(folder) / "table.csv"
            path.write_text(TABLE.read_text().replace("capacity", "a < b & c"))
            self.assertIn("a < b & c [W]", {element.text for element in drawn(path).iter(SVG + "text")})


class Pictures(unittest.TestCase):
    def test_numbers(self):
        found = [number(x) for x in (1, 1.5, 1.239, 0.004, 100.0, "x")]
        self.assertEqual(found, ["1", "1.5", "1.24", "0", "100", "x"])

    def test_boxes(self):
        picture = Picture()
        picture.text(10, 20, "abc", size=10)
        self.assertEqual([picture.taken(box) for box in ((0, 0, 100, 100), (0, 0, 9, 100), (0, 23, 90, 30))], [1, 0, 0])


if __name__ == "__main__":
    unittest.main()
