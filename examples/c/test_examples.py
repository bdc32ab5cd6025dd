"""Tests of the C examples: python3 -m unittest, in this folder, once `make examples` has built them.

Expected figures are those of ../heat_pump/stored, which the reference over the Rust made, and not those of the library.
CORVEZAN_BIN names another folder with the programs, CORVEZAN_UNDER a command to run them under, as valgrind.
"""

import os
import re
import shlex
import subprocess
import tempfile
import unittest
from pathlib import Path

HERE = Path(__file__).resolve().parent
HEAT_PUMP = HERE.parent / "heat_pump"
TABLE = HEAT_PUMP / "compressor.csv"
POINTS = HEAT_PUMP / "points.csv"
BIN = Path(os.environ.get("CORVEZAN_BIN", HERE.parents[1] / "target" / "make" / "bin"))
UNDER = shlex.split(os.environ.get("CORVEZAN_UNDER", ""))


def run(program, *words):
    """Exit status, standard output and standard error."""
    done = subprocess.run(UNDER + [str(BIN / program), *map(str, words)], capture_output=True, text=True, check=False)
    return done.returncode, done.stdout, done.stderr


def changed(folder, old, new):
    """The table with a text replaced, as a file of the same name."""
    text = TABLE.read_text()
    assert old in text
    path = Path(folder) / TABLE.name
    path.write_text(text.replace(old, new))
    return path


class RatingSheet(unittest.TestCase):
    def test_sheet_of_the_oracle(self):
        stored = (HEAT_PUMP / "stored" / "straight.sheet").read_text()
        self.assertEqual(run("rating_sheet", TABLE, POINTS), (0, stored, ""))
        self.assertEqual(run("rating_sheet", TABLE, POINTS, "straight"), (0, stored, ""))

    def test_curve_outside(self):
        status, sheet, _ = run("rating_sheet", TABLE, POINTS, "curve")
        self.assertEqual(status, 0)
        self.assertIn("the curve of the end", sheet)
        rows = [line.split(",") for line in (HEAT_PUMP / "stored" / "curve.csv").read_text().split("\n")[1:-1]]
        printed = [re.split(" {2,}", line.strip()) for line in sheet.split("\n")[9 : 9 + len(rows)]]
        for row, cells in zip(rows, printed, strict=True):
            figures = [f"{float(x):#.6g}" for x in row[2:7:2]]
            self.assertEqual(cells[2:7:2], figures)
            self.assertEqual(cells[3:8:2], row[3:8:2])

    def refused(self, old, new):
        with tempfile.TemporaryDirectory() as folder:
            status, sheet, fault = run("rating_sheet", changed(folder, old, new), POINTS)
        self.assertEqual((status, sheet), (1, ""))
        return fault

    def test_values_that_do_not_rise(self):
        fault = self.refused("\n-10,", "\n-15,")
        self.assertIn("compressor.csv was refused (5)", fault)
        self.assertIn("evaporating temperature -15 degC comes after -15 degC", fault)

    def test_too_few_rows(self):
        fault = self.refused(TABLE.read_text().split("30,35,45,55,65\n")[1], "1,1,1,1,1,1\n2,1,1,1,1,1\n3,1,1,1,1,1\n")
        self.assertIn("was refused (2)", fault)
        self.assertIn("evaporating temperature has 3 values only", fault)

    def test_faults_of_the_file(self):
        self.assertIn("line 7: cell 3 is not a decimal number", self.refused("3690,3470,3030", "3690,,3030"))
        self.assertIn("line 8: cell 3 is not a decimal number", self.refused("4460,4200", "4460,nan"))
        self.assertIn("line 8: cell 3 is not a decimal number", self.refused("4460,4200", "4460,0x10"))
        self.assertIn("line 7: every row needs a figure", self.refused(",2110\n", "\n"))
        self.assertIn("line 2: this line should read 'rows,NAME,UNIT'", self.refused("rows,", "columns,"))
        self.assertIn("too many columns", self.refused(",30,35", "," + ",".join(map(str, range(70)))))

    def test_no_file(self):
        status, _, fault = run("rating_sheet", HERE / "missing.csv", POINTS)
        self.assertEqual(status, 1)
        self.assertIn("cannot be read", fault)

    def test_usage(self):
        self.assertEqual(run("rating_sheet")[0], 2)
        self.assertEqual(run("rating_sheet", TABLE, POINTS, "sideways")[0], 2)


class TaskSlice(unittest.TestCase):
    LINES = 11
    WRONG = 3
    LAST = "30 of 30 coefficients are those of the whole fit, bit for bit.\n"

    def answers(self, log):
        """How often each number was answered, counted from the calls in the log."""
        numbers = re.findall(r"^  axis \d+ line \d+: (\d+), ", log, re.M)
        return {n: numbers.count(n) for n in set(numbers)}

    def test_any_order_and_any_budget(self):
        for seed in [1] if UNDER else range(1, 13):
            for lines in (1, 3, 50):
                status, log, fault = run("task_slice", TABLE, "seed", seed, "lines", lines)
                self.assertEqual((status, fault), (0, ""), log)
                self.assertTrue(log.endswith(self.LAST), log)
                found = self.answers(log)
                found.pop("9", None)
                self.assertEqual(found, {"0": self.LINES, "7": 2, "8": 1})

    def test_budget_of_lines(self):
        log = run("task_slice", TABLE, "lines", 4)[1]
        for cycle in log.split("cycle ")[1:]:
            self.assertLessEqual(len(re.findall(r"^  axis ", cycle, re.M)), 4)

    def test_a_line_that_is_not_due_is_solved_later(self):
        log = run("task_slice", TABLE, "seed", 2)[1]
        early = re.findall(r"axis (\d) line (\d): 9, put back", log)
        self.assertTrue(early)
        for axis, line in early:
            after = log.rindex(f"axis {axis} line {line}: 9, put back")
            self.assertIn(f"axis {axis} line {line}: 0, solved", log[after:])

    def test_ledger_rises_to_its_end(self):
        sums = [int(n) for n in re.findall(r"ledger (\d+) of 60", run("task_slice", TABLE)[1])]
        self.assertEqual(sums, sorted(sums))
        self.assertEqual(sums[-1], 60)

    def test_budget_of_time(self):
        status, log, _ = run("task_slice", TABLE, "microseconds", 1)
        self.assertEqual(status, 0)
        self.assertTrue(log.endswith(self.LAST))

    def test_a_lost_task_ends_the_loop(self):
        ends = {run("task_slice", TABLE, "seed", seed, "lost", 8)[0] for seed in range(1 if UNDER else 8)}
        self.assertEqual(ends, {1})
        fault = run("task_slice", TABLE, "lost", 8)[2]
        self.assertIn("The fit is not finished", fault)

    def test_numbers_are_explained(self):
        log = run("task_slice", TABLE)[1]
        for number in set(self.answers(log)):
            self.assertRegex(log, rf"[1-9]\d* calls? answered {number}: [a-z ]+")

    def test_refused_table(self):
        with tempfile.TemporaryDirectory() as folder:
            status, _, fault = run("task_slice", changed(folder, ",45,55,", ",55,45,"))
        self.assertEqual(status, 1)
        self.assertIn("The map was refused (5)", fault)

    def test_usage(self):
        for words in ([], [TABLE, "lines"], [TABLE, "lines", "0"], [TABLE, "lines", "x"], [TABLE, "speed", "3"]):
            self.assertEqual(run("task_slice", *words)[0], 2)


if __name__ == "__main__":
    unittest.main()
