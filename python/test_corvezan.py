"""Tests of corvezan.py: python3 -m unittest, in this folder, once `make shared` has built the library.

Expected figures come from the checked points of the scope and from reasoning: a cubic spline through samples that are
linear in the axes gives them back. test_lists.py holds the module to the answers of the Rust.
"""

import ctypes
import math
import os
import random
import re
import struct
import unittest
from array import array
from pathlib import Path
from unittest import mock

import corvezan
from corvezan import Rectilinear, Refused, Regular, Stepwise

try:
    import numpy
except ImportError:
    numpy = None

HEADER = (Path(__file__).resolve().parent.parent / "include" / "corvezan.h").read_text()


def bits(floats):
    return [struct.pack("<d", x) for x in floats]


def filled(n):
    """Numbers that no call writes."""
    return array("d", [i + 0.5 for i in range(n)])


def regular():
    """4 by 5 points with the samples 5 * (x0 - 100) + 2 * (x1 - 200)."""
    return Regular([4, 5], [100, 200], [2, 0.5]), [[10 * row + column for column in range(5)] for row in range(4)]


def rectilinear():
    """4 by 5 points with the samples 3 * x0 - 2 * x1."""
    rows, columns = [-20, -15, -9, 7], [30, 35, 45, 55, 65]
    return Rectilinear([rows, columns]), [3 * x - 2 * y for x in rows for y in columns]


class Refusals(unittest.TestCase):
    def refused(self, number, call, *arguments, **words):
        with self.assertRaises(Refused) as caught:
            call(*arguments, **words)
        self.assertEqual(caught.exception.number, number)
        return caught.exception

    def test_words(self):
        named = dict(re.findall(r"#define CORVEZAN_(\w+) (\d+)", HEADER))
        named.pop("ACCEPTED")
        self.assertEqual({int(n): name for name, n in named.items()}, {n: x[0] for n, x in corvezan.REFUSALS.items()})
        fault = self.refused(5, Rectilinear([[0, 1, 1, 2]]).fit, [0, 0, 0, 0])
        self.assertEqual(fault.name, "NOT_INCREASING")
        self.assertEqual(str(fault), f"refused (5): {fault.text}")
        self.assertEqual(Refused(99).name, "UNKNOWN")

    def test_fits(self):
        for dims, vals, coeffs, scratch, number in [
            *[([], 20, 20, 10, 1), ([4] * 5, 20, 20, 10, 1), ([4, 3], 12, 12, 8, 2)],
            *[([4096, 4097], 20, 20, 10, 3), ([2**64 - 1] * 2, 20, 20, 10, 3)],
            *[([4, 5], 20, 19, 10, 2), ([4, 5], 19, 20, 10, 2), ([4, 5], 20, 20, 9, 4)],
        ]:
            map = Regular(dims, [0] * len(dims), [1] * len(dims))
            out, lent = filled(coeffs), filled(scratch)
            self.refused(number, map.fit, [1] * vals, out, lent)
            self.refused(number, map.from_values, [1] * vals, out, lent)
            self.assertEqual((out, lent), (filled(coeffs), filled(scratch)))

    def test_steps(self):
        for step in (0.0, -0.0, -1.0, math.nan):
            map = Regular([4], [0], [step])
            self.refused(5, map.check)
            self.refused(5, map.value, [1] * 4, [0])
            out = filled(4)
            self.refused(5, map.from_values, [1] * 4, out)
            self.assertEqual(out, map.fit([1] * 4))

    def test_knots(self):
        map, vals = rectilinear()
        map.grid[6] = 35
        out, lent, ledger = filled(20), filled(10), bytearray(b"\xaa" * 20)
        self.refused(5, map.fit, vals, out, lent)
        self.refused(5, Stepwise, map, vals, out, ledger, lent)
        self.refused(5, map.list, vals, [(0, 0)], out, ledger, lent)
        self.refused(2, Rectilinear([0, 1, 2, 3], dims=[4, 4]).check)
        self.assertEqual((out, lent, ledger), (filled(20), filled(10), bytearray(b"\xaa" * 20)))

    def test_queries(self):
        map, vals = regular()
        coeffs, out = map.fit(vals), filled(4)
        for x in (math.nan, math.inf, -math.inf, 1e300):
            self.refused(6, map.value, coeffs, [101, x])
            self.refused(6, map.gradient, coeffs, [x, 201])
        self.refused(2, map.value, coeffs, [101])
        self.refused(2, map.value, coeffs[:-1], [101, 201])
        self.refused(2, map.gradient, coeffs, [101, 201], out)
        self.refused(2, map.values, coeffs, [101, 201], out)
        self.refused(2, map.values, coeffs, [101, 201, 202])
        self.refused(2, map.gradients, coeffs, [101, 201], out)
        self.assertEqual(out, filled(4))

    def test_a_batch_keeps_what_is_before_the_refused_entry(self):
        map = Regular([4], [0], [1])
        coeffs, x, out = map.fit([5] * 4), [1, 2, math.nan, 1], filled(4)
        self.refused(6, map.values, coeffs, x, out)
        self.assertEqual(list(out), [map.value(coeffs, [1]), map.value(coeffs, [2]), 2.5, 3.5])

    def test_lines(self):
        map, vals = rectilinear()
        fit = map.begin(vals)
        self.refused(7, fit.line, 2, 0)
        self.refused(7, fit.line, 0, 5)
        self.refused(9, fit.line, 1, 0)
        fit.line(0, 3)
        self.refused(8, fit.line, 0, 3)
        fit.scratch = corvezan.zeros(9)
        self.refused(4, fit.line, 0, 0)
        self.refused(4, Stepwise, map, vals, scratch=corvezan.zeros(9))
        self.refused(2, Stepwise, map, vals, ledger=bytearray(19))

    def test_shapes(self):
        corvezan.check_shape([4096, 4096])
        self.refused(1, corvezan.check_shape, [])
        self.refused(2, corvezan.check_shape, [4, 3])
        self.refused(3, corvezan.check_shape, [4096, 4097])
        self.refused(7, corvezan.first_cell, [4, 5], 0, 5)
        self.assertEqual([corvezan.points([3]), corvezan.scratch_len([3]), corvezan.lines([4], 1)], [0, 0, 0])


class CheckedPoints(unittest.TestCase):
    def test_strides_and_lines(self):
        dims = [4, 5, 6]
        self.assertEqual([corvezan.stride(dims, axis) for axis in range(4)], [30, 6, 1, 0])
        self.assertEqual([corvezan.lines(dims, axis) for axis in range(3)], [30, 24, 20])
        self.assertEqual(corvezan.first_cell(dims, 1, 7), 31)
        self.assertEqual([corvezan.points(dims), corvezan.scratch_len(dims)], [120, 12])

    def test_gradient_of_a_ramp(self):
        self.assertEqual(list(Regular([4], [0], [1]).gradient([0, 1, 2, 3], [1])), [1])
        self.assertEqual(list(Regular([4], [0], [1], linear=True).gradient([0, 1, 2, 3], [-2])), [1])

    def test_zero_samples(self):
        map = Regular([4], [0], [1])
        coeffs = map.fit([0, 0, 0, 0])
        self.assertEqual(bits(coeffs), bits([0.0] * 4))
        self.assertEqual(bits([map.value(coeffs, [1]), *map.gradient(coeffs, [1])]), bits([0.0] * 2))

    def test_due_once_the_crossing_lines_are_solved(self):
        fit = Regular([4, 4, 4], [0] * 3, [1] * 3).begin([1] * 64)
        for line in (0, 4, 8, 12):
            with self.assertRaises(Refused):
                fit.line(1, 0)
            fit.line(0, line)
        fit.line(1, 0)


class Figures(unittest.TestCase):
    def near(self, found, expected):
        for a, b in zip(found, expected, strict=True):
            self.assertAlmostEqual(a, b, places=9)

    def test_linear_samples_on_a_regular_grid(self):
        map, vals = regular()
        coeffs = map.fit(vals)
        x = [[103, 90, 106], [201.125, 210, 202]]
        self.near(map.values(coeffs, x), [5 * (a - 100) + 2 * (b - 200) for a, b in zip(*x)])
        self.near(map.gradients(coeffs, x), [5] * 3 + [2] * 3)
        self.near([map.value(coeffs, [103, 201.125])], [17.25])
        self.assertEqual(map.from_values(vals), coeffs)

    def test_linear_samples_on_a_rectilinear_grid(self):
        map, vals = rectilinear()
        coeffs = map.fit(vals)
        map.check()
        x = [[-3, -30, 7], [41.5, 80, 65]]
        self.near(map.values(coeffs, x), [3 * a - 2 * b for a, b in zip(*x)])
        self.near(map.gradients(coeffs, x), [3] * 3 + [-2] * 3)
        self.near(map.gradient(coeffs, [-3, 41.5]), [3, -2])
        self.assertTrue(math.isnan(map.value(coeffs, [math.nan, 40])))

    def test_flag_shows_outside_only(self):
        map, straight = Regular([5], [0], [1]), Regular([5], [0], [1], linear=True)
        coeffs = map.fit([0, 1, 4, 9, 16])
        self.assertEqual(map.value(coeffs, [2.5]), straight.value(coeffs, [2.5]))
        self.assertNotEqual(map.value(coeffs, [9]), straight.value(coeffs, [9]))

    def test_any_order_ends_in_the_bits_of_the_whole_fit(self):
        draw = random.Random(1)
        for map, vals in [regular(), rectilinear()] * 10:
            tasks = [(axis, line) for axis in (0, 1) for line in range(corvezan.lines(map.dims, axis))]
            draw.shuffle(tasks)
            fit = map.begin(vals)
            for axis, line in sorted(tasks, key=lambda task: task[0]):
                self.assertFalse(fit.finished)
                fit.line(axis, line)
            self.assertTrue(fit.finished)
            self.assertEqual(bits(fit.coeffs), bits(map.fit(vals)))
            answers, coeffs, ledger = map.list(vals, tasks * 3)
            self.assertEqual((bits(coeffs), ledger), (bits(fit.coeffs), fit.ledger))
            self.assertEqual(answers.count(0), len(tasks))
            self.assertEqual(map.list(vals, [(2, 0)])[0], [7])


class Buffers(unittest.TestCase):
    def test_an_output_that_overlaps_is_not_handed_on(self):
        map, vals = regular()
        cells = array("d", [x for row in vals for x in row])
        with self.assertRaises(ValueError):
            map.fit(cells, out=cells)
        joined = memoryview(filled(30))
        with self.assertRaises(ValueError):
            map.fit(vals, out=joined[:20], scratch=joined[19:29])
        map.fit(vals, out=joined[:20], scratch=joined[20:])
        with self.assertRaises(ValueError):
            Rectilinear([[0, 1, 2, 3]]).gradients(joined[:4], [0, 1], out=joined[3:5])

    def test_outputs_of_another_kind(self):
        map, vals = regular()
        for out in ([0.0] * 20, bytes(160), array("f", [0] * 20), memoryview(filled(40))[::2], bytearray(160)):
            with self.assertRaises(TypeError):
                map.fit(vals, out=out)

    def test_inputs_of_each_kind(self):
        map, vals = regular()
        whole = bits(map.fit(vals))
        flat = [float(x) for row in vals for x in row]
        doubles = array("d", flat)
        whole_numbers = array("i", [int(x) for x in flat])
        for given in (flat, tuple(flat), doubles, memoryview(doubles).toreadonly(), whole_numbers):
            self.assertEqual(bits(map.fit(given)), whole)
        spread = array("d", [x for pair in zip(flat, flat) for x in pair])
        self.assertEqual(bits(map.fit(memoryview(spread)[::2])), whole)
        self.assertEqual(bits(map.fit(memoryview(doubles).cast("B").cast("d", [4, 5]))), whole)

    def test_what_is_no_number(self):
        map, _ = regular()
        for given in (["x"] * 20, [None] * 20, "12345678901234567890x"):
            with self.assertRaises((TypeError, ValueError)):
                map.fit(given)

    def test_counts_do_not_wrap(self):
        fit = Regular([4], [0], [1]).begin([0] * 4)
        for line in (-1, 2**64, 2**64 + 1):
            with self.assertRaises(ValueError):
                fit.line(0, line)
        with self.assertRaises(ValueError):
            corvezan.points([2**64 + 4])
        with self.assertRaises(TypeError):
            corvezan.points([4.0])

    def test_empty_buffers(self):
        map = Regular([4], [0], [1])
        self.assertEqual(list(map.values([0] * 4, [])), [])
        self.assertEqual(list(map.gradients([0] * 4, array("d"))), [])
        self.assertEqual(map.list([0] * 4, [])[0], [])

    @unittest.skipUnless(numpy, "numpy is not installed")
    def test_numpy(self):
        map, vals = regular()
        whole = map.fit(vals)
        samples = numpy.array(vals, dtype=float)
        out = numpy.zeros((4, 5))
        map.fit(samples, out=out)
        self.assertEqual(bits(out.ravel()), bits(whole))
        self.assertEqual(bits(map.fit(samples[:, ::1].astype("f4"))), bits(whole))
        self.assertEqual(bits(map.fit(numpy.asfortranarray(samples))), bits(whole))
        self.assertEqual(len(map.values(out, numpy.array([[101.0, 102.0], [200.5, 201.0]]))), 2)


class Loading(unittest.TestCase):
    def test_every_function_of_the_header(self):
        declared = re.findall(r"^(uint32_t|size_t) (corvezan_\w+)\(([^)]*)\)", HEADER, re.M)
        kinds = {"const size_t *": "_SIZES", "size_t *": "_SIZES", "double *": "_DOUBLES", "const double *": "_DOUBLES"}
        kinds.update({"uint8_t *": "_BYTES", "size_t ": ctypes.c_size_t, "uint32_t ": ctypes.c_uint32})
        found = {}
        for result, name, parameters in declared:
            types = [re.fullmatch(r"(.*?)\w+", " ".join(x.split()))[1] for x in parameters.split(",")]
            types = [getattr(corvezan, kinds[x]) if isinstance(kinds[x], str) else kinds[x] for x in types]
            found[name] = (kinds[result + " "], types)
        self.assertEqual(found, corvezan._signatures())
        self.assertEqual(len(found), HEADER.count("\nuint32_t corvezan_") + HEADER.count("\nsize_t corvezan_"))

    def test_a_library_that_is_missing(self):
        elsewhere = mock.patch.dict(os.environ, {"CORVEZAN_LIBRARY": "missing.so"})
        with elsewhere, mock.patch.object(corvezan, "_loaded", None):
            with self.assertRaisesRegex(OSError, "missing.so.*make shared"):
                corvezan.library()


if __name__ == "__main__":
    unittest.main()
