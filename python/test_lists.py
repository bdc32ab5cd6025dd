"""Holds the module, and the shared library under it, to the lists of the Rust's answers in ../crates/replay*/data.

oracle/README.md describes the lists and says how the Rust made them. Every record is replayed and every bit compared;
any NaN counts as any other.
"""

import struct
import unittest
from array import array
from pathlib import Path

from corvezan import Rectilinear, Refused, Regular, Stepwise

CRATES = Path(__file__).resolve().parent.parent / "crates"
RECTILINEAR_KINDS = {6, 7, 8, 9, 11}
PUBLISHED = 3
MOST_DIFFERENCES = 10


def doubles(words):
    """The floats with these bits."""
    return array("d", struct.pack(f"={len(words)}Q", *words))


def words_of(floats):
    """The bits of floats, every NaN as one."""
    words = struct.unpack(f"={len(floats)}Q", bytes(floats))
    return [0x7FF8000000000000 if x != x else word for x, word in zip(floats, words)]


def held(floats):
    return words_of(array("d", floats))


def filled(n, sign=1.0, part=0.5):
    """What the buffers hold before a call."""
    return array("d", [sign * i + sign * part for i in range(n)])


class Words:
    """The words of one record, taken one after the other."""

    def __init__(self, line):
        self.words = [int(word, 16) for word in line.split()]
        self.at = 0

    def take(self, n):
        self.at += n
        return self.words[self.at - n : self.at]

    def one(self):
        return self.take(1)[0]


def records(crate, name):
    with open(CRATES / crate / "data" / name, encoding="ascii") as file:
        for number, line in enumerate(file, 1):
            record = Words(line)
            kind, length = record.take(2)
            assert length == len(record.words) - 2, number
            yield number, kind, record


def answer(call, *arguments):
    """0, or the number of the refusal."""
    try:
        call(*arguments)
    except Refused as refused:
        return refused.number
    return 0


def used(count, lengths):
    """The lengths of the axes in use. A count above four is passed on as five axes, which is refused alike."""
    return lengths[:count] if count <= 4 else lengths + [4]


class Lists(unittest.TestCase):
    def setUp(self):
        self.differences = []

    def same(self, number, what, found, expected):
        if found != expected:
            self.differences.append((number, what))

    def tearDown(self):
        self.assertEqual(self.differences[:MOST_DIFFERENCES], [])


class Fits(Lists):
    def test_list(self):
        done = 0
        for number, kind, record in records("replay", "fits.txt"):
            self.replay(number, kind, record)
            done += 1
        self.assertEqual(done, 2158)

    def replay(self, number, kind, record):
        count, lengths = record.one(), record.take(4)
        knots, samples, cells, lent, should, tolerance = record.take(6)
        grid, vals = doubles(record.take(knots)), doubles(record.take(samples))
        dims = used(count, lengths)
        map = Rectilinear(grid, dims=dims) if kind in RECTILINEAR_KINDS else Regular(dims, [], [])
        coeffs, scratch = filled(cells), filled(lent, -1.0, 0.25)
        self.same(number, "answer", answer(map.fit, vals, coeffs, scratch), should)
        if should != 0:
            self.same(number, "coefficients", coeffs, filled(cells))
            self.same(number, "scratch", scratch, filled(lent, -1.0, 0.25))
        elif kind != PUBLISHED:
            self.same(number, "coefficients", words_of(coeffs), held(doubles(record.take(cells))))
            self.same(number, "scratch", words_of(scratch), held(doubles(record.take(lent))))
        else:
            expected = doubles(record.take(cells))
            most = doubles([tolerance])[0]
            self.same(number, "published", [abs(a - b) <= most for a, b in zip(coeffs, expected)], [True] * cells)


class Queries(Lists):
    def test_list(self):
        done = 0
        for number, kind, record in records("replay_queries", "queries.txt"):
            self.replay(number, kind, record)
            done += 1
        self.assertEqual(done, 1138)

    def replay(self, number, kind, record):
        count, lengths, linear = record.one(), record.take(4), record.one()
        floats, cells, coordinates, values, parts = record.take(5)
        should, written, should_slopes, written_slopes = record.take(4)
        grid, coeffs, x = [doubles(record.take(n)) for n in (floats, cells, coordinates)]
        dims = used(count, lengths)
        if kind in RECTILINEAR_KINDS:
            map = Rectilinear(grid, dims=dims, linear=linear)
        else:
            axes = min(len(dims), 4)
            map = Regular(dims, grid[:axes], grid[4 : 4 + axes], linear)
            map.grid.extend([1.0] * (2 * (len(dims) - axes)))
        out, slopes = filled(values), filled(parts)
        self.same(number, "batch", answer(map.values, coeffs, x, out), should)
        self.same(number, "gradients", answer(map.gradients, coeffs, x, slopes), should_slopes)
        if should not in (0, 6) and should_slopes not in (0, 6):
            self.same(number, "values", out, filled(values))
            self.same(number, "slopes", slopes, filled(parts))
            return
        n = coordinates // count
        answers, each = record.take(n), held(doubles(record.take(n)))
        gradients = held(doubles(record.take(count * n)))
        self.batch(number, out, each, written if should in (0, 6) else 0, 1)
        self.batch(number, slopes, gradients, written_slopes if should_slopes in (0, 6) else 0, count)
        for i in range(n):
            self.single(number, map, coeffs, x[i::n], answers[i], each[i], gradients[i::n])

    def batch(self, number, cells, expected, written, rows):
        """The entries before the refused one are the expected ones, the others as they were."""
        n = len(cells) // rows
        found, before = words_of(cells), words_of(filled(len(cells)))
        for row in range(rows):
            for i in range(n):
                at = row * n + i
                self.same(number, f"cell {at}", found[at], expected[at] if i < written else before[at])

    def single(self, number, map, coeffs, x, should, value, gradient):
        slopes = filled(len(x))
        self.same(number, "single", answer(map.gradient, coeffs, x, slopes), should)
        if should == 0:
            self.same(number, "value", held([map.value(coeffs, x)])[0], value)
            self.same(number, "gradient", words_of(slopes), gradient)
        else:
            self.same(number, "single", answer(map.value, coeffs, x), should)
            self.same(number, "slopes", slopes, filled(len(x)))


class Tasks(Lists):
    def test_list(self):
        done = 0
        for number, kind, record in records("replay_tasks", "tasks.txt"):
            self.replay(number, kind, record)
            done += 1
        self.assertEqual(done, 2798)

    def replay(self, number, kind, record):
        count, lengths = record.one(), record.take(4)
        knots, samples, cells, bytes_lent, lent, should, tasks = record.take(7)
        grid, vals = doubles(record.take(knots)), doubles(record.take(samples))
        calls = [record.take(4) for _ in range(tasks)]
        dims = used(count, lengths)
        map = Rectilinear(grid, dims=dims) if kind in RECTILINEAR_KINDS else Regular(dims, [], [])
        coeffs, ledger, scratch = filled(cells), bytearray([170] * bytes_lent), filled(lent, -1.0, 0.25)
        fit = []
        self.same(number, "begin", answer(lambda: fit.append(Stepwise(map, vals, coeffs, ledger, scratch))), should)
        if should != 0:
            self.same(number, "coefficients", (coeffs, ledger), (filled(cells), bytearray([170] * bytes_lent)))
            return
        for axis, line, length, said in calls:
            fit[0].scratch = filled(length, -1.0, 0.25)
            self.same(number, "line", answer(fit[0].line, axis, line), said)
        end = (held(doubles(record.take(cells))), bytearray(record.take(bytes_lent)))
        self.same(number, "end", (words_of(coeffs), ledger), end)
        if all(said != 4 for *_, said in calls):
            answers, coeffs, ledger = map.list(vals, [call[:2] for call in calls], scratch=filled(lent))
            self.same(number, "list", answers, [call[3] for call in calls])
            self.same(number, "end of the list", (words_of(coeffs), ledger), end)


if __name__ == "__main__":
    unittest.main()
