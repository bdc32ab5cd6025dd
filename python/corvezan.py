"""Cubic B-spline maps of one to four axes: the functions of corvezan.h, by ctypes.

    import corvezan

    map = corvezan.Rectilinear([[-20, -15, -10, -5], [30, 35, 45, 55, 65]])
    coeffs = map.fit(samples)                     # 20 figures, the last axis fastest
    map.value(coeffs, [-12, 38.5])                # one figure, read off the curve
    map.values(coeffs, [[-12, -7], [38.5, 50]])   # several: all of axis 0, then all of axis 1

A refused call raises Refused, which carries the number and the text of the refusal.

Where numbers go in, lists, nested lists, array.array, numpy arrays and anything else with a buffer will do; a buffer of
doubles that stands in one piece is handed on without a copy. What comes out is an array.array of doubles, or goes into
a writable buffer of doubles that the caller gives as `out`. The arithmetic is all in the library, which is found where
CORVEZAN_LIBRARY says, else beside this file, else where `make shared` puts it.
"""

import ctypes
import operator
import os
from array import array
from ctypes import POINTER, c_double, c_size_t, c_uint8, c_uint32
from pathlib import Path

__all__ = [
    *["Refused", "REFUSALS", "Regular", "Rectilinear", "Stepwise", "check_shape", "points", "scratch_len", "stride"],
    *["lines", "first_cell", "library"],
]

ACCEPTED = 0

# The name of each refusal in the header, and what it means.
REFUSALS = {
    1: ("AXIS_COUNT", "a map has one to four axes"),
    2: ("DIMENSION_MISMATCH", "an axis has fewer than four points, or a buffer's length disagrees with the map"),
    3: ("TOO_MANY_POINTS", "the map has more than 16,777,216 points"),
    4: ("SCRATCH_TOO_SMALL", "scratch is shorter than twice the longest axis"),
    5: ("NOT_INCREASING", "the values of an axis do not rise, or a step is not above zero"),
    6: ("UNREPRESENTABLE", "a query is no number, is infinite, or is too far away to be placed on its axis"),
    7: ("NO_SUCH_LINE", "there is no such axis, or no such line on it"),
    8: ("ALREADY_SOLVED", "the line is solved already"),
    9: ("NOT_DUE", "the line is not due yet: a line of a lower axis that crosses it is not solved"),
}


class Refused(ValueError):
    """A call was refused. `number` is the refusal's number in the header, `name` its name there, `text` its meaning."""

    def __init__(self, number):
        self.number = number
        self.name, self.text = REFUSALS.get(number, ("UNKNOWN", "a number that this module does not know"))
        super().__init__(f"refused ({number}): {self.text}")


# ---- the library

_MOST = 2 ** (8 * ctypes.sizeof(c_size_t)) - 1
_DOUBLES, _SIZES, _BYTES = POINTER(c_double), POINTER(c_size_t), POINTER(c_uint8)
_DIMS = [_SIZES, c_size_t]
_GRID = [_DOUBLES, c_size_t]
_FLOATS = [_DOUBLES, c_size_t]
_LEDGER = [_BYTES, c_size_t]
_TASKS = [_SIZES, c_size_t]
_QUERY = _DIMS + _GRID + [c_uint32] + _FLOATS + _FLOATS

# The parameters of each function, in the header's order.
_SHAPE_CALLS = {
    "check_shape": (c_uint32, _DIMS),
    "points": (c_size_t, _DIMS),
    "scratch_len": (c_size_t, _DIMS),
    "stride": (c_size_t, _DIMS + [c_size_t]),
    "lines": (c_size_t, _DIMS + [c_size_t]),
    "first_cell": (c_uint32, _DIMS + [c_size_t, c_size_t, _SIZES]),
}
_EVALUATION_CALLS = {
    "check": _DIMS + _GRID + [c_size_t],
    "value": _QUERY + [_DOUBLES],
    "gradient": _QUERY + _FLOATS,
    "values": _QUERY + _FLOATS,
    "gradients": _QUERY + _FLOATS,
}


def _fitting_calls(head):
    """The parameters of the calls that fit, behind the dims and, on a rectilinear grid, the knots."""
    return {
        "fit": head + _FLOATS + _FLOATS + _FLOATS,
        "begin": head + _FLOATS + _FLOATS + _LEDGER + [c_size_t],
        "line": head + [c_size_t, c_size_t] + _FLOATS + _LEDGER + _FLOATS,
        "list": head + _FLOATS + _TASKS + _TASKS + _FLOATS + _LEDGER + _FLOATS + _LEDGER,
    }


def _signatures():
    """The result and the parameters of every function of the header, by its name."""
    calls = {f"corvezan_{name}": call for name, call in _SHAPE_CALLS.items()}
    kinds = {"regular": _fitting_calls(_DIMS), "rectilinear": _fitting_calls(_DIMS + _GRID)}
    kinds["regular"]["from_values"] = _DIMS + _GRID + _FLOATS + _FLOATS + _FLOATS
    for kind, fitting in kinds.items():
        for name, parameters in {**fitting, **_EVALUATION_CALLS}.items():
            calls[f"corvezan_{kind}_{name}"] = (c_uint32, parameters)
    return calls


def _candidates():
    """Where the shared library may be, the first place first."""
    given = os.environ.get("CORVEZAN_LIBRARY")
    if given:
        return [Path(given)]
    here = Path(__file__).resolve().parent
    return [here / "libcorvezan.so", here.parent / "target" / "make" / "libcorvezan.so"]


_loaded = None


def library():
    """The shared library, loaded on the first call."""
    global _loaded
    if _loaded is None:
        places = _candidates()
        place = next((place for place in places if place.exists()), None)
        if place is None:
            looked = " or ".join(str(place) for place in places)
            raise OSError(f"libcorvezan.so is not at {looked}. Run `make shared`, or set CORVEZAN_LIBRARY.")
        loading = ctypes.CDLL(str(place))
        for name, (result, parameters) in _signatures().items():
            function = getattr(loading, name)
            function.restype, function.argtypes = result, parameters
        _loaded = loading
    return _loaded


def _call(name, *arguments):
    """Makes a call that can refuse."""
    answer = getattr(library(), f"corvezan_{name}")(*arguments)
    if answer != ACCEPTED:
        raise Refused(answer)


# ---- buffers


def _flat(values):
    """The numbers of a list, of lists in it, and so on, in their order."""
    for value in values:
        if hasattr(value, "__iter__") and not isinstance(value, str):
            yield from _flat(value)
        else:
            yield float(value)


def _view(values):
    """A view of an object's buffer, where it has one."""
    try:
        return memoryview(values)
    except TypeError:
        return None


def _owned(kind, values):
    """An array of its own. It has a cell more than it needs, so that its address is never null."""
    cells = (kind * (len(values) + 1))()
    cells[: len(values)] = values
    return cells, len(values)


def _shared(kind, view):
    """An array in the memory of a writable view."""
    n = view.nbytes // ctypes.sizeof(kind)
    return ((kind * n).from_buffer(view.cast("B")), n) if n else ((kind * 1)(), 0)


def _numbers(values):
    """Doubles that go into a call, and how many: in place where they stand as doubles in one piece, else a copy."""
    view = _view(values)
    if view is None:
        return _owned(c_double, list(_flat(values)))
    if view.format == "d" and view.c_contiguous and not view.readonly:
        return _shared(c_double, view)
    return _owned(c_double, list(_flat(view.tolist())) if view.ndim else [float(view.tolist())])


def _output(cells, kind=c_double):
    """Cells that a call writes, in place, and how many."""
    view = _view(cells)
    format = {c_double: "d", c_uint8: "B"}[kind]
    if view is None or view.format != format or not view.c_contiguous or view.readonly:
        raise TypeError(f"an output is a writable buffer of type {format!r} in one piece, as array({format!r}, ..)")
    return _shared(kind, view)


def _count(value):
    """A whole number that fits a size_t."""
    n = operator.index(value)
    if not 0 <= n <= _MOST:
        raise ValueError(f"{n} is no count: 0 to {_MOST}")
    return n


def _counts(values):
    return _owned(c_size_t, [_count(value) for value in values])


def _apart(written, *others):
    """Refuses to hand the library an output that overlaps another buffer of the same call."""
    buffers = [*written, *others]
    spans = [(ctypes.addressof(cells), n * ctypes.sizeof(cells._type_)) for cells, n in buffers]
    for i, (start, size) in enumerate(spans[: len(written)]):
        for other, length in spans[i + 1 :]:
            if start < other + length and other < start + size and size and length:
                raise ValueError("an output overlaps another buffer of the same call")


def zeros(n):
    """A new array of n doubles."""
    return array("d", bytes(8 * n))


# ---- the shape of a map


def check_shape(dims):
    """Raises Refused (1, 2 or 3) where no map may have this shape."""
    _call("check_shape", *_counts(dims))


def points(dims):
    """How many samples, coefficients and ledger bytes a map has. 0 where the shape is refused."""
    return library().corvezan_points(*_counts(dims))


def scratch_len(dims):
    """How much scratch a fit needs: twice the longest axis. 0 where the shape is refused."""
    return library().corvezan_scratch_len(*_counts(dims))


def stride(dims, axis):
    """How far apart two neighbours on an axis are. 0 where the shape is refused or has no such axis."""
    return library().corvezan_stride(*_counts(dims), _count(axis))


def lines(dims, axis):
    """How many lines an axis has. 0 where the shape is refused or has no such axis."""
    return library().corvezan_lines(*_counts(dims), _count(axis))


def first_cell(dims, axis, line):
    """The first cell of a line; the others follow, a stride apart."""
    cell = c_size_t(0)
    _call("first_cell", *_counts(dims), _count(axis), _count(line), ctypes.byref(cell))
    return cell.value


# ---- maps


class _Map:
    """What both kinds of map share: a shape, a joined grid, and how the map goes on outside.

    Nothing is checked when a map is made: each call checks it, and raises Refused.
    """

    _kind = ""

    def __init__(self, dims, grid, linear):
        self.dims = [_count(n) for n in dims]
        self.grid = array("d", grid)
        self.linear = bool(linear)

    def __repr__(self):
        return f"{type(self).__name__}(dims={self.dims}, grid={list(self.grid)}, linear={self.linear})"

    def _name(self, call):
        return f"{self._kind}_{call}"

    def _head(self):
        """The first arguments of a call that fits."""
        return _counts(self.dims) + self._grid()

    def _grid(self):
        return ()

    def _buffers(self, coeffs, scratch):
        """The buffers of a fit, new ones where none are given."""
        coeffs = zeros(points(self.dims)) if coeffs is None else coeffs
        scratch = zeros(scratch_len(self.dims)) if scratch is None else scratch
        return coeffs, scratch

    def _fitted(self, call, head, vals, out, scratch):
        coeffs, scratch = self._buffers(out, scratch)
        inside, written, lent = _numbers(vals), _output(coeffs), _output(scratch)
        _apart([written, lent], inside, _numbers(self.grid))
        _call(call, *head, *inside, *written, *lent)
        return coeffs

    def fit(self, vals, out=None, scratch=None):
        """The coefficients of the samples, which stand with the last axis fastest."""
        return self._fitted(self._name("fit"), self._head(), vals, out, scratch)

    def check(self, coeffs_len=None):
        """Raises Refused where the map, with so many coefficients, cannot be evaluated."""
        n = points(self.dims) if coeffs_len is None else _count(coeffs_len)
        _call(self._name("check"), *_counts(self.dims), *_numbers(self.grid), n)

    def _query(self, coeffs, x):
        """The arguments of an evaluation up to its outputs, and the buffers among them."""
        dims, grid, inside, at = _counts(self.dims), _numbers(self.grid), _numbers(coeffs), _numbers(x)
        return [*dims, *grid, int(self.linear), *inside, *at], [grid, inside, at]

    def _evaluated(self, call, coeffs, x, out, n):
        arguments, buffers = self._query(coeffs, x)
        cells = zeros(n(buffers[2][1])) if out is None else out
        written = _output(cells)
        _apart([written], *buffers)
        _call(self._name(call), *arguments, *written)
        return cells

    def value(self, coeffs, x):
        """The value at one query, a coordinate for each axis."""
        arguments, _ = self._query(coeffs, x)
        value = c_double(0.0)
        _call(self._name("value"), *arguments, ctypes.byref(value))
        return value.value

    def gradient(self, coeffs, x, out=None):
        """The slope along each axis at one query."""
        return self._evaluated("gradient", coeffs, x, out, lambda _: len(self.dims))

    def values(self, coeffs, x, out=None):
        """The values at several queries: x has all coordinates of axis 0, then all of axis 1, and so on.

        On a regular map a query can be refused with 6; the values before it then stand in `out`, where one is given.
        """
        return self._evaluated("values", coeffs, x, out, lambda n: n // max(1, len(self.dims)))

    def gradients(self, coeffs, x, out=None):
        """The slopes at several queries: all along axis 0, then all along axis 1, and so on."""
        return self._evaluated("gradients", coeffs, x, out, lambda n: n)

    def begin(self, vals):
        """Begins a stepwise fit of these samples."""
        return Stepwise(self, vals)

    def list(self, vals, tasks, coeffs=None, ledger=None, scratch=None):
        """Begins a stepwise fit and makes line calls: tasks are pairs of an axis and a line.

        Gives the answers, a number for each task (0, 7, 8 or 9), the coefficients and the ledger.
        """
        tasks = list(tasks)
        coeffs, scratch = self._buffers(coeffs, scratch)
        ledger = bytearray(points(self.dims)) if ledger is None else ledger
        answers = bytearray(len(tasks))
        inside, written, lent = _numbers(vals), _output(coeffs), _output(scratch)
        bytes_written, said = _output(ledger, c_uint8), _output(answers, c_uint8)
        _apart([written, bytes_written, lent, said], inside, _numbers(self.grid))
        axes, numbers = _counts(axis for axis, _ in tasks), _counts(line for _, line in tasks)
        _call(self._name("list"), *self._head(), *inside, *axes, *numbers, *written, *bytes_written, *lent, *said)
        return list(answers), coeffs, ledger


class Regular(_Map):
    """A map on a regular grid: the number of points, the start and the step of each axis.

    With `linear` it goes on in a straight line outside its grid, else as the cubic of its last cell.
    """

    _kind = "regular"

    def __init__(self, dims, starts, steps, linear=False):
        super().__init__(dims, [*_flat(starts), *_flat(steps)], linear)

    def from_values(self, vals, out=None, scratch=None):
        """As fit, and then the steps are checked; where they are refused (5) `out` and `scratch` are written."""
        head = _counts(self.dims) + _numbers(self.grid)
        return self._fitted(self._name("from_values"), head, vals, out, scratch)


class Rectilinear(_Map):
    """A map on a rectilinear grid: the knots of each axis, which rise.

    `linear` is as for Regular. With `dims` the knots may stand joined, axis after axis.
    """

    _kind = "rectilinear"

    def __init__(self, knots, linear=False, dims=None):
        knots = list(knots)
        super().__init__([len(axis) for axis in knots] if dims is None else dims, _flat(knots), linear)

    def _grid(self):
        return _numbers(self.grid)


class Stepwise:
    """A fit that is made line by line, in any order in which each line is due.

    `coeffs`, `ledger` and `scratch` are its buffers. It is finished when every ledger byte is the axis count; then the
    coefficients are those of the whole fit, to the bit.
    """

    def __init__(self, map, vals, coeffs=None, ledger=None, scratch=None):
        self.map = map
        self.coeffs, self.scratch = map._buffers(coeffs, scratch)
        self.ledger = bytearray(points(map.dims)) if ledger is None else ledger
        inside, written, bytes_written = _numbers(vals), _output(self.coeffs), _output(self.ledger, c_uint8)
        _apart([written, bytes_written], inside, _numbers(map.grid))
        _call(map._name("begin"), *map._head(), *inside, *written, *bytes_written, _output(self.scratch)[1])

    def line(self, axis, line):
        """Solves one line. Raises Refused where there is none (7), it is solved already (8), or is not due (9)."""
        written, bytes_written, lent = _output(self.coeffs), _output(self.ledger, c_uint8), _output(self.scratch)
        _apart([written, bytes_written, lent], _numbers(self.map.grid))
        head = self.map._head()
        _call(self.map._name("line"), *head, _count(axis), _count(line), *written, *bytes_written, *lent)

    @property
    def finished(self):
        """Whether every line of every axis is solved."""
        return all(byte == len(self.map.dims) for byte in self.ledger)
