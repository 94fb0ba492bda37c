"""Soaks under a changing ambient level, with a window: a logger's records over one matrix."""

import ctypes
from dataclasses import dataclass

import numpy as np

from . import _memory as memory
from ._heating import warn_if_not_finite, warn_of_heating
from ._library import Refused, call
from ._memory import Matrix, Slice


@dataclass(frozen=True, eq=False)
class Logged:
    """What the records of a log gave.

    field          the field after the last record, or after that with the NaN
    temperatures   the node's temperature after each record that has a result
    largest,       the extremes among the last of these, as many as the window has, fewer at the start; a 0 is +0
    smallest
    not_a_number   the record, from 1, after which the node's temperature is NaN: it and later ones have no result. None if there is none
    """

    field: np.ndarray
    temperatures: np.ndarray
    largest: np.ndarray
    smallest: np.ndarray
    not_a_number: int = None


def ambient(a, durations, levels, field, load, window, node, mass=None):
    """Runs 1 to 100,000 records, a duration and an ambient level each, in order from field, by Taylor.

        hazhendu.ambient(a, np.full(1440, 60.0), room, start, loss / capacity, 60, 12, mass=capacity)

    w_1 of a record is load times its level, and the field after one is w_0 of the next, as if each were a soak of its own. For one node, a
    row from 0, it shows the temperature after each record, and the largest and the smallest among the last window of these, 1 to 1,024.

    Refused has the record, from 1 (0 where matrix, field, load, window or log are refused), the results of the records before it, and as state
    the field after the record before it; None if there is none. A temperature that is NaN ends the work and raises nothing: see Logged.
    """
    matrix = Matrix(a, mass)
    log = [Slice(np.ravel(memory.real(values, name))) for values, name in ((durations, "the durations"), (levels, "the levels"))]
    start = [Slice(np.ravel(memory.real(values, name))) for values, name in ((field, "the field"), (load, "the load"))]
    records = log[0].array.size if log[0].array.size <= memory.MAX_RECORDS else 0
    out, work = Slice(np.zeros(matrix.n)), Slice(np.zeros(memory.ambient_work(matrix)))
    results = [Slice(np.zeros(records)) for _ in range(3)]
    numbers = (memory.size(memory.whole(window, "the window")), memory.size(memory.whole(node, "the node")))
    value, record = ctypes.c_double(), ctypes.c_uint32()
    warn_of_heating(a)
    lent = [argument for slice in (*log, *start) for argument in slice.arguments]
    places = [argument for slice in (out, work, *results) for argument in slice.arguments]
    number = call("hazhendu_ambient", *matrix.arguments(), *lent, *numbers, *places, ctypes.byref(value), ctypes.byref(record))
    shown = record.value - 1 if record.value else 0 if number else records
    shown = tuple(slice.array[:shown] for slice in results)
    if number:
        raise Refused(number, value.value, out.array if record.value > 1 else None, record=record.value, results=shown)
    warn_if_not_finite(out.array, a)
    return Logged(out.array, *shown, record.value or None)
