"""Rows of the matrix that heat themselves, and fields that are not finite."""

import os
import sys
import warnings

import numpy as np
from scipy import sparse

NEGLIGIBLE = 1e-12
NAMED = 8


class HeatingWarning(RuntimeWarning):
    """Rows of A whose diagonal or sum is below 0, so that their temperature grows by itself."""


class NotFiniteWarning(RuntimeWarning):
    """A field with numbers that are not finite."""


def heating_rows(a):
    """The rows of A, from 0, whose diagonal, or whose sum by more than 1e-12 of its sizes, is below 0: they heat themselves."""
    # A copy: abs() adds up repeated columns where they stand.
    a = sparse.csr_matrix(a, copy=True)
    sums, sizes = (np.asarray(matrix.sum(axis=1)).ravel() for matrix in (a, abs(a)))
    return np.flatnonzero((a.diagonal() < 0) | (sums < -NEGLIGIBLE * sizes))


def _named(rows):
    more = f" and {len(rows) - NAMED} more" if len(rows) > NAMED else ""
    return ", ".join(str(row) for row in rows[:NAMED]) + more


def _warn(text, kind):
    """At the line that called this package."""
    folder = os.path.dirname(__file__)
    level, frame = 1, sys._getframe()
    while frame is not None and os.path.dirname(frame.f_code.co_filename) == folder:
        level, frame = level + 1, frame.f_back
    warnings.warn(text, kind, stacklevel=level)


def warn_of_heating(a):
    with np.errstate(invalid="ignore", over="ignore"):
        rows = heating_rows(a)
    if len(rows):
        text = f"rows {_named(rows)} of A (from 0) heat themselves: their diagonal or their sum is below 0; G is -A"
        _warn(text, HeatingWarning)


def warn_if_not_finite(field, a):
    count = np.count_nonzero(~np.isfinite(field))
    if count:
        rows = heating_rows(a)
        heating = f"rows {_named(rows)} of A (from 0) heat themselves" if len(rows) else "no row of A heats itself: look at the units"
        _warn(f"{count} of {field.size} numbers of the field are not finite; {heating}", NotFiniteWarning)
