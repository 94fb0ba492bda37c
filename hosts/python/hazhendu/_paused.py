"""Krylov soaks that are looked at between their substeps."""

import ctypes
from dataclasses import dataclass

import numpy as np

from . import _memory as memory
from ._calls import LEAVE_STATE, Report
from ._heating import warn_if_not_finite, warn_of_heating
from ._library import Refused, call
from ._memory import Matrix, Slice, size

NUMBERS, COUNTS = 10, 8
TIME, ESTIMATE, SHORTEST, LAST, NORM, TOL = 0, 2, 3, 4, 8, 9
MATVECS, SUBSTEPS, REJECTED, ENDED = 0, 1, 2, 7


@dataclass(frozen=True)
class Moment:
    """A run between two substeps: how far it is, as a part of tau, the field so far, what it has cost, and the tol in force.

    The estimated error of the report is relative to the norm of the start at every moment.
    """

    time: float
    field: np.ndarray
    report: Report
    tol: float
    ended: bool


def moment_of(numbers, counts, out, refused):
    """The moment of a run in two lists and an output; refused is what ended it by 27 to 29, or None."""
    ended = bool(counts[ENDED])
    made = [int(counts[place]) for place in (SUBSTEPS, MATVECS, REJECTED)]
    estimate, shortest, last = (float(numbers[place]) for place in (ESTIMATE, SHORTEST, LAST))
    if not ended or refused:
        estimate /= float(numbers[NORM])
    return Moment(float(numbers[TIME]), out.copy(), Report(*made, estimate, shortest, last), float(numbers[TOL]), ended)


class Paused:
    """A Krylov soak by substeps. Making one makes every check of the job, and no substep:

        run = hazhendu.Paused(a, 3600.0, [start, heating], mass, tol=1e-6)
        for moment in run:
            print(moment.time, moment.field.max())
            if moment.time >= 0.5:
                run.tighten(1e-10)

    gives the start and then the moment after each substep. Unchanged it ends with the bits and the report of soak(..., solver="krylov").
    A run that 27 to 29 end raises Refused, with the state; every other refusal leaves it as it was.
    """

    def __init__(self, a, tau, vectors, mass=None, *, tol=1e-10, m=40, limit=100_000):
        self._m, limit = memory.whole(m, "m"), memory.whole(limit, "the limit")
        self._job = Job(a, tau, vectors, mass)
        self._numbers, self._counts = np.zeros(NUMBERS), np.zeros(COUNTS, np.uintp)
        self._field, self._out = np.zeros(memory.field(self._job.matrix.n, self._job.count)), np.zeros(self._job.matrix.n)
        self._work = np.zeros(0)
        self._tol = self._refused = None
        options = (ctypes.c_double(tol), size(self._m), size(limit))
        self._call("hazhendu_krylov_start", self._job, options, self._out)

    def __iter__(self):
        """The moment at hand, then that after each substep to the end."""
        yield self.moment
        while not self.ended:
            yield self.step()

    def step(self, a=None, tau=None, vectors=None, mass=None):
        """One substep, and the moment after it. What is not given is as at the start; a matrix comes with its mass, or without one. Rows and
        vectors have to be as many as at the start (16); a run that has ended is refused (31)."""
        job = self._job.changed(a, tau, vectors, mass)
        tol, self._tol = self._tol, None
        out = self._out if job.matrix.n == self._out.size else np.zeros(job.matrix.n)
        self._call("hazhendu_krylov_step", job, (ctypes.c_bool(tol is not None), ctypes.c_double(tol or 0.0)), out)
        if self.ended:
            warn_if_not_finite(out, job.a)
        return self.moment

    def tighten(self, tol):
        """Brings a new tol with the next step, for it and the later ones; if that step is refused before its substep, the run keeps the old one."""
        self._tol = float(tol)

    def finish(self):
        """Steps to the end, and the last moment."""
        while not self.ended:
            self.step()
        if self._refused:
            raise self._refused
        return self.moment

    @property
    def moment(self):
        return moment_of(self._numbers, self._counts, self._out, self._refused)

    @property
    def time(self):
        """How far the run is, as a part of tau."""
        return float(self._numbers[TIME])

    @property
    def ended(self):
        """Whether the run has ended: its time is 1, its field or its start is all zeros, or it met 27 to 29."""
        return bool(self._counts[ENDED])

    def _call(self, name, job, options, out):
        need = memory.krylov_work(job.matrix, job.count, self._m)
        if self._work.size < need:
            self._work = np.zeros(need)
        value = ctypes.c_double()
        slices = [Slice(array) for array in (out, self._work, self._field, self._numbers, self._counts)]
        lent = [argument for slice in slices for argument in slice.arguments]
        number = call(name, *job.arguments(), *options, *lent, ctypes.byref(value))
        if number:
            left = number in LEAVE_STATE
            refused = Refused(number, value.value, out.copy() if left else None)
            self._refused = refused if left else self._refused
            raise refused


class Job:
    """Matrix, mass, tau and vectors, as they come again at each substep."""

    def __init__(self, a, tau, vectors, mass):
        warn_of_heating(a)
        self.a, self.tau, self.vectors, self.mass = a, tau, vectors, mass
        self.matrix = Matrix(a, mass)
        self.count, self.w = memory.flat(vectors, self.matrix.n)

    def changed(self, a, tau, vectors, mass):
        if a is None and tau is None and vectors is None and mass is None:
            return self
        if a is None:
            a, mass = self.a, self.mass if mass is None else mass
        return Job(a, self.tau if tau is None else tau, self.vectors if vectors is None else vectors, mass)

    def arguments(self):
        return (*self.matrix.arguments(), ctypes.c_double(self.tau), size(self.count), *self.w.arguments)
