"""Several Krylov soaks on one unit, in rotation, one substep at a time."""

import ctypes
from dataclasses import dataclass

import numpy as np

from . import _memory as memory
from ._calls import LEAVE_STATE
from ._heating import warn_if_not_finite
from ._library import Refused, call, next_place
from ._memory import Slice, size
from ._paused import COUNTS, ENDED, NUMBERS, Job, Moment, moment_of

PLACES = 16


@dataclass(frozen=True)
class Turned:
    """A turn: whose it was, the moment after it, and what refused it: of 27 to 29 the Refused that ended the run, else None."""

    key: object
    place: int
    moment: Moment
    refused: Refused = None


class Unit:
    """Up to 16 Krylov soaks in rotation, one substep each in turn. Each has a key:

        unit = hazhendu.Unit()
        for name, (a, start, heating, mass) in models.items():
            unit.join(name, a, 3600.0, [start, heating], mass)
        for turned in unit:
            if turned.moment.ended:
                print(turned.key, turned.moment.field.max())

    Field, report and refusals of a run are those of Paused alone, to the bit, whatever the others are. An early refusal raises Refused, leaves
    the run as it was, and passes on to the next; one that ends a run (27 to 29) comes with its turn.
    """

    def __init__(self):
        self._numbers, self._counts = np.zeros(PLACES * NUMBERS), np.zeros(PLACES * COUNTS + PLACES, np.uintp)
        call("hazhendu_rotation_clear", *Slice(self._numbers).arguments, *Slice(self._counts).arguments)
        self._barrels = [None] * PLACES
        self._work = np.zeros(0)

    def join(self, key, a, tau, vectors, mass=None, *, tol=1e-10, m=40, limit=100_000):
        """Makes every check of a job and no substep, and puts the run behind those that wait: the turn's record with its place, the lowest
        that is free; 16 if its start is all zeros, so that it has ended. A seventeenth unfinished run is refused by 32."""
        m, limit = memory.whole(m, "m"), memory.whole(limit, "the limit")
        barrel = _Barrel(key, Job(a, tau, vectors, mass), m)
        options = (ctypes.c_double(tol), size(m), size(limit))
        number, value, place = self._call("hazhendu_rotation_join", barrel, barrel.job, options, barrel.out)
        if number:
            raise Refused(number, value)
        if place < PLACES:
            self._barrels[place] = barrel
        return Turned(key, place, barrel.moment())

    @property
    def next(self):
        """The key of the run whose turn is next; None if no run waits."""
        place = next_place(Slice(self._counts))
        return self._barrels[place].key if place < PLACES else None

    def __len__(self):
        """How many runs are unfinished."""
        return sum(barrel is not None for barrel in self._barrels)

    def __iter__(self):
        """Turn by turn, until no run waits."""
        while len(self):
            yield self.turn()

    def turn(self, a=None, tau=None, vectors=None, mass=None, *, tol=None):
        """One substep of the run whose turn is next. What is not given is as at its start; tol holds for this turn and the run's later ones.
        Refused by 31 if no run waits."""
        place = next_place(Slice(self._counts))
        barrel = self._barrels[place] if place < PLACES else _Barrel.none()
        job = barrel.job.changed(a, tau, vectors, mass)
        out = barrel.out if job.matrix.n == barrel.out.size else np.zeros(job.matrix.n)
        options = (ctypes.c_bool(tol is not None), ctypes.c_double(tol or 0.0))
        number, value, place = self._call("hazhendu_rotation_turn", barrel, job, options, out)
        if number and number not in LEAVE_STATE:
            raise Refused(number, value)
        refused = Refused(number, value, out.copy()) if number else None
        if barrel.counts[ENDED]:
            self._barrels[place] = None
            warn_if_not_finite(out, job.a)
        return Turned(barrel.key, place, barrel.moment(refused), refused)

    def _call(self, name, barrel, job, options, out):
        need = memory.krylov_work(job.matrix, job.count, barrel.m)
        if self._work.size < need:
            self._work = np.zeros(need)
        value, place = ctypes.c_double(), ctypes.c_size_t()
        lent = (out, self._work, barrel.field, self._numbers, self._counts, barrel.numbers, barrel.counts)
        slices = [argument for array in lent for argument in Slice(array).arguments]
        number = call(name, *job.arguments(), *options, *slices, ctypes.byref(place), ctypes.byref(value))
        return number, value.value, place.value


class _Barrel:
    def __init__(self, key, job, m):
        self.key, self.job, self.m = key, job, m
        self.numbers, self.counts = np.zeros(NUMBERS), np.zeros(COUNTS, np.uintp)
        self.field, self.out = np.zeros(memory.field(job.matrix.n, job.count)), np.zeros(job.matrix.n)

    @classmethod
    def none(cls):
        """What is lent where no run waits."""
        return cls(None, Job(np.array([[1.0]]), 0.0, [[0.0]], None), 2)

    def moment(self, refused=None):
        return moment_of(self.numbers, self.counts, self.out, refused)
