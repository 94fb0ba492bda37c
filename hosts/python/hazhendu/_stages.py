"""Soaks in stages: warm-up, hold and cool-down over one matrix."""

import ctypes
from dataclasses import dataclass

import numpy as np

from . import _memory as memory
from ._calls import LEAVE_STATE
from ._heating import warn_if_not_finite, warn_of_heating
from ._library import Refused, call
from ._memory import Matrix, Slice

SOLVERS = ("taylor", "krylov")


@dataclass(frozen=True, eq=False)
class Stage:
    """One stage: its time, the vectors from w_1 on, at most three, and its solver. w_0 is the field of the stage before it.

    degree is Taylor's, tol, m and limit are Krylov's; what the solver does not use is not looked at.
    """

    tau: float
    further: tuple = ()
    solver: str = "taylor"
    degree: int = memory.MAX_DEGREE
    tol: float = 1e-10
    m: int = 40
    limit: int = 100_000


@dataclass(frozen=True)
class Staged:
    """The field after the last stage, and the products with G, the substeps and the rejected lengths of all stages together."""

    field: np.ndarray
    applications: int
    substeps: int
    rejected: int


def stages(a, schedule, start, mass=None):
    """Runs 1 to 64 stages in order, from start: the field of one is w_0 of the next, as if each were a soak of its own.

        hazhendu.stages(a, [Stage(60.0, [full]), Stage(600.0, [half], "krylov"), Stage(120.0)], start, mass)

    Each stage is checked when it is reached. Refused then has the stage, from 1 (0 where the matrix or the schedule is refused), and, as
    state, the field that was left: of the stage before, or after 27 to 29 of the stage's last accepted substep; None if there is none.
    """
    matrix, schedule = Matrix(a, mass), list(schedule)
    for stage in schedule:
        if stage.solver not in SOLVERS:
            raise ValueError(f"solver {stage.solver!r}: taylor or krylov")
    further = [_vectors(stage, i, matrix.n) for i, stage in enumerate(schedule[: memory.MAX_STAGES + 1])]
    lists = _lists(schedule, [len(vectors) + 1 for vectors in further])
    start = Slice(np.ravel(memory.real(start, "the start")))
    out, work = Slice(np.zeros(matrix.n)), Slice(np.zeros(_work(matrix, schedule, further)))
    value, stage = ctypes.c_double(), ctypes.c_uint32()
    counts = [ctypes.c_uint64() for _ in range(3)]
    slices = (*lists, start, Slice(_flat(further, matrix.n)), out, work)
    told = [ctypes.byref(place) for place in (value, stage, *counts)]
    warn_of_heating(a)
    number = call("hazhendu_stages", *matrix.arguments(), *(argument for slice in slices for argument in slice.arguments), *told)
    if number:
        left = out.array if stage.value > 1 or number in LEAVE_STATE else None
        raise Refused(number, value.value, left, stage.value)
    warn_if_not_finite(out.array, a)
    return Staged(out.array, *(place.value for place in counts))


def _vectors(stage, i, n):
    if isinstance(stage.further, np.ndarray) and stage.further.ndim == 1 and stage.further.dtype != object:
        raise TypeError(f"stage {i + 1}: a list of vectors is wanted, [w_1, w_2, ...]")
    return [np.ravel(memory.real(w, f"stage {i + 1}, w_{k + 1}")) for k, w in enumerate(stage.further)]


def _lists(schedule, counts):
    """The seven lists of the call; more stages than it takes are told by one too many."""
    schedule = schedule[: memory.MAX_STAGES + 1]
    whole = lambda name, what: [memory.whole(getattr(stage, name), what) for stage in schedule]  # noqa: E731
    solvers = [SOLVERS.index(stage.solver) for stage in schedule]
    doubles = lambda name: Slice(np.array([getattr(stage, name) for stage in schedule], np.float64))  # noqa: E731
    lists = ((counts, np.uintp), (solvers, np.uint32), (whole("degree", "the degree"), np.uint32))
    first = [Slice(np.array(values, kind)) for values, kind in lists]
    last = [Slice(np.array(whole(name, what), np.uintp)) for name, what in (("m", "m"), ("limit", "the limit"))]
    return [doubles("tau"), *first, doubles("tol"), *last]


def _flat(further, n):
    """All further vectors, one after the other, up to the first stage that has one of the wrong length or too many: the slice is then too
    short for that stage, which the library refuses."""
    flat = []
    for vectors in further[: memory.MAX_STAGES]:
        if len(vectors) >= memory.MAX_VECTORS or any(w.size != n for w in vectors):
            break
        flat.extend(vectors)
    return np.concatenate([np.zeros(0), *flat])


def _work(matrix, schedule, further):
    """The largest of the stages' needs."""
    if len(schedule) > memory.MAX_STAGES:
        return 0
    needs = [0]
    for stage, vectors in zip(schedule, further):
        count = len(vectors) + 1
        krylov = stage.solver == "krylov"
        needs.append(memory.krylov_work(matrix, count, memory.whole(stage.m, "m")) if krylov else memory.taylor_work(matrix, count))
    return max(needs)
