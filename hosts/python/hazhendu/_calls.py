"""The calls of the library."""

import ctypes
from dataclasses import dataclass, replace
from typing import Tuple, Union

import numpy as np

from . import _memory as memory
from ._heating import warn_if_not_finite, warn_of_heating
from ._library import Refused, call, chooses_krylov, other_m
from ._memory import Buffers, Matrix, Slice, size

LEAVE_STATE = (27, 28, 29)


@dataclass(frozen=True)
class Plan:
    """What a Taylor job did: s sweeps to the degree m, with the shift mu."""

    s: int
    m: int
    mu: float
    applications: int


@dataclass(frozen=True)
class Report:
    """What a Krylov job did. The estimated error is relative to the 2-norm of the start, as tol is, and counts round-off; the steps are
    parts of tau."""

    substeps: int
    applications: int
    rejected: int
    estimated_error: float
    shortest_step: float
    last_step: float


@dataclass(frozen=True)
class Soaked:
    """The field, and what it cost. chosen says of solver="auto" what was taken and why, a line for each try; else it is empty."""

    field: np.ndarray
    report: Union[Plan, Report]
    chosen: Tuple[str, ...] = ()


@dataclass(frozen=True)
class Largest:
    """The norm of G: the largest sum of the sizes in a row; and the first row that has it, from 0 (transposed: column)."""

    norm: float
    row: int


def check(a, mass=None, *, transposed=False):
    """The checks of the matrix alone; its norm, and the first row that has it."""
    matrix = Matrix(a, mass)
    value, row = ctypes.c_double(), size()
    if transposed:
        buffers = Buffers(matrix.n, matrix.count())
        number = call("hazhendu_check_transposed", *matrix.arguments(), *buffers.arguments, ctypes.byref(value), ctypes.byref(row))
    else:
        number = call("hazhendu_check_generator", *matrix.arguments(), ctypes.byref(value), ctypes.byref(row))
    if number:
        raise Refused(number, value.value)
    return Largest(value.value, row.value)


def transpose(a, mass=None):
    """The matrix, each row divided by its mass if there is one, transposed: what a transposed call runs on."""
    matrix = Matrix(a, mass)
    buffers = Buffers(matrix.n, matrix.count())
    value, row = ctypes.c_double(), size()
    number = call("hazhendu_check_transposed", *matrix.arguments(), *buffers.arguments, ctypes.byref(value), ctypes.byref(row))
    if number:
        raise Refused(number, value.value)
    return buffers.matrix(matrix.n, matrix.count())


def join(barrel, mount):
    """Two matrices over the same rows as one: an entry of both is one rounded sum, the barrel's first, and a sum of 0 is kept. In both the
    columns of a row rise strictly (sum_duplicates() sees to it)."""
    barrel, mount = Matrix(barrel), Matrix(mount)
    result = Buffers(barrel.n, barrel.count() + mount.count())
    value, entries = ctypes.c_double(), size()
    number = call("hazhendu_join", *barrel.bare(), *mount.bare(), *result.arguments, ctypes.byref(value), ctypes.byref(entries))
    if number:
        raise Refused(number, value.value)
    return result.matrix(barrel.n, entries.value)


def plan(a, tau, mass=None, *, degree=memory.MAX_DEGREE, transposed=False):
    """The plan of a Taylor job alone: what its run over this matrix, tau and degree would report, before it is run.

    With transposed=True the transposed matrix is made first, and it is the plan of a transposed soak.
    """
    if transposed:
        a, mass = transpose(a, mass), None
    matrix = Matrix(a, mass)
    work = _lent(matrix.count() if mass is not None else 0)
    value, s, m, applications = _places()
    told = [ctypes.byref(place) for place in (value, s, m, applications)]
    words = (ctypes.c_double(tau), ctypes.c_uint32(memory.whole(degree, "the degree")))
    number = call("hazhendu_taylor_plan", *matrix.arguments(), *words, *work.arguments, *told)
    if number:
        raise Refused(number, value.value)
    return Plan(s.value, m.value, value.value, applications.value)


def soak(a, tau, vectors, mass=None, *, solver="auto", degree=memory.MAX_DEGREE, tol=1e-10, m=40, limit=100_000, transposed=False):
    """The sum over k of tau^k phi_k(tau G) w_k for 1 to 4 vectors w_0, w_1, ..., by Taylor sweeps or Krylov substeps.

    solver is "taylor", "krylov" or "auto": Taylor for small models and mild ones, else Krylov; on 28 with another m, then by Taylor.
    degree is Taylor's; tol, m and limit are Krylov's. tol is the error allowed over the whole tau, relative to the 2-norm of the start;
    docs/CHOOSING.md says which solver, tol and m to take.
    transposed runs on the transposed G: with the weights of a reading as w_0, entry i is what 1 K more at node i at the start adds to it.
    """
    if solver == "taylor":
        return phi_combination(a, tau, vectors, mass, degree=degree, transposed=transposed)
    if solver == "krylov":
        return phi_combination_krylov(a, tau, vectors, mass, tol=tol, m=m, limit=limit, transposed=transposed)
    if solver == "auto":
        return _auto(a, tau, vectors, mass, dict(degree=degree), dict(tol=tol, m=m, limit=limit), transposed)
    raise ValueError(f"solver {solver!r}: auto, taylor or krylov")


def _auto(a, tau, vectors, mass, by_taylor, by_krylov, transposed):
    number, applications, told = 0, 0, ""
    try:
        applications = plan(a, tau, mass, transposed=transposed, **by_taylor).applications
        told = f"taylor makes {applications} applications"
    except Refused as refused:
        number, told = refused.number, f"taylor is refused by {refused.number}"
    matrix = Matrix(a, mass)
    told += f" with {matrix.count()} entries and {matrix.n} rows"
    if not chooses_krylov(matrix.n, matrix.count(), number, applications):
        soaked = phi_combination(a, tau, vectors, mass, transposed=transposed, **by_taylor)
        return replace(soaked, chosen=(f"taylor: {told}",))
    chosen = ()
    for m in dict.fromkeys((by_krylov["m"], *other_m())):
        chosen += (f"krylov with m {m}: {told}",)
        try:
            soaked = phi_combination_krylov(a, tau, vectors, mass, transposed=transposed, **{**by_krylov, "m": m})
            return replace(soaked, chosen=chosen)
        except Refused as refused:
            if refused.number != 28:
                raise
            rejected, told = refused, f"krylov with m {m} is refused by 28"
    if number:
        raise rejected
    soaked = phi_combination(a, tau, vectors, mass, transposed=transposed, **by_taylor)
    return replace(soaked, chosen=(*chosen, f"taylor: {told}"))


def phi_combination(a, tau, vectors, mass=None, *, degree=memory.MAX_DEGREE, transposed=False):
    """The sum over k of tau^k phi_k(tau G) w_k, by Taylor sweeps up to the degree."""
    matrix = Matrix(a, mass)
    count, w = memory.flat(vectors, matrix.n)
    work = memory.taylor_work(matrix, count)
    return _taylor("hazhendu_phi_combination", a, matrix, (tau, degree, count, w), matrix.n, work, transposed)


def phi_action(a, tau, k, v, mass=None, *, degree=memory.MAX_DEGREE, transposed=False):
    """phi_k(tau G) v, by Taylor sweeps."""
    matrix = Matrix(a, mass)
    v = Slice(np.ravel(memory.real(v, "v")))
    work = memory.taylor_work(matrix, memory.MAX_INDEX + 1)
    return _taylor("hazhendu_phi_action", a, matrix, (tau, degree, k, v), matrix.n, work, transposed)


def phi_action_batched(a, tau, p, v, mass=None, *, degree=memory.MAX_DEGREE, transposed=False):
    """phi_0(tau G) v to phi_p(tau G) v, by Taylor sweeps; the field has a row for each."""
    matrix = Matrix(a, mass)
    v = Slice(np.ravel(memory.real(v, "v")))
    work = memory.taylor_work(matrix, memory.MAX_INDEX + 1)
    length = (p + 1) * matrix.n if 0 <= p <= memory.MAX_INDEX else 0
    soaked = _taylor("hazhendu_phi_action_batched", a, matrix, (tau, degree, p, v), length, work, transposed)
    return Soaked(soaked.field.reshape(p + 1, matrix.n), soaked.report)


def phi_combination_krylov(a, tau, vectors, mass=None, *, tol=1e-10, m=40, limit=100_000, transposed=False):
    """The sum over k of tau^k phi_k(tau G) w_k, by at most limit Krylov substeps of m columns."""
    matrix = Matrix(a, mass)
    m, limit = memory.whole(m, "m"), memory.whole(limit, "the limit")
    count, w = memory.flat(vectors, matrix.n)
    out, work = _lent(matrix.n), _lent(memory.krylov_work(matrix, count, m))
    value, shortest, last = (ctypes.c_double() for _ in range(3))
    counts = [size() for _ in range(3)]
    told = [ctypes.byref(place) for place in (value, *counts, shortest, last)]
    job = (ctypes.c_double(tau), size(count), *w.arguments, ctypes.c_double(tol), size(m), size(limit))
    number = _called("hazhendu_phi_combination_krylov", a, matrix, transposed, *job, *out.arguments, *work.arguments, *told)
    if number:
        raise Refused(number, value.value, out.array if number in LEAVE_STATE else None)
    substeps, matvecs, rejected = (place.value for place in counts)
    report = Report(substeps, matvecs, rejected, value.value, shortest.value, last.value)
    return _soaked(out.array, report, a)


def _taylor(name, a, matrix, job, length, work, transposed):
    tau, degree, index, w = job
    degree, index = memory.whole(degree, "the degree"), memory.whole(index, "the index")
    out, work = _lent(length), _lent(work)
    value, s, m, applications = _places()
    told = [ctypes.byref(place) for place in (value, s, m, applications)]
    words = (ctypes.c_double(tau), ctypes.c_uint32(degree), size(index), *w.arguments)
    number = _called(name, a, matrix, transposed, *words, *out.arguments, *work.arguments, *told)
    if number:
        raise Refused(number, value.value)
    return _soaked(out.array, Plan(s.value, m.value, value.value, applications.value), a)


def _called(name, a, matrix, transposed, *arguments):
    warn_of_heating(a)
    if not transposed:
        return call(name, *matrix.arguments(), *arguments)
    buffers = Buffers(matrix.n, matrix.count())
    return call(f"{name}_transposed", *matrix.arguments(), *buffers.arguments, *arguments)


def _places():
    """Where a plan is told."""
    return ctypes.c_double(), ctypes.c_uint32(), ctypes.c_uint32(), ctypes.c_uint64()


def _lent(length):
    return Slice(np.zeros(length))


def _soaked(field, report, a):
    warn_if_not_finite(field, a)
    return Soaked(field, report)
