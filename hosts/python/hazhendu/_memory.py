"""Matrices and vectors as the library takes them, and how much memory a job needs (hosts/c/hazhendu.h)."""

import ctypes
import operator

import numpy as np
from scipy import sparse

MAX_ROWS, MAX_ENTRIES, MAX_VECTORS, MAX_INDEX, MAX_DIMENSION, MAX_DEGREE, MAX_STAGES = 1_000_000, 16_777_216, 4, 3, 128, 30, 64
MAX_RECORDS = 100_000

size = ctypes.c_size_t


def real(values, what):
    """Doubles one after the other; a copy only where they are not."""
    values = np.asarray(values)
    if np.iscomplexobj(values):
        raise TypeError(f"{what}: complex numbers, and a soak is real")
    return np.ascontiguousarray(values, dtype=np.float64)


class Slice:
    """An array as a pointer, which is never null, and a length."""

    def __init__(self, array):
        self.array = array
        held = array if array.size else np.zeros(1, array.dtype)
        self._kept = held
        self.arguments = (ctypes.c_void_p(held.ctypes.data), size(array.size))


NOTHING = Slice(np.zeros(0))


def whole(value, what):
    """A count; what is too large to be told becomes a number that the library refuses."""
    value = operator.index(value)
    if value < 0:
        raise ValueError(f"{what} is negative: {value}")
    return min(value, 2**32 - 1)


def indices(values):
    """As u32; what does not fit becomes a number that the library refuses."""
    return np.ascontiguousarray(np.clip(np.asarray(values), 0, 2**32 - 1), dtype=np.uint32)


class Matrix:
    """A square matrix by rows, and a mass or None."""

    def __init__(self, a, mass=None):
        if not sparse.issparse(a):
            a = np.asarray(a)
        if np.iscomplexobj(a):
            raise TypeError("the matrix: complex numbers, and a soak is real")
        if len(a.shape) != 2 or a.shape[0] != a.shape[1]:
            raise ValueError(f"the matrix is not square: its shape is {a.shape}")
        a = sparse.csr_matrix(a)
        self.n = a.shape[0]
        self.starts, self.columns = Slice(indices(a.indptr)), Slice(indices(a.indices))
        self.entries = Slice(np.ascontiguousarray(a.data, dtype=np.float64))
        self.mass = None if mass is None else Slice(np.ravel(real(mass, "the mass")))

    def count(self):
        return self.entries.array.size

    def bare(self):
        return (size(self.n), *self.starts.arguments, *self.columns.arguments, *self.entries.arguments)

    def arguments(self):
        mass = self.mass or NOTHING
        return (*self.bare(), ctypes.c_bool(self.mass is not None), *mass.arguments)


class Buffers:
    """Where a call writes a matrix."""

    def __init__(self, n, room):
        allowed = n <= MAX_ROWS and room <= 2 * MAX_ENTRIES
        self.starts = Slice(np.zeros(n + 1 if allowed else 0, np.uint32))
        self.columns, self.entries = (Slice(np.zeros(room if allowed else 0, kind)) for kind in (np.uint32, np.float64))
        self.arguments = (*self.starts.arguments, *self.columns.arguments, *self.entries.arguments)

    def matrix(self, n, count):
        """The first count entries as a scipy.sparse matrix."""
        arrays = (self.entries.array[:count], self.columns.array[:count].astype(np.int32), self.starts.array.astype(np.int32))
        return sparse.csr_matrix(arrays, shape=(n, n))


def allowed(matrix, count):
    return matrix.n <= MAX_ROWS and matrix.count() <= MAX_ENTRIES and 1 <= count <= MAX_VECTORS


def taylor_work(matrix, count):
    if not allowed(matrix, count):
        return 0
    return 3 * matrix.n + 2 * (count - 1) + (matrix.count() if matrix.mass else 0)


def ambient_work(matrix):
    need = taylor_work(matrix, 2)
    return need + matrix.n if need else 0


def krylov_work(matrix, count, m):
    columns = max(2, min(m, max(2, matrix.n + max(count, 1) - 1)))
    if not allowed(matrix, count) or columns > MAX_DIMENSION:
        return 0
    vectors = (columns + 3) * (matrix.n + count - 1)
    return matrix.n + vectors + (columns + 2) ** 2 + (matrix.count() if matrix.mass else 0)


def field(n, count):
    return n + count - 1 if n <= MAX_ROWS and 1 <= count <= MAX_VECTORS else 0


def flat(vectors, n):
    """The vectors one after the other. One of the wrong length is put alone, for the library to refuse: a short and a long one could make
    up for each other."""
    if isinstance(vectors, np.ndarray) and vectors.ndim == 1 and vectors.dtype != object:
        raise TypeError("vectors: a list of vectors is wanted, [w_0, w_1, ...]")
    vectors = [np.ravel(real(w, f"w_{k}")) for k, w in enumerate(vectors)]
    misfit = [w for w in vectors if w.size != n]
    if misfit and len(vectors) <= MAX_VECTORS:
        vectors = misfit[:1]
    return len(vectors), Slice(np.concatenate([np.zeros(0), *vectors]))
