"""Times SciPy's sum of two sparse matrices that the benchmark has written.

Prints the best time of ROUNDS in seconds and the largest difference of an entry from the library's join. SciPy drops entries of 0.
"""

import sys
import time

import numpy
from scipy import sparse

ROUNDS = 20


def read(folder, name, kind):
    return numpy.loadtxt(f"{folder}/{name}", dtype=kind, ndmin=1)


def matrix(folder, name):
    entries, columns, starts = (read(folder, name + part, kind) for part, kind in (("entries", float), ("columns", int), ("starts", int)))
    return sparse.csr_matrix((entries, columns, starts), shape=(len(starts) - 1, len(starts) - 1))


def main(folder):
    barrel, mount, result = (matrix(folder, name) for name in ("barrel_", "mount_", ""))
    # A host's matrices are known to be ordered: SciPy looks once and keeps the answer.
    assert barrel.has_canonical_format and mount.has_canonical_format
    best = float("inf")
    for _ in range(ROUNDS):
        begin = time.perf_counter()
        both = barrel + mount
        best = min(best, time.perf_counter() - begin)
    print(best, abs(both - result).max())


main(sys.argv[1])
