"""Times SciPy's expm_multiply and SLEPc's MFN on a problem that the benchmark has written.

The field is the sum of tau^k phi_k(tau K) w_k with K = -A divided row by row by the mass: the upper part of the exponential of an
augmented matrix, K with w_d, .., w_1 beside it and ones above the diagonal below it, applied to w_0 and a unit vector. Prints a line
for each way that is installed: its name, the best of ROUNDS in processor seconds, the largest difference from the field in `result`,
relative to its largest value. MFN is given the largest tol of TOLS whose difference is at most the number in `wanted`, or ROUNDING
where that is less; then the line has the tol too. A way that takes longer than LONG is timed once.
"""

import glob
import sys
import time

import numpy
from scipy import sparse
from scipy.sparse.linalg import expm_multiply

ROUNDS = 5
LONG = 2.0
TOLS = [10.0**-k for k in range(3, 16)]
ROUNDING = 1e-13
# The columns of a basis, as Krylov's m.
NCV = {"plate": 30, "barrel": 40}


def read(folder, name, kind=float):
    return numpy.loadtxt(f"{folder}/{name}", dtype=kind, ndmin=1)


def augmented(folder):
    """The matrix and the vector; tau; n."""
    entries, columns, starts = (read(folder, name, kind) for name, kind in (("entries", float), ("columns", int), ("starts", int)))
    mass, vectors, tau = read(folder, "mass"), read(folder, "vectors"), read(folder, "tau")[0]
    n = len(mass)
    generator = sparse.diags(-1.0 / mass) @ sparse.csr_matrix((entries, columns, starts), shape=(n, n))
    w = vectors.reshape(-1, n)
    d = len(w) - 1
    beside, chain = sparse.csr_matrix(w[:0:-1].T), sparse.eye(d, k=1)
    whole = sparse.bmat([[generator, beside], [None, chain]]).tocsr()
    whole.sort_indices()
    return whole, numpy.concatenate([w[0], numpy.zeros(d - 1), [1.0]]), tau, n


def best_of(call):
    """The best time, and what the last call gave."""
    best = float("inf")
    for _ in range(ROUNDS):
        begin = time.process_time()
        field = call()
        taken = time.process_time() - begin
        best = min(best, taken)
        if taken > LONG:
            break
    return best, field


def mfn(whole, start, tau, ncv):
    """SLEPc's restarted Krylov, as a function of tol; None where it is not installed. Debian has it in folders of its own."""
    sys.path += glob.glob("/usr/lib/slepcdir/*/*-real/lib/python3/dist-packages")
    sys.path += glob.glob("/usr/lib/petscdir/*/*-real/lib/python3/dist-packages")
    try:
        import slepc4py

        slepc4py.init(["benchmark"])
        from petsc4py import PETSc
        from slepc4py import SLEPc
    except ImportError:
        print("missing: python3-slepc4py-real (Debian: apt-get install --no-install-recommends python3-slepc4py-real)", file=sys.stderr)
        return None

    def call(tol):
        matrix = PETSc.Mat().createAIJ(whole.shape, csr=(whole.indptr, whole.indices, whole.data))
        matrix.assemble()
        solver = SLEPc.MFN().create()
        solver.setOperator(matrix)
        solver.getFN().setType(SLEPc.FN.Type.EXP)
        solver.getFN().setScale(tau, 1.0)
        solver.setTolerances(tol=tol, max_it=1000000)
        solver.setDimensions(ncv)
        x, y = matrix.createVecs()
        x.setArray(start)
        solver.solve(x, y)
        return y.getArray().copy() if solver.getConvergedReason() > 0 else numpy.full(len(start), numpy.nan)

    return call


def main(folder):
    whole, start, tau, n = augmented(folder)
    result, wanted = read(folder, "result"), max(read(folder, "wanted")[0], ROUNDING)
    with open(f"{folder}/kind") as text:
        ncv = NCV[text.read().strip()]

    def difference(field):
        return numpy.abs(field[:n] - result).max() / numpy.abs(result).max()

    best, field = best_of(lambda: expm_multiply(tau * whole, start))
    print("expm_multiply", best, difference(field))
    call = mfn(whole, start, tau, ncv)
    for tol in TOLS if call else []:
        if difference(call(tol)) <= wanted:
            best, field = best_of(lambda: call(tol))
            print("mfn", best, difference(field), tol)
            break


main(sys.argv[1])
