#!/usr/bin/env python3
"""Measures the tables of docs/CHOOSING.md on the sample barrels, as markdown. Needs python3-scipy, and samples/run to have run.

    samples/choosing.py times         time, work and error of each way, at the barrels' own tau
    samples/choosing.py plates        the same on square plates, mild and stiffer
    samples/choosing.py accuracy      error of both solvers, and Krylov's estimate, over tau
    samples/choosing.py refusals      where Krylov refuses by 28, over tau and tol, for several m

What is taken where no solver is named, beside the time of both, is measured by hosts/rust/examples/choosing.rs, without Python's part of a call.
"""

import os
import sys
import time

import numpy as np
from scipy import io, sparse
from scipy.sparse.linalg import splu

HERE = os.path.dirname(os.path.abspath(__file__))
sys.path.insert(0, os.path.join(HERE, "..", "hosts", "python"))
import hazhendu  # noqa: E402

BARRELS = {"relay-35mm": 1800.0, "collimator-90mm": 1800.0, "zoom-two-groups": 600.0}
TAUS = (10, 60, 300, 600, 1200, 1800, 3600, 7200)
TOLS = (1e-4, 1e-5, 1e-6, 1e-7, 1e-8, 1e-9, 1e-10, 1e-11, 1e-12)
REAL, COMPLEX = np.longdouble, np.clongdouble


def load(barrel):
    def place(name):
        return os.path.join(HERE, "out", barrel, name)

    names = [name for name in ("start.txt", "heating.txt", "ramp.txt") if os.path.exists(place(name))]
    a = sparse.csr_matrix(io.mmread(place("conductance.mtx")))
    a.sort_indices()
    return a, np.loadtxt(place("capacity.txt")), [np.loadtxt(place(name)) for name in names]


def product(a, x):
    """A x in complex long double; no row is empty."""
    return np.add.reduceat(a.data.astype(REAL) * x[a.indices], a.indptr[:-1])


def resolvent(a, mass, tau, f, z):
    """(z M + tau A)^-1 f by a sparse LU, refined with residuals in long double."""
    lu = splu((complex(z) * sparse.diags(mass) + tau * a).tocsc())
    x = np.zeros(len(mass), COMPLEX)
    for _ in range(4):
        residual = f - (z * mass.astype(REAL) * x + REAL(tau) * product(a, x))
        x = x + lu.solve(residual.astype(complex)).astype(COMPLEX)
    return x


def reference(a, mass, tau, w, nodes=96, peak=6.0):
    """The sum over k of tau^k phi_k(tau G) w_k by Laplace inversion on a parabola around the spectrum."""
    width = np.sqrt(REAL(1) + REAL(50) / REAL(peak))
    step = 2 * width / nodes
    total = np.zeros(len(mass), REAL)
    for k in range(nodes // 2):
        root = COMPLEX(1j) * (REAL(k) + REAL(0.5)) * step + 1
        z = REAL(peak) * root**2
        f = sum(REAL(tau) ** j * x.astype(REAL) / z**j for j, x in enumerate(w)) * mass.astype(REAL)
        weight = np.exp(z) * COMPLEX(2j) * REAL(peak) * root / (COMPLEX(2j) * REAL(np.pi)) * step
        total += (weight * resolvent(a, mass, tau, f, z)).real * 2
    return total


def timed(soak):
    """The best processor time of calls that fill a second, or of three, and the answer or its refusal's number."""
    best, begun = float("inf"), time.process_time()
    for call in range(1000):
        at = time.process_time()
        try:
            answer = soak()
        except hazhendu.Refused as refused:
            answer = refused.number
        best = min(best, time.process_time() - at)
        if call >= 2 and time.process_time() - begun > 1:
            break
    return best, answer


def times():
    ways = [("taylor", {"solver": "taylor"})]
    ways += [(f"krylov, tol {tol:g}, m {m}", {"solver": "krylov", "tol": tol, "m": m}) for tol in (1e-10, 1e-6) for m in (20, 30, 40, 60)]
    print("| barrel | way | ms | applications | substeps | rejected | error, K |\n|---|---|---|---|---|---|---|")
    for barrel, tau in BARRELS.items():
        a, mass, w = load(barrel)
        exact = reference(a, mass, tau, w)
        for name, options in ways:
            best, soaked = timed(lambda: hazhendu.soak(a, tau, w, mass, **options))
            if isinstance(soaked, int):
                print(f"| {barrel} | {name} | {best * 1e3:.3g} | refused ({soaked}) | | | |", flush=True)
                continue
            report, error = soaked.report, float(np.abs(soaked.field - exact).max())
            steps = (report.substeps, report.rejected) if options["solver"] == "krylov" else ("", "")
            print(f"| {barrel} | {name} | {best * 1e3:.3g} | {report.applications} | {steps[0]} | {steps[1]} | {error:.1e} |", flush=True)


def plate(side):
    line, one = sparse.diags([-1.0, 2.0, -1.0], [-1, 0, 1], shape=(side, side)), sparse.identity(side)
    return sparse.csr_matrix(sparse.kron(line, one) + sparse.kron(one, line))


def plates():
    ways = ({"solver": "taylor"}, {"solver": "krylov", "m": 30}, {"solver": "krylov", "m": 40})
    print("| rows | tau × norm | taylor | krylov, m 30 | krylov, m 40 |\n|---|---|---|---|---|")
    for argument in (60, 1000):
        for side in (8, 32, 100):
            a, w = plate(side), [np.cos(np.arange(side**2)), np.ones(side**2)]
            best = [timed(lambda: hazhendu.soak(a, argument / 8, w, **way))[0] for way in ways]
            print(f"| {side**2} | {argument} | " + " | ".join(f"{seconds * 1e3:.3g}" for seconds in best) + " |", flush=True)


def start_norm(tau, w):
    """The 2-norm of the augmented start, to which tol and the estimate are relative, in the field's unit."""
    size = sum(tau**j * np.abs(w[j]).max() for j in range(1, len(w)))
    return float(np.sqrt((w[0] ** 2).sum() + (2.0 ** np.ceil(np.log2(size)) if size else 0.0) ** 2))


def accuracy():
    print("| barrel | tau, s | tau × norm | Taylor: error, K | Krylov: error, K | its estimate | estimate × norm of the start, K |\n|---|---|---|---|---|---|---|")
    for barrel in BARRELS:
        a, mass, w = load(barrel)
        for tau in (100.0, 600.0, 1800.0, 7200.0):
            exact = reference(a, mass, tau, w)
            argument = tau * hazhendu.check(a, mass).norm
            taylor, krylov = (hazhendu.soak(a, tau, w, mass, solver=solver) for solver in ("taylor", "krylov"))
            errors = [float(np.abs(soaked.field - exact).max()) for soaked in (taylor, krylov)]
            estimate = krylov.report.estimated_error
            print(f"| {barrel} | {tau:g} | {argument:.2g} | {errors[0]:.1e} | {errors[1]:.1e} | {estimate:.1e} | {estimate * start_norm(tau, w):.1e} |", flush=True)


def number(problem, tau, tol, m):
    a, mass, w = problem
    try:
        hazhendu.phi_combination_krylov(a, tau, w, mass, tol=tol, m=m)
    except hazhendu.Refused as refused:
        return refused.number
    return 0


def refusals():
    print("| barrel | tau, s | " + " | ".join(f"m {m}" for m in (20, 30, 40, 60)) + " |\n|---|---|---|---|---|---|")
    totals = {m: 0 for m in (20, 30, 40, 60)}
    for barrel in BARRELS:
        problem = load(barrel)
        for tau in TAUS:
            cells = []
            for m in totals:
                refused = [f"{tol:g}" for tol in TOLS if number(problem, tau, tol, m)]
                totals[m] += len(refused)
                cells.append(", ".join(refused))
            if any(cells):
                print(f"| {barrel} | {tau} | " + " | ".join(cells) + " |", flush=True)
    print("| of 216 jobs | | " + " | ".join(str(total) for total in totals.values()) + " |")


def main():
    tables = {"times": times, "plates": plates, "accuracy": accuracy, "refusals": refusals}
    if len(sys.argv) != 2 or sys.argv[1] not in tables:
        sys.exit(__doc__)
    tables[sys.argv[1]]()


if __name__ == "__main__":
    main()
