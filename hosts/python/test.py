#!/usr/bin/env python3
"""Tests of the Python module, against SciPy. Ends with 'python: N passed, M failed'."""

import ctypes
import io
import json
import os
import pickle
import subprocess
import sys
import tempfile
import unittest
import warnings
from math import factorial

import numpy as np
import scipy.io
import scipy.sparse as sparse
from scipy.sparse.linalg import expm_multiply

sys.path.insert(0, os.path.dirname(os.path.abspath(__file__)))
import hazhendu  # noqa: E402

SOAK = os.environ.get("SOAK")


def plate(side):
    """Conduction on a square plate that loses heat along one edge; masses that differ."""
    line = sparse.diags([-1.0, 2.0, -1.0], [-1, 0, 1], shape=(side, side), format="lil")
    line[0, 0] = line[side - 1, side - 1] = 1.0
    one = sparse.identity(side)
    loss = sparse.kron(sparse.diags([1.0] + [0.0] * (side - 1)), one)
    a = sparse.csr_matrix(sparse.kron(line, one) + sparse.kron(one, line) + 0.1 * loss)
    a.sum_duplicates()
    return a, 1.0 + 0.5 * np.sin(np.arange(side * side))


def by_scipy(a, tau, vectors, mass):
    """The sum over k of tau^k phi_k(tau G) w_k, by expm_multiply on the augmented matrix."""
    n, d = a.shape[0], len(vectors) - 1
    g = sparse.diags(-1.0 / mass) @ a
    chain = sparse.csr_matrix(np.eye(d, k=1)) if d else None
    w = sparse.csr_matrix(np.column_stack(vectors[:0:-1])) if d else None
    whole = sparse.bmat([[g, w], [None, chain]], format="csc") if d else g.tocsc()
    start = np.concatenate([vectors[0], np.zeros(max(d - 1, 0)), np.ones(min(d, 1))])
    return expm_multiply(tau * whole, start)[:n]


class Soaks(unittest.TestCase):
    def setUp(self):
        self.a, self.mass = plate(8)
        self.n = self.a.shape[0]
        self.vectors = [np.cos(np.arange(self.n) + k) for k in range(4)]

    def test_both_solvers_agree_with_scipy(self):
        for count in (1, 2, 3, 4):
            wanted = by_scipy(self.a, 3.0, self.vectors[:count], self.mass)
            for solver in ("taylor", "krylov"):
                soaked = hazhendu.soak(self.a, 3.0, self.vectors[:count], self.mass, solver=solver)
                np.testing.assert_allclose(soaked.field, wanted, rtol=0, atol=1e-11)
                self.assertGreater(soaked.report.applications, 0)

    def test_every_kind_of_matrix_gives_the_same_bits(self):
        wanted = hazhendu.soak(self.a, 3.0, self.vectors[:2], self.mass).field
        large = self.a.copy()
        large.indices, large.indptr = large.indices.astype(np.int64), large.indptr.astype(np.int64)
        kinds = [self.a.tocsc(), self.a.tocoo(), self.a.tolil(), self.a.toarray(), np.asfortranarray(self.a.toarray()), large, sparse.csr_array(self.a)]
        for kind in kinds:
            for vectors in (self.vectors[:2], np.array(self.vectors[:2]), [list(v) for v in self.vectors[:2]]):
                field = hazhendu.soak(kind, 3.0, vectors, self.mass).field
                np.testing.assert_array_equal(field, wanted)

    def test_actions_are_phi_functions(self):
        v, batch = self.vectors[1], hazhendu.phi_action_batched(self.a, 2.0, 3, self.vectors[1], self.mass)
        self.assertEqual(batch.field.shape, (4, self.n))
        for k in range(4):
            alone = hazhendu.phi_action(self.a, 2.0, k, v, self.mass)
            np.testing.assert_array_equal(alone.field, batch.field[k])
            zeros = [np.zeros(self.n)] * k + [v]
            np.testing.assert_allclose(alone.field, by_scipy(self.a, 2.0, zeros, self.mass) / 2.0**k, rtol=0, atol=1e-12)
        at_zero = hazhendu.phi_action(self.a, 0.0, 3, v, self.mass).field
        np.testing.assert_allclose(at_zero, v / factorial(3), rtol=1e-14)

    def test_transposed_calls_run_on_the_transposed_matrix(self):
        turned = hazhendu.transpose(self.a, self.mass)
        np.testing.assert_array_equal(turned.toarray(), (self.a.toarray() / self.mass[:, None]).T)
        for solver in ("taylor", "krylov"):
            with warnings.catch_warnings():
                warnings.simplefilter("ignore")
                wanted = hazhendu.soak(turned, 3.0, self.vectors[:2], solver=solver).field
            field = hazhendu.soak(self.a, 3.0, self.vectors[:2], self.mass, solver=solver, transposed=True).field
            np.testing.assert_array_equal(field, wanted)
        self.assertEqual(hazhendu.phi_action(self.a, 1.0, 0, self.vectors[0], self.mass, transposed=True).field.shape, (self.n,))
        self.assertEqual(hazhendu.phi_action_batched(self.a, 1.0, 1, self.vectors[0], self.mass, transposed=True).field.shape, (2, self.n))

    def test_check_and_join(self):
        largest = hazhendu.check(self.a)
        sums = np.asarray(abs(self.a).sum(axis=1)).ravel()
        self.assertEqual((largest.norm, largest.row), (sums.max(), int(sums.argmax())))
        columns = hazhendu.check(self.a, self.mass, transposed=True)
        self.assertAlmostEqual(columns.norm, abs(sparse.diags(1 / self.mass) @ self.a).sum(axis=0).max(), places=12)
        mount = sparse.csr_matrix(([0.25, -0.25, -0.25, 0.25], ([0, 0, 9, 9], [0, 9, 0, 9])), shape=self.a.shape)
        both = hazhendu.join(self.a, mount)
        np.testing.assert_array_equal(both.toarray(), (self.a + mount).toarray())

    def test_the_state_of_a_refused_run_comes_with_it(self):
        with self.assertRaises(hazhendu.Refused) as caught:
            hazhendu.soak(self.a, 300.0, self.vectors[:2], self.mass, solver="krylov", m=2, limit=3)
        refused = caught.exception
        self.assertEqual(refused.number, 27)
        self.assertEqual(refused.state.shape, (self.n,))
        again = pickle.loads(pickle.dumps(refused))
        self.assertEqual((again.number, str(again)), (27, str(refused)))


class Plans(unittest.TestCase):
    def setUp(self):
        self.a, self.mass = plate(12)
        self.n = self.a.shape[0]
        self.w = [np.cos(np.arange(self.n)), np.ones(self.n)]

    def test_a_plan_is_what_its_run_reports(self):
        for mass in (None, self.mass):
            for transposed in (False, True):
                for tau, degree in ((0.0, 30), (3.0, 30), (40.0, 7)):
                    plan = hazhendu.plan(self.a, tau, mass, degree=degree, transposed=transposed)
                    ran = hazhendu.phi_combination(self.a, tau, self.w, mass, degree=degree, transposed=transposed).report
                    self.assertEqual(plan, ran)
                    self.assertEqual(plan.applications, plan.s * plan.m)
        for tau, degree, number in ((-1.0, 0, 14), (1.0, 0, 33), (1e12, 30, 25), (1e308, 30, 24)):
            with self.assertRaises(hazhendu.Refused) as caught:
                hazhendu.plan(self.a, tau, self.mass, degree=degree)
            self.assertEqual(caught.exception.number, number)

    def test_auto_is_the_call_that_it_takes(self):
        for tau, named in ((0.5, "taylor"), (3000.0, "krylov")):
            auto = hazhendu.soak(self.a, tau, self.w, self.mass)
            soaked = hazhendu.soak(self.a, tau, self.w, self.mass, solver=named)
            np.testing.assert_array_equal(auto.field, soaked.field)
            self.assertEqual(auto.report, soaked.report)
            self.assertTrue(auto.chosen[0].startswith(named), auto.chosen)
            self.assertEqual(soaked.chosen, ())
        self.assertTrue(hazhendu.soak(self.a, 1e11, [np.zeros(self.n)], self.mass).chosen[0].startswith("krylov with m 40: taylor is refused by 25"))
        with self.assertRaises(hazhendu.Refused) as caught:
            hazhendu.soak(self.a, -1.0, self.w, self.mass)
        self.assertEqual(caught.exception.number, 14)
        with self.assertRaises(ValueError):
            hazhendu.soak(self.a, 1.0, self.w, self.mass, solver="euler")

    def test_after_28_another_m(self):
        """The command's stiff model, with rows beside it that touch nothing."""
        files = os.path.join(os.path.dirname(os.path.abspath(__file__)), "..", "soak", "cases", "files")
        numbers = {name: np.loadtxt(os.path.join(files, f"stiff-wide-{name}.txt")).ravel() for name in ("mass", "start", "heating")}
        a = sparse.csr_matrix(scipy.io.mmread(os.path.join(files, "stiff-wide.mtx.gz")))
        w = [numbers["start"], numbers["heating"]]
        with self.assertRaises(hazhendu.Refused) as caught:
            hazhendu.soak(a, 7200.0, w, numbers["mass"], solver="krylov", m=30, tol=1e-8)
        self.assertEqual(caught.exception.number, 28)
        auto = hazhendu.soak(a, 7200.0, w, numbers["mass"], m=30, tol=1e-8)
        self.assertEqual(auto.chosen[1], "krylov with m 60: krylov with m 30 is refused by 28")
        other = hazhendu.soak(a, 7200.0, w, numbers["mass"], solver="krylov", m=60, tol=1e-8)
        np.testing.assert_array_equal(auto.field, other.field)


class PausedRuns(unittest.TestCase):
    def setUp(self):
        self.a, self.mass = plate(6)
        self.vectors = [np.cos(np.arange(36.0)), np.sin(np.arange(36.0))]
        self.job = (self.a, 30.0, self.vectors, self.mass)

    def test_unchanged_it_is_the_whole_call(self):
        whole = hazhendu.soak(*self.job, solver="krylov", m=6, tol=1e-8)
        moments = list(hazhendu.Paused(*self.job, m=6, tol=1e-8))
        self.assertEqual((moments[0].time, moments[0].report.substeps, moments[0].ended), (0.0, 0, False))
        np.testing.assert_array_equal(moments[0].field, self.vectors[0])
        self.assertEqual((moments[-1].time, moments[-1].report, moments[-1].ended), (1.0, whole.report, True))
        np.testing.assert_array_equal(moments[-1].field, whole.field)
        self.assertEqual([moment.report.substeps for moment in moments], list(range(len(moments))))
        times = [moment.time for moment in moments]
        self.assertTrue(all(a < b for a, b in zip(times, times[1:])))
        finished = hazhendu.Paused(*self.job, m=6, tol=1e-8).finish()
        self.assertEqual(finished.report, whole.report)

    def test_tightened_half_way(self):
        run = hazhendu.Paused(*self.job, m=6, tol=1e-4)
        for moment in run:
            if moment.time >= 0.5 and moment.tol == 1e-4:
                run.tighten(1e-10)
        loose, tight = (hazhendu.soak(*self.job, solver="krylov", m=6, tol=tol).report.substeps for tol in (1e-4, 1e-10))
        self.assertTrue(loose < moment.report.substeps < tight)
        self.assertEqual((moment.tol, moment.time), (1e-10, 1.0))

    def test_refusals_leave_the_run(self):
        run = hazhendu.Paused(*self.job, m=6, tol=1e-8)
        before = run.step()
        small = (np.array([[0.5, -0.5], [-0.5, 0.6]]), None, [[1.0, 2.0], [3.0, 4.0]])
        for words, number in (((None, -1.0), 14), (small, 16), ((None, None, self.vectors[:1]), 16), ((None, None, []), 12)):
            with self.assertRaises(hazhendu.Refused) as caught:
                run.step(*words)
            self.assertEqual(caught.exception.number, number)
        run.tighten(2.0)
        with self.assertRaises(hazhendu.Refused) as caught:
            run.step()
        self.assertEqual((caught.exception.number, caught.exception.value), (18, 2.0))
        np.testing.assert_array_equal(run.moment.field, before.field)
        self.assertEqual((run.moment.report, run.moment.tol, run.time), (before.report, 1e-8, before.time))
        whole = hazhendu.soak(*self.job, solver="krylov", m=6, tol=1e-8)
        np.testing.assert_array_equal(run.finish().field, whole.field)
        with self.assertRaises(hazhendu.Refused) as caught:
            run.step()
        self.assertEqual((caught.exception.number, caught.exception.wrong), (31, "the paused run has ended, or no run waits on the unit"))

    def test_the_limit_and_zeros(self):
        run = hazhendu.Paused(*self.job, m=3, limit=4)
        with self.assertRaises(hazhendu.Refused) as caught:
            for moment in run:
                pass
        self.assertEqual((caught.exception.number, moment.report.substeps, run.moment.report.substeps), (27, 3, 4))
        np.testing.assert_array_equal(caught.exception.state, run.moment.field)
        with self.assertRaises(hazhendu.Refused) as again:
            run.finish()
        self.assertEqual(again.exception.number, 27)
        (moment,) = hazhendu.Paused(self.a, 30.0, [np.zeros(36)])
        self.assertEqual((moment.ended, moment.time, moment.report.substeps, moment.report.estimated_error), (True, 0.0, 0, 0.0))
        with self.assertRaises(hazhendu.Refused):
            hazhendu.Paused(self.a, -1.0, self.vectors)

    def test_another_job_goes_on_from_the_field(self):
        run = hazhendu.Paused(self.a, 30.0, [self.vectors[0], np.ones(36)], self.mass, m=6, tol=1e-8)
        off = [self.vectors[0], np.zeros(36)]
        while not run.ended:
            run.step(vectors=off if run.time >= 0.5 else None)
        on, never = (hazhendu.soak(self.a, 30.0, [self.vectors[0], heat], self.mass, solver="krylov").field for heat in (np.ones(36), np.zeros(36)))
        self.assertTrue(never.sum() < run.moment.field.sum() < on.sum())


class Units(unittest.TestCase):
    def setUp(self):
        a, mass = plate(6)
        vectors = [np.cos(np.arange(36.0)), np.sin(np.arange(36.0))]
        small, small_mass = plate(3)
        self.jobs = {
            "long": ((a, 30.0, vectors, mass), {"m": 6, "tol": 1e-8}),
            "short": ((a, 3.0, vectors[:1], mass), {"m": 4, "tol": 1e-6}),
            "small": ((small, 30.0, [np.ones(9)], small_mass), {"m": 3, "tol": 1e-8}),
            "limited": ((a, 30.0, vectors, mass), {"m": 3, "limit": 4}),
        }

    def joined(self):
        unit = hazhendu.Unit()
        for i, (key, (job, options)) in enumerate(self.jobs.items()):
            turned = unit.join(key, *job, **options)
            self.assertEqual((turned.key, turned.place, turned.moment.time, turned.moment.ended), (key, i, 0.0, False))
        return unit

    def test_each_run_is_the_run_alone(self):
        unit = self.joined()
        runs = {key: hazhendu.Paused(*job, **options) for key, (job, options) in self.jobs.items()}
        order, ended = [], []
        for turned in unit:
            order.append(turned.key)
            try:
                alone = runs[turned.key].step()
                self.assertIsNone(turned.refused)
            except hazhendu.Refused as refused:
                alone = runs[turned.key].moment
                self.assertEqual((turned.refused.number, turned.refused.value), (refused.number, refused.value))
                np.testing.assert_array_equal(turned.refused.state, refused.state)
            np.testing.assert_array_equal(turned.moment.field, alone.field)
            self.assertEqual((turned.moment.report, turned.moment.time, turned.moment.ended), (alone.report, alone.time, alone.ended))
            ended += [turned.key] * alone.ended
        self.assertEqual((order[:8], sorted(ended), len(unit)), (2 * list(self.jobs), sorted(self.jobs), 0))
        self.assertIsNone(unit.next)
        with self.assertRaises(hazhendu.Refused) as caught:
            unit.turn()
        self.assertEqual(caught.exception.number, 31)

    def test_early_refusals_pass_on(self):
        unit = self.joined()
        for words, number in (({"tau": -1.0}, 14), ({"tol": 1.0}, 18), ({"vectors": []}, 12)):
            key = unit.next
            with self.assertRaises(hazhendu.Refused) as caught:
                unit.turn(**words)
            self.assertEqual(caught.exception.number, number)
            self.assertNotEqual(unit.next, key)
        last = {turned.key: turned for turned in unit}
        for key in ("long", "short", "small"):
            job, options = self.jobs[key]
            np.testing.assert_array_equal(last[key].moment.field, hazhendu.Paused(*job, **options).finish().field)

    def test_sixteen_and_zeros(self):
        unit = hazhendu.Unit()
        job, options = self.jobs["long"]
        self.assertEqual([unit.join(i, *job, **options).place for i in range(16)], list(range(16)))
        with self.assertRaises(hazhendu.Refused) as caught:
            unit.join(16, *job, **options)
        self.assertEqual((caught.exception.number, caught.exception.wrong), (32, "the unit has sixteen unfinished runs"))
        zeros = unit.join("zeros", job[0], 1.0, [np.zeros(36)])
        self.assertEqual((zeros.place, zeros.moment.ended, len(unit), unit.next), (16, True, 16, 0))
        with self.assertRaises(hazhendu.Refused) as caught:
            unit.join(16, job[0], -1.0, job[2])
        self.assertEqual(caught.exception.number, 14)

    def test_tightened(self):
        unit = self.joined()
        job, options = self.jobs["long"]
        run = hazhendu.Paused(*job, **options)
        while len(unit):
            tol = 1e-11 if unit.next == "long" and run.time >= 0.5 else None
            turned = unit.turn(tol=tol)
            if turned.key == "long":
                if tol:
                    run.tighten(tol)
                alone = run.step()
                np.testing.assert_array_equal(turned.moment.field, alone.field)
                self.assertEqual((turned.moment.tol, turned.moment.report), (alone.tol, alone.report))
        self.assertEqual(alone.tol, 1e-11)


class Stages(unittest.TestCase):
    def setUp(self):
        self.a, self.mass = plate(6)
        self.start, self.heat, self.rise = np.cos(np.arange(36.0)), np.sin(np.arange(36.0)), 0.01 * np.ones(36)
        self.schedule = [
            hazhendu.Stage(3.0, [self.heat, self.rise]),
            hazhendu.Stage(20.0, [0.5 * self.heat], "krylov", tol=1e-8, m=6, degree=99),
            hazhendu.Stage(1.0, degree=12, tol=7.0, limit=0),
        ]

    def in_a_row(self, schedule):
        """The fields after each stage as soaks of their own, and their reports."""
        field, done = self.start, []
        for stage in schedule:
            options = {"degree": stage.degree} if stage.solver == "taylor" else {"tol": stage.tol, "m": stage.m, "limit": stage.limit}
            soaked = hazhendu.soak(self.a, stage.tau, [field, *stage.further], self.mass, solver=stage.solver, **options)
            field = soaked.field
            done.append(soaked)
        return done

    def refused(self, schedule, start=None, a=None):
        with self.assertRaises(hazhendu.Refused) as caught:
            hazhendu.stages(self.a if a is None else a, schedule, self.start if start is None else start, None if a is not None else self.mass)
        return caught.exception

    def test_stages_are_soaks_in_a_row(self):
        single = self.in_a_row(self.schedule)
        for length in (1, 2, 3):
            staged = hazhendu.stages(self.a, self.schedule[:length], self.start, self.mass)
            np.testing.assert_array_equal(staged.field, single[length - 1].field)
            reports = [soaked.report for soaked in single[:length]]
            self.assertEqual(staged.applications, sum(report.applications for report in reports))
            self.assertEqual(staged.substeps, sum(getattr(report, "substeps", 0) for report in reports))
            self.assertEqual(staged.rejected, sum(getattr(report, "rejected", 0) for report in reports))
        self.assertGreater(staged.substeps, 5)

    def test_refusals_name_the_stage_and_leave_a_field(self):
        first = self.in_a_row(self.schedule[:1])[0].field
        wrong = (
            (hazhendu.Stage(-1.0), 14, -1.0),
            (hazhendu.Stage(1.0, [self.heat] * 4), 12, 5.0),
            (hazhendu.Stage(1.0, [np.full(36, np.inf)]), 17, np.inf),
            (hazhendu.Stage(1.0, [self.heat[:35], np.ones(37)]), 16, 72.0),
            (hazhendu.Stage(1.0, degree=31), 33, None),
            (hazhendu.Stage(1.0, (), "krylov", tol=1.0), 18, 1.0),
        )
        for stage, number, value in wrong:
            refused = self.refused([self.schedule[0], stage, self.schedule[2]])
            self.assertEqual((refused.number, refused.stage), (number, 2))
            self.assertTrue(value is None or refused.value == value)
            np.testing.assert_array_equal(refused.state, first)
            self.assertIn(f"refused ({number}) at stage 2: ", str(refused))
            refused = self.refused([stage])
            self.assertEqual((refused.number, refused.stage, refused.state), (number, 1, None))
        again = pickle.loads(pickle.dumps(refused))
        self.assertEqual((again.stage, str(again)), (1, str(refused)))

    def test_the_limit_in_a_stage_leaves_its_state(self):
        first = self.in_a_row(self.schedule[:1])[0].field
        refused = self.refused([self.schedule[0], hazhendu.Stage(300.0, [self.heat], "krylov", m=2, limit=3)])
        self.assertEqual((refused.number, refused.stage), (27, 2))
        with self.assertRaises(hazhendu.Refused) as caught:
            hazhendu.soak(self.a, 300.0, [first, self.heat], self.mass, solver="krylov", m=2, limit=3)
        np.testing.assert_array_equal(refused.state, caught.exception.state)
        self.assertEqual(refused.value, caught.exception.value)

    def test_how_many_stages_and_which_start(self):
        one = hazhendu.Stage(0.1)
        for length in (0, 65, 70):
            refused = self.refused([one] * length)
            self.assertEqual((refused.number, refused.stage, refused.state), (37, 0, None))
        self.assertEqual(hazhendu.stages(self.a, [one] * 64, self.start).field.shape, (36,))
        refused = self.refused(self.schedule, self.start[:35])
        self.assertEqual((refused.number, refused.value, refused.stage), (16, 35.0, 1))
        self.assertEqual(self.refused([], a=np.zeros((0, 0))).number, 1)
        for stage, error in ((hazhendu.Stage(1.0, (), "auto"), ValueError), (hazhendu.Stage(1.0, self.heat), TypeError)):
            with self.assertRaises(error):
                hazhendu.stages(self.a, [stage], self.start)


class Repeated(unittest.TestCase):
    def test_columns_that_repeat_add_up_and_stay(self):
        a = sparse.csr_matrix((np.array([0.25, 0.25, -0.5, -0.5, 0.6]), np.array([0, 0, 1, 0, 1]), np.array([0, 3, 5])), shape=(2, 2))
        added = np.array([[0.5, -0.5], [-0.5, 0.6]])
        soaked = hazhendu.soak(a, 2.0, [[20.0, 18.0]])
        np.testing.assert_allclose(soaked.field, hazhendu.soak(added, 2.0, [[20.0, 18.0]]).field, rtol=1e-14)
        self.assertEqual((a.nnz, a.data.tolist()), (5, [0.25, 0.25, -0.5, -0.5, 0.6]))


class Logs(unittest.TestCase):
    def setUp(self):
        self.a, self.mass = plate(5)
        self.field, self.load = np.cos(np.arange(25.0)), 0.01 * np.arange(25.0)
        self.durations, self.levels = np.array([3.0, 0.0, 10.0, 1.0, 20.0]), np.array([1.0, -2.0, 0.0, 30.0, 5.0])

    def in_a_row(self):
        """The field after each record as a soak of its own."""
        field = self.field
        for duration, level in zip(self.durations, self.levels):
            field = hazhendu.soak(self.a, duration, [field, self.load * level], self.mass, solver="taylor").field
            yield field

    def refused(self, durations=None, levels=None, field=None, load=None, window=2, node=7):
        given = zip((durations, levels, field, load), (self.durations, self.levels, self.field, self.load))
        with self.assertRaises(hazhendu.Refused) as caught:
            hazhendu.ambient(self.a, *(usual if value is None else value for value, usual in given), window, node, self.mass)
        return caught.exception

    def test_records_are_soaks_in_a_row(self):
        fields = list(self.in_a_row())
        temperatures = [field[7] for field in fields]
        for window in (1, 2, 3, 1024):
            logged = hazhendu.ambient(self.a, self.durations, self.levels, self.field, self.load, window, 7, mass=self.mass)
            np.testing.assert_array_equal(logged.field, fields[-1])
            np.testing.assert_array_equal(logged.temperatures, temperatures)
            last = [temperatures[max(0, i + 1 - window) : i + 1] for i in range(5)]
            np.testing.assert_array_equal(logged.largest, [max(values) for values in last])
            np.testing.assert_array_equal(logged.smallest, [min(values) for values in last])
            self.assertIsNone(logged.not_a_number)

    def test_refusals_name_the_record_and_keep_results(self):
        first = next(self.in_a_row())
        for durations, levels, number, value in (
            ([3.0, -1.0, 1.0], self.levels[:3], 14, -1.0),
            (self.durations[:3], [1.0, np.inf, 0.0], 17, None),
        ):
            refused = self.refused(durations, levels)
            self.assertEqual((refused.number, refused.record, refused.stage), (number, 2, None))
            self.assertTrue(value is None or refused.value == value)
            np.testing.assert_array_equal(refused.state, first)
            for shown in refused.results:
                np.testing.assert_array_equal(shown, first[7:8])
            self.assertIn(f"refused ({number}) at record 2: ", str(refused))
            refused = self.refused(durations[1:], levels[1:])
            self.assertEqual((refused.number, refused.record, refused.state), (number, 1, None))
            self.assertEqual([shown.size for shown in refused.results], [0, 0, 0])
        again = pickle.loads(pickle.dumps(refused))
        self.assertEqual((again.record, str(again)), (1, str(refused)))

    def test_what_is_refused_before_any_record(self):
        wrong = (
            ({"field": self.field[:24]}, 16, 24.0),
            ({"load": np.ones(26)}, 16, 26.0),
            ({"field": np.full(25, np.inf)}, 17, np.inf),
            ({"load": np.full(25, -np.inf)}, 17, -np.inf),
            ({"window": 0}, 38, None),
            ({"window": 1025}, 38, None),
            ({"node": 25}, 38, None),
            ({"durations": [], "levels": []}, 39, None),
            ({"levels": self.levels[:4]}, 39, None),
            ({"durations": np.zeros(100_001), "levels": np.zeros(100_001)}, 39, None),
        )
        for given, number, value in wrong:
            refused = self.refused(**given)
            self.assertEqual((refused.number, refused.record, refused.state), (number, 0, None))
            self.assertTrue(value is None or refused.value == value)
        with self.assertRaises(ValueError):
            hazhendu.ambient(self.a, self.durations, self.levels, self.field, self.load, 1, -1)

    def test_nan_ends_the_work_and_zeros_are_positive(self):
        cancels = sparse.csr_matrix((np.array([2.0, -2.0]), np.array([1, 1]), np.array([0, 0, 2])), shape=(2, 2))
        with warnings.catch_warnings():
            warnings.simplefilter("ignore")
            logged = hazhendu.ambient(cancels, [1.0, 1.0, 1.0], [0.0, 1.0, 0.0], [1.0, 0.0], [0.0, 2.0**1023], 2, 1)
        self.assertEqual((logged.not_a_number, logged.temperatures.tolist()), (3, [0.0, 2.0**1023]))
        self.assertTrue(logged.field[0] == 1.0 and np.isnan(logged.field[1]))
        logged = hazhendu.ambient(np.zeros((1, 1)), [1.0], [-1.0], [-0.0], [0.0], 1, 0)
        self.assertTrue(np.signbit(logged.temperatures[0]))
        self.assertFalse(np.signbit(logged.largest[0]) or np.signbit(logged.smallest[0]))


class Refusals(unittest.TestCase):
    A = np.array([[0.5, -0.5], [-0.5, 0.6]])

    def refused(self, *words, **options):
        with self.assertRaises(hazhendu.Refused) as caught, warnings.catch_warnings():
            warnings.simplefilter("ignore")
            hazhendu.soak(*words, **options)
        self.assertIn(f"refused ({caught.exception.number})", str(caught.exception))
        self.assertTrue(caught.exception.wrong and caught.exception.change)
        return caught.exception.number, caught.exception.value

    def test_numbers_and_doubles(self):
        a, w = self.A, [[20.0, 20.0]]
        krylov = {"solver": "krylov"}
        self.assertEqual(self.refused(a, -1.0, w), (14, -1.0))
        self.assertEqual(self.refused(np.zeros((0, 0)), 1.0, w)[0], 1)
        self.assertEqual(self.refused([[np.nan, 0], [0, 1]], 1.0, w)[0], 6)
        self.assertEqual(self.refused(a, 1.0, w, mass=[1.0]), (7, 1.0))
        self.assertEqual(self.refused(a, 1.0, w, mass=[1.0, 0.0]), (8, 0.0))
        self.assertEqual(self.refused(a, 1.0, []), (12, 0.0))
        self.assertEqual(self.refused(a, 1.0, w * 5), (12, 5.0))
        self.assertEqual(self.refused(a, 1.0, [[1.0, 2.0, 3.0], [1.0]]), (16, 3.0))
        self.assertEqual(self.refused(a, 1.0, [[1.0, np.inf]]), (17, np.inf))
        self.assertEqual(self.refused(a, 1.0, w, tol=1.0, **krylov), (18, 1.0))
        self.assertEqual(self.refused(a, 1.0, w, limit=0, **krylov)[0], 19)
        self.assertEqual(self.refused(a, 1.0, w, limit=2**40, **krylov)[0], 20)
        self.assertEqual(self.refused(a, 1.0, w, degree=2**32 + 30)[0], 33)
        self.assertEqual(self.refused(a, 1e300, w, solver="taylor")[0], 25)
        with self.assertRaises(hazhendu.Refused) as caught:
            hazhendu.phi_action(a, 1.0, 4, [1.0, 2.0])
        self.assertEqual((caught.exception.number, caught.exception.value_is), (13, "the index"))

    def test_a_column_that_does_not_fit_is_refused(self):
        a = sparse.csr_matrix(self.A)
        a.indices = a.indices.astype(np.int64)
        a.indices[1] = 2**32
        with self.assertRaises(hazhendu.Refused) as caught:
            hazhendu.check(a)
        self.assertEqual(caught.exception.number, 5)

    def test_what_is_no_real_square_matrix_is_an_error(self):
        for a, error in ((np.ones((2, 3)), ValueError), (np.ones(4), ValueError), (self.A * 1j, TypeError)):
            with self.assertRaises(error):
                hazhendu.check(a)
        with self.assertRaises(TypeError):
            hazhendu.soak(self.A, 1.0, [np.array([1j, 0])])
        with self.assertRaises(TypeError):
            hazhendu.soak(self.A, 1.0, np.array([1.0, 2.0]))
        for options in ({"solver": "auto-"}, {"solver": "krylov", "m": -1}):
            with self.assertRaises(ValueError):
                hazhendu.soak(self.A, 1.0, [[1.0, 2.0]], **options)


class Warnings(unittest.TestCase):
    def test_rows_that_heat_themselves(self):
        turned = np.array([[-2000.0, 1000.0], [1000.0, -2000.0]])
        self.assertEqual(list(hazhendu.heating_rows(turned)), [0, 1])
        self.assertEqual(list(hazhendu.heating_rows(-turned)), [])
        with warnings.catch_warnings(record=True) as caught:
            warnings.simplefilter("always")
            field = hazhendu.soak(turned, 1.0, [[1.0, -2.0]]).field
        self.assertFalse(np.isfinite(field).all())
        self.assertEqual([w.category for w in caught], [hazhendu.HeatingWarning, hazhendu.NotFiniteWarning])
        self.assertTrue(all(w.filename == __file__ for w in caught))
        with warnings.catch_warnings():
            warnings.simplefilter("error")
            hazhendu.soak(-turned, 1.0, [[1.0, -2.0]])


class Environment(unittest.TestCase):
    def test_rounding_of_the_caller_does_not_matter(self):
        upward, nearest = 0x800, 0
        math = ctypes.CDLL("libm.so.6")
        a, mass = plate(4)
        wanted = hazhendu.soak(a, 3.0, [mass, mass]).field
        self.assertEqual(math.fesetround(upward), 0)
        try:
            field = hazhendu.soak(a, 3.0, [mass, mass]).field
            self.assertEqual(math.fegetround(), upward)
        finally:
            math.fesetround(nearest)
        np.testing.assert_array_equal(field, wanted)


@unittest.skipUnless(SOAK, "SOAK does not name the command")
class Command(unittest.TestCase):
    """The command on what SciPy writes, and its reports."""

    def test_files_of_mmwrite_and_savetxt(self):
        a, mass = plate(5)
        w = np.cos(np.arange(25.0))
        wanted = hazhendu.soak(a, 2.0, [w, mass], mass).field
        with tempfile.TemporaryDirectory() as folder:
            place = lambda name: os.path.join(folder, name)  # noqa: E731
            np.savetxt(place("mass.txt"), mass[None])
            scipy.io.mmwrite(place("w1.mtx"), mass.reshape(-1, 1), precision=17)
            np.savetxt(place("w0.txt"), w)
            for matrix, options in ((a, {}), (a, {"symmetry": "general"}), (a.toarray(), {}), (a.toarray(), {"symmetry": "general"})):
                scipy.io.mmwrite(place("a.mtx"), matrix, precision=17, **options)
                words = [SOAK, place("a.mtx"), "--mass", place("mass.txt"), "--tau", "2", "--vector", place("w0.txt"), "--vector", place("w1.mtx")]
                words += ["--report", place("report.json")]
                printed = subprocess.run(words, capture_output=True, text=True, check=True).stdout
                np.testing.assert_allclose(np.loadtxt(io.StringIO(printed)), wanted, rtol=0, atol=1e-14)
                with open(place("report.json")) as file:
                    report = json.load(file)
                np.testing.assert_array_equal(report["field"], np.loadtxt(io.StringIO(printed)))
                self.assertEqual(report["hottest"]["row"], int(np.argmax(report["field"])) + 1)
                self.assertAlmostEqual(report["mean"], np.average(report["field"], weights=mass), places=12)


class Counted(unittest.TextTestResult):
    def line(self):
        bad = len(self.failures) + len(self.errors)
        return f"python: {self.testsRun - bad - len(self.skipped)} passed, {bad} failed"


if __name__ == "__main__":
    result = unittest.TextTestRunner(resultclass=Counted, verbosity=1).run(unittest.defaultTestLoader.loadTestsFromModule(sys.modules[__name__]))
    print(result.line())
    sys.exit(not result.wasSuccessful())
