#!/usr/bin/env python3
"""A table of the soaks in a folder that samples/run has filled, and whether both solvers agree.

    samples/table.py FOLDER

For each barrel it reads spacer.json (samples/make.py), and the reports: SOLVER.json for each solver, stages.json for a soak in stages, log.json for
a logged day. Status 1 if the solvers differ by more than ALLOWED.
"""

import json
import os
import sys

from make import BARRELS
from spacer import spacer_change

SOLVERS = ("taylor", "krylov")
ALLOWED = 1e-8  # K, at any cell

COLUMNS = "{:<16} {:>5} {:>8} {:>6}  {:<7} {:<60} {:>9} {:>8} {:>10}"


def work_done(cost):
    if "s" in cost:
        return f"s {cost['s']}, m {cost['m']}, mu {cost['mu']:.3g}, {cost['applications']} applications"
    return f"{cost['substeps']} substeps, {cost['applications']} applications, {cost['rejected']} rejected, error {cost['estimated_error']:.3g}"


def read_report(folder, barrel, name):
    with open(os.path.join(folder, barrel.name, f"{name}.json")) as file:
        return json.load(file)


def rows_of(folder, barrel):
    reports = [read_report(folder, barrel, solver) for solver in SOLVERS]
    for solver, report in zip(SOLVERS, reports):
        change = spacer_change(os.path.join(folder, barrel.name, "spacer.json"), report["field"])
        head = (barrel.name, report["rows"], report["entries"], f"{barrel.tau:g}") if solver == SOLVERS[0] else ("", "", "", "")
        hottest, mean = report["hottest"]["value"], report["mean"]
        print(COLUMNS.format(*head, solver, work_done(report["cost"]), f"{hottest:.4f}", f"{mean:.4f}", f"{change * 1e6:+.4f}"))
    return max(abs(a - b) for a, b in zip(*(report["field"] for report in reports)))


def stages_of(folder, barrel):
    """A line for each stage: its time, the power, what it cost, and the field after it."""
    report = read_report(folder, barrel, "stages")
    power = sum(part.power for part in barrel.parts)
    for i, (phase, stage) in enumerate(zip(barrel.phases, report["stages"])):
        change = spacer_change(os.path.join(folder, barrel.name, "spacer.json"), stage["field"])
        work = f"{phase.name} at {power * phase.share:g} W, {stage['cost']['applications']} applications"
        head = ("in stages", "", "") if i == 0 else ("", "", "")
        hottest, mean = stage["hottest"]["value"], stage["mean"]
        print(COLUMNS.format(*head, f"{phase.tau:g}", phase.solver, work, f"{hottest:.4f}", f"{mean:.4f}", f"{change * 1e6:+.4f}"))


def day_of(folder, barrel):
    """A line for the logged day: from where to where the cell went, how far at most within a window, and the field at the end."""
    report = read_report(folder, barrel, "log")
    change = spacer_change(os.path.join(folder, barrel.name, "spacer.json"), report["field"])
    hottest, mean = report["hottest"]["value"], report["mean"]
    shown = report["temperatures"]
    moved = max(largest - smallest for largest, smallest in zip(report["largest"], report["smallest"]))
    seconds = sum(report["durations"])
    hours = barrel.day.every * barrel.day.window / 3600
    work = f"{len(shown)} records, lens {min(shown):.2f} to {max(shown):.2f} K, {moved:.2f} K in {hours:g} h"
    print(COLUMNS.format("under a log", "", "", f"{seconds:g}", "taylor", work, f"{hottest:.4f}", f"{mean:.4f}", f"{change * 1e6:+.4f}"))


def main():
    if len(sys.argv) != 2:
        sys.exit(__doc__)
    print(COLUMNS.format("barrel", "rows", "entries", "tau s", "solver", "plan or report", "hottest K", "mean K", "spacer um"))
    worst = 0.0
    for barrel in BARRELS:
        worst = max(worst, rows_of(sys.argv[1], barrel))
        if barrel.phases:
            stages_of(sys.argv[1], barrel)
        if barrel.day:
            day_of(sys.argv[1], barrel)
    agree = worst <= ALLOWED
    print(f"taylor and krylov {'agree' if agree else 'DIFFER'}: at most {worst:.1e} K apart, {ALLOWED:g} K allowed")
    sys.exit(0 if agree else 1)


if __name__ == "__main__":
    main()
