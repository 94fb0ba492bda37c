#!/usr/bin/env python3
"""Soaks the three sample barrels by the command, with the solver that it takes itself, for taus from 10 to 7200 s and tols from 1e-4 to 1e-12,
and prints as markdown what was taken, for docs/CHOOSING.md. Needs samples/run to have run.

    samples/scan.py [SOAK]

Ends with how many jobs were soaked, and with status 1 if one was not.
"""

import collections
import json
import os
import subprocess
import sys
import tempfile

HERE = os.path.dirname(os.path.abspath(__file__))
USUAL = os.path.join(HERE, "..", "hosts", "target", "release", "soak")
BARRELS = ("relay-35mm", "collimator-90mm", "zoom-two-groups")
TAUS = (10, 60, 300, 600, 1200, 1800, 3600, 7200)
TOLS = ("1e-4", "1e-5", "1e-6", "1e-7", "1e-8", "1e-9", "1e-10", "1e-11", "1e-12")


def words_of(barrel):
    """The files of a barrel, as samples/make.py wrote the words of its soak; tau is left out."""
    with open(os.path.join(HERE, "out", barrel, "arguments")) as file:
        words = file.read().split()
    at = words.index("--tau")
    return words[:at] + words[at + 2 :]


def soaked(soak, barrel, tau, tol, report):
    """The status, and of an accepted job what was taken, with each m refused on the way."""
    words = [soak, *words_of(barrel), "--tau", str(tau), "--tol", tol, "--output", os.devnull, "--report", report]
    ended = subprocess.run(words, cwd=os.path.join(HERE, "out", barrel), capture_output=True, text=True)
    if ended.returncode:
        return ended.returncode, ended.stderr.strip()
    with open(report) as file:
        chosen = json.load(file)["chosen"]
    return 0, ", then ".join(line.split(": ")[1] for line in chosen)


def main():
    soak = os.path.abspath(sys.argv[1]) if len(sys.argv) > 1 else USUAL
    jobs = good = 0
    print("| barrel | tau, s | taken, with how many of the nine tols |\n|---|---|---|")
    with tempfile.TemporaryDirectory() as folder:
        for barrel in BARRELS:
            for tau in TAUS:
                taken = collections.Counter()
                for tol in TOLS:
                    status, told = soaked(soak, barrel, tau, tol, os.path.join(folder, "report.json"))
                    jobs, good = jobs + 1, good + (status == 0)
                    taken[told if status == 0 else f"REFUSED ({status}) at tol {tol}"] += 1
                told = "; ".join(f"{way}: {count}" for way, count in taken.items())
                print(f"| {barrel} | {tau} | {told} |", flush=True)
    print(f"\n{good} of {jobs} jobs soaked")
    sys.exit(good != jobs)


if __name__ == "__main__":
    main()
