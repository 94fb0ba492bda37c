#!/usr/bin/env python3
"""Checks crates in order of dependence, several at a time.

`rt check` locks a crate and all below it, so that one checkout checks one crate at a time; but what one checkout has proved, another on the same
machine takes over. Each lane is a copy of crates/ outside the checkout. A crate over one that failed is left out. What was checked is remembered by
the checksum of the files of a crate and of all below it.

    tools/lanes.py [--lanes N] [--at FOLDER] [CRATE..]     no CRATE: all; FOLDER: where copies and outputs lie
"""
import argparse
import hashlib
import subprocess
import tempfile
import threading
import time
from pathlib import Path

ROOT = Path(__file__).resolve().parent.parent
args = argparse.ArgumentParser(description=__doc__, formatter_class=argparse.RawDescriptionHelpFormatter)
args.add_argument("--lanes", type=int, default=3)
args.add_argument("--at", type=Path, default=Path(tempfile.gettempdir()) / "hazhendu-lanes")
args.add_argument("crates", nargs="*")
args = args.parse_args()

DEPS = {}
for line in (ROOT / "crates.txt").read_text().splitlines():
    head, colon, tail = line.split("#")[0].partition(":")
    if colon:
        DEPS[head.split()[0]] = tail.split()


def below(name, found):
    for dep in DEPS[name]:
        if dep not in found:
            below(dep, found)
            found[dep] = True
    return found


def checksum(name):
    whole = hashlib.sha256()
    for crate in sorted([*below(name, {}), name]):
        for room in ("src", "specs", "proofs"):
            for file in sorted((ROOT / "crates" / crate / room).rglob("*")):
                if file.is_file():
                    whole.update(f"{file.relative_to(ROOT)}\0".encode() + file.read_bytes())
    return whole.hexdigest()


wanted = {}
for crate in args.crates or DEPS:
    wanted.update(below(crate, {}))
    wanted[crate] = True
state = args.at / "state"
state.mkdir(parents=True, exist_ok=True)
done, running, lock = {}, set(), threading.Lock()
for crate in wanted:
    kept = state / f"{crate}.ok"
    if kept.exists() and kept.read_text() == checksum(crate):
        done[crate] = True
print(f"kept: {len(done)} of {len(wanted)}", flush=True)


def pick():
    """A crate all of whose dependencies are checked."""
    for crate in wanted:
        if crate in done or crate in running:
            continue
        if any(done.get(dep) is False for dep in DEPS[crate]):
            done[crate] = False
        elif all(done.get(dep) for dep in DEPS[crate]):
            running.add(crate)
            return crate
    return None


def work(number):
    copy = args.at / f"lane{number}"
    copy.mkdir(exist_ok=True)
    subprocess.run(["git", "init", "-q"], cwd=copy, check=True)
    while True:
        with lock:
            crate = pick()
            if crate is None and not running:
                return
        if crate is None:
            time.sleep(0.5)
            continue
        began = time.time()
        subprocess.run(["rt", "fmt"], cwd=ROOT / "crates" / crate, capture_output=True, check=False)
        now = checksum(crate)
        subprocess.run(["rsync", "-a", "--delete", "--exclude=out", "--exclude=must-fail", f"{ROOT}/crates", f"{ROOT}/crates.txt", f"{copy}/"], check=True)
        with open(state / f"{crate}.out", "w") as out:
            passed = subprocess.run(["rt", "check"], cwd=copy / "crates" / crate, stdout=out, stderr=subprocess.STDOUT, check=False).returncode == 0
        if passed:
            (state / f"{crate}.ok").write_text(now)
        with lock:
            running.discard(crate)
            done[crate] = passed
        print(f"{'ok' if passed else 'FAILED'} {crate} {time.time() - began:.0f} s", flush=True)


threads = [threading.Thread(target=work, args=(number,)) for number in range(args.lanes)]
for thread in threads:
    thread.start()
for thread in threads:
    thread.join()
failed = [crate for crate in wanted if not done.get(crate)]
print("failed or over one that failed:", ", ".join(failed) if failed else "none", f"(outputs: {state})")
raise SystemExit(bool(failed))
