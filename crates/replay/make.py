#!/usr/bin/env python3
"""Writes `stdin`, the list of answers that this program replays, and `stdout`, what it prints where none differs.

    crates/replay/make.py

asks the Rust original through differential/run, so the Rust sources have to be at hand (differential/README.md); a word
behind it names a driver that is built already (differential/target/release/differential). The
jobs of the first section are those of differential/replay.jobs and differential/paths.jobs, of the second those of
differential/documents.jobs. Taylor without a shift is answered by the Rust as it is, shifted Taylor and Krylov by the
Rust with document 01's last three items transcribed. Where the comment above a job ends in ': NUMBER', that has to be
the answer's number. Nothing of the proved library is asked.

The third section needs no Rust: phi_k(z) for k from 0 to 3, as the jobs with n = 1, A = -z, tau = 1 and one vector 1.
phi_0(z) = e^z, phi_k(z) = (phi_{k-1}(z) - 1/(k-1)!) / z and phi_k(0) = 1/k! (Niesen and Wright 2012, Al-Mohy and
Higham 2011), in exact fractions from published digits of e^z, rounded once to the nearest double.

The form of the list. All numbers have their lowest byte first. A section is a count (4 bytes) and that many records. A
record is 23 words of 8 bytes, the head, and the body. The words:

     0 call: combination 0, action 1, batched 2, krylov 3      1 n      2 whether there is a mass      3 tau
     4 count      5 tol      6 m, of a Taylor call the highest degree of its plan      7 limit
     8 to 13 where in the body starts, cols, vals, mass, w and the output expected end, in bytes; the body ends there
    14 the length of the working memory, in bytes      15 how many bytes of it are cleared
    16 number      17 value      18 to 20 counts      21 and 22 the shortest and the last step, 0 of a Taylor call

Output and working memory hold bytes of 90 before a call, and where the answer leaves them alone.
"""
import pathlib
import struct
import subprocess
import sys
import tempfile
from decimal import Decimal
from fractions import Fraction
from math import factorial

HERE = pathlib.Path(__file__).resolve().parent
DIFFERENTIAL = HERE.parent.parent / "differential"
MARK = bytes([90]) * 8
# A job of paths.jobs with 41 rows takes 20 seconds.
ROWS = 32
CALLS = {"combination": 0, "action": 1, "batched": 2, "krylov": 3}

# e^z to 40 digits (e is OEIS A001113, 1/e is A068985); held to the series below
EXPONENTIALS = {
    Fraction(0): "1",
    Fraction(1): "2.718281828459045235360287471352662497757",
    Fraction(-1): "0.3678794411714423215955237701614608674458",
    Fraction(1, 2): "1.648721270700128146848650787814163571654",
    Fraction(-1, 2): "0.6065306597126334236037995349911804534419",
    Fraction(2): "7.389056098930650227230427460575007813180",
    Fraction(-2): "0.1353352832366126918939994949724844034076",
    Fraction(5): "148.4131591025766034211155800405522796235",
    Fraction(-5): "0.006737946999085467096636048423148424248850",
}


def fields(line):
    return dict(word.split("=", 1) for word in line.split("#")[0].split())


def numbers(text, size, base):
    """A list as bytes, each element of the size."""
    return b"".join(int(x, base).to_bytes(size, "little") for x in text.split(",") if x)


def elements(text):
    """The elements of an answer's list, as bytes."""
    out = []
    for word in text.split(","):
        if word:
            value, _, times = word.partition("*")
            out += [MARK if value == "." else numbers(value, 8, 16)] * int(times or 1)
    return out


def record(job, number, value, counts, steps, out, cleared):
    """The record of a job, its fields as text; `out` is the output expected, `cleared` the bytes of memory cleared."""
    mass = job["mass"]
    parts = [
        numbers(job["starts"], 4, 10),
        numbers(job["cols"], 4, 10),
        numbers(job["vals"], 8, 16),
        b"" if mass == "none" else numbers(mass, 8, 16),
        numbers(job["w"], 8, 16),
        out,
    ]
    ends = [sum(map(len, parts[: i + 1])) for i in range(len(parts))]
    head = [
        CALLS[job["call"]],
        int(job["n"]),
        int(mass != "none"),
        int(job["tau"], 16),
        int(job["count"]),
        int(job.get("tol", "0"), 16),
        int(job.get("m", job.get("degree", 30))),
        int(job.get("limit", 0)),
    ]
    head += ends + [8 * int(job["work"]), cleared, number, value] + counts + steps
    return struct.pack("<23Q", *head) + b"".join(parts)


def read(name):
    """The jobs of a file, each with the number that the comment above it says, if it says one."""
    jobs, said = [], None
    for line in (DIFFERENTIAL / name).read_text().splitlines():
        if line.startswith("call="):
            jobs.append((line, said))
            said = None
        elif line.startswith("#"):
            last = line.rpartition(": ")[2]
            said = int(last) if ": " in line and last.isdigit() else None
    return jobs


def ask(tool, lines, side):
    """The answers of one side, by job."""
    with tempfile.NamedTemporaryFile("w", suffix=".jobs") as file:
        file.write("\n".join(lines) + "\n")
        file.flush()
        done = subprocess.run([tool, "replay", file.name, "--side", side], check=True, capture_output=True, text=True)
    answers = [fields(line) for line in done.stdout.splitlines()]
    assert len(answers) == len(lines)
    return dict(zip(lines, answers))


def replayed(jobs, transcribed, rust):
    records = []
    for line, said in jobs:
        job, answer = fields(line), transcribed[line]
        shifted = answer["number"] == "0" and int(answer["value"], 16) % 2**63 != 0
        if job["call"] != "krylov" and not shifted:
            answer = rust[line]
        number = int(answer["number"])
        assert said is None or said == number, line
        memory = elements(answer["work"])
        cleared = memory.count(bytes(8))
        assert memory == [bytes(8)] * cleared + [MARK] * (len(memory) - cleared), line
        counts = [int(x) for x in answer["counts"].split(",")]
        steps = [int(x, 16) for x in answer["steps"].split(",")]
        out = b"".join(elements(answer["out"]))
        records.append(record(job, number, int(answer["value"], 16), counts, steps, out, 8 * cleared))
    return records


def bits(x):
    return struct.pack(">d", x).hex()


def exponential(z):
    """The published digits, which the sum of z^j/j! has to have."""
    value = Fraction(Decimal(EXPONENTIALS[z]))
    error = value - sum(z**j / Fraction(factorial(j)) for j in range(100))
    assert abs(error) < value / 10**38, z
    return value


def phi(k, z):
    """The nearest double to phi_k(z)."""
    if z == 0:
        return 1 / factorial(k)
    value = exponential(z)
    for j in range(k):
        value = (value - Fraction(1, factorial(j))) / z
    return value.numerator / value.denominator


def published():
    records = []
    for z in EXPONENTIALS:
        for k in range(4):
            basis = ",".join([bits(0.0)] * k + [bits(1.0)])
            m = max(2, 1 + k)
            krylov = 1 + (m + 3) * (1 + k) + (m + 2) ** 2
            for call, count, w, length, work in [
                ("action", k, bits(1.0), 1, 9),
                ("batched", k, bits(1.0), k + 1, 9),
                ("combination", k + 1, basis, 1, 3 + 2 * k),
                ("krylov", k + 1, basis, 1, krylov),
            ]:
                job = {"call": call, "n": 1, "starts": "0,1", "cols": "0", "vals": bits(0.0 - float(z)), "mass": "none"}
                job |= {"tau": bits(1.0), "count": count, "w": w, "work": work, "tol": bits(1e-14), "m": 30, "limit": 100}
                out = MARK * (length - 1) + struct.pack("<d", phi(k, z))
                records.append(record(job, 0, 0, [0, 0, 0], [0, 0], out, 8 * work))
    return records


def main():
    tool = sys.argv[1] if len(sys.argv) > 1 else str(DIFFERENTIAL / "run")
    oracle, boundary = read("replay.jobs") + read("paths.jobs"), read("documents.jobs")
    oracle = [(line, said) for line, said in oracle if int(fields(line)["n"]) <= ROWS]
    lines = list(dict.fromkeys(line for line, _ in oracle + boundary))
    transcribed = ask(tool, lines, "transcribed")
    rust = ask(tool, [line for line in lines if not line.startswith("call=krylov")], "rust")
    sections = [replayed(oracle, transcribed, rust), replayed(boundary, transcribed, rust), published()]
    (HERE / "stdin").write_bytes(b"".join(struct.pack("<I", len(s)) + b"".join(s) for s in sections))
    names = ["answers of the Rust", "boundary jobs", "published values", "in all"]
    counts = [len(s) for s in sections]
    told = [f"{name}: {count} replayed, 0 different\n" for name, count in zip(names, counts + [sum(counts)])]
    # document 01: m 128 accepted, 129 refused, by 20
    (HERE / "stdout").write_text("".join(told) + "n = 200: m 128 gives 0, m 129 gives 20\n")


main()
