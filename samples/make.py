#!/usr/bin/env python3
"""Writes the thermal models of three lens barrels for `soak`; docs/SAMPLES.md describes them.

    samples/make.py FOLDER      a folder for each barrel, with conductance.mtx, capacity.txt, start.txt, heating.txt, ramp.txt where
                                there is one, spacer.json, cells.txt and parts.txt for the pictures, and arguments, the words that
                                soak wants; where there is a mount also mount.mtx, and the words name joined.mtx, which soak join
                                is to make of the two; where there are phases also stages.csv, a schedule, with the vectors that it
                                names; where a day is logged also room.csv, its records, with losses.txt, what the level multiplies,
                                midnight.txt, the field at its start, and log-arguments; prints the folders. barrels.csv beside
                                them is the table of all barrels for soak rotate

A barrel is a body of revolution, tiled by parts that are rings or discs; a part is divided into cells. Lengths are whole micrometres
here, so that cells which touch are found by equal numbers, and metres in every formula. All else is in SI units.
"""

import json
import math
import os
import sys
from collections import defaultdict
from dataclasses import dataclass, replace

MICROMETRE = 1e-6


@dataclass(frozen=True)
class Material:
    kind: str
    conductivity: float  # W/(m K)
    density: float  # kg/m^3
    specific_heat: float  # J/(kg K)
    expansion: float = 0.0  # 1/K


ALUMINIUM = Material("metal", 167.0, 2700.0, 896.0, 23.6e-6)
N_BK7 = Material("glass", 1.114, 2510.0, 858.0, 7.1e-6)
N_SF6 = Material("glass", 0.96, 3370.0, 690.0, 9.0e-6)
AIR = Material("air", 0.026, 1.18, 1006.0)

# What stands between two parts that touch, in m^2 K/W: 20 micrometres of cement NOA 61 at 0.2 W/(m K) between glasses, a dry seat
# between glass and metal, a screwed or pressed joint between metals; air touches.
JOINTS = {("glass", "glass"): 20e-6 / 0.2, ("glass", "metal"): 5e-4, ("metal", "metal"): 2e-4}

# From the outside to the room, convection and radiation together, in W/(m^2 K).
FILM = 8.0


@dataclass(frozen=True)
class Part:
    """A ring from radius r[0] to r[1] and height z[0] to z[1], in nr times nz cells; power in W, its growth in W/s."""

    name: str
    material: Material
    r: tuple
    z: tuple
    nr: int
    nz: int
    power: float = 0.0
    ramp: float = 0.0


@dataclass(frozen=True)
class Mount:
    """A clamp around the wall from height z[0] to z[1]: the wall's cells there pass heat to its foot, which has the room's temperature."""

    z: tuple
    contact: float  # m^2 K/W between the wall and the clamp
    foot: float  # W/K from the clamp to the room


@dataclass(frozen=True)
class Phase:
    """A stage of a schedule: every part's power times a share."""

    name: str
    tau: float
    share: float
    solver: str


@dataclass(frozen=True)
class Day:
    """A logged day without light or lamp: a record every so many seconds, and a cell to look at, on the axis in the middle of a part."""

    every: int
    window: int  # records
    part: str


@dataclass(frozen=True)
class Barrel:
    name: str
    parts: tuple
    tau: float
    start: float  # K above the room, everywhere
    mount: Mount = None
    phases: tuple = ()
    day: Day = None


@dataclass(frozen=True)
class Cell:
    part: Part
    r: tuple
    z: tuple

    def middle_radius(self):
        return (self.r[0] + self.r[1]) / 2 * MICROMETRE

    def height(self):
        return (self.z[1] - self.z[0]) * MICROMETRE

    def volume(self):
        return ring_area(*self.r) * self.height()

    def capacity(self):
        return self.part.material.density * self.part.material.specific_heat * self.volume()

    def share(self):
        """Of the part's volume."""
        return self.volume() / (ring_area(*self.part.r) * (self.part.z[1] - self.part.z[0]) * MICROMETRE)

    def radial_resistance(self, radius, height):
        """From the middle to the face at a radius, over a height in metres."""
        return abs(math.log(radius / self.middle_radius())) / (2 * math.pi * height * self.part.material.conductivity)

    def axial_resistance(self, area):
        """From the middle to an end face, over an area."""
        return self.height() / 2 / (area * self.part.material.conductivity)


def ring_area(inner, outer):
    return math.pi * (outer**2 - inner**2) * MICROMETRE**2


def cuts(ends, count):
    """Equal pieces, their ends rounded to whole micrometres."""
    first, last = ends
    places = [first + round((last - first) * k / count) for k in range(count + 1)]
    return list(zip(places, places[1:]))


def cells_of(barrel):
    return [Cell(part, r, z) for part in barrel.parts for z in cuts(part.z, part.nz) for r in cuts(part.r, part.nr)]


def check_tiled(barrel):
    """The parts fill the barrel: their volumes, in whole numbers, add up to its volume."""
    volume = sum((part.r[1] ** 2 - part.r[0] ** 2) * (part.z[1] - part.z[0]) for part in barrel.parts)
    whole = max(part.r[1] for part in barrel.parts) ** 2 * max(part.z[1] for part in barrel.parts)
    if volume != whole:
        sys.exit(f"{barrel.name}: the parts do not fill the barrel")


def joint(a, b):
    if a.part is b.part:
        return 0.0
    return JOINTS.get(tuple(sorted((a.part.material.kind, b.part.material.kind))), 0.0)


def overlap(a, b):
    return max(a[0], b[0]), min(a[1], b[1])


def touching(cells, axis):
    """Pairs of cells of which the first ends, along r or z, where the second begins, and the range of the other axis they share."""
    other = "z" if axis == "r" else "r"
    beginning = defaultdict(list)
    for j, cell in enumerate(cells):
        beginning[getattr(cell, axis)[0]].append(j)
    for i, cell in enumerate(cells):
        for j in beginning[getattr(cell, axis)[1]]:
            low, high = overlap(getattr(cell, other), getattr(cells[j], other))
            if low < high:
                yield i, j, (low, high)


def radial_links(cells):
    for i, j, (low, high) in touching(cells, "r"):
        a, b = cells[i], cells[j]
        radius, height = a.r[1] * MICROMETRE, (high - low) * MICROMETRE
        between = joint(a, b) / (2 * math.pi * radius * height)
        yield i, j, 1 / (a.radial_resistance(radius, height) + between + b.radial_resistance(radius, height))


def axial_links(cells):
    for i, j, (low, high) in touching(cells, "z"):
        a, b = cells[i], cells[j]
        area = ring_area(low, high)
        yield i, j, 1 / (a.axial_resistance(area) + joint(a, b) / area + b.axial_resistance(area))


def losses(cells):
    """Conductances to the room: of the outer wall, and of both end planes."""
    outer, end = max(cell.r[1] for cell in cells), max(cell.z[1] for cell in cells)
    for i, cell in enumerate(cells):
        if cell.r[1] == outer:
            radius, height = outer * MICROMETRE, cell.height()
            yield i, 1 / (cell.radial_resistance(radius, height) + 1 / (FILM * 2 * math.pi * radius * height))
        for plane, place in ((cell.z[0], 0), (cell.z[1], end)):
            if plane == place:
                area = ring_area(*cell.r)
                yield i, 1 / (cell.axial_resistance(area) + 1 / (FILM * area))


def conductance(cells):
    """A, row by row: a link between two cells counts on the diagonal of both, a loss on that of its cell."""
    rows = [defaultdict(float) for _ in cells]
    for links in (radial_links(cells), axial_links(cells)):
        for i, j, g in links:
            rows[i][i] += g
            rows[j][j] += g
            rows[i][j] -= g
            rows[j][i] -= g
    for i, g in losses(cells):
        rows[i][i] += g
    return rows


def mount_conductance(barrel, cells):
    """The mount's matrix, over the same rows. The clamp stores no heat: what the wall's cells pass into it, cell i through g_i, it passes on
    at once to the others and to the foot. So row i has g_i on the diagonal, and in each column j of such a cell -g_i g_j / (sum of all g
    and the foot)."""
    outer = max(cell.r[1] for cell in cells)
    into = {}
    for i, cell in enumerate(cells):
        low, high = overlap(cell.z, barrel.mount.z)
        if cell.r[1] == outer and low < high:
            radius, height = outer * MICROMETRE, (high - low) * MICROMETRE
            between = barrel.mount.contact / (2 * math.pi * radius * height)
            into[i] = 1 / (cell.radial_resistance(radius, height) + between)
    whole = sum(into.values()) + barrel.mount.foot
    rows = [{} for _ in cells]
    for i, g in into.items():
        rows[i] = {j: (g if i == j else 0.0) - g * h / whole for j, h in into.items()}
    return rows


def write_matrix(path, rows):
    with open(path, "w") as file:
        file.write("%%MatrixMarket matrix coordinate real general\n% conductances in W/K\n")
        file.write(f"{len(rows)} {len(rows)} {sum(len(row) for row in rows)}\n")
        for i, row in enumerate(rows):
            for j in sorted(row):
                file.write(f"{i + 1} {j + 1} {row[j]!r}\n")


def write_vector(path, comment, numbers):
    with open(path, "w") as file:
        file.write(f"# {comment}\n")
        file.writelines(f"{x!r}\n" for x in numbers)


def write_schedule(place, barrel, cells):
    """A line for each phase, and the power of each that has one."""
    if not barrel.phases:
        return
    with open(place("stages.csv"), "w") as file:
        file.write("name,tau,solver,vectors\n")
        for phase in barrel.phases:
            vectors = f"{phase.name}.txt" if phase.share else ""
            file.write(f"{phase.name},{phase.tau:g},{phase.solver},{vectors}\n")
            if vectors:
                numbers = [phase.share * cell.part.power * cell.share() / cell.capacity() for cell in cells]
                write_vector(place(vectors), f"power of {phase.name} divided by heat capacity in K/s", numbers)


def room(hour):
    """The air of a workshop in winter, in K above 20 degrees: the heating is off at night and comes on at 6, sun and people warm the day, and
    from 12:30 to 13:00 the door stands open."""
    if hour < 6:
        return -1.0 - 0.5 * hour
    if hour < 8:
        return -4.0 + 2.25 * (hour - 6)
    if hour < 18:
        warm = 0.5 + 1.5 * math.sin(math.pi * (hour - 8) / 10)
        return warm - 6.0 if 12.5 <= hour < 13 else warm
    return 0.5 - 0.25 * (hour - 18)


def day_node(barrel, cells):
    """The row, from 1, of the part's cell on the axis nearest to its middle."""
    (part,) = [part for part in barrel.parts if part.name == barrel.day.part]
    middle = sum(part.z) / 2
    axis = [i for i, cell in enumerate(cells) if cell.part is part and cell.r[0] == 0]
    return 1 + min(axis, key=lambda i: abs(sum(cells[i].z) / 2 - middle))


def write_day(place, barrel, cells, capacity):
    """The records of a day, each with the room's temperature in its middle, to three digits as a logger gives them."""
    day = barrel.day
    if day is None:
        return
    with open(place("room.csv"), "w") as file:
        file.write("# the room from midnight on: seconds, and K above 20 degrees\nduration,level\n")
        for begin in range(0, 86400, day.every):
            file.write(f"{day.every},{room((begin + day.every / 2) / 3600):.3f}\n")
    into = [0.0] * len(cells)
    for i, g in losses(cells):
        into[i] += g
    write_vector(place("losses.txt"), "conductances to the room divided by heat capacity in 1/s", [g / c for g, c in zip(into, capacity)])
    write_vector(place("midnight.txt"), "temperatures at midnight in K above 20 degrees: the room's", [room(0)] * len(cells))
    words = ["conductance.mtx", "--mass", "capacity.txt", "--field", "midnight.txt", "--load", "losses.txt", "--records", "room.csv"]
    words += ["--node", str(day_node(barrel, cells)), "--window", str(day.window)]
    with open(place("log-arguments"), "w") as file:
        file.write(" ".join(words) + "\n")


def write_spacer(path, barrel, cells):
    """The spacer's cells, counted from 1, with their shares of its volume."""
    (part,) = [part for part in barrel.parts if part.name == "spacer"]
    shares = {i + 1: cell.share() for i, cell in enumerate(cells) if cell.part is part}
    thickness = (part.z[1] - part.z[0]) * MICROMETRE
    with open(path, "w") as file:
        json.dump({"thickness": thickness, "expansion": part.material.expansion, "shares": shares}, file, indent=1)


def write_boxes(path, boxes):
    """Radius and height of each, from and to, in millimetres, and a name if it has one."""
    with open(path, "w") as file:
        file.write("# r0/mm r1/mm z0/mm z1/mm\n")
        for box, name in boxes:
            file.write(" ".join([f"{x / 1000:g}" for x in (*box.r, *box.z)] + name) + "\n")


def write_barrel(folder, barrel):
    """The folder of a barrel, and its line of barrels.csv."""
    check_tiled(barrel)
    cells = cells_of(barrel)
    capacity = [cell.capacity() for cell in cells]
    os.makedirs(folder, exist_ok=True)

    def place(name):
        return os.path.join(folder, name)

    write_matrix(place("conductance.mtx"), conductance(cells))
    if barrel.mount is not None:
        write_matrix(place("mount.mtx"), mount_conductance(barrel, cells))
    write_vector(place("capacity.txt"), "heat capacities in J/K", capacity)
    write_vector(place("start.txt"), "temperatures above the room at the start in K", [barrel.start] * len(cells))
    vectors = ["start.txt"]
    for name, comment, of in (
        ("heating.txt", "power divided by heat capacity in K/s", lambda part: part.power),
        ("ramp.txt", "growth of the power divided by heat capacity in K/s^2", lambda part: part.ramp),
    ):
        numbers = [of(cell.part) * cell.share() / c for cell, c in zip(cells, capacity)]
        if any(numbers):
            write_vector(place(name), comment, numbers)
            vectors.append(name)
    write_schedule(place, barrel, cells)
    write_day(place, barrel, cells, capacity)
    write_spacer(place("spacer.json"), barrel, cells)
    write_boxes(place("cells.txt"), [(cell, []) for cell in cells])
    write_boxes(place("parts.txt"), [(part, [part.name]) for part in barrel.parts])
    matrix = "conductance.mtx" if barrel.mount is None else "joined.mtx"
    words = [matrix, "--mass", "capacity.txt", "--tau", f"{barrel.tau:g}"]
    words += [word for name in vectors for word in ("--vector", name)]
    words += ["--points", "cells.txt", "--outline", "parts.txt"]
    with open(place("arguments"), "w") as file:
        file.write(" ".join(words) + "\n")
    files = [f"{barrel.name}/{name}" for name in (matrix, "capacity.txt", *vectors)]
    return f"{barrel.name},{files[0]},{files[1]},{';'.join(files[2:])},{barrel.tau:g}\n"


def mm(first, last):
    return round(first * 1000), round(last * 1000)


RELAY = Barrel(
    "relay-35mm",
    (
        Part("wall", ALUMINIUM, mm(10, 12), mm(0, 35), 1, 7),
        Part("air before", AIR, mm(0, 10), mm(0, 4), 3, 1),
        Part("first lens", N_BK7, mm(0, 9), mm(4, 9), 4, 3, power=0.3),
        Part("first cell", ALUMINIUM, mm(9, 10), mm(4, 9), 1, 2),
        Part("spacer", ALUMINIUM, mm(9, 10), mm(9, 26), 1, 4),
        Part("air gap", AIR, mm(0, 9), mm(9, 26), 3, 5),
        Part("second lens", N_BK7, mm(0, 9), mm(26, 31), 4, 3),
        Part("second cell", ALUMINIUM, mm(9, 10), mm(26, 31), 1, 2),
        Part("air behind", AIR, mm(0, 10), mm(31, 35), 3, 1),
    ),
    tau=1800.0,
    start=15.0,
    # An hour of records every five minutes: how far the lens moved in it.
    day=Day(300, 12, "first lens"),
)

COLLIMATOR = Barrel(
    "collimator-90mm",
    (
        Part("wall", ALUMINIUM, mm(22, 25), mm(0, 90), 1, 18),
        Part("lamp plate", ALUMINIUM, mm(0, 22), mm(0, 6), 4, 1, power=1.5),
        Part("spacer", ALUMINIUM, mm(20, 22), mm(6, 72), 1, 13),
        Part("air gap", AIR, mm(0, 20), mm(6, 72), 8, 22),
        Part("crown lens", N_BK7, mm(0, 20), mm(72, 80), 12, 8),
        Part("flint lens", N_SF6, mm(0, 20), mm(80, 84), 12, 5),
        Part("lens cell", ALUMINIUM, mm(20, 22), mm(72, 84), 1, 3),
        Part("air before", AIR, mm(0, 20), mm(84, 90), 8, 3),
        Part("retaining ring", ALUMINIUM, mm(20, 22), mm(84, 90), 1, 2),
    ),
    tau=1800.0,
    start=0.0,
    # The lamp at twice its power, at its power, and off.
    phases=(Phase("warm-up", 600.0, 2.0, "krylov"), Phase("hold", 1800.0, 1.0, "krylov"), Phase("cool-down", 900.0, 0.0, "taylor")),
)

# The same on a bench: a clamp of 25 mm around the wall, pressed as a joint between metals is.
COLLIMATOR_ON_MOUNT = replace(COLLIMATOR, name="collimator-mount", mount=Mount(mm(15, 40), contact=2e-4, foot=0.5), phases=())

ZOOM = Barrel(
    "zoom-two-groups",
    (
        Part("wall", ALUMINIUM, mm(28, 32), mm(0, 140), 1, 28),
        Part("air behind", AIR, mm(0, 28), mm(0, 20), 10, 8),
        Part("moving cell", ALUMINIUM, mm(16, 28), mm(20, 34), 3, 3, power=3.0, ramp=0.004),
        Part("moving flint lens", N_SF6, mm(0, 16), mm(20, 24), 28, 6),
        Part("moving crown lens", N_BK7, mm(0, 16), mm(24, 34), 28, 14),
        Part("spacer", ALUMINIUM, mm(26, 28), mm(34, 90), 1, 11),
        Part("air gap", AIR, mm(0, 26), mm(34, 90), 11, 24),
        Part("front flint lens", N_SF6, mm(0, 25), mm(90, 95), 44, 8),
        Part("front crown lens", N_BK7, mm(0, 25), mm(95, 110), 44, 20),
        Part("front cell", ALUMINIUM, mm(25, 28), mm(90, 110), 1, 4),
        Part("air before", AIR, mm(0, 28), mm(110, 140), 12, 14),
    ),
    tau=600.0,
    start=-4.0,
)

BARRELS = (RELAY, COLLIMATOR, COLLIMATOR_ON_MOUNT, ZOOM)


def main():
    if len(sys.argv) != 2:
        sys.exit(__doc__)
    lines = ["name,matrix,mass,vectors,tau\n"]
    for barrel in BARRELS:
        folder = os.path.join(sys.argv[1], barrel.name)
        lines.append(write_barrel(folder, barrel))
        print(folder)
    with open(os.path.join(sys.argv[1], "barrels.csv"), "w") as file:
        file.writelines(lines)


if __name__ == "__main__":
    main()
