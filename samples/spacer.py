#!/usr/bin/env python3
"""The change of a spacer's thickness: expansion coefficient times thickness times its mean temperature above the room.

    samples/spacer.py SPACER.json FIELD.txt       prints it in micrometres
"""

import json
import sys


def read_numbers(path):
    with open(path) as file:
        return [float(line) for line in file if line.strip() and line[0] not in "#%"]


def spacer_change(path, field):
    """In metres; the mean is weighed by the cells' shares of the spacer's volume."""
    with open(path) as file:
        spacer = json.load(file)
    mean = sum(share * field[int(row) - 1] for row, share in spacer["shares"].items())
    return spacer["expansion"] * spacer["thickness"] * mean


def main():
    if len(sys.argv) != 3:
        sys.exit(__doc__)
    print(f"{spacer_change(sys.argv[1], read_numbers(sys.argv[2])) * 1e6:+.3f}")


if __name__ == "__main__":
    main()
