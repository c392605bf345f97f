#!/usr/bin/env python3
"""Makes the cases `angles_turn_layers` and `angles_skew_layers`: frames of one layer for each of many angles.

Usage: tests/angles.py
The angles are every multiple of 15 degrees of two turns, the seams between the quarters of a turn, some about 0 and 90
degrees, and the ends of the range. A rotation writes the cosine and the sine of its angle, and a skew the tangent.
"""
import pathlib

from exact import LARGEST, printed, sine_and_cosine, tangent

CASES = pathlib.Path(__file__).resolve().parent / "cases"
HEAD = '<svg xmlns="http://www.w3.org/2000/svg" version="1.1" width="10" height="10" viewBox="0 0 10 10">\n'


def angles():
    yield from (15_000_000 * k for k in range(-24, 25))
    for seam in (45, 135, 225, 315):
        for by in (-1, 1):
            yield seam * 1_000_000 + by
            yield -(seam * 1_000_000 + by)
    yield from (1, -1, 28_647, 28_648, 28_649, 89_999_971, 89_999_972, 90_000_001, LARGEST, -LARGEST)


def turned(angle):
    sine, cosine = sine_and_cosine(angle)
    return cosine, sine, -sine, cosine, 0, 0


def skewed(angle):
    return 1_000_000, 0, -tangent(angle), 1_000_000, 0, 0


def group(matrix):
    if matrix == (1_000_000, 0, 0, 1_000_000, 0, 0):
        return "<g>"
    return '<g transform="matrix(' + " ".join(printed(v, 6) for v in matrix) + ')">'


def make(name, member, matrix_of):
    layers = [
        '{"ty":1,"ip":0,"op":60,"ks":{"' + member + '":{"k":' + printed(angle, 6) + '}},"sw":1,"sh":1,"sc":"#ff0000"}'
        for angle in angles()
    ]
    drawn = [group(matrix_of(angle)) + '\n<path fill="#ff0000" d="M0 0L1 0L1 1L0 1Z"/>\n</g>\n' for angle in angles()]
    case = CASES / name
    case.mkdir(exist_ok=True)
    (case / "args").write_text("frame\n-\n0\n")
    (case / "stdin").write_text('{"w":10,"h":10,"fr":30,"ip":0,"op":60,"layers":[' + ",\n".join(layers) + "]}\n")
    (case / "stdout").write_text(HEAD + "".join(reversed(drawn)) + "</svg>\n")


make("angles_turn_layers", "r", turned)
make("angles_skew_layers", "sk", skewed)
