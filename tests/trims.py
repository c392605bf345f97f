"""What a trim leaves of outlines, in whole numbers, written from docs/definitions/shapes.md and not from the program.

An outline is a list of contours. A contour is whether it is closed, its start, and its segments (c1, c2, end); a cubic is
a segment with its start before it. Lengths are in millionths of a pixel, intervals are pairs of lengths of a run.
"""
from functools import cache
from itertools import accumulate
from math import isqrt

from exact import ONE, blossom, rounded

CHORDS = 64
STEPS = 65_536
MAX_LENGTH = 10**30


def sums(lengths):
    """The sums of the first 0, 1, 2 and so on of the lengths."""
    return list(accumulate(lengths, lambda a, b: min(a + b, MAX_LENGTH), initial=0))


def cubics(contour):
    _, start, segs = contour
    return [(at, *seg) for at, seg in zip([start] + [end for _, _, end in segs], segs)]


@cache
def chords(cubic):
    points = [blossom(cubic, CHORDS, k, k, k) for k in range(CHORDS + 1)]
    return [isqrt(sum((q[i] - p[i])**2 for i in (0, 1))) for p, q in zip(points, points[1:])]


def ends(contour):
    """The lengths at which the segments of a contour begin, and that at which the last one ends."""
    return sums(sums(chords(cubic))[-1] for cubic in cubics(contour))


def parameter(cubic, x):
    """The step of 65,536 at which a cubic has the length x."""
    by = sums(chords(cubic))
    if x == 0:
        return 0
    if x == by[-1]:
        return STEPS
    k = next(k for k, length in enumerate(by) if length >= x)
    return 1024 * (k - 1) + rounded(1024 * (x - by[k - 1]), chords(cubic)[k - 1])


def part(cubic, x, y):
    """The part of a cubic from the length x to the length y."""
    g, h = parameter(cubic, x), parameter(cubic, y)
    return tuple(blossom(cubic, STEPS, *at) for at in ((g, g, g), (g, g, h), (g, h, h), (h, h, h)))


def parts(contour, at, interval):
    """The parts within an interval of the segments of a contour that begins at a length of its run."""
    inside = [(max(interval[0] - at, b), min(interval[1] - at, c)) for b, c in zip(ends(contour), ends(contour)[1:])]
    return [part(cubic, x - b, y - b) for cubic, b, (x, y) in zip(cubics(contour), ends(contour), inside) if x < y]


def left(contour, at, intervals):
    """The contours that are left of a contour that begins at a length of its run."""
    length = ends(contour)[-1]
    if length == 0:
        return []
    if any(low <= at and at + length <= high for low, high in intervals):
        return [contour]
    pieces = [parts(contour, at, interval) for interval in intervals]
    if contour[0]:
        pieces = [sum(pieces, [])]
    return [(False, piece[0][0], [tuple(cubic[1:]) for cubic in piece]) for piece in pieces if piece]


def run(outlines, bounds):
    """What is left of outlines that are one run, whose intervals have these bounds in fractions of its length."""
    starts = sums(ends(contour)[-1] for outline in outlines for contour in outline)
    intervals = [tuple(rounded(x * starts[-1], ONE) for x in bound) for bound in bounds]
    at = iter(starts)
    return [[kept for contour in outline for kept in left(contour, next(at), intervals)] for outline in outlines]


def trimmed(mode, s, e, o, outlines):
    low, high = sorted(rounded(max(0, min(100 * ONE, x)), 100) for x in (s, e))
    width = high - low
    if width == 0:
        return [[] for _ in outlines]
    if width == ONE:
        return outlines
    a = (low + rounded(o, 360)) % ONE
    bounds = [(a, a + width)] if a + width <= ONE else [(a, ONE), (0, a + width - ONE)]
    return run(outlines, bounds) if mode == 2 else [run([outline], bounds)[0] for outline in outlines]
