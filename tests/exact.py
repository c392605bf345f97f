"""The arithmetic of transforms and curves in whole numbers, written from docs/definitions/ and not from the program.

Numbers are millionths. The scripts and the cases of this folder take their expected values from here.
"""
from math import isqrt

UNIT = 10**12
ONE = 10**6
LARGEST = 10**13


def rounded(x, y):
    """The whole number nearest to x / y, and of two equally near ones that with the greater magnitude."""
    if y < 0:
        x, y = -x, -y
    size = (2 * abs(x) + y) // (2 * y)
    return size if x >= 0 else -size


def limited(x):
    return max(-LARGEST, min(LARGEST, x))


def sine_and_cosine(angle):
    within = angle % 360_000_000
    quarter = (within + 45_000_000) // 90_000_000
    rest = within - 90_000_000 * quarter
    y = rounded(rest * 17453292519943295, 10**12)
    z = rounded(y * y, UNIT)
    t = UNIT - rounded(z, 72)
    for n in (42, 20, 6):
        t = UNIT - rounded(z * t, n * UNIT)
    sine = rounded(rounded(y * t, UNIT), ONE)
    t = UNIT - rounded(z, 90)
    for n in (56, 30, 12, 2):
        t = UNIT - rounded(z * t, n * UNIT)
    cosine = rounded(t, ONE)
    return [(sine, cosine), (cosine, -sine), (-sine, -cosine), (-cosine, sine)][quarter % 4]


def tangent(angle):
    sine, cosine = sine_and_cosine(angle)
    if cosine == 0:
        return -LARGEST if sine < 0 else LARGEST
    return limited(rounded(sine * ONE, cosine))


IDENTITY = (ONE, 0, 0, ONE, 0, 0)


def then(m, n):
    """The map m, and then the map n."""
    a, b, c, d, e, f = m
    return tuple(map(limited, (
        rounded(a * n[0] + b * n[2], ONE),
        rounded(a * n[1] + b * n[3], ONE),
        rounded(c * n[0] + d * n[2], ONE),
        rounded(c * n[1] + d * n[3], ONE),
        rounded(e * n[0] + f * n[2], ONE) + n[4],
        rounded(e * n[1] + f * n[3], ONE) + n[5],
    )))


def turn(angle):
    sine, cosine = sine_and_cosine(angle)
    return (cosine, sine, -sine, cosine, 0, 0)


def transform(a=(0, 0), p=(0, 0), s=(100 * ONE, 100 * ONE), r=0, sk=0, sa=0):
    """By minus the anchor point, scaled, skewed, turned, and moved to the position."""
    m = then((ONE, 0, 0, ONE, -a[0], -a[1]), (rounded(s[0], 100), 0, 0, rounded(s[1], 100), 0, 0))
    if sk != 0:
        for n in (turn(sa), (ONE, 0, -tangent(sk), ONE, 0, 0), turn(-sa)):
            m = then(m, n)
    return then(then(m, turn(r)), (ONE, 0, 0, ONE, p[0], p[1]))


def blossom(curve, n, u, v, w):
    weights = (
        (n - u) * (n - v) * (n - w),
        u * (n - v) * (n - w) + (n - u) * v * (n - w) + (n - u) * (n - v) * w,
        u * v * (n - w) + u * (n - v) * w + (n - u) * v * w,
        u * v * w,
    )
    return tuple(limited(rounded(sum(weights[j] * curve[j][i] for j in range(4)), n**3)) for i in (0, 1))


def curve_between(p, to, ti, q):
    """The cubic curve of a keyframe at p with its tangents, to the next at q."""
    return (p, tuple(limited(p[i] + to[i]) for i in (0, 1)), tuple(limited(q[i] + ti[i]) for i in (0, 1)), q)


def along(curve, f):
    """The point at f millionths of the length of the curve, by 128 chords."""
    f = max(0, min(ONE, f))
    ends = [blossom(curve, 128, k, k, k) for k in range(129)]
    lengths = [isqrt(sum((ends[k + 1][i] - ends[k][i])**2 for i in (0, 1))) for k in range(128)]
    total, before = sum(lengths), 0
    for k, length in enumerate(lengths):
        if (before + length) * ONE >= f * total:
            break
        before += length
    p, q = ends[k], ends[k + 1]
    if length == 0:
        return p
    return tuple(limited(p[i] + rounded((q[i] - p[i]) * (f * total - ONE * before), ONE * length)) for i in (0, 1))


def eased(o, i, num, den):
    """The fraction of the change by the handles (x, y) at num / den of the time, on the grid of 65536 steps."""
    n = 65536

    def curve(a, b, g):
        return 3 * g * (n - g)**2 * a + 3 * g * g * (n - g) * b + g**3 * ONE

    g = next(g for g in range(n + 1) if curve(o[0], i[0], g) * den >= num * n**3 * ONE)
    return rounded(curve(o[1], i[1], g), n**3)


def printed(v, digits):
    """A number of millionths with at most so many decimals."""
    v = rounded(v, 10**(6 - digits))
    whole, part = divmod(abs(v), 10**digits)
    decimals = f"{part:0{digits}d}".rstrip("0")
    return ("-" if v < 0 else "") + str(whole) + ("." + decimals if decimals else "")
