"""The stops and the text of gradients, in whole numbers, written from docs/definitions/ and not from the program.

A list of stops has pairs of an offset and a tuple of values; a merged stop is an offset, red, green, blue and an alpha.
"""
from math import isqrt

from exact import ONE, limited, printed, rounded, turn

LINEAR, RADIAL = 1, 2


def fraction(v):
    return max(0, min(ONE, v))


def list_of_stops(numbers, size):
    """The stops of a flat list in which each has an offset and values: no offset is below one before it."""
    stops = [numbers[k:k + size] for k in range(0, len(numbers), size)]
    return [(max(fraction(before[0]) for before in stops[:n + 1]), tuple(map(fraction, stop[1:])))
            for n, stop in enumerate(stops)]


def value_at(stops, x):
    """The values of a list of stops at the offset x."""
    if x < stops[0][0]:
        return stops[0][1]
    j = max(n for n, (offset, _) in enumerate(stops) if offset <= x)
    if j + 1 == len(stops):
        return stops[j][1]
    (low, v), (high, w) = stops[j], stops[j + 1]
    return tuple(a + rounded((b - a) * (x - low), high - low) for a, b in zip(v, w))


def merged(p, flat):
    """The stops of the flat list of a gradient of p color stops."""
    colors, alphas = list_of_stops(flat[:4 * p], 4), list_of_stops(flat[4 * p:], 2)
    stops = [(x, *color, *(value_at(alphas, x) if alphas else (ONE,))) for x, color in colors]
    stops += [(x, *value_at(colors, x), *alpha) for x, alpha in alphas if x not in [y for y, _ in colors]]
    return sorted(stops, key=lambda stop: stop[0])


def focus(s, d, h, a):
    """The focus of a radial gradient with the center s and the radius d, at h per cent of it, turned by a."""
    cosine, sine, minus_sine, _, _, _ = turn(a)
    turned = (limited(rounded(d[0] * cosine + d[1] * minus_sine, ONE)), limited(rounded(d[0] * sine + d[1] * cosine, ONE)))
    by = rounded(max(-99 * ONE, min(99 * ONE, h)), 100)
    return tuple(limited(s[i] + rounded(by * turned[i], ONE)) for i in (0, 1))


# ---- text

def attributes(names, values):
    return "".join(f' {name}="{printed(v, 3)}"' for name, v in zip(names.split(), values))


def ink(rgb):
    return "#" + "".join(f"{rounded(fraction(v) * 255, ONE):02x}" for v in rgb)


def definition(number, kind, s, e, h, a, stops):
    """The text of a gradient with the identifier of this number."""
    head = f' id="i{number}" gradientUnits="userSpaceOnUse"'
    if kind == LINEAR:
        element, places = "linearGradient", attributes("x1 y1 x2 y2", s + e)
    else:
        d = tuple(limited(e[i] - s[i]) for i in (0, 1))
        radius = limited(isqrt(d[0]**2 + d[1]**2))
        element, places = "radialGradient", attributes("cx cy r fx fy", (*s, radius, *focus(s, d, h, a)))
    lines = [f'<stop offset="{printed(x, 6)}" stop-color="{ink(rgb)}" stop-opacity="{printed(alpha, 6)}"/>\n'
             for x, *rgb, alpha in stops]
    return f"<{element}{head}{places}>\n" + "".join(lines) + f"</{element}>\n"
