#!/usr/bin/env python3
"""Writes frames of shape layers, evaluated a second time in Python's whole numbers.

Usage: tests/shapes.py DOCUMENT TIME
It is written from docs/definitions/ and not from the program: the leaves that a style paints and the trims that act on a
leaf are found by comparing places, and no pass over the items is made. `shape_cases.py` takes its expected frames from
here, and so do the pictures of ../examples.
"""
import decimal
import functools
import itertools
import json
import pathlib
import sys

import gradients
import trims
from exact import IDENTITY, ONE, along, curve_between, eased, limited, printed, rounded, sine_and_cosine, then, transform

HANDLE = 551_900


def micro(number):
    """The millionths of a number of JSON: rounded at the seventh decimal, away from 0."""
    scaled = abs(decimal.Decimal(number)) * ONE
    size = int(scaled.to_integral_value(rounding=decimal.ROUND_HALF_UP))
    return -size if decimal.Decimal(number) < 0 else size


# ---- properties

def scalar(v):
    return micro(v[0] if isinstance(v, list) else v)


def vector(v):
    return micro(v[0]), micro(v[1])


def color(v):
    return tuple(max(0, min(ONE, micro(x))) for x in v[:3])


def path(v):
    v = v[0] if isinstance(v, list) else v
    return v.get("c", False), *([vector(p) for p in v[name]] for name in ("v", "i", "o"))


def numbers(v):
    return [micro(x) for x in v]


def handle(h):
    def three(v, low, high):
        v = v if isinstance(v, list) else [v]
        return [max(low, min(high, micro(v[min(n, len(v) - 1)]))) for n in range(3)]
    return three(h["x"], 0, ONE), three(h["y"], -100 * ONE, 100 * ONE)


def mixed(of, s0, s1, part):
    """What lies between two values; `part(n, a, b)` is the number of a component n between a and b."""
    if of is scalar:
        return part(0, s0, s1)
    if of in (vector, color):
        return tuple(part(n, a, b) for n, (a, b) in enumerate(zip(s0, s1)))
    if of is numbers:
        return [part(0, a, b) for a, b in zip(s0, s1)] if len(s0) == len(s1) else s0
    if len(s0[1]) != len(s1[1]):
        return s0
    return s0[0], *([tuple(part(0, a, b) for a, b in zip(p, q)) for p, q in zip(s0[k], s1[k])] for k in (1, 2, 3))


def value(of, p, t):
    k = p["k"]
    moves = bool(p["a"]) if "a" in p else isinstance(k, list) and bool(k) and isinstance(k[0], dict) and "t" in k[0]
    if not moves:
        return of(k)
    before = [n for n, key in enumerate(k) if micro(key["t"]) <= t]
    if not before:
        return of(k[0]["s"])
    key = k[before[-1]]
    if before[-1] + 1 == len(k) or key.get("h"):
        return of(key["s"])
    next_key = k[before[-1] + 1]
    num, den = t - micro(key["t"]), micro(next_key["t"]) - micro(key["t"])

    def part(n, a, b):
        if "o" not in key or "i" not in key:
            return limited(a + rounded((b - a) * num, den))
        (ox, oy), (ix, iy) = handle(key["o"]), handle(key["i"])
        return limited(a + rounded((b - a) * eased((ox[n], oy[n]), (ix[n], iy[n]), num, den), ONE))

    s0, s1 = of(key["s"]), of(next_key["s"])
    to, ti = (vector(key.get(name, [0, 0])) for name in ("to", "ti"))
    if of is vector and (to, ti) != ((0, 0), (0, 0)):
        return along(curve_between(s0, to, ti, s1), part(0, 0, ONE))
    return mixed(of, s0, s1, part)


def member(of, x, name, t, default):
    return value(of, x[name], t) if name in x else default


def matrix(ks, t):
    if "p" in ks and ks["p"].get("s") is True:
        p = value(scalar, ks["p"]["x"], t), value(scalar, ks["p"]["y"], t)
    else:
        p = member(vector, ks, "p", t, (0, 0))
    hundred = (100 * ONE, 100 * ONE)
    return transform(member(vector, ks, "a", t, (0, 0)), p, member(vector, ks, "s", t, hundred),
                     *(member(scalar, ks, name, t, 0) for name in ("r", "sk", "sa")))


def opacity(x, t):
    return rounded(max(0, min(100 * ONE, member(scalar, x, "o", t, 100 * ONE))), 100)


# ---- outlines: a contour is whether it is closed, its start, and its segments (c1, c2, end)

def point(x, y):
    return limited(x), limited(y)


def sharp(start, *ends):
    segs, at = [], start
    for end in ends:
        segs.append((at, end, end))
        at = end
    return True, start, segs


def rectangle(x, t):
    (px, py), (sx, sy) = value(vector, x["p"], t), value(vector, x["s"], t)
    hw, hh = rounded(abs(sx), 2), rounded(abs(sy), 2)
    left, right, top, bottom = limited(px - hw), limited(px + hw), limited(py - hh), limited(py + hh)
    r = max(0, min(member(scalar, x, "r", t, 0), min(hw, hh)))
    if r == 0:
        return sharp((right, top), (right, bottom), (left, bottom), (left, top), (right, top))
    q = r - rounded(r * HANDLE, ONE)
    start = point(right, top + r)
    corners = [
        (None, None, point(right, bottom - r)),
        (point(right, bottom - q), point(right - q, bottom), point(right - r, bottom)),
        (None, None, point(left + r, bottom)),
        (point(left + q, bottom), point(left, bottom - q), point(left, bottom - r)),
        (None, None, point(left, top + r)),
        (point(left, top + q), point(left + q, top), point(left + r, top)),
        (None, None, point(right - r, top)),
        (point(right - q, top), point(right, top + q), start),
    ]
    segs, at = [], start
    for c1, c2, end in corners:
        segs.append((c1 or at, c2 or end, end))
        at = end
    return True, start, segs


def ellipse(x, t):
    (px, py), (sx, sy) = value(vector, x["p"], t), value(vector, x["s"], t)
    rx, ry = rounded(abs(sx), 2), rounded(abs(sy), 2)
    kx, ky = rounded(rx * HANDLE, ONE), rounded(ry * HANDLE, ONE)
    start = point(px, py - ry)
    return True, start, [
        (point(px + kx, py - ry), point(px + rx, py - ky), point(px + rx, py)),
        (point(px + rx, py + ky), point(px + kx, py + ry), point(px, py + ry)),
        (point(px - kx, py + ry), point(px - rx, py + ky), point(px - rx, py)),
        (point(px - rx, py - ky), point(px - kx, py - ry), start),
    ]


def polystar(x, t):
    px, py = value(vector, x["p"], t)
    n = max(3, min(1000, rounded(value(scalar, x["pt"], t), ONE)))
    outer = value(scalar, x["or"], t), member(scalar, x, "os", t, 0)
    inner = member(scalar, x, "ir", t, 0), member(scalar, x, "is", t, 0)
    rings = [outer, inner] if x["sy"] == 1 else [outer]
    count = n * len(rings)
    vertices = []
    for j in range(count):
        radius, ratio = rings[j % len(rings)]
        sine, cosine = sine_and_cosine(limited(member(scalar, x, "r", t, 0) - 90 * ONE + rounded(j * 360 * ONE, count)))
        at = point(px + rounded(radius * cosine, ONE), py + rounded(radius * sine, ONE))
        h = limited(rounded(radius * rounded(ratio, 100) * 1570796, n * 10**12))
        vertices.append((at, point(rounded(-h * sine, ONE), rounded(h * cosine, ONE))))
    segs = []
    for j, (at, tangent) in enumerate(vertices):
        end, into = vertices[(j + 1) % count]
        segs.append((point(at[0] + tangent[0], at[1] + tangent[1]), point(end[0] - into[0], end[1] - into[1]), end))
    return True, vertices[0][0], segs


def paths(x, t):
    closed, v, i, o = value(path, x["ks"], t)
    if not v:
        return []
    ends = list(range(1, len(v))) + ([0] if closed else [])
    segs = [(point(v[j][0] + o[j][0], v[j][1] + o[j][1]), point(v[k][0] + i[k][0], v[k][1] + i[k][1]), v[k])
            for j, k in enumerate(ends)]
    return [(closed, v[0], segs)]


def turned_round(contour):
    closed, start, segs = contour
    starts = [start] + [s[2] for s in segs]
    return closed, starts[-1], [(c2, c1, starts[n]) for n, (c1, c2, _) in reversed(list(enumerate(segs)))]


def contours(x, t):
    made = {"rc": lambda: [rectangle(x, t)], "el": lambda: [ellipse(x, t)], "sr": lambda: [polystar(x, t)],
            "sh": lambda: paths(x, t)}[x["ty"]]()
    return [turned_round(c) for c in made] if "d" in x and micro(x["d"]) == 3 * ONE else made


# ---- items by place

LEAVES, STYLES = ("rc", "el", "sr", "sh"), ("fl", "st", "gf", "gs")


def live(items, place=()):
    for k, x in enumerate(items):
        if x.get("hd"):
            continue
        yield place + (k,), x
        if x["ty"] == "gr":
            yield from live(x["it"], place + (k,))


def own_transform(group):
    return next((x for x in group["it"] if x["ty"] == "tr" and not x.get("hd")), None)


def group_matrix(group, t):
    tr = own_transform(group)
    return matrix(tr, t) if tr else IDENTITY


def group_opacity(group, t):
    tr = own_transform(group)
    return opacity(tr, t) if tr else ONE


def holders(entries, place, longer_than=-1):
    """The groups that hold a place and have a place that is longer than a length, the longest first."""
    found = [(p, x) for p, x in entries if x["ty"] == "gr" and p == place[:len(p)] and longer_than < len(p) < len(place)]
    return [x for _, x in sorted(found, key=lambda e: -len(e[0]))]


def product(groups, t):
    m = IDENTITY
    for group in groups:
        m = then(m, group_matrix(group, t))
    return m


def mapped(m, p):
    return (limited(rounded(p[0] * m[0] + p[1] * m[2], ONE) + m[4]), limited(rounded(p[0] * m[1] + p[1] * m[3], ONE) + m[5]))


def is_before(q, place):
    """Whether the item at q is before the one at a place in its list, or in an item before it."""
    return len(q) >= len(place) and q[:len(place) - 1] == place[:-1] and q[len(place) - 1] < place[-1]


def outlines(entries, t):
    """The outline of each leaf by its place, after all trims that act on it."""
    items = dict(entries)
    leaves = [q for q, x in entries if x["ty"] in LEAVES]

    def trims_of(q):
        acting = [p for p, x in entries if x["ty"] == "tm" and is_before(q, p)]
        return sorted(acting, key=lambda p: (-len(p), p[-1]))

    def outline(q, places):
        """The outline of the leaf at q after the trims at these places, which are the first of its own."""
        return after(places[-1])[q] if places else contours(items[q], t)

    @functools.cache
    def after(p):
        """What the trim at p leaves of the leaves on which it acts."""
        x, on = items[p], [q for q in leaves if is_before(q, p)]
        before = [outline(q, [r for r in trims_of(q) if (-len(r), r[-1]) < (-len(p), p[-1])]) for q in on]
        s, e, o = (member(scalar, x, name, t, default) for name, default in (("s", 0), ("e", 100 * ONE), ("o", 0)))
        return dict(zip(on, trims.trimmed(int(x.get("m", 1)), s, e, o, before)))

    return {q: outline(q, trims_of(q)) for q in leaves}


def painted(entries, outline_at, place, t):
    made = []
    for q, outline in outline_at.items():
        if is_before(q, place):
            m = product(holders(entries, q, len(place) - 1), t)
            for closed, start, segs in outline:
                made.append((closed, mapped(m, start), [tuple(mapped(m, p) for p in s) for s in segs]))
    return made


# ---- text

def length(v):
    return printed(v, 3)


def pair(p):
    return length(p[0]) + " " + length(p[1])


def data(contours):
    text = ""
    for closed, start, segs in contours:
        text += "M" + pair(start)
        at = start
        for n, (c1, c2, end) in enumerate(segs):
            straight = c1 == at and c2 == end
            if not (closed and n + 1 == len(segs) and straight):
                text += "L" + pair(end) if straight else "C" + " ".join(map(pair, (c1, c2, end)))
            at = end
        text += "Z" if closed else ""
    return text


def attribute(name, text):
    return f' {name}="{text}"'


def matrix_text(m):
    return "" if m == IDENTITY else attribute("transform", "matrix(" + " ".join(printed(v, 6) for v in m) + ")")


def fraction_text(name, o):
    return "" if o == ONE else attribute(name, printed(o, 6))


def dashes_text(x, t):
    entries = [(d["n"], value(scalar, d["v"], t)) for d in x.get("d", [])]
    dashes = [max(0, v) for n, v in entries if n in "dg"]
    if not any(v > 0 for v in dashes):
        return ""
    offsets = [v for n, v in entries if n == "o"]
    offset = attribute("stroke-dashoffset", length(offsets[-1])) if offsets else ""
    return attribute("stroke-dasharray", " ".join(map(length, dashes))) + offset


def gradient_text(number, x, t):
    s, e = value(vector, x["s"], t), value(vector, x["e"], t)
    h, a = (member(scalar, x, name, t, 0) for name in ("h", "a"))
    stops = gradients.merged(int(x["g"]["p"]), value(numbers, x["g"]["k"], t))
    return gradients.definition(number, int(x.get("t", gradients.LINEAR)), s, e, h, a, stops)


def style_text(entries, outline_at, place, x, t, identifiers):
    """The text of a paint, after that of its gradient, which takes the next identifier."""
    made = painted(entries, outline_at, place, t)
    if not made:
        return ""
    groups = holders(entries, place)
    o = opacity(x, t)
    for group in groups:
        o = rounded(o * group_opacity(group, t), ONE)
    if x["ty"] in ("fl", "st"):
        before, ink = "", gradients.ink(value(color, x["c"], t))
    else:
        number = next(identifiers)
        before, ink = gradient_text(number, x, t), f"url(#i{number})"
    rest = matrix_text(product(groups, t)) + attribute("d", data(made)) + "/>\n"
    if x["ty"] in ("fl", "gf"):
        rule = attribute("fill-rule", "evenodd") if x.get("r", 1) == 2 else ""
        return before + "<path" + attribute("fill", ink) + fraction_text("fill-opacity", o) + rule + rest
    join = x.get("lj", 2)
    miter = attribute("stroke-miterlimit", length(max(ONE, micro(x.get("ml", 4))))) if join == 1 else ""
    return (before + "<path" + attribute("fill", "none") + attribute("stroke", ink) + fraction_text("stroke-opacity", o)
            + attribute("stroke-width", length(max(0, value(scalar, x["w"], t))))
            + attribute("stroke-linecap", ["butt", "round", "square"][x.get("lc", 2) - 1])
            + attribute("stroke-linejoin", ["miter", "round", "bevel"][join - 1]) + miter + dashes_text(x, t) + rest)


def full_matrix(layers, layer, t):
    own = matrix(layer["ks"], t)
    if "parent" not in layer:
        return own
    parent = next(x for x in layers if x.get("ind") == layer["parent"])
    return then(own, full_matrix(layers, parent, t))


def solid_text(layer):
    w, h = micro(layer["sw"]), micro(layer["sh"])
    rectangle = sharp((0, 0), (w, 0), (w, h), (0, h), (0, 0))
    return f'<path fill="{layer["sc"].lower()}" d="{data([rectangle])}"/>\n'


def shapes_text(layer, t, identifiers):
    entries = list(live(layer["shapes"]))
    outline_at = outlines(entries, t)
    return "".join(style_text(entries, outline_at, place, x, t, identifiers)
                   for place, x in reversed(entries) if x["ty"] in STYLES)


def frame(doc, t):
    w, h = (length(micro(doc[name])) for name in ("w", "h"))
    text = f'<svg xmlns="http://www.w3.org/2000/svg" version="1.1" width="{w}" height="{h}" viewBox="0 0 {w} {h}">\n'
    identifiers = itertools.count(1)
    for layer in reversed(doc["layers"]):
        if layer.get("hd") or not micro(layer["ip"]) <= t < micro(layer["op"]) or layer["ty"] == 3:
            continue
        text += "<g" + matrix_text(full_matrix(doc["layers"], layer, t)) + fraction_text("opacity", opacity(layer["ks"], t)) + ">\n"
        text += solid_text(layer) if layer["ty"] == 1 else shapes_text(layer, t, identifiers)
        text += "</g>\n"
    return text + "</svg>\n"


def numbered(x):
    """Whole numbers as numbers of Python, where they say which choice is taken."""
    if isinstance(x, dict):
        return {k: int(v) if k in ("sy", "lc", "lj") or (k in ("r", "ty") and isinstance(v, decimal.Decimal)) else numbered(v) for k, v in x.items()}
    return [numbered(v) for v in x] if isinstance(x, list) else x


def frame_of(document, time):
    """The SVG of the text of a document at a time that is written as a number of JSON."""
    doc = json.loads(document, parse_float=decimal.Decimal, parse_int=decimal.Decimal)
    return frame(numbered(doc), micro(time))


if __name__ == "__main__":
    sys.stdout.write(frame_of(pathlib.Path(sys.argv[1]).read_text(), sys.argv[2]))
