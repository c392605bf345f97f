#!/usr/bin/env python3
"""Judges documents a second time, and writes the line that `check` has to write.

Usage: tests/faults.py DOCUMENT
It is written from the description of the format and not from the program: every rule answers the list of all faults of a
value, the lists of a table's rows are joined in their order, and only the end takes the first fault. `random_faults.py`
takes its expected lines from here. The text of a document has to be JSON.

A fault is a name and a pointer. A rule is a function of a pointer and a value. A row is the name of a member, whether
it is needed, and its rule. Numbers are read as millionths, and objects as the members that count.
"""
import json
import pathlib
import re
import sys

from exact import LARGEST, ONE

BEYOND = float("inf")
LONGEST_LIST, MOST_LAYERS, MOST_ASSETS, MOST_STOPS = 65_536, 4_096, 1_024, 1_024


# ---- JSON

def micro(token):
    """The millionths of a number's text, rounded by the seventh decimal alone; BEYOND where they are out of range."""
    sign, whole, part, exponent = re.fullmatch(r"(-?)(\d+)(?:\.(\d+))?(?:[eE](.*))?", token).groups("")
    exponent_sign, exponent_digits = re.fullmatch(r"([-+]?)0*(\d*)", exponent).groups()
    digits = (whole + part).lstrip("0")
    if not digits:
        return 0
    kept = len(digits) - len(part) + int(exponent_sign + (exponent_digits[:20] or "0")) + 6
    if kept > len(str(LARGEST)):
        return BEYOND
    if kept < 0:
        return 0
    size = int(digits[:kept].ljust(kept, "0") or "0") + (digits[kept:kept + 1] >= "5")
    return BEYOND if size > LARGEST else -size if sign else size


def members(pairs):
    """Of repeated names the last counts, and a member that is null counts as absent."""
    return {name: value for name, value in dict(pairs).items() if value is not None}


def tree(text):
    return json.loads(text, parse_int=micro, parse_float=micro, object_pairs_hook=members)


def below(at, step):
    return at + "/" + str(step).replace("~", "~0").replace("/", "~1")


# ---- rules of plain values

def unless(holds, name, at):
    return [] if holds else [(name, at)]


def is_number(v):
    return isinstance(v, (int, float)) and not isinstance(v, bool)


def is_true(v):
    """Whether a flag is true; one with a fault is not."""
    return v is True or is_number(v) and v not in (0, BEYOND)


def number_where(allowed):
    def rule(at, v):
        return unless(is_number(v), "Kind", at) or unless(v != BEYOND and allowed(v), "Range", at)
    return rule


number = number_where(lambda v: True)
positive = number_where(lambda v: v > 0)
not_negative = number_where(lambda v: v >= 0)


def whole_of(allowed):
    def rule(at, v):
        return number(at, v) or unless(v % ONE == 0 and v // ONE in allowed, "Value", at)
    return rule


def flag(at, v):
    return [] if isinstance(v, bool) else number(at, v)


def text(at, v):
    return unless(isinstance(v, str), "Kind", at)


def text_like(pattern):
    def rule(at, v):
        return text(at, v) or unless(re.fullmatch(pattern, v), "Value", at)
    return rule


def left_out(at, _):
    return [("Unsupported", at)]


def only_false(at, v):
    return flag(at, v) or unless(not is_true(v), "Unsupported", at)


def only_zero(at, v):
    return number(at, v) or unless(v == 0, "Unsupported", at)


def only_empty(at, v):
    return unless(isinstance(v, list), "Kind", at) or unless(v == [], "Unsupported", at)


# ---- rules of lists and objects

def list_of(rule, most=LONGEST_LIST):
    """A list that is read whole. One that is too long is read all the same."""
    def whole_list(at, v):
        if not isinstance(v, list):
            return [("Kind", at)]
        return unless(len(v) <= most, "TooMany", at) + [fault for n, item in enumerate(v) for fault in rule(below(at, n), item)]
    return whole_list


def row(at, v, name, needed, rule):
    if name not in v:
        return unless(not needed, "Missing", below(at, name))
    return rule(below(at, name), v[name])


def rows(at, v, table):
    return [fault for line in table for fault in row(at, v, *line)]


def object_of(table):
    def rule(at, v):
        return rows(at, v, table) if isinstance(v, dict) else [("Kind", at)]
    return rule


def needed(rule, *names):
    return [(name, True, rule) for name in names]


def optional(rule, *names):
    return [(name, False, rule) for name in names]


# ---- values of properties

def scalar(at, v):
    if not isinstance(v, list):
        return number(at, v)
    return number(below(at, 0), v[0]) if v else [("Count", at)]


def begins_with(count):
    """A list whose first items are so many numbers; the others are not read."""
    def rule(at, v):
        if not isinstance(v, list) or len(v) < count:
            return [("Count" if isinstance(v, list) else "Kind", at)]
        return [fault for n in range(count) for fault in number(below(at, n), v[n])]
    return rule


vector = begins_with(2)
color = begins_with(3)


def bezier(at, v):
    if isinstance(v, list):
        return bezier_object(below(at, 0), v[0]) if v else [("Count", at)]
    return bezier_object(at, v)


def bezier_object(at, v):
    faults = object_of(optional(flag, "c") + needed(list_of(vector), "v", "i", "o"))(at, v)
    lists = {name: v[name] for name in ("v", "i", "o") if isinstance(v.get(name), list)} if isinstance(v, dict) else {}
    return faults + [("Count", below(at, name)) for name in ("i", "o")
                     if name in lists and "v" in lists and len(lists[name]) != len(lists["v"])]


def gradient(stops):
    def rule(at, v):
        faults = list_of(number)(at, v)
        rest = len(v) - 4 * stops if isinstance(v, list) else 0
        return faults + unless(rest >= 0 and rest % 2 == 0, "Count", at)
    return rule


# ---- properties

def coordinate(at, v):
    return (list_of(number)(at, v) or unless(v, "Count", at)) if isinstance(v, list) else number(at, v)


HANDLE = object_of(needed(coordinate, "x", "y"))


def keyframes(value):
    table = optional(flag, "h") + optional(HANDLE, "o", "i") + (optional(vector, "to", "ti") if value is vector else [])

    def rule(at, v):
        if not isinstance(v, list):
            return [("Kind", at)]
        faults, before = unless(v, "Count", at) + unless(len(v) <= LONGEST_LIST, "TooMany", at), None
        for n, key in enumerate(v):
            place = below(at, n)
            if not isinstance(key, dict):
                faults.append(("Kind", place))
                before = None
                continue
            wrong_time = row(place, key, "t", True, number)
            if not wrong_time and before is not None and key["t"] < before:
                wrong_time = [("Order", below(place, "t"))]
            before = None if wrong_time else key["t"]
            faults += wrong_time
            faults += value(below(place, "s"), key["s"]) if "s" in key else [("Unsupported", place)]
            faults += rows(place, key, table)
        return faults
    return rule


def is_moving(v):
    if "a" in v:
        return is_true(v["a"])
    k = v["k"]
    return isinstance(k, list) and bool(k) and isinstance(k[0], dict) and "t" in k[0]


def property_of(value):
    def rule(at, v):
        if not isinstance(v, dict):
            return [("Kind", at)]
        faults = unless(not isinstance(v.get("x"), str), "Unsupported", below(at, "x")) + row(at, v, "sid", False, text)
        if "k" not in v:
            faults.append(("NoValue", at) if isinstance(v.get("sid"), str) else ("Missing", below(at, "k")))
            return faults + row(at, v, "a", False, flag)
        return faults + row(at, v, "a", False, flag) + (keyframes(value) if is_moving(v) else value)(below(at, "k"), v["k"])
    return rule


SCALAR, VECTOR, COLOR, BEZIER = map(property_of, (scalar, vector, color, bezier))


def position(at, v):
    if not isinstance(v, dict):
        return [("Kind", at)]
    faults = row(at, v, "s", False, flag)
    return faults + (rows(at, v, needed(SCALAR, "x", "y")) if is_true(v.get("s")) else VECTOR(at, v))


TRANSFORM = optional(VECTOR, "a") + optional(position, "p") + optional(VECTOR, "s") + optional(SCALAR, "r", "o", "sk", "sa")


# ---- items

def color_stops(at, v):
    if not isinstance(v, dict):
        return [("Kind", at)]
    faults = row(at, v, "p", True, whole_of(range(1, MOST_STOPS + 1)))
    return faults or row(at, v, "k", True, property_of(gradient(v["p"] // ONE)))


DIRECTION = optional(number, "d")
RULE = optional(whole_of({1, 2}), "r")
DASH = object_of(needed(text_like("[dgo]"), "n") + needed(SCALAR, "v"))
LINE = needed(SCALAR, "w") + optional(whole_of({1, 2, 3}), "lc", "lj") + optional(number, "ml") + optional(list_of(DASH), "d")
PAINTED = needed(COLOR, "c") + optional(SCALAR, "o")
GRADED = (optional(SCALAR, "o") + needed(VECTOR, "s", "e") + optional(whole_of({1, 2}), "t") + needed(color_stops, "g")
          + optional(SCALAR, "h", "a"))


def star(v):
    inner = needed(SCALAR, "ir") if v.get("sy") == ONE else optional(SCALAR, "ir")
    return (needed(whole_of({1, 2}), "sy") + needed(SCALAR, "pt") + needed(VECTOR, "p") + optional(SCALAR, "r") + needed(SCALAR, "or")
            + optional(SCALAR, "os") + inner + optional(SCALAR, "is") + DIRECTION)


ITEMS = {
    "gr": lambda v: needed(list_of(item), "it"),
    "rc": lambda v: needed(VECTOR, "p", "s") + optional(SCALAR, "r") + DIRECTION,
    "el": lambda v: needed(VECTOR, "p", "s") + DIRECTION,
    "sr": star,
    "sh": lambda v: needed(BEZIER, "ks") + DIRECTION,
    "fl": lambda v: PAINTED + RULE,
    "st": lambda v: PAINTED + LINE,
    "gf": lambda v: GRADED + RULE,
    "gs": lambda v: GRADED + LINE,
    "tm": lambda v: optional(SCALAR, "s", "e", "o") + optional(whole_of({1, 2}), "m"),
    "tr": lambda v: TRANSFORM,
}


def item_type(at, v):
    return text(at, v) or unless(v in ITEMS, "Unsupported", at)


def item(at, v):
    if not isinstance(v, dict):
        return [("Kind", at)]
    return row(at, v, "ty", True, item_type) or rows(at, v, optional(flag, "hd") + optional(only_zero, "bm") + ITEMS[v["ty"]](v))


# ---- layers and the document

COMMON = (optional(only_false, "ddd", "ao") + optional(only_zero, "bm") + optional(only_empty, "ef", "sy") + optional(flag, "hd")
          + optional(number, "ind", "parent") + needed(number, "ip", "op") + optional(left_out, "td", "tt", "tp")
          + needed(object_of(TRANSFORM), "ks") + optional(left_out, "masksProperties"))
LAYERS = {
    1: needed(not_negative, "sw", "sh") + needed(text_like("#[0-9a-fA-F]{6}"), "sc"),
    3: [],
    4: needed(list_of(item), "shapes"),
}


def layer_type(at, v):
    return number(at, v) or unless(v % ONE == 0, "Value", at) or unless(v // ONE in LAYERS, "Unsupported", at)


def layer(at, v):
    if not isinstance(v, dict):
        return [("Kind", at)]
    return row(at, v, "ty", True, layer_type) or rows(at, v, COMMON + LAYERS[v["ty"] // ONE])


def asset(at, v):
    return [("Unsupported" if isinstance(v, dict) else "Kind", at)]


def root(v):
    if not isinstance(v, dict):
        return [("Kind", "")]
    ends = rows("", v, needed(number, "ip", "op"))
    return (rows("", v, needed(not_negative, "w", "h") + needed(positive, "fr")) + ends
            + unless(ends or v["op"] > v["ip"], "Order", "/op")
            + rows("", v, optional(left_out, "slots") + optional(list_of(asset, MOST_ASSETS), "assets")
                   + needed(list_of(layer, MOST_LAYERS), "layers")))


def parents(layers):
    """Of layers with one number the first counts, and only the layers on a circle of parents are at fault."""
    numbered = {}
    for n, x in enumerate(layers):
        if "ind" in x:
            numbered.setdefault(x["ind"], n)

    def comes_back(n):
        at = n
        for _ in layers:
            at = numbered.get(layers[at]["parent"]) if "parent" in layers[at] else None
            if at is None or at == n:
                return at == n
        return False

    for n, x in enumerate(layers):
        if "parent" in x and x["parent"] not in numbered:
            yield "NoLayer", f"/layers/{n}/parent"
        elif comes_back(n):
            yield "Cycle", f"/layers/{n}/parent"


def faults_of(document):
    v = tree(document)
    return root(v) or list(parents(v["layers"]))


def first_fault(document):
    """The line for a text that is JSON, without its line feed."""
    faults = faults_of(document)
    return "fault {} {}".format(*faults[0]) if faults else "ok"


if __name__ == "__main__":
    print(first_fault(pathlib.Path(sys.argv[1]).read_text(encoding="utf-8-sig")))
