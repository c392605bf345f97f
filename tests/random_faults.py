#!/usr/bin/env python3
"""Compares what `check` writes of random broken documents with what the second judge of documents writes.

Usage: tests/random_faults.py PROGRAM [SEED [COUNT]]
The documents of one seed are always the same. Each begins as a document without a fault and takes one to four changes at
random places: members are taken away, doubled, exchanged or added, values get another kind or another number, lists another
length, layers other parents. Some changes break nothing. The first document whose line differs is written to standard
output, with both lines; else how many lines are the same, and how often each fault was among them.
"""
import collections
import copy
import json
import pathlib
import subprocess
import sys

import faults
from random_frames import Maker

NAMES = """w h fr ip op layers ty hd ind parent ks sw sh sc shapes a p s r o sk sa x y sid k t i to ti c v it d sy pt or os ir is
    lc lj ml e g m n bm ddd ao ef td tt tp masksProperties assets slots refId st sr tm mode inv""".split()
LEFT_OUT = ["ddd", "ao", "bm", "ef", "sy", "td", "tt", "tp", "masksProperties"]
UNKNOWN = ["nm", "mn", "ix", "meta", "markers", "", "~", "a/b", "~1", "\u00e4 \U0001f600", "\n\"\\", "K", "layers "]
TEXTS = """gr rc el sr sh fl st gf gs tm tr rd rp mm pb tw zz op d g o n a GR # #12345 #1234567 #12345G #aBcDeF #abcdef 0 1 true null
    time*360 x~/y""".split() + ["", "fl ", "#abcdef\n", "\u00e9", "#\u0663\u0663\u0663\u0663\u0663\u0663"]
TOKENS = """0 -0 0.0 -0.0000004 0.0000004 0.0000005 -0.0000005 0.00000049999 0e99999999999 1e-99999999999 1e400 -1e400 1E+99999999999999999999999
    1e00000000000000000000000000001 100e-2 0.001e3 1.0 0.9999995 0.9999994 1.0000004 1.0000005 2 2.0 2.5 3 3.0000004 4 5 -1 -3 10 59.9999999
    60 1e2 1024 1024.0000004 1024.0000005 1025 9999999 9999999.9999996 10000000 1e7 10000000.0000004999999 10000000.0000005 -10000000.0000004
    -10000000.0000005 99999999 1000000000000000000000000000000000000000e-39 0.0000000000000000000000000000000000000001e40
    123456789012345678901234567890.5 3.14159265358979323846264338327950288""".split()
SMALL_NUMBERS = ["0", "1", "1.0", "1.0000004", "1.0000005", "2", "0.02e2", "3", "4", "-1", "9e9"]


class Number(str):
    """The text of a number as it stands in a document."""


class Members(list):
    """An object as a list of pairs, which may repeat a name."""


class Pair(list):
    """A name and a value."""


def opened(x):
    if isinstance(x, dict):
        return Members(Pair([name, opened(value)]) for name, value in x.items())
    return [opened(item) for item in x] if isinstance(x, list) else x


def written(x):
    if isinstance(x, Number):
        return x
    if isinstance(x, Members):
        return "{" + ",".join(json.dumps(name) + ":" + written(value) for name, value in x) + "}"
    return "[" + ",".join(map(written, x)) + "]" if isinstance(x, list) else json.dumps(x)


def is_number(x):
    return isinstance(x, (int, float, Number)) and not isinstance(x, bool)


def is_list(x):
    return isinstance(x, list) and not isinstance(x, Members)


def is_object_with(name):
    return lambda x: isinstance(x, Members) and any(pair[0] == name for pair in x)


def spots(box):
    """All places of values under a list of one, each as a list and an index: a value is an item, or the second of a pair."""
    found = [(box, 0)]
    for holder, key in found:
        value = holder[key]
        if isinstance(value, Members):
            found.extend((pair, 1) for pair in value)
        elif isinstance(value, list):
            found.extend((value, n) for n in range(len(value)))
    return found


def name_of(spot):
    return spot[0][0] if isinstance(spot[0], Pair) else None


class Breaker:
    """A document, which is the only item of a list, and the changes that it can take."""

    def __init__(self, seed):
        self.maker = Maker(seed)
        self.source = self.maker.source
        self.box = [opened(self.maker.document())]

    def chance(self, part):
        return self.source.random() < part

    def spot(self, fits=lambda value: True):
        """A place whose value fits, or that of the document. Rare names of members are as likely as frequent ones."""
        places = [(holder, key) for holder, key in spots(self.box) if fits(holder[key])] or [(self.box, 0)]
        names = sorted({name_of(place) for place in places} - {None})
        if names and self.chance(0.6):
            name = self.source.choice(names)
            places = [place for place in places if name_of(place) == name]
        return self.source.choice(places)

    def value(self, fits=lambda value: True):
        holder, key = self.spot(fits)
        return holder[key]

    def members(self, fits=lambda value: isinstance(value, Members) and value):
        """The members of an object that fits, by itself one that has some, or of a new one that is nowhere."""
        members = self.value(fits)
        return members if isinstance(members, Members) and members else Members([Pair(["nm", 0])])

    def items(self):
        items = self.value(is_list)
        return items if is_list(items) else []

    def number(self):
        if self.chance(0.7):
            return Number(self.source.choice(TOKENS))
        digits = "".join(self.source.choice("0123456789") for _ in range(self.source.randint(1, 25)))
        place = self.source.randint(1, len(digits))
        part = "." + digits[place:] if digits[place:] else ""
        power = self.source.choice(["", "", "e%d" % self.source.randint(-30, 20), "E+%d" % self.source.randint(0, 9)])
        return Number(self.source.choice(["", "-"]) + str(int(digits[:place])) + part + power)

    def anything(self):
        """A value of any kind, often a copy of one of the document."""
        return self.source.choice([
            self.number, self.number, lambda: self.source.choice(TEXTS), lambda: self.source.choice([True, False, None]),
            Members, list, lambda: [self.number() for _ in range(self.source.randint(1, 4))],
            lambda: opened(self.maker.scalar_property()), lambda: opened(self.maker.vector_property()),
            lambda: opened(self.maker.property(self.maker.bezier)), lambda: opened(self.maker.item(1)),
            lambda: copy.deepcopy(self.value()), lambda: copy.deepcopy(self.value())])()

    # ---- changes

    def take_away(self):
        members = self.members()
        del members[self.source.randrange(len(members))]

    def add_to(self, members, name, value):
        members.insert(self.source.randint(0, len(members)), Pair([name, value]))

    def double(self):
        members = self.members()
        self.add_to(members, self.source.choice(members)[0], self.anything())

    def add(self):
        self.add_to(self.members(), self.source.choice(NAMES), self.anything())

    def add_unknown(self):
        self.add_to(self.members(), self.source.choice(UNKNOWN), self.anything())

    def add_null(self):
        self.add_to(self.members(), self.source.choice(NAMES), None)

    def add_left_out(self):
        """A member with which a document, a layer, an item or a property is left out, or not if its value is a plain one."""
        kind, names = self.source.choice([("layers", ["assets", "slots"]), ("ty", LEFT_OUT), ("k", ["x", "sid"])])
        value = self.source.choice([self.anything, lambda: [], lambda: [self.anything()], lambda: opened({"id": "a", "layers": []}),
                                    lambda: self.source.choice([0, 1, True, False, "text"])])()
        self.add_to(self.members(is_object_with(kind)), self.source.choice(names), value)

    def use_slot(self):
        members = self.members(is_object_with("k"))
        self.add_to(members, "sid", self.source.choice(["r", "a/b", "", 0, None]))
        members[:] = [pair for pair in members if pair[0] != "k" or self.chance(0.3)]

    def shuffle(self):
        self.source.shuffle(self.members())

    def put(self, value, fits=lambda value: True):
        holder, key = self.spot(fits)
        holder[key] = value

    def put_anything(self):
        self.put(self.anything())

    def put_null(self):
        self.put(None)

    def put_number(self):
        self.put(self.number(), is_number)

    def put_text(self):
        self.put(self.source.choice(TEXTS), lambda x: isinstance(x, str) and not isinstance(x, Number))

    def exchange(self):
        """Two values, of members of one name where there are such."""
        one = self.spot()
        other = self.source.choice([spot for spot in spots(self.box) if name_of(spot) == name_of(one)])
        values = copy.deepcopy([holder[key] for holder, key in (other, one)])
        for (holder, key), value in zip((one, other), values):
            holder[key] = value

    def shorten(self):
        items = self.items()
        del items[self.source.randint(0, len(items)):]

    def lengthen(self):
        items = self.items()
        items.insert(self.source.randint(0, len(items)), copy.deepcopy(self.source.choice(items)) if items and self.chance(0.5) else self.anything())

    def reorder(self):
        self.source.shuffle(self.items())

    def turn_keys(self):
        keys = self.value(lambda x: is_list(x) and len(x) > 1 and is_object_with("t")(x[0]))
        if is_list(keys):
            first, last = sorted(self.source.randint(0, len(keys)) for _ in range(2))
            keys[first:last] = keys[first:last][::-1]

    def lengthen_much(self):
        """A list of small items that is as long as the limit of its place, or one longer."""
        holder, key = self.spot(lambda x: is_list(x) and len(written(x[:1])) < 100)
        most = {"layers": 4_096, "assets": 1_024}.get(name_of((holder, key)), 65_536) + self.source.choice([0, 1, 1])
        if is_list(holder[key]):
            holder[key] = ((holder[key][:1] or [0]) * most)[:most - len(holder[key])] + holder[key]

    def layers(self):
        root = self.box[0] if isinstance(self.box[0], Members) else []
        layers = [value for name, value in root if name == "layers" and is_list(value)]
        return [x for x in (layers[-1] if layers else []) if isinstance(x, Members)]

    def relate(self):
        """Numbers and parents of some layers, among few numbers."""
        for x in self.layers():
            for name in ("ind", "parent"):
                if self.chance(0.4):
                    x.append(Pair([name, Number(self.source.choice(SMALL_NUMBERS))]))

    def change_type(self):
        for x in self.layers()[:1]:
            x.append(Pair(["ty", self.source.choice([Number(self.source.choice(SMALL_NUMBERS)), Number("5"), "4", None])]))

    def change_stops(self):
        """A gradient with another number of stops, and a list that may fit."""
        stops = self.source.choice([1, 2, 3, 5, 1_023, 1_024, 1_025])
        numbers = [0] * (4 * stops + self.source.choice([-1, 0, 0, 1, 2]))
        self.put(opened({"p": stops, "k": {"k": numbers}}), lambda x: is_object_with("p")(x) and len(x) == 2)

    CHANGES = [
        take_away, take_away, double, double, add, add, add, add_unknown, add_unknown, add_null, add_null, add_left_out, add_left_out, use_slot,
        shuffle, shuffle, put_anything, put_anything, put_anything, put_null, put_number, put_number, put_number, put_text, exchange, exchange,
        shorten, lengthen, lengthen, reorder, turn_keys, relate, relate, change_type, change_stops,
    ]

    def broken(self):
        for _ in range(self.source.randint(1, 4)):
            self.source.choice(self.CHANGES)(self)
        if self.chance(0.005):
            self.lengthen_much()
        return written(self.box[0])


def main():
    program = pathlib.Path(sys.argv[1]).resolve()
    seed, count = (int(sys.argv[k]) if len(sys.argv) > k else default for k, default in ((2, 0), (3, 1000)))
    found = collections.Counter()
    for k in range(count):
        document = Breaker(f"{seed}/{k}").broken()
        run = subprocess.run([program, "check", "-"], input=document.encode(), stdout=subprocess.PIPE, timeout=60)
        line = faults.first_fault(document)
        if run.stdout != line.encode() + b"\n" or run.returncode != (0 if line == "ok" else 1):
            print(f"seed {seed}, document {k}, status {run.returncode}\n{document}\nprogram: {run.stdout.decode()}second judge: {line}")
            return 1
        found[" ".join(line.split(" ")[:2])] += 1
    print(f"{count} lines are the same:", ", ".join(f"{name} {times}" for name, times in sorted(found.items())))
    return 0


if __name__ == "__main__":
    sys.exit(main())
