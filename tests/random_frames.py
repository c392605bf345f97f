#!/usr/bin/env python3
"""Compares frames of random documents with those of the second evaluator, byte for byte.

Usage: tests/random_frames.py PROGRAM [SEED [COUNT]]
The documents of one seed are always the same. They have null, solid and shape layers with parents, items of every type in
groups of groups, and properties that move with handles, tangents and holds; most numbers are small, and some are far out. The
first document whose frame differs is written to standard output, with the lines that differ.
"""
import difflib
import json
import pathlib
import random
import subprocess
import sys

import shapes

LEAST_TIME, END_TIME = -2, 40


class Maker:
    """Makes the parts of a document from a source of random numbers."""

    def __init__(self, seed):
        self.source = random.Random(seed)

    def chance(self, part):
        return self.source.random() < part

    def number(self, low, high):
        """A number, now and then one that is far out or has more digits than are kept."""
        if self.chance(0.02):
            return self.source.choice([low, high, 0, 9_999_999, -9_999_999, 1e-6, 0.0000005, -0.0000005])
        if self.chance(0.5):
            return self.source.randint(low, high)
        return round(self.source.uniform(low, high), self.source.choice([1, 2, 6, 8]))

    def flag(self):
        return self.source.choice([True, False, 1, 0])

    # ---- values

    def scalar(self, low=-50, high=100):
        value = self.number(low, high)
        return [value, "more"] if self.chance(0.3) else value

    def vector(self, low=-60, high=120):
        return [self.number(low, high) for _ in range(self.source.choice([2, 2, 3]))]

    def color(self):
        return [self.number(-1, 2) if self.chance(0.2) else round(self.source.random(), 3) for _ in range(self.source.choice([3, 4]))]

    def bezier(self):
        count = self.source.choice([0, 1, 2, 3, 3, 4, 5])
        value = {name: [self.vector() if self.chance(0.7) else [0, 0] for _ in range(count)] for name in ("v", "i", "o")}
        if self.chance(0.8):
            value["c"] = self.flag()
        return [value] if self.chance(0.4) else value

    def stops(self, colors):
        opacities = self.source.choice([0, 0, 1, 2, 3])
        offsets = [round(self.source.random(), 2) for _ in range(colors + opacities)]
        return [x for k, offset in enumerate(offsets)
                for x in [offset] + [round(self.source.uniform(-0.2, 1.2), 3) for _ in range(3 if k < colors else 1)]]

    # ---- properties

    def handle(self):
        def coordinate(low, high):
            numbers = [round(self.source.uniform(low, high), 3) for _ in range(self.source.randint(1, 4))]
            return numbers if self.chance(0.5) else numbers[0]
        return {"x": coordinate(-0.2, 1.2), "y": coordinate(-0.5, 1.5)}

    def keyframe(self, time, value, tangents):
        key = {"t": time, "s": value()}
        for name, part in (("o", 0.6), ("i", 0.6)):
            if self.chance(part):
                key[name] = self.handle()
        if self.chance(0.15):
            key["h"] = self.flag()
        if tangents and self.chance(0.3):
            key["to"] = self.vector()
        if tangents and self.chance(0.3):
            key["ti"] = self.vector()
        return key

    def property(self, value, tangents=False):
        if self.chance(0.6):
            still = {"k": value()}
            return {"a": self.source.choice([0, False]), **still} if self.chance(0.6) else still
        times = sorted(self.number(LEAST_TIME, END_TIME) for _ in range(self.source.randint(1, 4)))
        keys = [self.keyframe(time, value, tangents) for time in times]
        return {"a": self.source.choice([1, True]), "k": keys} if self.chance(0.6) else {"k": keys}

    def scalar_property(self, low=-50, high=100):
        return self.property(lambda: self.scalar(low, high))

    def vector_property(self, low=-60, high=120):
        return self.property(lambda: self.vector(low, high), tangents=True)

    def some(self, members):
        """Each of these optional members is there or not."""
        return {name: make() for name, make in members.items() if self.chance(0.5)}

    def transform(self):
        def position():
            if self.chance(0.25):
                return {"s": True, "x": self.scalar_property(), "y": self.scalar_property()}
            return self.vector_property()
        return self.some({"a": self.vector_property, "p": position, "s": lambda: self.vector_property(-150, 250),
                          "r": lambda: self.scalar_property(-720, 720), "o": lambda: self.scalar_property(-20, 130),
                          "sk": lambda: self.scalar_property(-100, 100), "sa": lambda: self.scalar_property(-200, 200)})

    # ---- items

    def leaf(self):
        kind = self.source.choice(["rc", "el", "sr", "sh"])
        direction = self.some({"d": lambda: self.source.choice([1, 2, 3, 3, 3.0])})
        if kind == "rc":
            return {"ty": kind, "p": self.vector_property(), "s": self.vector_property(), **self.some({"r": self.scalar_property}), **direction}
        if kind == "el":
            return {"ty": kind, "p": self.vector_property(), "s": self.vector_property(), **direction}
        if kind == "sh":
            return {"ty": kind, "ks": self.property(self.bezier), **direction}
        star = self.source.choice([1, 2])
        inner = {"ir": self.scalar_property()} if star == 1 else {}
        return {"ty": kind, "sy": star, "pt": self.scalar_property(1, 9), "p": self.vector_property(), "or": self.scalar_property(), **inner,
                **self.some({"r": self.scalar_property, "os": self.scalar_property, "is": self.scalar_property}), **direction}

    def line(self):
        dashes = [{"n": self.source.choice("dgo"), "v": self.scalar_property(-2, 9)} for _ in range(self.source.randint(0, 4))]
        return {"w": self.scalar_property(-1, 9), **self.some({"lc": lambda: self.source.randint(1, 3), "lj": lambda: self.source.randint(1, 3),
                                                               "ml": lambda: self.number(0, 9), "d": lambda: dashes})}

    def style(self):
        kind = self.source.choice(["fl", "st", "gf", "gs"])
        opacity = self.some({"o": lambda: self.scalar_property(-20, 130)})
        rest = self.line() if kind in ("st", "gs") else self.some({"r": lambda: self.source.choice([1, 2])})
        if kind in ("fl", "st"):
            return {"ty": kind, "c": self.property(self.color), **opacity, **rest}
        colors = self.source.randint(1, 4)
        return {"ty": kind, **opacity, "s": self.vector_property(), "e": self.vector_property(),
                "g": {"p": colors, "k": self.property(lambda: self.stops(colors))},
                **self.some({"t": lambda: self.source.choice([1, 2]), "h": lambda: self.scalar_property(-150, 150),
                             "a": lambda: self.scalar_property(-400, 400)}), **rest}

    def trim(self):
        return {"ty": "tm", **self.some({"s": lambda: self.scalar_property(-10, 110), "e": lambda: self.scalar_property(-10, 110),
                                         "o": lambda: self.scalar_property(-800, 800), "m": lambda: self.source.choice([1, 2])})}

    def item(self, levels):
        kinds = [self.leaf, self.leaf, self.leaf, self.style, self.style, self.trim, lambda: {"ty": "tr", **self.transform()}]
        if levels:
            kinds += [lambda: {"ty": "gr", "it": self.items(levels - 1)}] * 3
        item = self.source.choice(kinds)()
        if self.chance(0.1):
            item["hd"] = self.flag()
        return item

    def items(self, levels):
        return [self.item(levels) for _ in range(self.source.randint(0, 5))]

    # ---- documents

    def layer(self, number):
        kind = self.source.choice([1, 3, 4, 4, 4, 4])
        layer = {"ty": kind, "ind": number, "ip": self.source.choice([-5, 0, 3.5]), "op": self.source.choice([10, 30.25, 60]),
                 "ks": self.transform()}
        if number and self.chance(0.5):
            layer["parent"] = self.source.randrange(number)
        if self.chance(0.1):
            layer["hd"] = self.flag()
        if kind == 1:
            layer.update(sw=self.source.choice([0, 4.5, 100]), sh=abs(self.number(0, 90)), sc="#%06x" % self.source.randrange(1 << 24))
        if kind == 4:
            layer["shapes"] = self.items(3)
        return layer

    def document(self):
        layers = [self.layer(number) for number in range(self.source.randint(1, 5))]
        self.source.shuffle(layers)
        return {"w": self.source.choice([0, 10, 255.5]), "h": 64, "fr": 30, "ip": LEAST_TIME, "op": END_TIME, "layers": layers}


def main():
    program = pathlib.Path(sys.argv[1]).resolve()
    seed, count = (int(sys.argv[k]) if len(sys.argv) > k else default for k, default in ((2, 0), (3, 1000)))
    for k in range(count):
        maker = Maker(f"{seed}/{k}")
        document = json.dumps(maker.document())
        time = json.dumps(round(maker.source.uniform(LEAST_TIME, END_TIME - 1), maker.source.choice([0, 2, 6])))
        run = subprocess.run([program, "frame", "-", time], input=document.encode(), stdout=subprocess.PIPE, timeout=60)
        expected = shapes.frame_of(document, time)
        if run.returncode != 0 or run.stdout.decode() != expected:
            print(f"seed {seed}, document {k}, time {time}, status {run.returncode}\n{document}")
            print(*difflib.unified_diff(run.stdout.decode().splitlines(), expected.splitlines(), "program", "second evaluator", n=0, lineterm=""), sep="\n")
            return 1
    print(f"{count} frames are the same")
    return 0


if __name__ == "__main__":
    sys.exit(main())
