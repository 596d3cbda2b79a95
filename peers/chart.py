#!/usr/bin/env python3
"""Draws the table of `bpool sweep`, as `bpool sweep .. --svg FILE` draws it. It shares nothing with the program.

    peers/simulation.py REFERENCES --frames LIST | peers/chart.py > FILE

It takes the table on its standard input. Places are in tenths of a pixel, from the left and the top, rounded as the
program rounds them: the axis of frames goes from 800 to 7200, from the power of two at or below the least frames to
the one at or above the greatest, and each doubling is as wide as any other. Within one each frame is as wide as any
other. The axis of hit ratios goes from 4400 up to 400, from the tenth at or below the least to the one at or above the
greatest. The head, with titles and looks, stands here as it stands there.
"""
import csv
import fractions
import math
import sys

LEFT, WIDTH, BOTTOM, HEIGHT = 800, 6400, 4400, 4000
COLOURS = ["#0072b2", "#d55e00", "#009e73", "#aa4499", "#b8860b", "#56b4e9"]
DASHES = [None, "140 60", "40 45", "140 50 30 50", "260 80"]
HEAD = """\
<svg xmlns='http://www.w3.org/2000/svg' viewBox='0 0 9400 5200' width='940' height='520' role='img'>
<title>Hit ratio over frames</title>
<style>
svg{font:130px sans-serif;fill:none;stroke:none}
text{fill:#222;stroke:none}
g{stroke-width:26;stroke-linejoin:round}
circle{fill:#fff;stroke-dasharray:none}
.back{fill:#fff}
.grid{stroke:#d4d4d4;stroke-width:10;shape-rendering:crispEdges}
.axis{stroke:#222;stroke-width:14;shape-rendering:crispEdges}
.left{text-anchor:end}
.middle{text-anchor:middle}
.large{font-size:170px}
.small{font-size:110px}
"""
TITLES = """\
<rect class='back' width='9400' height='5200'/>
<text class='middle large' x='4000' y='230'>Hit ratio over frames</text>
<text class='middle' transform='translate(280 2400) rotate(-90)'>hit ratio (hits / fixes)</text>
<text class='middle' x='4000' y='4930'>frames (pages that memory holds), doubling from line to line</text>
"""


class Axes:
    """The axis of frames, from one power of two to another, and that of hit ratios, from one tenth to another."""

    def __init__(self, rows):
        frames, ratios = [row["frames"] for row in rows], [ratio_of(row) for row in rows]
        self.first = min(math.floor(10 * min(ratios)), 9)
        self.tenths = max(math.ceil(10 * max(ratios)) - self.first, 1)
        self.low = 0
        while 2 ** (self.low + 1) <= min(frames):
            self.low += 1
        self.high = self.low + 1
        while 2 ** self.high < max(frames):
            self.high += 1

    def right(self, frames):
        """How far right so many frames are, rounded down to a tenth of a pixel."""
        power = self.low
        while 2 ** (power + 1) <= frames:
            power += 1
        doublings = power - self.low + fractions.Fraction(frames - 2 ** power, 2 ** power)
        return LEFT + math.floor(WIDTH * doublings / (self.high - self.low))


    def down(self, ratio):
        """How far down a hit ratio is, rounded to the tenth of a pixel below it."""
        return BOTTOM - math.floor(HEIGHT * (10 * ratio - self.first) / self.tenths)

    def hundredths(self):
        """Where the grid lines of hit ratios are: seven to eleven of them."""
        step = {1: 1, 2: 2, 3: 5, 4: 5, 5: 5}.get(self.tenths, 10)
        return range(10 * self.first, 10 * (self.first + self.tenths) + 1, step)


def head():
    """The titles and looks."""
    yield HEAD
    for number, colour in enumerate(COLOURS):
        yield f".c{number}{{stroke:{colour}}}\n"
    for number, dash in enumerate(DASHES):
        if dash:
            yield f".d{number}{{stroke-dasharray:{dash}}}\n"
    yield ".optimum{stroke:#000;stroke-width:34}\n</style>\n"
    yield TITLES


def grid(axes):
    """The grid lines with their numbers, and the line of both axes."""
    for hundredths in axes.hundredths():
        at = axes.down(fractions.Fraction(hundredths, 100))
        yield f"<path class='grid' d='M{LEFT} {at}h{WIDTH}'/>"
        yield f"<text class='left' x='720' y='{at}' dy='45'>{hundredths / 100:.2f}</text>\n"
    for power in range(axes.low, axes.high + 1):
        at = axes.right(2 ** power)
        yield f"<path class='grid' d='M{at} {BOTTOM - HEIGHT}v{HEIGHT}'/>"
        yield f"<text class='middle small' x='{at}' y='4600'>{2 ** power}</text>\n"
    yield f"<path class='axis' d='M{LEFT} {BOTTOM - HEIGHT}v{HEIGHT}h{WIDTH}'/>\n"


def line(axes, number, k, rows):
    """The line with this number from 0: its stroke, its marks, and its row of the legend."""
    rows = sorted(rows, key=lambda row: row["frames"])
    places = [(axes.right(row["frames"]), axes.down(ratio_of(row))) for row in rows]
    yield "<g class='optimum'>\n" if k == "opt" else f"<g class='c{number % len(COLOURS)} d{number % len(DASHES)}'>\n"
    yield "<polyline points='" + "".join(f"{x},{y} " for x, y in places) + "'/>\n"
    for (x, y), row in zip(places, rows):
        said = f"{row['frames']} frames: {row['hits']} hits of {row['fixes']} fixes"
        yield f"<circle cx='{x}' cy='{y}' r='40'><title>{said}</title></circle>\n"
    name = {"opt": "optimum", "1": "K = 1 (LRU)"}.get(k, f"K = {k}")
    at = 500 + 210 * number
    yield f"<path d='M7450 {at}h600'/><text x='8150' y='{at}' dy='45'>{name}</text>\n</g>\n"


def ratio_of(row):
    return fractions.Fraction(row["hits"], row["fixes"]) if row["fixes"] else fractions.Fraction(0)


def main():
    table = [{name: of if name == "k" else int(of or 0) for name, of in row.items() if name != "hit_ratio"}
             for row in csv.DictReader(sys.stdin)]
    axes = Axes(table)
    names = sorted({row["k"] for row in table}, key=lambda k: (k == "opt", int(k) if k != "opt" else 0))
    pieces = [*head(), *grid(axes)]
    for number, k in enumerate(names):
        pieces += line(axes, number, k, [row for row in table if row["k"] == k])
    sys.stdout.write("".join(pieces) + "</svg>\n")


if __name__ == "__main__":
    main()
