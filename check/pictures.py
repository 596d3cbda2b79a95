#!/usr/bin/env python3
"""Draws the pictures of documents, so that a terminal and a browser show the same.

usage: check/pictures.py [--compare] [PAGE..]

A page has a picture twice: as an image, which a browser shows, and below it in a comment as text, which a terminal
shows. The text has lines of the characters for boxes, and words:

    ![What it shows](docs/pictures/NAME.svg)

    <!-- The same as text:

        ┌──────┐
        │ core ├──  proved: each call
        └──────┘
    -->

This program writes each image of its text. With --compare it writes none, and tells of each that is another. Without
PAGE it takes README.md and docs/*.md. The last line is 'N passed, M failed', and the status is 0 where none failed.
"""

import glob
import html
import os
import re
import sys
import textwrap

sys.dont_write_bytecode = True
import runner
from runner import TOP, text_of, write

PICTURE = re.compile(r"^!\[(.*)\]\((\S+\.svg)\)\n\n<!-- .*\n\n((?:    .*\n|\n)+)-->$", re.MULTILINE)
# To which sides the lines of a character go: up, down, left and right.
BOXES = {"│": "ud", "─": "lr", "┌": "dr", "┐": "dl", "└": "ur", "┘": "ul", "├": "udr", "┤": "udl", "┬": "dlr",
         "┴": "ulr", "┼": "udlr"}
# The colour of a text that begins with such a word.
COLOURS = {"proved": "#1a7f37", "tested": "#9a6700", "trusted": "#57606a", "yours": "#57606a"}
# A character takes so many units of the image.
WIDTH, HEIGHT, MARGIN = 8, 18, 12


def middle(row, column):
    """Where the middle of a character lies."""
    return MARGIN + column * WIDTH + WIDTH // 2, MARGIN + row * HEIGHT + HEIGHT // 2


def runs(places):
    """Pairs of the first and the last of numbers that follow each other."""
    first = last = None
    for place in sorted(places):
        if last is None or place > last + 1:
            if last is not None:
                yield first, last
            first = place
        last = place
    if last is not None:
        yield first, last


def strokes(rows):
    """The lines of all boxes. A character is two halves of a line across, and two of one down."""
    halves = {}
    for at, row in enumerate(rows):
        for place, sign in enumerate(row):
            for side in BOXES.get(sign, ""):
                key, half = (("H", at), 2 * place) if side in "lr" else (("V", place), 2 * at)
                halves.setdefault(key, set()).add(half + (side in "rd"))
    for (way, at), places in sorted(halves.items()):
        for first, last in runs(places):
            if way == "H":
                yield f"M{MARGIN + first * WIDTH // 2} {middle(at, 0)[1]}H{MARGIN + (last + 1) * WIDTH // 2}"
            else:
                yield f"M{middle(0, at)[0]} {MARGIN + first * HEIGHT // 2}V{MARGIN + (last + 1) * HEIGHT // 2}"


def texts(rows):
    """The texts between the lines, each where it stands. Two blanks part one from the next."""
    for at, row in enumerate(rows):
        for found in re.finditer(rf"[^\s{''.join(BOXES)}]+(?: [^\s{''.join(BOXES)}]+)*", row):
            x, y = MARGIN + found.start() * WIDTH, middle(at, 0)[1] + 5
            colour = COLOURS.get(found[0].split(":")[0], "#1f2328")
            yield (f'<text x="{x}" y="{y}" fill="{colour}" textLength="{len(found[0]) * WIDTH}" '
                   f'lengthAdjust="spacingAndGlyphs">{html.escape(found[0])}</text>')


def drawn(title, text):
    """The image of a text."""
    rows = text.strip("\n").split("\n")
    width, height = 2 * MARGIN + max(map(len, rows)) * WIDTH, 2 * MARGIN + len(rows) * HEIGHT
    lines = [
        f'<svg xmlns="http://www.w3.org/2000/svg" viewBox="0 0 {width} {height}" width="{width}" height="{height}" '
        'font-family="monospace" font-size="13">',
        f"<title>{html.escape(title)}</title>",
        '<rect width="100%" height="100%" rx="6" fill="#ffffff"/>',
        f'<path d="{"".join(strokes(rows))}" fill="none" stroke="#57606a"/>',
        *texts(rows),
        "</svg>",
    ]
    return "\n".join(lines) + "\n"


def pictures_of(page):
    """Pairs of the file of each picture of a page, and what that is to have."""
    folder = os.path.dirname(page)
    return [(os.path.join(folder, path), drawn(title, textwrap.dedent(text)))
            for title, path, text in PICTURE.findall(text_of(page))]


def stale(page):
    """The images of a page that are missing or are not of its text."""
    return [path for path, text in pictures_of(page)
            if not os.path.exists(os.path.join(TOP, path)) or text_of(path) != text]


def main(words):
    pages = [os.path.relpath(os.path.abspath(word), TOP) for word in words if word != "--compare"]
    if any(not os.path.exists(os.path.join(TOP, page)) for page in pages):
        print(__doc__.strip(), file=sys.stderr)
        return 2
    if not pages:
        pages = ["README.md", *sorted(os.path.relpath(it, TOP) for it in glob.glob(f"{TOP}/docs/*.md"))]
    passed = failed = 0
    for page in pages:
        is_stale = stale(page)
        for path, text in pictures_of(page):
            if "--compare" not in words:
                write(text, TOP, path)
            elif path in is_stale:
                print(f"{page}: {path} is not of its text: check/pictures.py writes it", flush=True)
                failed += 1
                continue
            passed += 1
    return runner.told(passed, failed)


if __name__ == "__main__":
    sys.exit(main(sys.argv[1:]))
