#!/usr/bin/env python3
"""Measures what a fix that evicts costs, by correlated period, frames, K and how pages are drawn.

    peers/c/periods.py [ROUNDS [SECONDS]]

It builds peers/c/periods.c with the library of bindings/c. A round runs it for each of 180 cells, in its steady state:
1,024, 4,096, 16,384 and 65,536 frames, periods of 0 and of 1/32, 1/8, 1/4 and 1/2 of the frames, K 1, 2 and 3, and
pages drawn evenly, 80 in 100 from 20 in 100, and as a zipfian draw. Each takes SECONDS and the time to come to the
steady state. There are three rounds of a second, where nothing else is said. With FRAMES in the environment it has that
number of frames alone.

Printed are two tables. The first has nanoseconds of processor time of a fix that evicts: the mean of a round, of these
the median of the rounds, and in brackets the ratio to period 0 in the same round, the median too. The second has the
greatest of all fixes of a round in microseconds: the median of the rounds, and in brackets the greatest. 'none' stands
where the steady state was not come to in 60 seconds.

The machine has to be quiet. How many processors other work had is told after each round, and under the tables where it
was too much.
"""
import os
import statistics
import subprocess
import sys
import tempfile

import bench

DRAWS, KS = ("even", "hot", "zipfian"), (1, 2, 3)
FRAMES = [int(os.environ["FRAMES"])] if "FRAMES" in os.environ else [1024, 4096, 16384, 65536]
PARTS = None, 32, 8, 4, 2  # the period is this part of the frames, or 0
ROWS = [(draw, frames, k) for draw in DRAWS for frames in FRAMES for k in KS]


def measured(program, row, part, seconds):
    """The mean of the fixes that evict and the greatest of all, in nanoseconds. None where there is no steady state."""
    draw, frames, k = row
    words = [program, draw, frames, frames // part if part else 0, k, seconds]
    said = subprocess.run([*map(str, words)], check=True, stdout=subprocess.PIPE, text=True).stdout.split()
    return None if said == ["none"] else tuple(map(float, said[:2]))


def mean_of(rounds, unperiodic):
    """What the first table has of a cell, by its rounds and those of period 0."""
    pairs = [(of[0], base[0]) for of, base in zip(rounds, unperiodic) if of and base]
    if len(pairs) < len(rounds):
        return "none"
    mean = f"{statistics.median(mean for mean, _ in pairs):,.0f}"
    ratio = statistics.median(mean / base for mean, base in pairs)
    return mean if rounds is unperiodic else f"{mean} ({ratio:.2f})"


def greatest_of(rounds, _):
    """What the second table has of a cell."""
    if None in rounds:
        return "none"
    greatest = [fix / 1000 for _, fix in rounds]
    return f"{statistics.median(greatest):,.0f} ({max(greatest):,.0f})"


def table(found, cell_of):
    """The lines of a table."""
    columns = ["Draw", "Frames", "K", "Period 0", *(f"1/{part}" for part in PARTS[1:])]
    yield "| " + " | ".join(columns) + " |"
    yield "|---" * len(columns) + "|"
    for draw, frames, k in ROWS:
        of_row = [found[(draw, frames, k), part] for part in PARTS]
        cells = [cell_of(rounds, of_row[0]) for rounds in of_row]
        yield "| " + " | ".join([draw, f"{frames:,}", str(k), *cells]) + " |"


def main(words):
    numbers = bench.numbers_of(words or ["3"])
    if not numbers:
        print(__doc__.strip(), file=sys.stderr)
        return 2
    found, others = {(row, part): [] for row in ROWS for part in PARTS}, []
    with tempfile.TemporaryDirectory() as folder:
        prefix = bench.installed(folder)
        linked = f"-I{prefix}/include", f"{prefix}/lib/libhojzmated.a", "-lm"
        program = bench.compiled(f"{folder}/periods", "periods.c", *linked)
        for number in range(numbers[0]):
            before = bench.spent()
            for row, part in found:
                found[row, part].append(measured(program, row, part, numbers[1]))
            others.append(bench.others_since(before))
            print(f"round {number + 1}: other work had {others[-1]:.2f} processors", file=sys.stderr, flush=True)
    print("\n".join([*table(found, mean_of), "", *table(found, greatest_of)]))
    bench.warn(others)
    return 0


if __name__ == "__main__":
    sys.exit(main(sys.argv[1:]))
