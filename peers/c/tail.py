#!/usr/bin/env python3
"""Measures how long one hz_fix takes, at the longest too, with a correlated period of an eighth of the frames and with
none.

    peers/c/tail.py [ROUNDS [SECONDS]]

It builds peers/c/tail.c with the library of bindings/c. For each row a round runs it twice: for SECONDS in a mix, or
for so many bursts; once by the clock on the wall, and once by the processor's. There are seven rounds of a second,
where nothing else is said. Printed is a table, in nanoseconds: the medians of the rounds. The last two columns are of
processor time: the median of the rounds' greatest fixes, and the greatest of all.

The machine has to be quiet. How many processors other work had is told after each round, and under the table where it
was too much.
"""
import os
import re
import statistics
import subprocess
import sys
import tempfile

import bench

BURSTS = 100
# Frames, and what comes before a timed load.
ROWS = [(65536, "2"), (65536, "10"), (65536, "100"), (65536, "1000"), (65536, "burst"), (4096, "burst")]
NAMES = {"2": "2 hits, timed too", "10": "10 hits", "100": "100 hits", "1000": "1,000 hits", "burst": "a burst"}


def measured(program, row, seconds, clock):
    """What is told of each of the two periods, by a clock: the period, and then the median fix, 99.9 in 100, the
    greatest, and the operations a second, which a burst does not have."""
    frames, before = row
    words = [program, str(frames), before, str(BURSTS if before == "burst" else seconds)]
    env = {name: value for name, value in os.environ.items() if name != "PERIOD"} | {"CLOCK": clock}
    said = subprocess.run(words, check=True, stdout=subprocess.PIPE, text=True, env=env).stdout
    lines = re.findall(r"period (\d+): .* median (\d+) ns, 99.9 in 100 (\d+) ns, greatest (\d+) ns(?:, (\d+))?", said)
    return {int(period): [int(number) for number in numbers if number] for period, *numbers in lines}


def table(found):
    """The lines of the table. Of a hundred bursts 99.9 in 100 are all."""
    yield "| Frames | Before a timed load | K | Period | Median | 99.9 in 100 | Millions a second | Greatest | of all |"
    yield "|---" * 9 + "|"
    for (frames, before), (rounds, by_processor) in found.items():
        for period in frames // 8, 0:
            numbers = [statistics.median(column) for column in zip(*(of[period] for of in rounds))]
            median, most = (f"{number:,.0f}" for number in numbers[:2])
            rate = f"{numbers[3] / 1e6:.2f}" if len(numbers) > 3 else ""
            greatest = [of[period][2] for of in by_processor]
            settings = [f"{frames:,}", NAMES[before], os.environ.get("K", "2"), f"{period:,}"]
            ends = [f"{statistics.median(greatest):,.0f}", f"{max(greatest):,}"]
            yield "| " + " | ".join([*settings, median, most if rate else "", rate, *ends]) + " |"


def main(words):
    numbers = bench.numbers_of(words)
    if not numbers:
        print(__doc__.strip(), file=sys.stderr)
        return 2
    found, others = {row: ([], []) for row in ROWS}, []
    with tempfile.TemporaryDirectory() as folder:
        prefix = bench.installed(folder)
        program = bench.compiled(f"{folder}/tail", "tail.c", f"-I{prefix}/include", f"{prefix}/lib/libhojzmated.a")
        for number in range(numbers[0]):
            before = bench.spent()
            for row, clocks in found.items():
                for rounds, clock in zip(clocks, ["wall", "processor"]):
                    rounds.append(measured(program, row, numbers[1], clock))
            others.append(bench.others_since(before))
            print(f"round {number + 1}: other work had {others[-1]:.2f} processors", file=sys.stderr, flush=True)
    print("\n".join(table(found)))
    bench.warn(others)
    return 0


if __name__ == "__main__":
    sys.exit(main(sys.argv[1:]))
