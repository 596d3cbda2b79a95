#!/usr/bin/env python3
"""Writes which pages SQLite reads from its file, as CSV: a header, and a record `bytes,offset` for each read.

    apt-get install sqlite3 strace
    peers/sqlite_trace.py [--seed N] [--rounds N] [--look-ups N] [--no-scan] > reads.csv
    bpool sweep reads.csv --column 2 --frames 64..4096

The database has a table of 20,000 items with an index on their codes, in some 1,200 pages of 4,096 bytes, and a table
of 60,000 lines of history, in some 3,300 pages. In each of 10 rounds a client looks up 10,000 items by code, sums up
100 items that are side by side after each 100 look-ups, and sums up the whole history once; with --no-scan it leaves
that out. Of the look-ups 80 in 100 go to 20 in 100 of the items, and so on within these, as in `references.py zipfian`.
Neither the table nor the index has the wanted items side by side. The items that are summed up are any.

SQLite has a cache of one page and does not map its file, so that it reads each page when it needs it, as a storage
engine asks its pool for it. `strace` writes these reads down. Reads of less than a page, by which SQLite looks at the
head of the file, are left out. With one seed the reads depend on the version of SQLite alone, which may put rows into
other pages.
"""
import argparse
import os
import re
import subprocess
import sys
import tempfile

sys.dont_write_bytecode = True
import references

ITEMS, LINES, PAGE_BYTES = 20_000, 60_000, 4_096
RANGE_ITEMS, LOOK_UPS_A_RANGE = 100, 100
# Both have no divisor with ITEMS in common, so that each item has a code of its own.
ROW_STEP, RANK_STEP = 7_919, 31_547
READ = re.compile(r"pread64\(\d+<(.*)>, .*, (\d+), (\d+)\) += (\d+)")


def making():
    """What makes the database."""
    yield f"PRAGMA page_size={PAGE_BYTES};\nBEGIN;\n"
    yield "CREATE TABLE items(id INTEGER PRIMARY KEY, code INTEGER, price INTEGER, note TEXT);\n"
    for row in range(ITEMS):
        yield f"INSERT INTO items VALUES({row}, {row * ROW_STEP % ITEMS}, {row % 997}, printf('%.*c', 200, '.'));\n"
    yield "CREATE INDEX items_by_code ON items(code);\n"
    yield "CREATE TABLE history(id INTEGER PRIMARY KEY, item INTEGER, price INTEGER, note TEXT);\n"
    for row in range(LINES):
        yield f"INSERT INTO history VALUES({row}, {row % ITEMS}, {row % 991}, printf('%.*c', 200, '.'));\n"
    yield "COMMIT;\n"


def load(seed, rounds, look_ups, scans):
    """What the client asks for."""
    ranks, anywhere = references.zipfian(seed, ITEMS), references.words(seed + 1)
    yield "PRAGMA cache_size=1;\nPRAGMA mmap_size=0;\nBEGIN;\n"
    for _ in range(rounds):
        for place in range(look_ups):
            yield f"SELECT price FROM items WHERE code = {next(ranks) * RANK_STEP % ITEMS};\n"
            if place % LOOK_UPS_A_RANGE == 0:
                first = next(anywhere) * (ITEMS - RANGE_ITEMS) // references.WORD
                yield f"SELECT sum(price) FROM items WHERE id BETWEEN {first} AND {first + RANGE_ITEMS - 1};\n"
        if scans:
            yield "SELECT sum(price) FROM history;\n"
    yield "COMMIT;\n"


def run(words, lines, folder):
    """Runs a command with these lines as its input, from a file, and without the user's settings of SQLite."""
    path = os.path.join(folder, "input.sql")
    with open(path, "w") as file:
        file.writelines(lines)
    with open(path) as file:
        subprocess.run(words, stdin=file, stdout=subprocess.DEVNULL, check=True, env={**os.environ, "HOME": folder})


def reads(trace, database):
    """The bytes and the offset of each read of a page of the database."""
    with open(trace) as lines:
        for line in lines:
            found = READ.search(line)
            if not found and "pread64" in line:
                sys.exit(f"strace wrote a line that is not understood: {line}")
            if found and found[1] == database and int(found[2]) == PAGE_BYTES == int(found[4]):
                yield found[2], found[3]


def words_of(words):
    parser = argparse.ArgumentParser(description=__doc__, formatter_class=argparse.RawDescriptionHelpFormatter)
    parser.add_argument("--seed", metavar="N", type=int, default=1)
    parser.add_argument("--rounds", metavar="N", type=int, default=10)
    parser.add_argument("--look-ups", metavar="N", type=int, default=10_000)
    parser.add_argument("--no-scan", action="store_true")
    return parser.parse_args(words)


def main(words):
    told = words_of(words)
    with tempfile.TemporaryDirectory(prefix="sqlite-trace-") as folder:
        folder = os.path.realpath(folder)
        database, trace = os.path.join(folder, "shop.db"), os.path.join(folder, "trace")
        run(["sqlite3", database], making(), folder)
        strace = ["strace", "-f", "-y", "-s", "0", "-e", "trace=pread64", "-e", "signal=none", "-o", trace]
        asked = load(told.seed, told.rounds, told.look_ups, not told.no_scan)
        run([*strace, "sqlite3", "-readonly", database], asked, folder)
        sys.stdout.write("bytes,offset\n")
        sys.stdout.writelines(f"{count},{offset}\n" for count, offset in reads(trace, database))


if __name__ == "__main__":
    main(sys.argv[1:])
