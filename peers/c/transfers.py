#!/usr/bin/env python3
"""Measures the transfers of bindings/rust/examples/ledger beside SQLite, Berkeley DB and LMDB.

    apt-get install -y libsqlite3-dev libdb5.3-dev liblmdb-dev
    peers/c/transfers.py [--rounds N] [--seconds N] [--accounts N] [--folder FOLDER]
    peers/c/transfers.py k [--rounds N] ..

It builds the ledger and peers/c/transfers.c with each of the three; what is not there is left out. A round runs the
four one after the other: with 1 and 4 threads, with each transaction synced and with none, and with a cache of more
than the rows and of a tenth of them. LMDB has no cache of its own, and stands in both. The files are in the folder,
of a disk whose syncs cost what they cost there. Where nothing is said there are seven rounds of two seconds, and
100,000 accounts. Printed are tables of the medians: transactions a second, and the 99th percentile of their times in
milliseconds. A second table has look-ups alone, each by itself, with a cache of more than the rows: millions a second,
and the 99th percentile of 64 of them in milliseconds.

With `k` it measures the ledger alone, with a cache of a tenth and no syncs: the hit ratio and the rate for K 1, 2 and 3
and periods of none, an eighth, a quarter and a half of the frames.

The library is that of $HOJZMATED_PREFIX, or that which check/bindings would take. The machine has to be quiet.
"""

import os
import re
import shutil
import statistics
import subprocess
import sys
import tempfile
from importlib.machinery import SourceFileLoader
from importlib.util import module_from_spec, spec_from_loader

TOP = os.path.dirname(os.path.dirname(os.path.dirname(os.path.realpath(__file__))))
PEERS = [("SQLite", "SQLITE", "sqlite3"), ("Berkeley DB", "BERKELEY", "db"), ("LMDB", "LMDB", "lmdb")]
PAGE, LOOKS = 4096, 64


def kills():
    """check/kills, which builds the ledger."""
    loader = SourceFileLoader("kills", os.path.join(TOP, "check", "kills"))
    module = module_from_spec(spec_from_loader("kills", loader))
    sys.dont_write_bytecode = True
    sys.path.insert(0, os.path.join(TOP, "check"))  # where its runner stands
    loader.exec_module(module)
    return module


def said(*words):
    return subprocess.run([str(word) for word in words], check=True, stdout=subprocess.PIPE, text=True).stdout


class Ledger:
    name = "Ledger"

    def __init__(self, program, folder, accounts):
        self.program, self.loaded, self.store = program, f"{folder}/loaded", f"{folder}/ledger"
        # Room for leaves that are half empty.
        pages = 1000 + accounts // 6
        said(program, "load", self.loaded, "--accounts", accounts, "--pages", pages, "--frames", pages, "--log", 65536)
        shape = said(program, "check", self.loaded)
        self.pages = sum(map(int, re.search(r"in (\d+) leaves under (\d+)", shape).groups()))

    def run(self, threads, seconds, is_synced, frames, *more):
        shutil.rmtree(self.store, ignore_errors=True)
        shutil.copytree(self.loaded, self.store)
        return said(self.program, "run", self.store, "--threads", threads, "--seconds", seconds, "--sync", is_synced,
                    "--frames", frames, "--opens", 0, *more)


def numbers(text):
    return [float(it) for it in re.search(r"([\d.]+) a second, p99 ([\d.]+) ms", text).groups()]


def peer(program, folder, accounts, threads, seconds, is_synced, cache, *looks):
    shutil.rmtree(folder, ignore_errors=True)
    os.mkdir(folder)
    return said(program, folder, accounts, threads, seconds, is_synced, cache, *looks)


def built(folder):
    """Returns the programs of the peers that can be built."""
    programs = {}
    for name, word, library in PEERS:
        words = [os.environ.get("CC", "cc"), "-std=gnu11", "-O3", f"-D{word}", f"{TOP}/peers/c/transfers.c",
                 f"-l{library}", "-lpthread", "-o", f"{folder}/{word}"]
        if subprocess.run(words, stderr=subprocess.DEVNULL, check=False).returncode == 0:
            programs[name] = f"{folder}/{word}"
        else:
            print(f"left out: {name}", flush=True)
    return programs


def beside_others(ledger, folder, options):
    programs = built(folder)
    names, cells = [ledger.name, *programs], {}
    setups = [(part, sync, threads) for part in (1, 10) for sync in (1, 0) for threads in (1, 4)]
    for number in range(options["rounds"]):
        for part, sync, threads in setups:
            frames = ledger.pages * 3 // 2 // part
            for name in names:
                how = threads, options["seconds"], sync
                text = (ledger.run(*how, frames) if name == ledger.name else
                        peer(programs[name], f"{folder}/peer", options["accounts"], *how, frames * PAGE))
                cells.setdefault((part, sync, threads, name), []).append(numbers(text))
        for threads, name in ((threads, name) for threads in (1, 4) for name in names):
            frames, how = ledger.pages * 3 // 2, (threads, options["seconds"], 0)
            text = (ledger.run(*how, frames, "--looks", LOOKS) if name == ledger.name else
                    peer(programs[name], f"{folder}/peer", options["accounts"], *how, frames * PAGE, LOOKS))
            cells.setdefault(("looks", threads, name), []).append(numbers(text))
        print(f"round {number + 1} of {options['rounds']}", flush=True)
    print("", f"| Cache | Sync | Threads | {' | '.join(names)} |", f"|---|---|---|{'---|' * len(names)}", sep="\n")
    for part, sync, threads in setups:
        row = []
        for name in names:
            rate, p99 = (statistics.median(it) for it in zip(*cells[part, sync, threads, name]))
            row.append(f"{rate:,.0f}; {p99:.3f}")
        cache = "all" if part == 1 else "a tenth"
        print(f"| {cache} | {'each' if sync else 'none'} | {threads} | {' | '.join(row)} |")
    print("", f"| Threads | {' | '.join(names)} |", f"|---|{'---|' * len(names)}", sep="\n")
    for threads in 1, 4:
        of_names = [[statistics.median(it) for it in zip(*cells["looks", threads, name])] for name in names]
        print(f"| {threads} | {' | '.join(f'{rate / 1e6:.2f}; {p99:.3f}' for rate, p99 in of_names)} |")
    spreads = sorted((max(rates) - min(rates)) / statistics.median(rates)
                     for rates in ([rate for rate, _ in cell] for cell in cells.values()))
    half, most = statistics.median(spreads), spreads[-1]
    print(f"\nA rate moves between rounds by {half:.0%} of its median in half of the cells, and by {most:.0%} at most.")


def periods(ledger, options):
    frames = ledger.pages // 10
    print("| K | Period | Hits | Transactions a second |", "|---|---|---|---|", sep="\n")
    for k in 1, 2, 3:
        for name, part in ("none", 0), ("1/8 of the frames", 8), ("1/4", 4), ("1/2", 2):
            period = frames // part if part else 0
            texts = [ledger.run(4, options["seconds"], 0, frames, "--k", k, "--period", period)
                     for _ in range(options["rounds"])]
            hits = [[int(it) for it in re.search(r"hits: (\d+), faults: (\d+)", text).groups()] for text in texts]
            ratio = statistics.median(hit / (hit + fault) for hit, fault in hits)
            rate = statistics.median(numbers(text)[0] for text in texts)
            print(f"| {k} | {name} | {ratio:.4f} | {rate:,.0f} |", flush=True)


def main(words):
    options, folder = {"rounds": 7, "seconds": 2, "accounts": 100_000}, tempfile.gettempdir()
    of_periods = words[:1] == ["k"]
    words = words[1:] if of_periods else words
    while words:
        name, value, words = words[0].removeprefix("--"), words[1] if len(words) > 1 else "", words[2:]
        if name in options and value.isdigit():
            options[name] = int(value)
        elif name == "folder" and os.path.isdir(value):
            folder = value
        else:
            print(__doc__.strip(), file=sys.stderr)
            return 2
    with tempfile.TemporaryDirectory(prefix="transfers-", dir=folder) as own:
        module = kills()
        engine = module.Engine(module.CRATE, module.prefix_in(own), f"{own}/target", "release")
        ledger = Ledger(engine.ledger, own, options["accounts"])
        print(f"the tree has {ledger.pages} pages", flush=True)
        if of_periods:
            periods(ledger, options)
        else:
            beside_others(ledger, own, options)
    return 0


if __name__ == "__main__":
    sys.exit(main(sys.argv[1:]))
