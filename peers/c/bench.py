#!/usr/bin/env python3
"""Measures the pool through C and through Rust beside Berkeley DB's memory pool, over the same pages in the same order.

    apt-get install -y libdb5.3-dev liblmdb-dev
    peers/c/bench.py [ROUNDS [SECONDS]]
    peers/c/bench.py threads [ROUNDS [SECONDS]]
    peers/c/bench.py truncate [ROUNDS [SECONDS]]

It builds peers/c/bench.c with the library of bindings/c, bindings/rust/examples/bench.rs, and peers/c/bench.c with
Berkeley DB. A round runs the three one after the other for each use and page size, for SECONDS each. There are seven
rounds of a second, where nothing else is said. Printed is a table: millions of operations a second of the wall clock,
the median of the rounds, and the ratio to Berkeley DB in the same round: the median, and the least to the greatest.

The settings are those of core::Config::new: K 2, a correlated period of an eighth of the frames, and a clock that moves at
each fix. Where pages are evicted a second row has no period, beside the same figures of Berkeley DB. Each pool is in
its steady state: eight operations for each frame come before those that count.

With FRAMES in the environment, 256 to 65,536, the pools have so many in place of 4,096, and pages are of 4,096 bytes
alone; with K they have another K.

With `threads` it measures the pager that many threads share, through Rust by bindings/rust/examples/bench_pager.rs and
through C by peers/c/bench.c, in pages of 4,096 bytes and with 1, 2 and 4 threads. It has 4,096 frames. Beside it is peers/c/bench.c with Berkeley DB, and for look-ups
in a tree also LMDB, by peers/c/lmdb.c. The operations are those of all threads.

With `truncate` it measures what it takes to drop 10,000 pages of 4,096 bytes that are unsaved: by one call of
hz_pager_discard, and by Berkeley DB's __memp_ftruncate, both by peers/c/truncate.c. That sees to it that all of them
leave their frames, and neither reads or writes any. The operations are pages.

What stands on cargo, Berkeley DB or LMDB is left out where that is not there. The library comes of the proved one of
$LIBRARY, or of the one that `rt lib` left in crates/hojzmated_c.

The machine has to be quiet. How many processors other work had is told after each round, and under the table where it
was too much.
"""
import os
import shutil
import statistics
import subprocess
import sys
import tempfile
import time

TOP = os.path.dirname(os.path.dirname(os.path.dirname(os.path.realpath(__file__))))
CC = [os.environ.get("CC", "cc"), "-std=gnu11", "-O3"]  # as cargo has it
C, RUST, PAGER, PEER, LMDB = "C", "Rust", "Pager", "Berkeley DB", "LMDB"
PEERS = (PEER, LMDB)
SIZES, THREADS = (4096,) if "FRAMES" in os.environ else (1024, 4096, 8192), (1, 2, 4)
FRAMES, SHARED_FRAMES = int(os.environ.get("FRAMES", "4096")), 4096
EVICTING = "evict", "write-out"
MOST_FOR_OTHERS = 0.1  # of a processor


def periods_of(use, frames):
    """The correlated periods with which a use is measured."""
    return (frames // 8, 0) if use in EVICTING else (frames // 8,)


class Owner:
    """With one thread. A cell is a use, a page size and a correlated period."""
    columns = "Use", "Page"
    cells = [(use, size, period) for use in ("nothing", "look", "page", "update", "tree", *EVICTING)
             for size in SIZES for period in periods_of(use, FRAMES)]

    @staticmethod
    def benches(folder, prefix):
        linked = f"-I{prefix}/include", f"{prefix}/lib/libhojzmated.a"
        return {C: compiled(f"{folder}/c", "bench.c", *linked), RUST: example(folder, prefix, "bench"),
                PEER: peer(folder)}

    @staticmethod
    def words(name, cell, seconds):
        """The words with which a bench runs for a cell, or none where it does not: what Rust adds to C shows without
        evictions."""
        return None if name == RUST and cell[0] in EVICTING else [cell[0], str(cell[1]), seconds]


class Shared:
    """With many threads. A cell is a use, how many threads and a correlated period."""
    columns = "Use", "Threads"
    cells = [(use, threads, period) for use in ("look", "page", "update", *EVICTING, "tree")
             for threads in THREADS for period in periods_of(use, SHARED_FRAMES)]

    @staticmethod
    def benches(folder, prefix):
        pager = f"{prefix}/lib/libhojzmated_pager.a"
        linked = "-DPAGER", f"-I{prefix}/include", pager
        in_c = compiled(f"{folder}/pager", "bench.c", *linked) if os.path.exists(pager) else None
        return {PAGER: example(folder, prefix, "bench_pager"), C: in_c, PEER: peer(folder),
                LMDB: compiled(f"{folder}/lmdb", "lmdb.c", "-llmdb", is_needed=False)}

    @staticmethod
    def words(name, cell, seconds):
        if name != LMDB:
            return [cell[0], "4096", seconds, str(cell[1])]
        return [seconds, str(cell[1])] if cell[0] == "tree" else None


class Truncate:
    """Pages that are dropped. A cell is a use, how many pages and a correlated period."""
    columns = "Use", "Pages"
    cells = [("truncate", 10000, 20000 // 8)]

    @staticmethod
    def benches(folder, prefix):
        linked = f"-I{prefix}/include", f"{prefix}/lib/libhojzmated_pager.a"
        return {C: compiled(f"{folder}/truncate", "truncate.c", *linked),
                PEER: compiled(f"{folder}/peer", "truncate.c", "-DBERKELEY", "-ldb", is_needed=False)}

    @staticmethod
    def words(_name, _cell, seconds):
        return ["4096", seconds]


MEASURES = {"threads": Shared, "truncate": Truncate}


def compiled(path, source, *words, is_needed=True):
    """Compiles a program of this folder, and returns its path; none where that fails and it is not needed."""
    command = [*CC, f"{TOP}/peers/c/{source}", *words, "-lpthread", "-o", path]
    said = None if is_needed else subprocess.DEVNULL
    return path if subprocess.run(command, stderr=said, check=is_needed).returncode == 0 else None


def peer(folder):
    return compiled(f"{folder}/peer", "bench.c", "-DBERKELEY", "-ldb", is_needed=False)


def example(folder, prefix, name):
    """Builds an example of the crate, and returns its path; none where there is no cargo."""
    crate = f"{TOP}/bindings/rust"
    if not shutil.which("cargo") or not os.path.exists(f"{crate}/examples/{name}.rs"):
        return None
    words = ["cargo", "build", "--offline", "--quiet", "--release", "--example", name]
    env = {**os.environ, "HOJZMATED_PREFIX": prefix, "CARGO_TARGET_DIR": f"{folder}/target"}
    subprocess.run(words, cwd=crate, env=env, check=True)
    return f"{folder}/target/release/examples/{name}"


def installed(folder):
    """Installs the library in a prefix in the folder, and returns the prefix."""
    prefix, library = f"{folder}/prefix", os.environ.get("LIBRARY")
    words = ["make", "-s", "-C", f"{TOP}/bindings/c", "install", f"PREFIX={prefix}"]
    words += [f"LIBRARY={os.path.abspath(library)}"] if library else []
    subprocess.run(words, check=True)
    return prefix


def built(measure, folder):
    """Builds the benches, and returns the path of each under its name."""
    benches = measure.benches(folder, installed(folder))
    return {name: bench for name, bench in benches.items() if bench}


def measured(name, command, cell, folder):
    """The operations a second of a bench. Some also tell the hit rate."""
    env = {**os.environ, "PERIOD": str(cell[2])}
    said = subprocess.run(command, cwd=folder, check=True, stdout=subprocess.PIPE, text=True, env=env).stdout.split()
    if name not in (RUST, LMDB) and cell[0] not in EVICTING and float(said[1]) < 1:
        sys.exit(f"bench.py: {' '.join(command)}: not all pages are resident")
    return float(said[0])


def round_of(measure, benches, seconds, folder, rates):
    """Runs each bench for each cell, and adds what it told to the rates. A peer has no period: it runs for the first of
    some cells that differ in that alone."""
    before = None
    for cell in measure.cells:
        for name, bench in benches.items():
            words = measure.words(name, cell, str(seconds))
            if words and name in PEERS and before and before[:2] == cell[:2]:
                rates[cell, name].append(rates[before, name][-1])
            elif words:
                rates[cell, name].append(measured(name, [bench, *words], cell, folder))
        before = cell


def spent():
    """The time now, and the processor time that all have had, and that this program and its children have had."""
    with open("/proc/stat", encoding="ascii") as file:
        user, nice, system, _, _, irq, softirq, steal = map(int, file.readline().split()[1:9])
    own = os.times()
    return (time.monotonic(), (user + nice + system + irq + softirq + steal) / os.sysconf("SC_CLK_TCK"),
            own.user + own.system + own.children_user + own.children_system)


def others_since(before):
    """How many processors other work had since `spent` gave this."""
    wall, every, own = (b - a for a, b in zip(before, spent()))
    return (every - own) / wall


def warn(others):
    """Tells if other work had too much in a round."""
    if max(others) > MOST_FOR_OTHERS:
        print(f"\nThe machine was not quiet: other work had up to {max(others):.2f} processors in a round.")


def median_of(rates):
    return f"{statistics.median(rates) / 1e6:.2f}" if rates else ""


def ratio_of(rates, peer):
    ratios = [a / b for a, b in zip(rates, peer)]
    return f"{statistics.median(ratios):.2f} ({min(ratios):.2f} to {max(ratios):.2f})" if ratios else ""


def table(measure, benches, rates):
    """The lines of the table. A column is there for each bench, and one for the ratio of each own one to each peer."""
    pairs = [(name, other) for name in benches if name not in PEERS for other in benches if other in PEERS]
    ratios = [f"{name}, ratio" + (f" to {LMDB}" if other == LMDB else "") for name, other in pairs]
    columns = [*measure.columns, "K", "Period", *benches, *ratios]
    yield "| " + " | ".join(columns) + " |"
    yield "|---" * len(columns) + "|"
    for cell in measure.cells:
        medians = [median_of(rates[cell, name]) for name in benches]
        ratios = [ratio_of(rates[cell, name], rates[cell, other]) for name, other in pairs]
        settings = [cell[0], f"{cell[1]:,}", os.environ.get("K", "2"), f"{cell[2]:,}"]
        yield "| " + " | ".join([*settings, *medians, *ratios]) + " |"


def numbers_of(words):
    """The rounds and the seconds, or none where the words are others."""
    try:
        rounds, seconds = int(words[0]) if words else 7, float(words[1]) if len(words) > 1 else 1
    except ValueError:
        return None
    return (rounds, seconds) if len(words) < 3 and rounds > 0 and seconds > 0 else None


def main(words):
    measure = MEASURES.get(words[0] if words else None, Owner)
    numbers = numbers_of(words if measure == Owner else words[1:])
    if not numbers:
        print(__doc__.strip(), file=sys.stderr)
        return 2
    others = []
    with tempfile.TemporaryDirectory() as folder:
        benches = built(measure, folder)
        rates = {(cell, name): [] for cell in measure.cells for name in benches}
        for number in range(numbers[0]):
            before = spent()
            round_of(measure, benches, numbers[1], folder, rates)
            others.append(others_since(before))
            print(f"round {number + 1}: other work had {others[-1]:.2f} processors", file=sys.stderr, flush=True)
    print("\n".join(table(measure, benches, rates)))
    warn(others)
    return 0


if __name__ == "__main__":
    sys.exit(main(sys.argv[1:]))
