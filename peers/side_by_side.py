#!/usr/bin/env python3
"""Runs `bench pool` or bench_threads and Berkeley DB's memory pool in turn, over the same pages; prints the ratios.

    apt-get install libdb5.3-dev           (a C compiler is needed too)
    (cd crates/bench && rt run)            builds the bench, and makes its long runs of seconds
    (cd crates/bench_threads && rt run)    builds that of threads
    peers/side_by_side.py ROUNDS [ROOM ..]
    peers/side_by_side.py threads ROUNDS [KIND ..]

For each ROOM the trail has that room and is cut when half full; ROOM 0 is a trail that is never cut, and ROOM
`silent` one that is only counted. Each number is in fixes and unfixes a second of processor time. A ratio is of one
round, above 1 where the proved pool is faster. The median of the rounds comes first, and then the least and the
greatest.

K is 2, and the correlated period is an eighth of the frames in fixes; it is told in ticks, of which there is one in 16
fixes. Where pages are evicted a second row has no period, beside the same figures of Berkeley DB. Each pool is in its
steady state: eight fixes for each frame come before those that count.

With `threads` it measures 1, 2 and 4 threads over one pool, whose trail is only counted (KIND `silent`), and then cut
as they go (`recorded`), and over a pool of 1, 16 and 64 parts (or KIND, a number), whose trails are only counted, with
as many frames in all. Each number is in uses a second of the wall clock, of all threads. The peer is peers/c/bench.c
with DB_THREAD, whose numbers are drawn in the same way. It ends where one use in a hundred is refused here, or where
the peer hits more or fewer of them than this pool can: all, or where pages are evicted a quarter. Last come the looks
that empty locks would give over the same lines of memory, by peers/c/locks.c.
"""
import os
import re
import statistics
import subprocess
import sys
import tempfile

TOP = os.path.dirname(os.path.dirname(os.path.realpath(__file__)))
BENCH = f"{TOP}/crates/bench/out/bench"
BENCH_THREADS = f"{TOP}/crates/bench_threads/out/bench_threads"
FILE_BYTES = 268435456
# What Berkeley DB is measured with: pages of the file, frames such that the hit rate is the same, hot pages.
PEER = [
    ("hits, 256 frames", 256, 256, 256),
    ("evictions, 256 frames", 1024, 177, 1024),
    ("hits, 4,096 frames", 4096, 4096, 4096),
    ("evictions, 4,096 frames", 16384, 2890, 16384),
    ("hits, 65,536 frames", 65536, 65536, 65536),
    ("evictions, 65,536 frames", 262144, 46200, 262144),
]


# The rows of bench_threads for each number of threads: a name, the period in ticks, and what peers/c/bench.c does
# with how many frames.
THREADS = (1, 2, 4)
KINDS = ("silent", "recorded", "1", "16", "64")
USES = [
    ("fix and unfix, 64 hot pages", 32, "nothing", 64),
    ("look, 64 hot pages", 32, "look", 64),
    ("look, 4,096 resident pages", 32, "look", 4096),
    ("look by one call, 4,096 resident pages", 32, "look", 4096),
    ("update, 4,096 resident pages", 32, "update", 4096),
    ("look, evictions", 32, "evict", 4096),
    ("look, evictions", 0, "evict", 4096),
    ("look by one call, evictions", 32, "evict", 4096),
]


def said(words, folder, **env):
    done = subprocess.run(words, cwd=folder, check=True, capture_output=True, text=True, env={**os.environ, **env})
    return done.stdout


def ours(pages, room, folder):
    words = [BENCH, "pool", pages] + ([str(room)] if room else [])
    found = re.findall(r"period (\d+)\n\d+ pages: (\d+) fixes", said(words, folder))
    if [int(period) for period, _ in found] != [period for _, period, _ in rows()]:
        sys.exit("side_by_side.py: `bench pool` has other rows")
    return [int(rate) for _, rate in found]


def theirs(mpool, folder):
    """The rates of Berkeley DB's pool, each over one second of processor time."""
    rates = []
    for _, *numbers, hot in PEER:
        line = said([mpool, "1", *map(str, [*numbers, 1024, hot])], folder)
        rates.append(int(line.split()[0]))
    return rates


def pages_of(use):
    """The pages of a row of bench_threads: as many as the peer has frames, or four times so many."""
    _, _, name, frames = use
    return frames * 4 if name == "evict" else frames


def ours_in_threads(pages, kind, folder):
    told = said([BENCH_THREADS, pages, *([kind] if kind != "recorded" else [])], folder)
    row = r"(\d+) threads, (\d+) pages, period (\d+): (\d+) a second; (\d+) of (\d+) were not refused"
    found = [tuple(map(int, numbers)) for numbers in re.findall(row, told)]
    if [it[:3] for it in found] != [(n, pages_of(use), use[1]) for n in THREADS for use in USES]:
        sys.exit("side_by_side.py: bench_threads has other rows")
    if any(done * 100 < asked * 99 for *_, done, asked in found):
        sys.exit(f"side_by_side.py: bench_threads was refused more than one use in a hundred:\n{told}")
    return [it[3] for it in found]


def theirs_in_threads(bench, folder):
    """The rates of Berkeley DB's pool, each over one second."""
    rates = []
    for threads in THREADS:
        for _, _, use, frames in USES:
            line = said([bench, use, "1024", "1", str(threads)], folder, FRAMES=str(frames))
            rate, hits = line.split()
            if abs(float(hits) - (0.25 if use == "evict" else 1)) > 0.02:
                sys.exit(f"side_by_side.py: Berkeley DB hits {hits} of the uses of `{use}`")
            rates.append(int(rate))
    return rates


def empty_locks(locks, parts, folder):
    """The rates of empty locks in so many parts, each over one second. They are taken twice for each look, and once for
    one by one call."""
    rates = []
    for threads in THREADS:
        for name, _, use, frames in USES:
            sections = "1" if "by one call" in name else "2"
            words = [locks, str(frames), parts, sections, "1", str(threads)]
            rates.append(int(said(words, folder)) if use == "look" else None)
    return rates


def rows():
    """What `bench pool` measures in its order: a name, the period in ticks, and the place of what it is beside."""
    for at, (name, _, _, hot) in enumerate(PEER):
        frames = hot // 4 if name.startswith("evictions") else hot
        yield name, frames // 8 // 16, at
        if name.startswith("evictions"):
            yield name, 0, at


def spread(values, digits=2):
    return f"{statistics.median(values):.{digits}f} ({min(values):.{digits}f} to {max(values):.{digits}f})"


def thousands(values):
    return f"{statistics.median(values) / 1000:,.0f}"


def print_table(title, runs, peer):
    print(title)
    print("| | K | Period | This pool, thousands a second | Berkeley DB | Ratio |\n|---|---|---|---|---|---|")
    for row, (name, period, at) in enumerate(rows()):
        mine, other = [it[row] for it in runs], [it[at] for it in peer]
        ratios = [a / b for a, b in zip(mine, other)]
        print(f"| {name} | 2 | {period:,} | {thousands(mine)} | {thousands(other)} | {spread(ratios)} |")


def title_of(kind):
    titles = {"silent": "only counted", "recorded": "cut as they go"}
    return titles.get(kind) or f"in {parts_of(kind)}, only counted"


def parts_of(kind):
    return f"{kind} part{'s' * (kind != '1')}"


def in_threads(rounds, kinds, pages, folder):
    bench, locks = f"{folder}/bench", f"{folder}/locks"
    subprocess.run(["cc", "-std=gnu11", "-O3", "-DBERKELEY", f"{TOP}/peers/c/bench.c", "-ldb", "-lpthread", "-o", bench],
                   check=True)
    subprocess.run(["cc", "-std=gnu11", "-O3", f"{TOP}/peers/c/locks.c", "-lpthread", "-o", locks], check=True)
    empty = {kind: f"empty locks in {parts_of(kind)}" for kind in kinds if kind.isdigit()}
    peer, runs = [], {title: [] for title in (*map(title_of, kinds), *empty.values())}
    for _ in range(rounds):
        peer.append(theirs_in_threads(bench, folder))
        for kind in kinds:
            runs[title_of(kind)].append(ours_in_threads(pages, kind, folder))
        for kind, title in empty.items():
            runs[title].append(empty_locks(locks, kind, folder))
    for title, ran in runs.items():
        print_threads(title, ran, peer)


def print_threads(title, runs, peer):
    """A row for each use that was measured, with the median rates and their ratios for each number of threads."""
    print(f"{title}, K 2, thousands a second and the ratio to Berkeley DB")
    heads = " | ".join(f"{n} threads" if n > 1 else "1 thread" for n in THREADS)
    print(f"| Use | Period | {heads} |\n|---|---|---|---|---|")
    for use, (name, period, *_) in enumerate(USES):
        if runs[0][use] is None:
            continue
        cells = []
        for at in range(use, len(USES) * len(THREADS), len(USES)):
            mine, other = [it[at] for it in runs], [it[at] for it in peer]
            cells.append(f"{thousands(mine)}; {spread([a / b for a, b in zip(mine, other)])}")
        print(f"| {name} | {period} | {' | '.join(cells)} |")


def main():
    threads = sys.argv[1:2] == ["threads"]
    rounds = int(sys.argv[1 + threads])
    words = sys.argv[2 + threads:]
    if threads and any(it not in KINDS and not (it.isdigit() and 0 < int(it) and 64 % int(it) == 0) for it in words):
        sys.exit("side_by_side.py: KIND is `silent`, `recorded`, or a number of parts that divides 64")
    with tempfile.TemporaryDirectory(prefix="side-by-side-") as folder:
        mpool, pages = f"{folder}/mpool", f"{folder}/pages.bin"
        subprocess.run(["cc", "-O2", f"{TOP}/peers/mpool.c", "-ldb", "-o", mpool], check=True)
        with open(pages, "wb") as it:
            it.write(bytes(FILE_BYTES))
        if threads:
            return in_threads(rounds, words or KINDS, pages, folder)
        rooms = [it if it == "silent" else int(it) for it in words] or [0]
        runs = {room: [] for room in rooms}
        peer = []
        for _ in range(rounds):
            peer.append(theirs(mpool, folder))
            for room in rooms:
                runs[room].append(ours(pages, room, folder))
    titles = {0: "never cut", "silent": "only counted"}
    for room in rooms:
        title = titles.get(room, f"room {room}, cut when half full")
        print_table(title, runs[room], peer)


if __name__ == "__main__":
    main()
