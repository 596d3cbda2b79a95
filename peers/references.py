#!/usr/bin/env python3
"""Writes a list of page references, one page number a line, as `bpool sweep` reads it.

    peers/references.py two_pools SEED COUNT > refs.txt
    peers/references.py zipfian SEED COUNT > refs.txt

two_pools   references in turn to a page of an index and to a page of records. The index has pages 0 to 99, the
            records have pages 100 to 10,099, and each page of a pool is as likely as any other of it.
zipfian     references to pages 0 to 999, the first the likeliest. The first i pages get a share of them:
            i / 1000 to the power of log 0.8 / log 0.2. So 80 in 100 go to 20 in 100 of the pages, and of these 80 in
            100 to 20 in 100 of those pages.

SEED is a number from 0 to 2^64 - 1, and COUNT how many references there are. The same words give the same list on
each machine and with each Python 3: the numbers are whole, and the generator is written out below (splitmix64).
"""
import bisect
import decimal
import sys

INDEX_PAGES = 100
RECORD_PAGES = 10_000
ZIPFIAN_PAGES = 1_000
WORD = 1 << 64


def words(seed):
    """Numbers below 2^64, each as likely as any other."""
    state = seed
    while True:
        state = (state + 0x9E3779B97F4A7C15) % WORD
        word = state
        word = ((word ^ (word >> 30)) * 0xBF58476D1CE4E5B9) % WORD
        word = ((word ^ (word >> 27)) * 0x94D049BB133111EB) % WORD
        yield word ^ (word >> 31)


def two_pools(seed):
    it = words(seed)
    while True:
        yield next(it) * INDEX_PAGES // WORD
        yield INDEX_PAGES + next(it) * RECORD_PAGES // WORD


def zipfian(seed, pages=ZIPFIAN_PAGES):
    # For each page the number below which a word means it or a page before it.
    with decimal.localcontext() as context:
        context.prec = 60
        exponent = decimal.Decimal("0.8").ln() / decimal.Decimal("0.2").ln()
        shares = (decimal.Decimal(i) / pages for i in range(1, pages))
        bounds = [int(WORD * (exponent * share.ln()).exp()) for share in shares]
    for word in words(seed):
        yield bisect.bisect_right(bounds, word)


def main():
    kinds = {"two_pools": two_pools, "zipfian": zipfian}
    if len(sys.argv) != 4 or sys.argv[1] not in kinds or not all(it.isdecimal() for it in sys.argv[2:]):
        sys.exit(__doc__)
    seed, count = int(sys.argv[2]), int(sys.argv[3])
    if seed >= WORD:
        sys.exit(__doc__)
    pages = kinds[sys.argv[1]](seed)
    sys.stdout.writelines(f"{next(pages)}\n" for _ in range(count))


if __name__ == "__main__":
    main()
