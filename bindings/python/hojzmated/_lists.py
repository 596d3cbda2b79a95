"""Lists of references, which are counted in pools of their own."""
from __future__ import annotations

import operator
from typing import Dict, Hashable, Iterable, Iterator, List, NamedTuple, SupportsIndex, Tuple

from ._library import Refusal, Refused, check, hz
from ._pool import Pool, ratio


class Counts(NamedTuple):
    """The counts of a list of references. `refused` are those for which no page could be evicted."""

    fixes: int
    hits: int
    faults: int
    evictions: int
    refused: int

    @property
    def hit_ratio(self) -> float:
        """Hits over references."""
        return ratio(self.hits, self.fixes)


class SweepLine(NamedTuple):
    """The counts for one number of frames and one K."""

    frames: int
    k: int
    counts: Counts


def _dense(references: Iterable[Hashable]) -> Tuple[List[int], int]:
    """Returns the references as pages, numbered from 0 in the order of first reference, and the number of pages."""
    pages: Dict[Hashable, int] = {}
    return [pages.setdefault(it, len(pages)) for it in references], len(pages)


def _count_pages(pages: List[int], different: int, frames: SupportsIndex, k: SupportsIndex,
                 correlated: SupportsIndex) -> Counts:
    refused = 0
    with Pool(max(different, 1), frames, k, correlated) as pool:
        for page in pages:
            try:
                _, grant = pool._fix(page, 0)
            except Refused as it:
                if it.number != Refusal.NO_VICTIM:
                    raise
                refused += 1
            else:
                check(hz.hz_unfix(pool._core, grant))
            check(hz.hz_tick(pool._core, 0, 1))
        stats = pool.stats()
    return Counts(len(pages), stats.hits, stats.faults, stats.evictions, refused)


def count(references: Iterable[Hashable], frames: SupportsIndex, k: SupportsIndex = 2,
          correlated: SupportsIndex = 0) -> Counts:
    """Counts a list of references in a new pool, as `bpool sweep` does.

    A reference is anything that can be a key of a dict; equal ones are references to the same page. Each page is
    unfixed before the next reference, and the clock moves on by one. There may be 1,048,576 different ones.
    """
    return _count_pages(*_dense(references), frames, k, correlated)


def sweep(references: Iterable[Hashable], frames: Iterable[SupportsIndex], k: Iterable[SupportsIndex] = (1, 2),
          correlated: SupportsIndex = 0) -> Iterator[SweepLine]:
    """Yields a line for each number of frames and each K, in order, each as soon as it is counted."""
    pages, different = _dense(references)
    for some_frames in frames:
        for some_k in k:
            counts = _count_pages(pages, different, some_frames, some_k, correlated)
            yield SweepLine(operator.index(some_frames), operator.index(some_k), counts)
