"""The buffer pool Hojzmated: to try frames and K with, and to use the pages of a file.

`count` and `sweep` count a list of references, `Pool` is a pool without a file, and `Pager` one over a page file, for
many threads. What this module's own code does is tested, not proved. Below it are the libraries of bindings/c.

    >>> import hojzmated
    >>> references = [1, 2, 1, 2, 3, 4, 5, 6, 1, 2]
    >>> hojzmated.count(references, frames=3, k=2)
    Counts(fixes=10, hits=4, faults=6, evictions=3, refused=0)
    >>> for line in hojzmated.sweep(references, frames=[3], k=[1, 2]):
    ...     print(line.frames, line.k, line.counts.hit_ratio)
    3 1 0.2
    3 2 0.4

    >>> with hojzmated.Pool(pages=100, frames=1, k=2) as pool:
    ...     with pool.fix(7) as page:               # 7 is pinned until this block ends
    ...         print(page.is_hit, page.evicted)
    ...     pool.tick()                             # now 7 may leave its frame
    ...     with pool.fix(8) as page:
    ...         print(page.is_hit, page.evicted)
    ...     pool.stats()
    False None
    False 7
    Stats(hits=0, faults=2, evictions=1, writes=0, failed=0, refused=0, resident=1, pinned=0)

    >>> import os, tempfile
    >>> folder = tempfile.TemporaryDirectory()
    >>> with hojzmated.Pager(os.path.join(folder.name, "counts"), pages=100, frames=8) as pager:
    ...     with pager.write(7) as page:            # no other thread has page 7 until this block ends
    ...         page.put(0, b"forty-two")
    ...     with pager.read(7) as page:
    ...         print(bytes(page.bytes[:9]))
    b'forty-two'
    >>> with open(os.path.join(folder.name, "counts"), "rb") as file:
    ...     print(file.read()[7 * 4096:][:9])       # a block that ends well makes a checkpoint
    b'forty-two'
    >>> folder.cleanup()

A `Pool` moves no bytes: each page counts as read as soon as it is asked for, and none is written to.

The libraries are looked for in $HOJZMATED_PREFIX/lib, then in the folder libs of this package, where the wheel of a
release has them, then in the checkout of this file (`make -C bindings/c pager`), and then where the system's loader
looks. One of another minor version is refused with ImportError.
"""
from __future__ import annotations

from ._library import Format, How, Refusal, Refused, __version__, hz
from ._lists import Counts, SweepLine, count, sweep
from ._pager import FixedPage, Pager, PagerStats
from ._pool import Page, Pool, Stats

__all__ = ["Counts", "FixedPage", "Format", "How", "Page", "Pager", "PagerStats", "Pool", "Refusal", "Refused", "Stats",
           "SweepLine", "__version__", "count", "sweep", "version"]

# What is pickled or shown in a traceback has the name under which it is imported.
for _value in (Counts, Format, How, PagerStats, Refusal, Refused, Stats, SweepLine):
    _value.__module__ = __name__


def version() -> tuple[int, int, int]:
    """Returns the version of the library, as (major, minor, patch)."""
    number = hz.hz_version()
    return number // 10_000, number // 100 % 100, number % 100
