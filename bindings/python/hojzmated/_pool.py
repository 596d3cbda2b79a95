"""A pool without a file."""
from __future__ import annotations

import ctypes
import threading
from types import TracebackType
from typing import NamedTuple, Optional, SupportsIndex, Tuple, Type

from ._library import BYTE, Config, Core, CoreStats, Fixed, Grant, Refusal, Refused, Setting
from ._library import check, explained, hz, number_of

LARGEST_PERIOD = 1 << 62
LARGEST_ROOM = 1 << 61
LEAST_PAGE = 16
MOST_PAGES, MOST_FRAMES, MOST_K, MOST_CLIENTS = 1 << 20, 1 << 16, 16, 64
HIT = 1


def ratio(part: int, whole: int) -> float:
    return part / whole if whole else 0.0


class Stats(NamedTuple):
    """The counts since the pool was made, and the present numbers of resident and of pinned pages."""

    hits: int
    faults: int
    evictions: int
    writes: int
    failed: int
    refused: int
    resident: int
    pinned: int

    @property
    def hit_ratio(self) -> float:
        """Hits over hits and faults."""
        return ratio(self.hits, self.hits + self.faults)


class Page:
    """A page that is pinned: it stays in its frame until `unfix`, or until the end of a `with`.

    `number` is the page, `client` the client that fixed it, `is_hit` whether it was in a frame, and `evicted` the page
    that was evicted for it, or None.
    """

    number: int
    client: int
    is_hit: bool
    evicted: Optional[int]

    def __init__(self, pool: Pool, fixed: Fixed, grant: Grant) -> None:
        self._pool, self._grant = pool, grant
        self.number, self.client = grant.page, grant.client
        self.is_hit = fixed.kind == HIT
        self.evicted = fixed.evicted if fixed.has_evicted else None

    def unfix(self) -> None:
        """Unpins the page. A second call is refused with 14."""
        self._pool.unfix(self)

    def __enter__(self) -> Page:
        return self

    def __exit__(self, kind: Optional[Type[BaseException]], error: Optional[BaseException],
                 trace: Optional[TracebackType]) -> None:
        self.unfix()

    def __repr__(self) -> str:
        return f"<page {self.number}, {'hit' if self.is_hit else 'fault'}, evicted {self.evicted}>"


class Pool:
    """A pool of `frames` frames over pages 0 to `pages` - 1, which replaces pages by LRU-K.

    Its clock begins at 1, and moves only by `tick`. A page can be evicted once it is unpinned and the clock has moved
    by more than `correlated` since its newest reference. References within that period count as one. `purge` forgets
    pages in no frame whose newest reference is older than `retained`.

    Numbers out of their limits are refused with 1 or 2, and the text says which: at most 1,048,576 pages, 65,536
    frames, K 16, 64 clients, and periods of 2^62 ticks. Threads may share a pool.
    """

    def __init__(self, pages: SupportsIndex, frames: SupportsIndex, k: SupportsIndex = 2,
                 correlated: SupportsIndex = 0, retained: SupportsIndex = LARGEST_PERIOD,
                 clients: SupportsIndex = 1) -> None:
        self._config = Config(
            pages=number_of("pages", pages), page_size=LEAST_PAGE, frames=number_of("frames", frames),
            room=LARGEST_ROOM, correlated=number_of("correlated", correlated),
            retained=number_of("retained", retained), k=number_of("k", k, BYTE),
            clients=number_of("clients", clients, BYTE))
        self._core = Core()
        self._image = (ctypes.c_uint8 * LEAST_PAGE)()
        self._lock = threading.Lock()
        try:
            check(hz.hz_core_new(self._config, self._core))
        except Refused as it:
            raise explained(it, self._settings()) from None

    def _settings(self) -> Tuple[Setting, ...]:
        config = self._config
        return (
            Setting("pages", config.pages, 1, MOST_PAGES), Setting("frames", config.frames, 1, MOST_FRAMES),
            Setting("k", config.k, 1, MOST_K), Setting("correlated", config.correlated, 0, LARGEST_PERIOD),
            Setting("retained", config.retained, 0, LARGEST_PERIOD),
            Setting("clients", config.clients, 1, MOST_CLIENTS))

    def _check(self, number: int, page: Optional[int] = None, client: Optional[int] = None) -> None:
        """Raises the refusal of a call, if it was refused, with the page or the client that there is not."""
        if number == Refusal.OUT_OF_PAGE and page is not None:
            text = f"the pool has no page {page:,}: its pages are 0 to {self._config.pages - 1:,}"
        elif number == Refusal.BAD_CLIENT and client is not None:
            text = f"the pool has no client {client}: its clients are 0 to {self._config.clients - 1}"
        else:
            text = None
        if number:
            raise Refused(number, text, page)

    def fix(self, page: SupportsIndex, client: SupportsIndex = 0) -> Page:
        """Brings a page into a frame and pins it. Returns a `Page`, which must be unfixed.

        Refused: 41 for a client that is not one, 45 for a page that is not one, 11 where no page can be evicted.
        """
        number, client = number_of("page", page), number_of("client", client, BYTE)
        with self._lock:
            fixed, grant = self._fix(number, client)
        return Page(self, fixed, grant)

    def _fix(self, page: int, client: int) -> Tuple[Fixed, Grant]:
        """Returns the answer of a fix, and the pass. A page that is not in a frame counts as read at once; no page is
        ever unsaved, so none has to be written out first."""
        fixed, grant = Fixed(), Grant()
        refused = hz.hz_fix(self._core, client, page, self._image, LEAST_PAGE, fixed)
        if refused:
            self._check(refused, page, client)
        if fixed.kind == HIT:
            return fixed, fixed.grant
        check(hz.hz_read_end(self._core, fixed.grant, self._image, LEAST_PAGE, grant))
        return fixed, grant

    def unfix(self, page: Page) -> None:
        """Unpins the page that `fix` returned. Refused: 14 where it was unfixed already, or is another pool's."""
        with self._lock:
            check(hz.hz_unfix(self._core, page._grant))

    def tick(self, n: SupportsIndex = 1, client: SupportsIndex = 0) -> None:
        """Moves the clock on by n. Refused: 21 where it would pass 2^62."""
        ticks, client = number_of("n", n), number_of("client", client, BYTE)
        with self._lock:
            self._check(hz.hz_tick(self._core, client, ticks), client=client)

    def discard(self, page: SupportsIndex, client: SupportsIndex = 0) -> bool:
        """Has a page leave its frame, and forgets its references. Returns True if it was in a frame.

        Refused: 41 for a client that is not one, 45 for a page that is not one, 25 where it is pinned.
        """
        number, client = number_of("page", page), number_of("client", client, BYTE)
        was_resident = ctypes.c_uint8()
        with self._lock:
            self._check(hz.hz_discard(self._core, client, number, was_resident), number, client)
        return bool(was_resident.value)

    def purge(self, client: SupportsIndex = 0) -> int:
        """Forgets the references of pages in no frame whose newest reference is older than the retained period. Returns
        the number of these pages."""
        client = number_of("client", client, BYTE)
        forgotten = ctypes.c_uint64()
        with self._lock:
            self._check(hz.hz_purge(self._core, client, forgotten), client=client)
        return forgotten.value

    def is_resident(self, page: SupportsIndex) -> bool:
        """Returns True if the page is in a frame. Refused: 45 for a page that is not one."""
        number, is_resident = number_of("page", page), ctypes.c_uint8()
        with self._lock:
            self._check(hz.hz_is_resident(self._core, number, is_resident), number)
        return bool(is_resident.value)

    def stats(self) -> Stats:
        """Returns the counts since the pool was made, and the present numbers of resident and of pinned pages."""
        stats = CoreStats()
        with self._lock:
            check(hz.hz_stats_of(self._core, stats, ctypes.sizeof(stats)))
        return Stats(*(getattr(stats, name) for name in Stats._fields))

    def close(self) -> None:
        """Frees the pool. Each further call is refused with 50; closing it again does nothing."""
        with self._lock:
            hz.hz_core_free(self._core)

    def __enter__(self) -> Pool:
        return self

    def __exit__(self, kind: Optional[Type[BaseException]], error: Optional[BaseException],
                 trace: Optional[TracebackType]) -> None:
        self.close()

    def __del__(self) -> None:
        # A pool whose making failed may have no lock, or no core.
        if hasattr(self, "_lock"):
            self.close()
