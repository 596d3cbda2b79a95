"""A pool for many threads over the pages of a file."""
from __future__ import annotations

import _thread
import ctypes
import os
import sys
import threading
import time
import warnings
import weakref
from types import TracebackType
from typing import TYPE_CHECKING, Any, Dict, Generic, List, NamedTuple, Optional, SupportsIndex, Type, TypeVar
from typing import Union

from ._library import BYTE, Format, How, PagerConfig, PagerCounts, PagerHandle, Ref, Refusal, Refused, Setting
from ._library import explained, number_of, pager_library, refusal_of
from ._pool import LARGEST_PERIOD, LEAST_PAGE, MOST_FRAMES, MOST_K, MOST_PAGES, ratio

if TYPE_CHECKING:
    from _typeshed import ReadableBuffer

# Looking a member up in its class takes longer.
SHARED, EXCLUSIVE, PINNED, TRY = (int(it) for it in How)
NO_VICTIM = int(Refusal.NO_VICTIM)
# What a call is refused with that would wait for other threads, where it is not to.
WAITING = int(Refusal.BUSY), NO_VICTIM
NEW = 0  # what `new_page` has in the place of these
NO_PERIOD = (1 << 64) - 1
HEADS = {Format.PLAIN: 0, Format.NUMBERED: 16, Format.CHECKED: 32}  # the bytes before a page
MOST_PARTS = 64
MOST_PAGE = 1 << 16
# How long the main thread waits before it asks again for a page that nobody has told to be free.
PAUSE = 0.02

Lent = TypeVar("Lent")
Memory = Any  # a ctypes array of a page's bytes


class PagerStats(NamedTuple):
    """The counts since the pager was made, the present numbers of resident, pinned and unsaved pages, and the memory
    that the pager has, in bytes."""

    hits: int
    faults: int
    evictions: int
    writes: int
    failed: int
    refused: int
    discards: int
    waits: int
    resident: int
    pinned: int
    unsaved: int
    memory: int

    @property
    def hit_ratio(self) -> float:
        """Hits over hits and faults."""
        return ratio(self.hits, self.hits + self.faults)


# ---- Pages that are fixed

class _Pages(Dict[int, "FixedPage[Any]"]):
    """The pages that one thread has fixed, by their serial numbers. It goes as the thread ends."""

    def __del__(self, is_finalizing: Any = sys.is_finalizing) -> None:
        # As the interpreter ends nobody looks at a page any more.
        if not is_finalizing():
            for page in list(self.values()):
                page._end()


class _Own(threading.local):
    """What each thread has for itself."""

    def __init__(self) -> None:
        self.pages = _Pages()


_own = _Own()


def _keep(pager: Pager, number: int, is_kept: Any, is_gone: threading.Event) -> None:
    """Keeps a page in its frame until an event. It is run in a thread of its own, and releases the lock `is_kept` once
    the page is pinned."""
    ref = Ref()
    try:
        pager._call("hz_pager_fix", pager._pager, number, PINNED, ref)
    finally:
        is_kept.release()
    is_gone.wait()
    with pager._ending:
        pager._call("hz_pager_unfix", ref)


class FixedPage(Generic[Lent]):
    """A page that stays in its frame until `unfix`, or until the end of a `with`, which are for the thread that fixed
    it, if it is not only pinned.

    `number` is the page, and `how` how it is fixed. `bytes` are its bytes in place, as a `memoryview` that cannot be
    written to; None if the page is only pinned. `numpy.frombuffer(page.bytes, dtype)` makes an array of them without a
    copy. All that was made of `bytes`, such as slices and arrays, has to be gone before the page is unfixed: else
    BufferError is raised, and the page stays as it was. Keep a copy (`bytes(..)`, `array.copy()`) of what is needed
    later.

    A thread that ends gives back the pages that it fixed. `bytes` of a page that was given back are refused with 14,
    and a `memoryview` that was taken from there before raises ValueError. A slice or an array that is still there as
    its thread ends shows the page further on, which stays in its frame until they are gone. But it has no latch then:
    other threads may put to the page meanwhile.
    """

    number: int

    def __init__(self, pager: Pager, ref: Ref) -> None:
        self._pager, self._ref, self.number = pager, ref, ref.page
        self._view: Any = None
        self._memory: Optional[weakref.ref[Memory]] = None
        self._is_over = False
        if ref.bytes:
            self._lend((ctypes.c_uint8 * pager.page_size).from_address(ref.bytes))

    def _lend(self, memory: Memory) -> None:
        self._view, self._memory = memoryview(memory).cast("B").toreadonly(), weakref.ref(memory)

    @property
    def how(self) -> How:
        """How it is fixed: `How.SHARED`, `How.EXCLUSIVE` or `How.PINNED`."""
        return How(self._ref.how)

    @property
    def bytes(self) -> Lent:
        """The bytes of the page in place, or None if it is only pinned."""
        if self._is_over or self._pager._is_of_parent:
            self._pager._check_process()
            raise Refused(Refusal.UNKNOWN_PASS, f"page {self.number} was given back", self.number)
        view: Lent = self._view
        return view

    def put(self, offset: SupportsIndex, data: ReadableBuffer, lsn: SupportsIndex = 0) -> None:
        """Writes bytes into the page from the offset on. `data` is anything that has bytes in a row, such as an array.

        Refused: 14 for a page that was given back, or that another thread fixed; 45 where they are not within the page;
        73 for a page that is not from `write` or `new_page`.
        """
        self._pager._check_process()
        put = memoryview(data).cast("B").tobytes()
        offset, lsn = number_of("offset", offset), number_of("lsn", lsn)
        try:
            self._pager._call("hz_pager_put", self._ref, offset, put, len(put), lsn)
        except Refused as it:
            if it.number != Refusal.OUT_OF_PAGE:
                raise
            raise Refused(it.number, f"page {self.number} has {self._pager.page_size:,} bytes, and {len(put):,} from "
                                     f"offset {offset:,} on are not within it", self.number) from None

    def unfix(self) -> None:
        """Gives the page back, with its latch. Refused: 14 where it was given back already, or another thread fixed it;
        but any thread gives back a page that is only pinned. BufferError where a slice or an array of `bytes` is still
        there."""
        pager, serial, pages = self._pager, self._ref.serial, _own.pages
        if pager._is_of_parent:
            pager._check_process()
        if serial in pages:
            if self._take_back() is not None:
                raise BufferError(f"a slice of page {self.number} is still there: copy what is needed later")
            self._is_over = True
        if pager._library.hz_pager_unfix(self._ref):
            raise pager._refusal()
        self._is_over = True
        pages.pop(serial, None)  # last: until then a call that a signal interrupts can be made again
        if pager._wanted is not None:
            pager._is_free.set()

    def _take_back(self) -> Optional[Memory]:
        """Ends that the bytes are lent. Returns their memory, where something else has it that was made of them: then
        they still are."""
        memory = self._memory and self._memory()
        if memory is None or self._view is None or self._memory is None:
            return None
        try:
            self._view.release()
        except BufferError:
            return memory
        self._view = None
        del memory
        memory = self._memory()
        if memory is not None:
            self._lend(memory)
        return memory

    def _end(self) -> None:
        """Gives the page back as its thread ends. If a slice or an array is still there, another thread pins it."""
        self._is_over = True
        if self._pager._process != os.getpid():
            return  # the threads of the parent end in a child as it begins
        memory, self._view = self._take_back(), None
        if memory is not None:
            is_kept, is_gone = threading.Lock(), threading.Event()
            weakref.finalize(memory, is_gone.set).atexit = False
            is_kept.acquire()
            _thread.start_new_thread(_keep, (self._pager, self.number, is_kept, is_gone))
            is_kept.acquire()
        with self._pager._ending:
            self._pager._library.hz_pager_unfix(self._ref)
        self._pager._is_free.set()

    def __enter__(self) -> FixedPage[Lent]:
        return self

    def __exit__(self, kind: Optional[Type[BaseException]], error: Optional[BaseException],
                 trace: Optional[TracebackType]) -> None:
        # A child that was forked within the block has no page to give back.
        if not self._pager._is_of_parent:
            self.unfix()

    def __repr__(self) -> str:
        return f"<page {self.number}, {self.how.name.lower()}>"


# ---- Calls that a signal ends

class _Call:
    """A call of a pager that another thread makes for the main one. It stays in `_calls` of the pager as long as either
    has it."""

    def __init__(self, pager: Pager, name: str, arguments: Any) -> None:
        self.pager, self.name, self.arguments = pager, name, arguments
        self.is_done = threading.Event()
        self.error: Optional[BaseException] = None

    def make(self) -> None:
        try:
            self.pager._call(self.name, *self.arguments)
        except BaseException as it:
            self.error = it
        finally:
            self.is_done.set()


_main = threading.main_thread().ident
_pagers: weakref.WeakSet[Pager] = weakref.WeakSet()


def _leave_to_parent() -> None:
    """In a child that was forked the pagers are the parent's. Their files are closed here, and nothing is freed: what
    threads of the parent did as it forked is unknown, and slices of pages may still be looked at."""
    global _main
    _main = _thread.get_ident()
    _own.pages.clear()
    for pager in list(_pagers):
        pager._leave()


os.register_at_fork(after_in_child=_leave_to_parent)


# ---- A pager

class Pager:
    """A pool for many threads over the pages of a file, with a latch on each page, which is a lock on that page alone.

    `path` is the file. With `pages` it is made if it is not there, and gets pages of zeros where it has less; without,
    it has as many as it has. A file that does not end with a whole page is refused with 3, and nothing is written to
    it. `format` is a `Format`: 1 is a file of the bytes of the pages alone, 2 has 16 bytes before each, with its number
    and its LSN, and 3 has 32, with a checksum too.

    The file is locked until `close`: another pager over it is refused with 76, in this process or another.

    At most `frames` pages are in memory, and LRU-`k` chooses who makes way. `correlated` and `retained` are its
    periods, in fixes, by default an eighth of the frames and eight times the frames. `parts` are pools side by side, by
    default by the processors. A call waits `pin_wait` seconds where all pages that could make way are pinned, and is
    refused with 11 then. The attributes `pages` and `page_size` tell what the file has.

    Threads may share a pager, and run side by side in its calls. There is no log. A refusal is raised as `Refused`, and
    an error of the file is one, with its `errno`. In a child that was forked each call of the parent's pager is refused
    with 50, and it has to make one of its own.

    What was put is in the file for good after a `checkpoint`. A `with` that ends well makes one, and closes the pager.
    If that is refused the pager stays open and nothing is lost: the call can be made again. A `with` that ends by an
    exception makes none, and closes the pager. Then each page of the file is as the last checkpoint left it, or as a
    later write-out did, as of pages that made way or were flushed. The other puts are lost. The exception has a note
    that says of how many pages (from Python 3.11 on).

    Ctrl-C ends a wait of the main thread for a latch or a pin, as any signal does whose handler raises. Then nothing is
    fixed. A checkpoint, flush or discard that is interrupted so goes on, in a thread of its own, and until it is done
    `close` is refused with 13.
    """

    pages: int
    page_size: int

    def __init__(self, path: Union[str, "os.PathLike[str]"], pages: Optional[SupportsIndex] = None,
                 page_size: SupportsIndex = 4096, frames: SupportsIndex = 1024, k: SupportsIndex = 2, *,
                 correlated: Optional[SupportsIndex] = None, retained: Optional[SupportsIndex] = None,
                 parts: SupportsIndex = 0, pin_wait: float = 10.0, format: SupportsIndex = Format.PLAIN) -> None:
        config = PagerConfig(
            size=ctypes.sizeof(PagerConfig), pages=number_of("pages", pages or 0),
            page_size=number_of("page_size", page_size), frames=number_of("frames", frames),
            parts=number_of("parts", parts), correlated=_period(correlated), retained=_period(retained),
            pin_wait_ms=max(1, int(pin_wait * 1000)), k=number_of("k", k, BYTE), grows=1)
        format = number_of("format", format, 1 << 31)
        self._library, self._pager, self._path, self._pin_wait = pager_library(), PagerHandle(), path, pin_wait
        self._process, self._is_of_parent = os.getpid(), False
        self.page_size, self._head = config.page_size, next((size for it, size in HEADS.items() if it == format), 0)
        # The calls that were made for the main thread, and may go on without it.
        self._calls: weakref.WeakSet[_Call] = weakref.WeakSet()
        # The page that the main thread waits for, while it has the turn; and that a page was given back meanwhile.
        self._wanted: Optional[int] = None
        self._turn, self._is_free = threading.RLock(), threading.Event()
        self._ending = threading.Lock()  # pages of threads that end are given back, or the pager is freed
        self._fd: Optional[int] = None
        _pagers.add(self)
        self._fd = os.open(path, os.O_RDWR | os.O_CLOEXEC | (os.O_CREAT if config.pages else 0), 0o666)
        try:
            self._make(config, format)
        except BaseException:
            self.close()
            raise

    def _make(self, config: PagerConfig, format: int) -> None:
        try:
            self._call("hz_pager_new_file", config, self._fd, format, self._pager)
        except Refused as it:
            told = explained(it, self._settings(config, format))
            if told is it and it.number == Refusal.BAD_LENGTH:
                told = Refused(it.number, self._length_fault())
            raise told from None
        self.pages = config.pages or self._pages_of_file()

    def _settings(self, config: PagerConfig, format: int) -> List[Setting]:
        """The settings with their limits, but for those that have a default."""
        pages, parts = config.pages or self._pages_of_file(), config.parts or MOST_PARTS
        found = [
            Setting("pages" if config.pages else "the number of pages of the file", pages, 1, parts * MOST_PAGES),
            Setting("page_size", config.page_size, LEAST_PAGE, MOST_PAGE, LEAST_PAGE),
            Setting("frames", config.frames, 1, parts * MOST_FRAMES), Setting("k", config.k, 1, MOST_K),
            Setting("format", format, Format.PLAIN, Format.CHECKED)]
        if config.parts:
            found.append(Setting("parts", config.parts, 1, max(1, min(MOST_PARTS, pages, config.frames))))
        periods = ("correlated", config.correlated), ("retained", config.retained)
        return found + [Setting(name, it, 0, LARGEST_PERIOD) for name, it in periods if it != NO_PERIOD]

    def _length(self) -> int:
        return os.fstat(self._fd).st_size if self._fd is not None else 0

    def _pages_of_file(self) -> int:
        return self._length() // max(1, self._head + self.page_size)

    def _length_fault(self) -> Optional[str]:
        """What is wrong with a file that has another format or page size."""
        slot, length = self._head + self.page_size, self._length()
        if slot == 0 or length % slot == 0:
            return None
        return f"the file has {length:,} bytes, and that is no whole number of pages of {slot:,} bytes"

    # ---- Calls

    def _call(self, name: str, *arguments: Any) -> None:
        """Makes a call of the library, and raises its refusal."""
        if getattr(self._library, name)(*arguments):
            raise self._refusal()

    def _refusal(self) -> Refused:
        """What this thread was refused last. For a page that the file has not, it says which there are."""
        self._check_process()  # that it has no pager is not all there
        refused = refusal_of(self._library)
        if refused.number != Refusal.OUT_OF_PAGE or refused.page is None or refused.page < self.pages:
            return refused
        return Refused(refused.number, self._lacks(refused.page), refused.page)

    def _lacks(self, page: int) -> str:
        return f"the file has no page {page:,}: its pages are 0 to {self.pages - 1:,}"

    def _check_process(self) -> None:
        if self._is_of_parent:
            raise Refused(Refusal.NO_CORE, f"the pager is that of process {self._process}, from which this one was "
                                           "forked: it has to make one of its own")

    def _leave(self) -> None:
        """Has the pager be that of the parent, in a child that was forked, if it was not closed before."""
        self._is_of_parent, self._pager.own = self._pager.own is not None, None
        self._turn, self._ending = threading.RLock(), threading.Lock()  # threads of the parent may have had these
        self._close_file()

    def _call_apart(self, name: str, *arguments: Any) -> None:
        """Makes a call that may wait for other threads. The main thread has another one make it, so that a signal ends
        the wait: that takes some tens of microseconds more."""
        if _thread.get_ident() != _main:
            self._call(name, *arguments)
            return
        call = _Call(self, name, arguments)
        self._calls.add(call)
        try:
            _thread.start_new_thread(call.make, ())
        except RuntimeError:  # as the interpreter ends
            call.make()
        call.is_done.wait()
        error, call.error = call.error, None
        if error is not None:
            try:
                raise error
            finally:
                del error  # else it and this frame keep each other

    def _has_exclusive(self, page: Optional[int] = None) -> bool:
        """Whether this thread has the exclusive latch of this page, or of any page of the pager."""
        return any(it._pager is self and it._ref.how == EXCLUSIVE and page in (None, it.number)
                   for it in _own.pages.values())

    # ---- Fixing pages

    def _fixed(self, page: SupportsIndex, how: int, wait: bool) -> FixedPage[Any]:
        number, ref = number_of("page", page), Ref()
        try:
            self._fix(number, how, wait, ref)
            fixed: FixedPage[Any] = FixedPage(self, ref)
            _own.pages[ref.serial] = fixed
            return fixed
        except BaseException:
            # A signal may come just as the page was fixed.
            self._undo(ref)
            raise

    def _undo(self, ref: Ref) -> None:
        """Gives a page back that nobody has seen, if it was fixed."""
        if ref.serial:
            fixed = _own.pages.pop(ref.serial, None)
            if fixed is not None:
                fixed._is_over = True
                fixed._take_back()
            self._library.hz_pager_unfix(ref)
            self._is_free.set()

    def _fix(self, page: int, how: int, wait: bool, ref: Ref) -> None:
        is_main = _thread.get_ident() == _main
        if self._wanted is not None and wait and not is_main and how != PINNED:
            self._let_main_go_first(page)
        if how == NEW:
            number = self._library.hz_pager_new_page(self._pager, page, ref)
        else:
            number = self._library.hz_pager_fix(self._pager, page, how | TRY if is_main or not wait else how, ref)
        if number:
            if not is_main or not wait or how == NEW or number not in WAITING:
                raise self._refusal()
            self._fix_in_main(page, how, ref)

    def _fix_in_main(self, page: int, how: int, ref: Ref) -> None:
        """Fixes a page for the main thread, which has to wait for it. It waits by Python's means alone, and asks again
        and again: so a signal ends the wait."""
        end = time.monotonic() + self._pin_wait
        with self._turn:
            before, self._wanted = self._wanted, page  # another one, in a handler of a signal
            try:
                while True:
                    number = self._library.hz_pager_fix(self._pager, page, how | TRY, ref)
                    if number == 0:
                        return
                    if number not in WAITING or number == NO_VICTIM and time.monotonic() >= end:
                        raise self._refusal()
                    self._is_free.wait(PAUSE)
                    self._is_free.clear()
            finally:
                self._wanted = before

    def _let_main_go_first(self, page: int) -> None:
        """Waits until the main thread has this page, or waits no longer. It has no place in the library's queue for the
        page, and would never have its turn where others always do. Who has the page already goes on."""
        if page == self._wanted and not any(it._pager is self and it.number == page for it in _own.pages.values()):
            with self._turn:
                pass

    def read(self, page: SupportsIndex, wait: bool = True) -> FixedPage[memoryview]:
        """Returns a page under its shared latch: other threads may read it too, and none writes to it.

        With `wait=False` it is refused with 13 where the latch is not free. Refused: 45 for a page that the file has
        not, 72 where this thread has a latch of the page, 17, 18, 19 where the file fails.
        """
        return self._fixed(page, SHARED, wait)

    def write(self, page: SupportsIndex, wait: bool = True) -> FixedPage[memoryview]:
        """Returns a page under its exclusive latch, for `put`: no other thread has a latch of it. Refused: as `read`.
        """
        return self._fixed(page, EXCLUSIVE, wait)

    def pin(self, page: SupportsIndex, wait: bool = True) -> FixedPage[None]:
        """Returns a page without a latch. It stays in its frame, and can be read and written to meanwhile, by any
        thread. With `wait=False` the call does not wait for pins of other threads."""
        return self._fixed(page, PINNED, wait)

    def new_page(self, page: SupportsIndex) -> FixedPage[memoryview]:
        """Returns a page under its exclusive latch, as zeros, and does not read it. One that is in a frame is as it is
        there. Put something there. Where all that could make way are pinned no signal ends the wait before `pin_wait`.
        Refused: as `read`."""
        number = number_of("page", page)
        # If it is in a frame another thread may have its latch, and `write` waits for that so that a signal ends it.
        if _thread.get_ident() == _main and number < self.pages and self.is_resident(number):
            try:
                return self.write(number)
            except Refused as it:
                if it.number not in (Refusal.READ_FAILED, Refusal.WRONG_PAGE):
                    raise  # else it left its frame meanwhile
        return self._fixed(number, NEW, True)

    # ---- The rest

    def flush(self, page: SupportsIndex) -> None:
        """Writes a page to the file, if it was put to since it was written last. Refused: 72 where this thread has it
        from `write`."""
        number = number_of("page", page)
        call = self._call if self._has_exclusive(number) else self._call_apart
        call("hz_pager_flush", self._pager, number)

    def discard(self, page: SupportsIndex, count: SupportsIndex = 1) -> int:
        """Drops so many pages from this one on, which are of no use any longer: they leave their frames unwritten, and
        what was put to them and is not in the file is lost. Returns how many were in frames. Refused: 25 where one of
        them is still fixed."""
        first, many, resident = number_of("page", page), number_of("count", count), ctypes.c_uint64()
        try:
            self._call_apart("hz_pager_discard", self._pager, first, many, resident)
        except Refused as it:
            if it.number != Refusal.OUT_OF_PAGE:
                raise
            raise Refused(it.number, self._lacks(max(first, first + many - 1))) from None
        return resident.value

    def checkpoint(self) -> None:
        """Writes all pages to the file that were put to before, and syncs it. Refused: 71 where the sync failed, 72
        where this thread has a page from `write`."""
        call = self._call if self._has_exclusive() else self._call_apart
        call("hz_pager_checkpoint", self._pager, ctypes.c_uint64(), ctypes.c_uint8())

    def clean(self, most: SupportsIndex) -> int:
        """Writes out at most so many pages that nobody has fixed, so that later calls need not. Returns how many."""
        count = ctypes.c_size_t()
        self._call("hz_pager_clean", self._pager, number_of("most", most), count)
        return count.value

    def purge(self) -> int:
        """Forgets the references of pages in no frame whose newest reference is older than the retained period. Returns
        the number of these pages. The pager does so by itself, a few pages at a time."""
        count = ctypes.c_uint64()
        self._call("hz_pager_purge", self._pager, count)
        return count.value

    def is_resident(self, page: SupportsIndex) -> bool:
        """Returns True if the page is in a frame. Refused: 45 for a page that the file has not."""
        is_resident = ctypes.c_uint8()
        self._call("hz_pager_is_resident", self._pager, number_of("page", page), is_resident)
        return bool(is_resident.value)

    def stats(self) -> PagerStats:
        """Returns the counts since the pager was made, and the present numbers of pages."""
        stats = PagerCounts()
        self._call("hz_pager_stats_of", self._pager, stats, ctypes.sizeof(stats))
        return PagerStats(*(getattr(stats, name) for name in PagerStats._fields))

    # ---- The end

    def close(self) -> None:
        """Frees the pager and closes the file; what was put since the last `checkpoint` may be lost. Refused: 13 while
        a page is fixed, or a call that was interrupted goes on. Each further call is refused with 50; closing it again
        does nothing. No other thread may be in a call of it."""
        with self._ending:
            if self._pager.own:
                under_way = [it.name for it in list(self._calls) if not it.is_done.is_set()]
                if under_way:
                    name = under_way[0].replace("hz_pager_", "")
                    raise Refused(Refusal.BUSY, f"a {name} that was interrupted is not done yet")
                self._call("hz_pager_free", self._pager)
        self._close_file()

    def _close_file(self) -> None:
        fd, self._fd = self._fd, None
        if fd is not None:
            os.close(fd)

    def __enter__(self) -> Pager:
        return self

    def __exit__(self, kind: Optional[Type[BaseException]], error: Optional[BaseException],
                 trace: Optional[TracebackType]) -> None:
        if error is not None:
            self._close_after(error)
            return
        self._check_process()
        if self._pager.own:
            if self.stats().pinned:
                raise Refused(Refusal.BUSY, "a page is still fixed: no checkpoint was made, and the pager stays open")
            self.checkpoint()
        self.close()

    def _close_after(self, error: BaseException) -> None:
        """Closes the pager as its block ends by an exception, and notes there what is lost, or that it stays open since
        it is still in use."""
        if not self._pager.own:
            return
        unsaved = self.stats().unsaved
        try:
            self.close()
            said = f"puts to {unsaved:,} pages are lost" if unsaved else ""
        except Refused as it:
            said = f"the pager stays open: {it}"
        if said and hasattr(error, "add_note"):
            error.add_note(f"no checkpoint was made of {self._path!r}, and {said}")

    def __del__(self) -> None:
        # A pager whose making failed may have no lock. One of which a page is fixed stays.
        if not hasattr(self, "_ending"):
            return
        if self._process != os.getpid():  # a thread of the parent had it, and goes in the child as that begins
            return self._close_file()
        try:
            unsaved = self.stats().unsaved if self._pager.own else 0
            self.close()
            if unsaved:
                warnings.warn(f"a pager was forgotten, and puts to {unsaved:,} pages of {self._path!r} are lost",
                              ResourceWarning, source=self)
        except Refused:
            pass


def _period(fixes: Optional[SupportsIndex]) -> int:
    """Returns a period as the library has it, where 0 is for the default."""
    if fixes is None:
        return 0
    return number_of("a period", fixes) or NO_PERIOD
