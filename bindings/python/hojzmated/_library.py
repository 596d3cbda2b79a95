"""The libraries below the module: where they are, their calls and structs, and how they refuse."""
from __future__ import annotations

import ctypes
import ctypes.util
import enum
import operator
import os
from typing import Any, Iterable, List, NamedTuple, Optional, SupportsIndex, Type, Union

__version__ = "0.13.0"

BYTE = 1 << 8


# ---- Refusals

class Refusal(enum.IntEnum):
    """What a call was refused for. The numbers and the names are those of `hojzmated.h` and `hojzmated_pager.h`."""

    BAD_GEOMETRY = 1  # the pages or the page size are out of their limits
    BAD_SETTINGS = 2  # another setting is
    BAD_LENGTH = 3  # a page file does not end with a whole page
    NO_VICTIM = 11  # no page can make way
    NEED_LOG = 12
    BUSY = 13  # a latch is not free, or a page is still fixed
    UNKNOWN_PASS = 14  # the page was given back, or another thread fixed it
    UNKNOWN_TICKET = 16
    READ_FAILED = 17
    WRITE_FAILED = 18
    WRONG_PAGE = 19  # another page was found in its place
    TRAIL_FULL = 20
    CLOCK_FULL = 21
    OUT_OF_MEMORY = 22
    PAGE_PINNED = 25  # a page that is to be dropped is still fixed
    BAD_CLIENT = 41
    OUT_OF_PAGE = 45  # there is no such page, or the bytes are not within it
    NO_CORE = 50  # the pool or the pager was closed, or is that of a process from which this one was forked
    HAS_CORE = 51
    NULL = 52
    VERSION_MISMATCH = 61
    SYNC_FAILED = 71
    DEADLOCK = 72  # the call would wait for a latch that this thread has
    NOT_EXCLUSIVE = 73  # the page is not under its exclusive latch
    IN_CALLBACK = 74
    PANICKED = 75
    FILE_IN_USE = 76  # another pager has the page file, in this process or another
    NOT_A_FILE = 77  # it is a directory, a pipe or a device
    FILE_READ_ONLY = 78
    LOG_LOST = 79  # the log of an engine in C failed, now or before


class How(enum.IntEnum):
    """How a page is fixed: under its shared latch, under its exclusive one, or pinned alone. `TRY` is added where the
    call is not to wait."""

    SHARED = 1
    EXCLUSIVE = 2
    PINNED = 3
    TRY = 16


class Format(enum.IntEnum):
    """How a page file is laid out: its pages alone, or with 16 bytes before each, which are its number and its LSN, or
    with 32, with a checksum too."""

    PLAIN = 1
    NUMBERED = 2
    CHECKED = 3


class Refused(Exception):
    """A refusal of a pool or a pager. It changes nothing, except that 11, 12 and 13 count as calls of a pool.

    `number` is a `Refusal`, or the number alone where the library is newer and has more. `page` is the page, or None
    where it is of none, and `errno` what the system said of the file, or 0.
    """

    number: Union[Refusal, int]
    page: Optional[int]
    errno: int

    def __init__(self, number: int, text: Optional[str] = None, page: Optional[int] = None, errno: int = 0) -> None:
        self._text = text or text_of(number)
        super().__init__(f"{self._text} (refusal {int(number)})")
        self.number, self.page, self.errno = _refusal(number), page, errno

    def __reduce__(self) -> Any:
        return type(self), (int(self.number), self._text, self.page, self.errno), self.__dict__


def _refusal(number: int) -> Union[Refusal, int]:
    try:
        return Refusal(number)
    except ValueError:
        return number


def number_of(name: str, value: SupportsIndex, end: int = 1 << 64) -> int:
    """Returns the value as an integer that fits the library's field: ctypes would cut it off."""
    number = operator.index(value)
    if not 0 <= number < end:
        raise ValueError(f"{name} is {number}, and has to be from 0 to {end - 1}")
    return number


class Setting(NamedTuple):
    """A setting and its limits, and of what it has to be a multiple."""

    name: str
    value: int
    least: int
    most: int
    step: int = 1

    def fault(self) -> Optional[str]:
        """Says what is wrong with it, or None."""
        if self.least <= self.value <= self.most and self.value % self.step == 0:
            return None
        of = f"a multiple of {self.step} " if self.step > 1 else ""
        return f"{self.name} is {self.value:,}, and has to be {of}from {self.least:,} to {self.most:,}"


def explained(refused: Refused, settings: Iterable[Setting]) -> Refused:
    """Returns the refusal of settings with a text that says which are wrong. Where none is known to be it stays."""
    faults = [it for it in (setting.fault() for setting in settings) if it is not None]
    if refused.number not in (Refusal.BAD_GEOMETRY, Refusal.BAD_SETTINGS, Refusal.BAD_LENGTH) or not faults:
        return refused
    return Refused(refused.number, "; ".join(faults))


# ---- The core

class Core(ctypes.Structure):
    _fields_ = [("seal", ctypes.c_void_p), ("is_live", ctypes.c_bool)]


class Config(ctypes.Structure):
    _fields_ = [("pages", ctypes.c_uint64), ("page_size", ctypes.c_size_t), ("frames", ctypes.c_size_t),
                ("room", ctypes.c_size_t), ("correlated", ctypes.c_uint64), ("retained", ctypes.c_uint64),
                ("k", ctypes.c_uint8), ("clients", ctypes.c_uint8)]


class Grant(ctypes.Structure):
    _fields_ = [("page", ctypes.c_uint64), ("serial", ctypes.c_uint64), ("client", ctypes.c_uint8)]


class Fixed(ctypes.Structure):
    _fields_ = [("grant", Grant), ("lsn", ctypes.c_uint64), ("evicted", ctypes.c_uint64), ("kind", ctypes.c_uint8),
                ("has_evicted", ctypes.c_uint8)]


class CoreStats(ctypes.Structure):
    _fields_ = [*((name, ctypes.c_uint64) for name in ("hits", "faults", "evictions", "writes", "failed", "refused")),
                *((name, ctypes.c_size_t) for name in ("resident", "pinned", "unsaved", "loading", "writing")),
                ("discards", ctypes.c_uint64)]


_CORE, _GRANT, _BYTES = ctypes.POINTER(Core), ctypes.POINTER(Grant), ctypes.POINTER(ctypes.c_uint8)
_NUMBER, _SIZE, _U64, _U8 = ctypes.c_uint16, ctypes.c_size_t, ctypes.c_uint64, ctypes.c_uint8
# The result and the arguments of each function that the module calls.
_FUNCTIONS = {
    "hz_core_new": (_NUMBER, ctypes.POINTER(Config), _CORE),
    "hz_core_free": (_NUMBER, _CORE),
    "hz_fix": (_NUMBER, _CORE, _U8, _U64, _BYTES, _SIZE, ctypes.POINTER(Fixed)),
    "hz_read_end": (_NUMBER, _CORE, _GRANT, _BYTES, _SIZE, _GRANT),
    "hz_unfix": (_NUMBER, _CORE, _GRANT),
    "hz_tick": (_NUMBER, _CORE, _U8, _U64),
    "hz_discard": (_NUMBER, _CORE, _U8, _U64, ctypes.POINTER(_U8)),
    "hz_purge": (_NUMBER, _CORE, _U8, ctypes.POINTER(_U64)),
    "hz_stats_of": (_NUMBER, _CORE, ctypes.POINTER(CoreStats), _SIZE),
    "hz_is_resident": (_NUMBER, _CORE, _U64, ctypes.POINTER(_U8)),
    "hz_text": (_SIZE, _NUMBER, _BYTES, _SIZE),
    "hz_version": (ctypes.c_uint32,),
}


# ---- The pager

class PagerHandle(ctypes.Structure):
    _fields_ = [("own", ctypes.c_void_p)]


class Ref(ctypes.Structure):
    _fields_ = [("bytes", ctypes.c_void_p), ("page", ctypes.c_uint64), ("serial", ctypes.c_uint64),
                ("slot", ctypes.c_uint32), ("how", ctypes.c_uint32)]


class PagerConfig(ctypes.Structure):
    _fields_ = [("size", ctypes.c_size_t), ("pages", ctypes.c_uint64), ("page_size", ctypes.c_size_t),
                ("frames", ctypes.c_size_t), ("parts", ctypes.c_size_t), ("correlated", ctypes.c_uint64),
                ("retained", ctypes.c_uint64), ("pin_wait_ms", ctypes.c_uint64), ("k", ctypes.c_uint8),
                ("tells_each_pin", ctypes.c_uint8), ("read_only", ctypes.c_uint8), ("grows", ctypes.c_uint8),
                ("unused", ctypes.c_uint32), ("observer", ctypes.c_void_p)]


class Fault(ctypes.Structure):
    _fields_ = [("page", ctypes.c_uint64), ("lsn", ctypes.c_uint64), ("error", ctypes.c_int32),
                ("number", ctypes.c_uint16), ("has_page", ctypes.c_uint8)]


class PagerCounts(ctypes.Structure):
    _fields_ = [*((name, ctypes.c_uint64) for name in ("hits", "faults", "evictions", "writes", "failed", "refused",
                                                       "discards", "waits")),
                *((name, ctypes.c_size_t) for name in ("resident", "pinned", "unsaved", "memory"))]


_PAGER, _REF, _INT, _U32 = ctypes.POINTER(PagerHandle), ctypes.POINTER(Ref), ctypes.c_int, ctypes.c_uint32
_PAGER_FUNCTIONS = {
    "hz_pager_new_file": (_NUMBER, ctypes.POINTER(PagerConfig), _INT, _INT, _PAGER),
    "hz_pager_free": (_NUMBER, _PAGER),
    "hz_pager_fix": (_NUMBER, _PAGER, _U64, _U32, _REF),
    "hz_pager_new_page": (_NUMBER, _PAGER, _U64, _REF),
    "hz_pager_put": (_NUMBER, _REF, _SIZE, ctypes.c_char_p, _SIZE, _U64),
    "hz_pager_unfix": (_NUMBER, _REF),
    "hz_pager_flush": (_NUMBER, _PAGER, _U64),
    "hz_pager_discard": (_NUMBER, _PAGER, _U64, _U64, ctypes.POINTER(_U64)),
    "hz_pager_checkpoint": (_NUMBER, _PAGER, ctypes.POINTER(_U64), ctypes.POINTER(_U8)),
    "hz_pager_clean": (_NUMBER, _PAGER, _SIZE, ctypes.POINTER(_SIZE)),
    "hz_pager_purge": (_NUMBER, _PAGER, ctypes.POINTER(_U64)),
    "hz_pager_stats_of": (_NUMBER, _PAGER, ctypes.POINTER(PagerCounts), _SIZE),
    "hz_pager_is_resident": (_NUMBER, _PAGER, _U64, ctypes.POINTER(_U8)),
    "hz_pager_fault_of": (_NUMBER, ctypes.POINTER(Fault)),
    "hz_pager_text": (_SIZE, ctypes.c_char_p, _SIZE),
    "hz_pager_version": (_U32,),
}


# ---- Loading

def _path_of(name: str, target: str) -> str:
    prefix = os.environ.get("HOJZMATED_PREFIX")
    if prefix:
        return os.path.join(prefix, "lib", f"lib{name}.so")
    own = os.path.dirname(os.path.realpath(__file__))
    bindings = os.path.dirname(os.path.dirname(own))
    for folder in (os.path.join(own, "libs"), os.path.join(bindings, "c", "out", "lib")):
        path = os.path.join(folder, f"lib{name}.so")
        if os.path.exists(path):
            return path
    found = ctypes.util.find_library(name)
    if found is None:
        raise ImportError(f"no lib{name}.so: install it and set HOJZMATED_PREFIX, or in a checkout run "
                          f"`(cd crates/hojzmated_c && rt lib) && make -C bindings/c {target}`")
    return found


def _parts_of(number: int) -> List[int]:
    """Returns the major, minor and patch version that a library tells as one number."""
    return [number // 10_000, number // 100 % 100, number % 100]


def _check_version(path: str, number: int) -> None:
    """Raises ImportError where the minor version is another one than this module's: structs and calls may differ."""
    own = [int(it) for it in __version__.split(".")]
    if _parts_of(number)[:2] != own[:2]:
        found = ".".join(map(str, _parts_of(number)))
        raise ImportError(f"{path} has version {found}, and the module hojzmated {__version__}: it takes a library of "
                          f"{own[0]}.{own[1]} alone", path=path)


def _loaded(kind: Type[ctypes.CDLL], path: str, version: str, functions: Any) -> ctypes.CDLL:
    library = kind(path)
    try:
        number = getattr(library, version)()
    except AttributeError:
        raise ImportError(f"{path} has no {version}, so it is no library of Hojzmated", path=path) from None
    _check_version(path, number)
    for name, (result, *arguments) in functions.items():
        function = getattr(library, name)
        function.restype, function.argtypes = result, arguments
    return library


# The functions are short: no call gives up the interpreter's lock.
hz = _loaded(ctypes.PyDLL, _path_of("hojzmated", "all"), "hz_version", _FUNCTIONS)
_pagers: List[ctypes.CDLL] = []


def pager_library() -> ctypes.CDLL:
    """Returns the pager's library, which is loaded with the first pager. Its calls give up the interpreter's lock."""
    if not _pagers:
        path = _path_of("hojzmated_pager", "pager")
        _pagers.append(_loaded(ctypes.CDLL, path, "hz_pager_version", _PAGER_FUNCTIONS))
    return _pagers[0]


def text_of(number: int) -> str:
    """Returns the text that the core has for a refusal."""
    text = (ctypes.c_uint8 * 128)()
    length = hz.hz_text(number, text, len(text))
    return bytes(text[:length]).decode()


def check(number: int) -> None:
    """Raises the refusal of a call of the core, if it was refused."""
    if number:
        raise Refused(number)


def refusal_of(library: ctypes.CDLL) -> Refused:
    """Returns what the pager refused this thread last."""
    fault, text = Fault(), ctypes.create_string_buffer(256)
    library.hz_pager_fault_of(fault)
    library.hz_pager_text(text, len(text))
    page = fault.page if fault.has_page else None
    return Refused(fault.number, text.value.decode(errors="replace"), page, fault.error)
