"""Tests of a pager over a page file: what is in its pages, and how it ends, forks and is interrupted."""
import array
import concurrent.futures
import contextlib
import gc
import os
import pickle
import signal
import sys
import tempfile
import threading
import time
import unittest
import warnings
from unittest import mock

import hojzmated
from hojzmated import _pager

try:
    import numpy
except ImportError:
    numpy = None


def in_thread(function):
    """Runs a function in a thread of its own. Returns what it returned, or raises what it raised."""
    with concurrent.futures.ThreadPoolExecutor(1) as pool:
        return pool.submit(function).result()


class Pages(unittest.TestCase):
    """What the tests share: a file of 16 pages in a folder of its own."""

    def setUp(self):
        self.folder = tempfile.TemporaryDirectory()
        self.addCleanup(self.folder.cleanup)
        self.path = os.path.join(self.folder.name, "pages")

    def refused(self, number, function, *arguments, page=None, errno=0, **named):
        with self.assertRaises(hojzmated.Refused) as caught:
            function(*arguments, **named)
        found = caught.exception
        self.assertEqual((found.number, found.page, found.errno), (number, page, errno))
        return str(found)

    def pager(self, **named):
        return hojzmated.Pager(self.path, **{"pages": 16, "page_size": 64, "frames": 4, "parts": 1, **named})

    def put(self, pager, *numbers):
        """Puts to each of these pages its number."""
        for number in numbers:
            with pager.write(number) as page:
                page.put(0, bytes([number]) * 8)

    def in_file(self):
        """The pages of the file that have what `put` puts there."""
        with open(self.path, "rb") as file:
            slots = list(iter(lambda: file.read(64), b""))
        return [number for number, slot in enumerate(slots) if number and slot[:8] == bytes([number]) * 8]

    def wait_till(self, is_so):
        end = time.monotonic() + 60
        while not is_so():
            self.assertLess(time.monotonic(), end)
            time.sleep(0.001)


class Pagers(Pages):
    def test_pages_of_a_file(self):
        for format, head in (1, 0), (2, 16):
            with self.pager(format=format) as pager:
                for number in range(16):
                    with pager.write(number) as page:
                        self.assertEqual(page.bytes, bytes(64))
                        page.put(0, bytes([number]) * 8)
                        page.put(8, array.array("Q", [number]), lsn=number)
                        self.assertEqual(bytes(page.bytes[:9]), bytes([number]) * 9)
                self.assertEqual(pager.stats()[:4], (0, 16, 12, 12))
                self.assertEqual([pager.is_resident(number) for number in (0, 15)], [False, True])
                pager.flush(15)
                self.assertEqual(pager.clean(2), 2)
                pager.checkpoint()
                self.assertEqual((pager.stats().writes, pager.stats().unsaved), (16, 0))
                self.assertEqual(pager.purge(), 0)
            with open(self.path, "rb") as file:
                for number in range(16):
                    slot = file.read(head + 64)
                    self.assertEqual(slot[:head], b"".join(it.to_bytes(8, "little") for it in (number, number))[:head])
                    self.assertEqual(slot[head:head + 16], bytes([number]) * 9 + bytes(7))
                self.assertEqual(file.read(), b"")
            with self.pager(pages=None, format=format, pin_wait=0.01) as pager:
                with pager.write(2) as page:
                    page.put(0, b"dropped")
                    self.refused(25, pager.discard, 2, page=2)
                self.refused(45, pager.discard, 2, 15)
                self.assertEqual((pager.discard(2, 3), pager.stats().discards), (1, 1))
                with pager.read(2) as page:
                    self.assertEqual(bytes(page.bytes[:8]), bytes([2]) * 8)
                self.refused(45, pager.read, 16, page=16)
                with pager.new_page(3) as page:
                    self.assertEqual(bytes(page.bytes), bytes(64))
                    page.put(0, b"new")
                pager.checkpoint()
            os.remove(self.path)

    def test_another_length(self):
        """A file of another format or page size is refused, and stays as it was."""
        for page_size, was, opened, size in (4096, 1, 2, 4096), (4096, 2, 2, 8192), (4096, 2, 1, 4096):
            path = os.path.join(self.folder.name, f"length{was}{opened}{size}")
            with hojzmated.Pager(path, 100, page_size, 8, format=was) as pager:
                with pager.new_page(7) as page:
                    page.put(0, b"kept")
                pager.checkpoint()
            with open(path, "rb") as file:
                before = file.read()
            for pages in None, 200:
                self.refused(3, hojzmated.Pager, path, pages, size, 8, format=opened)
            with open(path, "rb") as file:
                self.assertEqual(before, file.read())

    def test_bytes_end_with_the_latch(self):
        with self.pager() as pager:
            with pager.read(1) as page:
                lent = page.bytes
                with self.assertRaises(TypeError):
                    lent[0] = 1
            self.assertRaises(ValueError, lambda: lent[0])
            self.assertIn("page 1 was given back", self.refused(14, lambda: page.bytes, page=1))
            # A slice, another form of the same bytes, one more view, and what takes the bytes as an array does.
            for kept in lambda it: it[2:6], lambda it: it.cast("Q"), memoryview, pickle.PickleBuffer:
                page = pager.write(2)
                other = kept(page.bytes)
                self.assertRaises(BufferError, page.unfix)
                self.assertEqual((len(page.bytes), bytes(other)[:4]), (64, bytes(4)))
                self.refused(13, pager.close)
                del other
                page.unfix()
            self.assertFalse(pager.stats().pinned)
            with pager.pin(2) as page:
                self.assertIsNone(page.bytes)
                self.assertEqual(repr(page), "<page 2, pinned>")
            self.refused(14, lambda: page.bytes, page=2)

    # The pages of a thread that ends are given back, and what was lent of them can't be looked at.
    def test_bytes_end_with_the_thread(self):
        with self.pager() as pager:
            def fix():
                page, pin, other = pager.write(1), pager.pin(2), pager.read(3)
                page.put(0, b"put")
                self.assertEqual(bytes(page.bytes[:3]), b"put")
                return page, page.bytes, pin, other

            page, lent, pin, other = in_thread(fix)
            self.assertEqual(pager.stats().pinned, 0)
            for it in page, pin, other:
                self.refused(14, lambda: it.bytes, page=it.number)
                self.refused(14, it.unfix)
            self.refused(14, page.put, 0, b"x")
            self.assertRaises(ValueError, lambda: lent[0])
            for number in 1, 2, 3:
                pager.write(number, wait=False).unfix()

    # A slice that outlives the thread shows its page further on: it stays in its frame till the slice is gone.
    def test_slice_outlives_its_thread(self):
        with self.pager() as pager:
            def fix():
                page = pager.write(1)
                page.put(0, b"of page 1")
                return page, page.bytes[:9], memoryview(page.bytes)

            page, part, whole = in_thread(fix)
            self.refused(14, lambda: page.bytes, page=1)
            for number in range(2, 16):
                with pager.write(number) as other:
                    other.put(0, b"other" * 12)
            self.assertEqual((bytes(part), bytes(whole[:9])), (b"of page 1", b"of page 1"))
            self.assertEqual((pager.stats().pinned, pager.is_resident(1)), (1, True))
            self.refused(13, pager.close)
            with pager.write(1, wait=False) as again:
                again.put(0, b"by others")
            self.assertEqual(bytes(part), b"by others")
            del part, whole
            self.wait_till(lambda: pager.stats().pinned == 0)

    # Another thread is refused, and the page of the first one stays as it was.
    def test_unfix_of_another_thread(self):
        with self.pager() as pager:
            with pager.read(1) as page:
                self.refused(14, in_thread, page.unfix)
                self.assertEqual(bytes(page.bytes), bytes(64))
                self.assertEqual(in_thread(lambda: bytes(page.bytes)), bytes(64))

    # It is of no thread, and given back once.
    def test_unfix_of_a_pin_by_another_thread(self):
        with self.pager() as pager:
            pin = pager.pin(2)
            self.assertEqual(pager.stats().pinned, 1)
            in_thread(pin.unfix)
            self.assertEqual(pager.stats().pinned, 0)
            self.refused(14, pin.unfix)
            self.refused(14, lambda: pin.bytes, page=2)

    @unittest.skipUnless(numpy, "no numpy")
    def test_numpy(self):
        with self.pager() as pager:
            page = pager.write(1)
            page.put(0, numpy.arange(8, dtype="<u8"))
            array = numpy.frombuffer(page.bytes, dtype="<u8")
            self.assertEqual(array.tolist(), list(range(8)))
            page.put(8, numpy.array([70], dtype="<u8"))
            self.assertEqual(array[1], 70)  # it is the page in place
            with self.assertRaises(ValueError):
                array[1] = 1
            part, copy = array[2:4], array.copy()
            self.assertRaises(BufferError, page.unfix)
            self.assertEqual(page.bytes[8], 70)
            del array
            self.assertRaises(BufferError, page.unfix)
            self.assertEqual(part.tolist(), [2, 3])
            del part
            page.unfix()
            self.assertEqual((copy[1], pager.stats().pinned), (70, 0))

    @unittest.skipUnless(numpy, "no numpy")
    def test_numpy_outlives_its_thread(self):
        with self.pager() as pager:
            def fix():
                page = pager.write(1)
                page.put(0, numpy.arange(8, dtype="<u8"))
                return page, numpy.frombuffer(page.bytes, dtype="<u8")

            page, array = in_thread(fix)
            self.refused(14, lambda: page.bytes, page=1)
            for number in range(2, 16):
                with pager.write(number) as other:
                    other.put(0, b"other" * 12)
            self.assertEqual(array.tolist(), list(range(8)))
            self.refused(13, pager.close)
            del array
            self.wait_till(lambda: pager.stats().pinned == 0)

    def test_refusals(self):
        pager = self.pager(pin_wait=0.01)
        with pager.read(1) as page:
            self.refused(73, page.put, 0, b"x", page=1)
            self.assertIn("latch that this thread has", self.refused(72, pager.write, 1))
            self.refused(14, in_thread, page.unfix)
            self.refused(13, in_thread, lambda: pager.write(1, wait=False), page=1)
            in_thread(lambda: pager.read(1, wait=False).unfix())
        self.refused(14, page.unfix)
        with pager.write(1) as page:
            self.refused(45, page.put, 63, b"xy", page=1)
            self.refused(72, pager.checkpoint)
            self.refused(72, pager.flush, 1)
        pins = [pager.pin(number, wait=False) for number in range(4)]
        self.refused(11, pager.read, 9, page=9)
        for pin in pins:
            pin.unfix()
        os.truncate(self.path, 64)
        self.assertIn("it could not be read", self.refused(17, pager.read, 9, page=9, errno=5))
        for number in -1, 1 << 64:
            self.assertRaises(ValueError, pager.read, number)
        pager.close()
        pager.close()
        for call in pager.checkpoint, pager.stats, pager.purge, lambda: pager.read(1), lambda: pager.is_resident(1):
            self.refused(50, call)
        self.refused(2, self.pager, k=17)
        self.refused(2, self.pager, format=4)
        self.refused(1, self.pager, page_size=20)
        self.assertRaises(FileNotFoundError, hojzmated.Pager, self.path + ".none")

    # A thread that waits for a latch lets others go on, else this would not end.
    def test_threads_wait_side_by_side(self):
        with self.pager(page_size=64) as pager, concurrent.futures.ThreadPoolExecutor(8) as pool:
            def add():
                for number in range(200):
                    with pager.write(number % 16) as page:
                        count = int.from_bytes(page.bytes[:8], "little") + 1
                        time.sleep(0)
                        page.put(0, count.to_bytes(8, "little"))

            for done in [pool.submit(add) for _ in range(8)]:
                done.result()
            page = pager.write(0)
            waiting = pool.submit(lambda: pager.read(0).unfix())
            self.assertRaises(concurrent.futures.TimeoutError, waiting.result, timeout=0.1)
            page.unfix()
            waiting.result()
            counts = []
            for number in range(16):
                with pager.read(number) as page:
                    counts.append(int.from_bytes(page.bytes[:8], "little"))
            self.assertEqual(sum(counts), 1600)

    # A pager of which nothing is known any more is freed, and its file closed.
    def test_forgotten_pager(self):
        pager = self.pager()
        fd = pager._fd
        del pager
        self.assertRaises(OSError, os.fstat, fd)


# ---- How a pager ends

class Ends(Pages):
    def test_block_that_ends_well(self):
        with self.pager() as pager:
            self.put(pager, 1, 2, 7)
            self.assertEqual(self.in_file(), [])
        self.assertEqual(self.in_file(), [1, 2, 7])
        self.refused(50, pager.stats)
        with self.pager() as pager:
            self.put(pager, 3)
            pager.close()
        self.assertEqual(self.in_file(), [1, 2, 7])

    # What made way or was flushed is in the file, and the rest is as before.
    def test_block_that_ends_by_an_exception(self):
        with self.pager() as pager:
            self.put(pager, 7)
        with self.assertRaises(KeyError) as raised, self.pager() as pager:
            self.put(pager, 1, 2, 3)
            pager.flush(2)
            with pager.write(7) as page:
                page.put(0, bytes(8))
            raise KeyError("of the block")
        self.assertEqual(self.in_file(), [2, 7])
        self.refused(50, pager.stats)
        if sys.version_info >= (3, 11):
            note = f"no checkpoint was made of {self.path!r}, and puts to 3 pages are lost"
            self.assertEqual(raised.exception.__notes__, [note])

    def test_exception_that_loses_nothing(self):
        with self.assertRaises(KeyError) as raised, self.pager() as pager:
            self.put(pager, 1)
            pager.checkpoint()
            raise KeyError("of the block")
        self.assertEqual((self.in_file(), getattr(raised.exception, "__notes__", [])), ([1], []))

    # The pager stays open, with all that was put.
    def test_page_that_is_still_fixed(self):
        pager = self.pager()
        page = pager.write(1)
        page.put(0, bytes([1]) * 8)

        def end():
            with pager:
                pass

        self.assertIn("a page is still fixed: no checkpoint was made", self.refused(13, end))
        with self.assertRaises(KeyError) as raised, pager:
            raise KeyError("and not what the pager is refused with")
        if sys.version_info >= (3, 11):
            self.assertIn("the pager stays open: a latch is not free, or a page", raised.exception.__notes__[0])
        self.assertEqual((self.in_file(), pager.stats().unsaved), ([], 1))
        page.unfix()
        end()
        self.assertEqual(self.in_file(), [1])

    # The file can't be written to for a while.
    def test_checkpoint_that_is_refused(self):
        pager = self.pager()
        good, bad = os.dup(pager._fd), os.open(self.path, os.O_RDONLY)
        self.addCleanup(os.close, good)
        self.addCleanup(os.close, bad)

        def use():
            with pager:
                self.put(pager, 1, 2)
                os.dup2(bad, pager._fd)

        self.refused(18, use, page=1, errno=9)
        self.assertEqual((self.in_file(), pager.stats().unsaved), ([], 2))
        os.dup2(good, pager._fd)
        with pager:
            pass
        self.assertEqual(self.in_file(), [1, 2])

    def test_pager_that_is_forgotten(self):
        told = f"a pager was forgotten, and puts to 2 pages of {self.path!r} are lost"
        for numbers, said in ([1, 2], [told]), ([], []):
            with warnings.catch_warnings(record=True) as caught:
                warnings.simplefilter("always")
                pager = self.pager()
                self.put(pager, *numbers)
                del pager
                gc.collect()
            self.assertEqual([str(it.message) for it in caught if it.category is ResourceWarning], said)


# ---- What is refused says of what

class Texts(Pages):
    def told(self, number, function, *arguments, **named):
        return self.refused(number, function, *arguments, **named).replace(f" (refusal {number})", "")

    def test_settings(self):
        long = f"{(1 << 62) + 1:,}, and has to be from 0 to {1 << 62:,}"
        for number, more, wanted in (
            (2, {"k": 17}, "k is 17, and has to be from 1 to 16"),
            (2, {"format": 4}, "format is 4, and has to be from 1 to 3"),
            (2, {"parts": 5}, "parts is 5, and has to be from 1 to 4"),
            (2, {"parts": 65, "frames": 100, "pages": 100}, "parts is 65, and has to be from 1 to 64"),
            (2, {"frames": 0, "parts": 0}, "frames is 0, and has to be from 1 to 4,194,304"),
            (2, {"frames": 65_537}, "frames is 65,537, and has to be from 1 to 65,536"),
            (2, {"correlated": (1 << 62) + 1}, f"correlated is {long}"),
            (2, {"retained": (1 << 62) + 1}, f"retained is {long}"),
            (1, {"page_size": 20}, "page_size is 20, and has to be a multiple of 16 from 16 to 65,536"),
            (1, {"page_size": 0}, "page_size is 0, and has to be a multiple of 16 from 16 to 65,536"),
            (1, {"pages": 1_048_577}, "pages is 1,048,577, and has to be from 1 to 1,048,576"),
            (3, {"pages": None}, "the number of pages of the file is 0, and has to be from 1 to 1,048,576"),
        ):
            with open(self.path, "w"):
                pass
            self.assertEqual(self.told(number, self.pager, **more), wanted)
            self.assertEqual(os.path.getsize(self.path), 0)

    def test_length(self):
        with open(self.path, "wb") as file:
            file.write(bytes(100))
        wanted = "the file has 100 bytes, and that is no whole number of pages of 64 bytes"
        for pages in None, 16:
            self.assertEqual(self.told(3, self.pager, pages=pages), wanted)
        self.assertEqual(os.path.getsize(self.path), 100)

    def test_pages_and_offsets(self):
        with self.pager() as pager:
            self.assertEqual((pager.pages, pager.page_size), (16, 64))
            for call in pager.read, pager.write, pager.pin, pager.new_page, pager.flush, pager.is_resident:
                for wanted_by in lambda call: call(16), lambda call: in_thread(lambda: call(16)):
                    told = self.told(45, wanted_by, call, page=16)
                    self.assertEqual(told, "the file has no page 16: its pages are 0 to 15")
            self.assertEqual(self.told(45, pager.discard, 2, 15), "the file has no page 16: its pages are 0 to 15")
            with pager.write(3) as page:
                self.assertEqual(page.how, hojzmated.How.EXCLUSIVE)
                self.assertEqual(self.told(45, page.put, 60, b"12345", page=3),
                                 "page 3 has 64 bytes, and 5 from offset 60 on are not within it")
        with self.pager(pages=None, format=hojzmated.Format.PLAIN) as pager:
            self.assertEqual(pager.pages, 16)


# ---- Processes

def in_child(function):
    """Forks, and runs a function in the child. Returns what it returned, or raises what it raised. A child that does
    not end is killed by a signal."""
    reader, writer = os.pipe()
    with warnings.catch_warnings():
        warnings.simplefilter("ignore", DeprecationWarning)  # that other threads are there is what is tried
        child = os.fork()
    if child == 0:
        signal.alarm(60)
        try:
            came = True, function()
        except BaseException as it:
            came = False, it
        os.write(writer, pickle.dumps(came))
        os._exit(0)
    os.close(writer)
    with open(reader, "rb") as file:
        told = file.read()
    status = os.waitpid(child, 0)[1]
    if status:
        raise AssertionError(f"the child ended with status {status}")
    is_good, came = pickle.loads(told)
    if not is_good:
        raise came
    return came


class Forks(Pages):
    def held(self, pager, number):
        """Has a thread fix a page and keep a slice of it, until the event that is returned."""
        is_fixed, is_over = threading.Event(), threading.Event()

        def hold():
            with pager.write(number) as page:
                part = page.bytes[:8]
                is_fixed.set()
                is_over.wait(60)
                del part

        thread = threading.Thread(target=hold)
        thread.start()
        self.addCleanup(thread.join)
        self.addCleanup(is_over.set)
        is_fixed.wait(60)
        return is_over

    # One thread of the parent has a page, another waits for it, and the one that forks has a page too. The child is
    # refused each call, and the parent goes on.
    def test_child_is_refused(self):
        with self.pager() as pager:
            self.put(pager, 1, 2)
            is_over = self.held(pager, 4)
            waiting = threading.Thread(target=self.put, args=(pager, 4))
            waiting.start()
            wanted = f"the pager is that of process {os.getpid()}, from which this one was forked"
            with pager.write(3) as page:
                page.put(0, bytes([3]) * 8)

                def use():
                    for call in (
                        lambda: pager.read(1), lambda: pager.write(5, wait=False), lambda: pager.pin(1), page.unfix,
                        lambda: pager.new_page(9), lambda: pager.flush(1), lambda: pager.discard(1), pager.stats,
                        lambda: pager.clean(9), pager.purge, lambda: pager.is_resident(1), pager.checkpoint,
                        lambda: page.put(0, b"of the child"), lambda: page.bytes,
                        lambda: pager.__exit__(None, None, None), lambda: in_thread(lambda: pager.write(1)),
                    ):
                        self.assertIn(wanted, self.refused(50, call))
                    pager.close()
                    self.assertEqual(made, [])

                # Nor is a call of the library made as threads of the parent end in the child.
                made, unfix = [], pager._library.hz_pager_unfix
                noted = mock.Mock(side_effect=lambda ref: made.append(ref.page) or unfix(ref))
                with mock.patch.object(pager._library, "hz_pager_unfix", noted):
                    in_child(use)
                self.assertEqual(bytes(page.bytes[:8]), bytes([3]) * 8)
            is_over.set()
            waiting.join()
        self.assertEqual(self.in_file(), [1, 2, 3, 4])

    # What ends the blocks in the child comes through, and nothing of the parent is given back or written.
    def test_blocks_that_a_child_leaves(self):
        pager = self.pager()
        with pager:
            page = pager.write(3)

            def leave():
                with pager, page:
                    raise SystemExit(7)

            with self.assertRaises(SystemExit) as left:
                in_child(leave)
            self.assertEqual((left.exception.code, pager.stats().pinned), (7, 1))
            page.put(0, bytes([3]) * 8)
            page.unfix()
        self.assertEqual(self.in_file(), [3])

    # One that was closed before is closed there too, and no more.
    def test_closed_pager_in_a_child(self):
        with self.pager() as pager:
            pager.close()

            def use():
                self.assertIn("the handle has no pager", self.refused(50, pager.stats))
                with pager:
                    pass

            in_child(use)

    # A child has no descriptor of the parent's file, and makes a pager of its own.
    def test_pager_of_a_child(self):
        other = os.path.join(self.folder.name, "other")
        with self.pager() as pager:
            fd = pager._fd

            def use():
                self.assertRaises(OSError, os.fstat, fd)
                with hojzmated.Pager(other, 16, 64, 4) as own:
                    self.put(own, 5)

            in_child(use)
            self.put(pager, 6)
        self.assertEqual(self.in_file(), [6])
        self.path = other
        self.assertEqual(self.in_file(), [5])


# ---- Waits that a signal ends

class Interrupts(Pages):
    """The main thread waits for what another one has, and a signal comes as Ctrl-C does."""

    @contextlib.contextmanager
    def held(self, pager, *numbers, fix="write"):
        """Has a thread fix these pages, and interrupts the main thread a short while after. The pages are given back at
        the end of the block, or after 60 seconds."""
        is_fixed, is_over = threading.Event(), threading.Event()

        def hold():
            pages = [getattr(pager, fix)(number) for number in numbers]
            is_fixed.set()
            is_over.wait(60)
            for page in pages:
                page.unfix()

        thread = threading.Thread(target=hold)
        thread.start()
        is_fixed.wait(60)
        timer = threading.Timer(0.2, os.kill, (os.getpid(), signal.SIGINT))
        timer.start()
        yield
        timer.join()
        is_over.set()
        thread.join()

    def interrupted(self, call):
        """Makes a call, which is to be interrupted long before the pages are given back."""
        began = time.monotonic()
        self.assertRaises(KeyboardInterrupt, call)
        self.assertLess(time.monotonic() - began, 30)

    def test_waits_for_a_latch(self):
        for call in "read", "write", "new_page":
            with self.subTest(call=call), self.pager() as pager:
                self.put(pager, 1)
                with self.held(pager, 1):
                    self.interrupted(lambda: getattr(pager, call)(1))
                    self.assertEqual((pager.stats().pinned, pager._wanted), (1, None))
                self.assertEqual(pager.stats().pinned, 0)
                pager.write(1, wait=False).unfix()

    def test_wait_for_a_frame(self):
        with self.pager(pin_wait=60) as pager:
            for call in pager.read, pager.pin:
                with self.held(pager, 0, 1, 2, 3, fix="pin"):
                    self.interrupted(lambda: call(9))
                    self.assertEqual(pager.stats().pinned, 4)
            self.assertEqual(pager.stats().pinned, 0)

    # These go on without the main thread, and the pager is closed once they are done.
    def test_waits_of_calls_for_all_threads(self):
        for name, call in (
            ("checkpoint", lambda pager: pager.checkpoint()), ("flush", lambda pager: pager.flush(1)),
            ("discard", lambda pager: pager.discard(1)),
        ):
            with self.subTest(call=name):
                pager = self.pager(pin_wait=60)
                self.put(pager, 2)
                with pager.write(1) as page:
                    page.put(0, bytes([1]) * 8)
                with self.held(pager, 1):
                    self.interrupted(lambda: call(pager))
                    self.assertIn(f"a {name} that was interrupted is not done yet", self.refused(13, pager.close))
                    self.assertEqual(pager.stats().unsaved, 2)
                self.wait_till(lambda: all(it.is_done.is_set() for it in list(pager._calls)))
                wanted = {"checkpoint": [1, 2], "flush": [1], "discard": []}[name]
                self.assertEqual(self.in_file(), wanted)
                pager.close()
                os.remove(self.path)

    # Whatever such a call comes to is raised here.
    def test_error_of_a_call_for_all_threads(self):
        with self.pager() as pager:
            with mock.patch.object(pager._library, "hz_pager_checkpoint", side_effect=MemoryError):
                self.assertRaises(MemoryError, pager.checkpoint)

    # A handler that runs as the main thread waits for a page may wait for another one.
    def test_wait_in_a_handler(self):
        with self.pager() as pager:
            said, threads, is_over = [], [], threading.Event()

            def hold(number, is_fixed, seconds):
                with pager.write(number):
                    is_fixed.set()
                    is_over.wait(seconds)

            for number, seconds in (1, 60), (2, 0.5):
                is_fixed = threading.Event()
                threads.append(threading.Thread(target=hold, args=(number, is_fixed, seconds)))
                threads[-1].start()
                is_fixed.wait()

            def handle(*_):
                self.put(pager, 2)
                said.append(pager._wanted)
                is_over.set()

            self.addCleanup(signal.signal, signal.SIGUSR1, signal.signal(signal.SIGUSR1, handle))
            threading.Timer(0.1, os.kill, (os.getpid(), signal.SIGUSR1)).start()
            self.put(pager, 1)
            for thread in threads:
                thread.join()
            self.assertEqual((said, pager._wanted), ([1], None))

    # A refusal of such a call comes as that of any other, and keeps nothing alive.
    def test_refusals_of_calls_for_all_threads(self):
        pager = self.pager(pin_wait=0.01)
        with pager.pin(3), pager.read(4):
            self.refused(25, pager.discard, 3, page=3)
            pager.checkpoint()
            pager.flush(4)
        with pager.write(3):
            self.refused(72, pager.checkpoint)
            self.refused(72, pager.flush, 3)
            pager.flush(4)
        with contextlib.suppress(hojzmated.Refused):  # unlike assertRaises it leaves the frames as they are
            pager.discard(99)
        fd = pager._fd
        del pager
        self.assertRaises(OSError, os.fstat, fd)

    # A signal that comes just as the page was fixed leaves it to nobody, and one as it is given back to its thread.
    def test_interrupt_as_a_page_is_fixed(self):
        with self.pager() as pager:
            real = pager._library.hz_pager_fix

            def interrupted_fix(*arguments):
                self.assertEqual(real(*arguments), 0)
                raise KeyboardInterrupt

            for how in "read", "write", "pin":
                with mock.patch.object(pager._library, "hz_pager_fix", interrupted_fix):
                    self.assertRaises(KeyboardInterrupt, getattr(pager, how), 1)
                self.assertEqual(pager.stats().pinned, 0)
            page = pager.write(3)
            with mock.patch.object(pager._library, "hz_pager_unfix", side_effect=KeyboardInterrupt):
                self.assertRaises(KeyboardInterrupt, page.unfix)
            self.refused(14, lambda: page.bytes, page=3)
            page.unfix()
            self.refused(14, page.unfix)
            for name in "read", "new_page":
                with mock.patch.object(_pager, "FixedPage", side_effect=KeyboardInterrupt):
                    self.assertRaises(KeyboardInterrupt, getattr(pager, name), 2)
                self.assertEqual((pager.stats().pinned, len(_pager._own.pages)), (0, 0))

    # It has the page as soon as it is given back, and its own time to wait for a frame.
    def test_wait_that_nobody_interrupts(self):
        with self.pager(pin_wait=0.05) as pager:
            pins = [pager.pin(number) for number in range(4)]
            self.refused(11, pager.read, 9, page=9)
            for pin in pins:
                pin.unfix()
            is_fixed = threading.Event()

            def hold():
                with pager.write(1) as page:
                    is_fixed.set()
                    time.sleep(0.1)
                    page.put(0, bytes([1]) * 8)

            thread = threading.Thread(target=hold)
            thread.start()
            is_fixed.wait()
            with pager.read(1) as page:
                self.assertEqual(bytes(page.bytes[:8]), bytes([1]) * 8)
            thread.join()

    # Readers of whom one always has the page let the main thread have it. Else they come to their most first.
    def test_main_thread_has_its_turn(self):
        with self.pager() as pager:
            most, rounds, is_over = 10_000, [], threading.Event()

            def want():
                while not is_over.is_set() and len(rounds) < most:
                    with pager.read(1):
                        time.sleep(0.002)
                    rounds.append(1)

            threads = [threading.Thread(target=want) for _ in range(6)]
            for thread in threads:
                thread.start()
            self.wait_till(lambda: len(rounds) > 6)
            for _ in range(5):
                self.put(pager, 1)
            is_over.set()
            for thread in threads:
                thread.join()
            self.assertLess(len(rounds), most)

    # A thread that has the page which the main thread waits for is refused what it would be else, and does not wait.
    def test_turn_of_the_main_thread_refuses(self):
        with self.pager() as pager:
            is_fixed, said = threading.Event(), []

            def ask():
                with pager.read(2):
                    is_fixed.set()
                    self.wait_till(lambda: pager._wanted == 2)
                    said.append(self.refused(72, pager.read, 2))
                    with pager.pin(2):
                        pass

            thread = threading.Thread(target=ask)
            thread.start()
            is_fixed.wait()
            self.put(pager, 2)
            thread.join()
            self.assertEqual(len(said), 1)

    # A page that leaves its frame just before the main thread would wait for it is made anew, and not read.
    def test_new_page_that_left_its_frame(self):
        with self.pager(format=2) as pager:
            os.pwrite(pager._fd, bytes([255]) * 80, 5 * 80)
            self.refused(19, pager.read, 5, page=5)
            with mock.patch.object(pager, "is_resident", return_value=True), pager.new_page(5) as page:
                page.put(0, b"anew")
            with pager.new_page(5) as page:
                self.assertEqual(bytes(page.bytes[:8]), b"anew" + bytes(4))


if __name__ == "__main__":
    unittest.main()
