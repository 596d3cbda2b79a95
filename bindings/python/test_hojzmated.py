"""Tests of lists, pools and the library: `python3 -m unittest discover -s bindings/python`, which runs those of
test_pager.py too.

What lists of references come to is compared with the cases of check/program.cases, and with peers/simulation.py, which
shares nothing with the library.
"""
import concurrent.futures
import copy
import ctypes
import doctest
import importlib.util
import inspect
import multiprocessing
import os
import pickle
import re
import shutil
import subprocess
import sys
import tempfile
import threading
import unittest
from unittest import mock

import hojzmated
from hojzmated import _library

TOP = os.path.dirname(os.path.dirname(os.path.dirname(os.path.realpath(__file__))))


def peer(name):
    """A script of peers, as a module."""
    spec = importlib.util.spec_from_file_location(name, os.path.join(TOP, "peers", f"{name}.py"))
    module = importlib.util.module_from_spec(spec)
    spec.loader.exec_module(module)
    return module


simulation, references = peer("simulation"), peer("references")


def text_of(*path):
    with open(os.path.join(TOP, *path), encoding="utf-8") as file:
        return file.read()


# ---- The sweeps of check/program.cases

def escaped(text):
    text = text.replace("\\r", "\r").replace("\\n", "\n")
    return text[:-1] if text.endswith("\\") else text


def blocks_of(cases):
    """For each case its name and its lines."""
    for block in cases.split("\ncase ")[1:]:
        name, *lines = block.splitlines()
        yield name, [line for line in lines if line and not line.startswith("#")]


def runs_of(lines):
    """Each run of a case that has a list on standard input or in a file: its words, the list, and what it prints."""
    files, runs = {}, []
    for kind, _, rest in (line.partition(" ") for line in lines):
        if kind == "file":
            name, _, text = rest.partition(" text ")
            files[name] = escaped(text)
        elif kind == "bpool":
            words = rest.split()
            runs.append((words[1:], [files.get(words[1], "")] if len(words) > 1 else [], []))
        elif kind == "input":
            runs[-1][1].append(escaped(rest) + "\n")
        elif kind == "output":
            runs[-1][2].append(rest)
        elif kind == "output_as":
            runs[-1][2].extend(text_of("check", "cases", rest).splitlines())
    return runs


def filled_in(lines):
    """The lines of a case for each of its rows, which fill in %1, %2 and so on; once where it has none."""
    rows = [[it.strip() for it in line[4:].split("=>")] for line in lines if line.startswith("row ")]
    rest = [line for line in lines if not line.startswith("row ")]
    for row in rows or [[]]:
        yield [re.sub(r"%(\d)", lambda it: row[int(it[1]) - 1], line) if row else line for line in rest]


def without_picture(words):
    """The words without `--svg FILE`: no picture is drawn here."""
    at = words.index("--svg") if "--svg" in words else len(words)
    return words[:at] + words[at + 2:]


def sweeps_of(cases):
    """Each sweep of a list of numbers that prints a table: the case, its words, the list, the lines of the pools."""
    for name, lines in blocks_of(cases):
        if not name.startswith("sweep_"):
            continue
        for filled in filled_in(lines):
            for words, pieces, printed in runs_of(filled):
                if printed and printed[0] == simulation.HEADER and "--column" not in words:
                    yield name, without_picture(words), "".join(pieces), [it for it in printed[1:] if ",opt," not in it]


def swept(words, text):
    """The lines that the module counts for the words of a sweep."""
    told = simulation.words_of(words)
    pages = [int(it) for it in text.split()]
    return [
        f"{it.frames},{it.k},{it.counts.fixes},{it.counts.hits},{it.counts.faults},"
        f"{simulation.ratio_text(it.counts.hits, it.counts.fixes)},{it.counts.evictions},0,0,{it.counts.refused}"
        for it in hojzmated.sweep(pages, told.frames, told.k, told.correlated)
    ]


class Lists(unittest.TestCase):
    def test_cases_of_the_program(self):
        names = set()
        for name, words, text, lines in sweeps_of(text_of("check", "program.cases")):
            with self.subTest(case=name, words=words):
                self.assertEqual(swept(words, text), lines)
            names.add(name)
        wanted = {"sweep_of_beladys_list", "sweep_of_a_textbook_list", "sweep_keeps_what_came_twice",
                  "sweep_of_one_frame", "sweep_where_two_references_count_as_one", "sweep_where_a_burst_moves_a_stamp",
                  "sweep_where_no_page_may_leave", "sweep_of_a_longest_period", "sweep_of_no_references",
                  "sweep_where_all_pages_stay", "sweep_of_large_numbers", "sweep_of_two_pools",
                  "sweep_of_zipfian_references"}
        self.assertEqual(wanted - names, set())

    def test_as_simulated(self):
        for kind, frames, k, correlated in [
            ("two_pools", 60, 1, 0), ("two_pools", 100, 2, 0), ("two_pools", 100, 3, 7), ("zipfian", 40, 1, 2),
            ("zipfian", 40, 2, 3), ("zipfian", 100, 16, 1), ("zipfian", 3, 2, 5),
        ]:
            with self.subTest(kind=kind, frames=frames, k=k, correlated=correlated):
                drawn = getattr(references, kind)(7)
                pages = [next(drawn) for _ in range(20_000)]
                hits, faults, evictions, refused = simulation.lru_k(pages, frames, k, correlated)
                counts = hojzmated.count(pages, frames, k, correlated)
                self.assertEqual(counts, (20_000, hits, faults, evictions, refused))

    def test_references_are_what_can_be_a_key(self):
        counts = hojzmated.count(["a", (1, 2), "a", None, (1, 2)], frames=1)
        self.assertEqual(counts, (5, 0, 5, 4, 0))
        self.assertEqual(hojzmated.count("aab", frames=2).hit_ratio, 1 / 3)
        self.assertEqual(hojzmated.count([], frames=2).hit_ratio, 0)

    def test_numbers_out_of_their_limits(self):
        for frames, k, correlated in [(0, 2, 0), (65_537, 2, 0), (1, 0, 0), (1, 17, 0), (1, 2, (1 << 62) + 1)]:
            for pages in ([], [1]):
                with self.assertRaises(hojzmated.Refused) as refused:
                    hojzmated.count(pages, frames, k, correlated)
                self.assertEqual(refused.exception.number, 2)

    # Want of memory is not taken for a reference that was refused.
    def test_want_of_memory(self):
        with mock.patch.object(_library.hz, "hz_fix", return_value=22):
            with self.assertRaises(hojzmated.Refused) as refused:
                hojzmated.count([1], frames=1)
        self.assertEqual(refused.exception.number, 22)

    # Half of the references of two pools hit where the index fits: the line of docs/EXPERIMENTS.md for 100 frames.
    @unittest.skipUnless(os.environ.get("HOJZMATED_LONG"), "a million references, three times: HOJZMATED_LONG=1")
    def test_ratios_of_the_experiments(self):
        drawn = references.two_pools(1)
        pages = [next(drawn) for _ in range(1_000_000)]
        line = re.search(r"^\| 100 \| (\S+) \| (\S+) \| (\S+) \|", text_of("docs", "EXPERIMENTS.md"), re.MULTILINE)
        found = [simulation.ratio_text(it.counts.hits, 1_000_000) for it in hojzmated.sweep(pages, [100], [1, 2, 3])]
        self.assertEqual(found, list(line.groups()))


# ---- A pool

class Pools(unittest.TestCase):
    def refused(self, number, call, *arguments, **named):
        with self.assertRaises(hojzmated.Refused) as refused:
            call(*arguments, **named)
        self.assertEqual(refused.exception.number, number)
        return str(refused.exception)

    # Pages 1, 2 and 3 are referenced at the times 1, 2 and 3. While page 1 is pinned, page 2 makes way, and afterwards
    # page 1.
    def test_pinned_page_stays(self):
        with hojzmated.Pool(pages=16, frames=3, k=1) as pool:
            first = pool.fix(1)
            for page, evicted in [(2, None), (3, None), (4, 2)]:
                pool.tick()
                with pool.fix(page) as fixed:
                    self.assertEqual((fixed.number, fixed.is_hit, fixed.evicted), (page, False, evicted))
            pool.tick()
            first.unfix()
            self.assertEqual(repr(pool.fix(5)), "<page 5, fault, evicted 1>")
            self.assertEqual(pool.stats(), (0, 5, 2, 0, 0, 0, 3, 1))

    # At time 7 page 1 has one reference, and page 2 has two, so that page 1 leaves, though page 2 is older.
    def test_page_that_came_twice_stays(self):
        with hojzmated.Pool(pages=16, frames=2, k=2) as pool:
            pool.fix(2).unfix()
            pool.tick()
            again = pool.fix(2)
            self.assertTrue(again.is_hit)
            again.unfix()
            pool.tick(2)
            pool.fix(1).unfix()
            pool.tick(3)
            self.assertEqual(pool.fix(3).evicted, 1)
            self.assertEqual(pool.stats().hit_ratio, 1 / 4)

    def test_no_page_may_leave(self):
        with hojzmated.Pool(pages=3, frames=1, correlated=1) as pool:
            text = "no page may leave its frame (refusal 11)"
            with pool.fix(0):
                pool.tick(2)
                self.assertEqual(self.refused(11, pool.fix, 1), text)
            pool.fix(0).unfix()
            pool.tick()
            self.refused(11, pool.fix, 1)
            self.assertEqual((pool.stats().refused, pool.is_resident(0), pool.is_resident(1)), (2, True, False))
            pool.tick()
            self.assertEqual(pool.fix(1).evicted, 0)

    def test_refusals(self):
        self.refused(1, hojzmated.Pool, 0, 1)
        self.refused(1, hojzmated.Pool, 1_048_577, 1)
        self.refused(2, hojzmated.Pool, 1, 0)
        self.refused(2, hojzmated.Pool, 1, 1, clients=65)
        with hojzmated.Pool(pages=8, frames=2, clients=2) as pool, hojzmated.Pool(pages=8, frames=2) as other:
            self.refused(45, pool.fix, 8)
            self.refused(45, pool.is_resident, 8)
            self.refused(41, pool.fix, 7, client=2)
            self.refused(41, pool.tick, client=2)
            self.refused(41, pool.purge, client=2)
            page = pool.fix(7, client=1)
            self.refused(14, other.unfix, page)
            page.unfix()
            self.refused(14, page.unfix)
            pool.tick((1 << 62) - 1)
            self.refused(21, pool.tick)
            self.assertEqual(pool.stats(), (0, 1, 0, 0, 0, 0, 1, 0))

    # ctypes would take the last byte of 256, and the last eight of 2^64.
    def test_numbers_that_do_not_fit(self):
        with hojzmated.Pool(pages=8, frames=2) as pool:
            for call, named in [(pool.fix, {"page": 1 << 64}), (pool.is_resident, {"page": -1}),
                                (pool.tick, {"n": 1 << 64}), (pool.fix, {"page": 1, "client": 256}),
                                (pool.tick, {"client": 256}),
                                (hojzmated.Pool, {"pages": 1, "frames": 1, "k": 257}),
                                (hojzmated.Pool, {"pages": 1, "frames": (1 << 64) + 1})]:
                with self.assertRaises(ValueError):
                    call(**named)
            with self.assertRaises(TypeError):
                pool.fix(1.0)
            self.assertEqual(pool.stats(), (0,) * 8)

    # Page 0 was last referenced at time 1, and is forgotten one tick past the retained period.
    def test_purge(self):
        with hojzmated.Pool(pages=8, frames=1, retained=10) as pool:
            pool.fix(0).unfix()
            pool.tick(9)
            pool.fix(1).unfix()
            pool.tick()
            self.assertEqual(pool.purge(), 0)
            pool.tick()
            self.assertEqual(pool.purge(), 1)

    # Page 0 came twice, and page 1 once: page 1 would leave first. But page 0 is dropped, and comes anew.
    def test_discard(self):
        with hojzmated.Pool(pages=8, frames=2) as pool:
            for number in 0, 0, 1:
                pool.fix(number).unfix()
                pool.tick()
            page = pool.fix(1)
            self.refused(25, pool.discard, 1)
            page.unfix()
            self.refused(45, pool.discard, 8)
            self.refused(41, pool.discard, 0, client=1)
            self.assertEqual((pool.discard(0), pool.is_resident(0), pool.discard(0)), (True, False, False))
            pool.fix(0).unfix()
            pool.tick()
            self.assertEqual(pool.fix(2).evicted, 0)

    def test_closed_pool(self):
        pool = hojzmated.Pool(pages=8, frames=2)
        page = pool.fix(1)
        pool.close()
        pool.close()
        for call in (page.unfix, pool.tick, pool.purge, pool.stats, lambda: pool.is_resident(1),
                     lambda: pool.fix(1)):
            self.refused(50, call)

    def test_threads_share_a_pool(self):
        with hojzmated.Pool(pages=64, frames=16, clients=4) as pool:
            def work(client):
                for number in range(2_000):
                    pool.fix((number * 7 + client) % 64, client).unfix()
                    pool.tick(client=client)
            threads = [threading.Thread(target=work, args=(client,)) for client in range(4)]
            for thread in threads:
                thread.start()
            for thread in threads:
                thread.join()
            stats = pool.stats()
            self.assertEqual(stats.hits + stats.faults, 8_000)


# ---- The library

def load_tests(_loader, tests, _pattern):
    tests.addTests(doctest.DocTestSuite(hojzmated))
    return tests


class Library(unittest.TestCase):
    def test_version(self):
        header = text_of("include", "hojzmated.h")
        parts = [re.search(rf"#define HZ_VERSION_{it} (\d+)", header)[1] for it in ("MAJOR", "MINOR", "PATCH")]
        self.assertEqual(hojzmated.version(), tuple(map(int, parts)))
        self.assertEqual(hojzmated.__version__, ".".join(parts))
        with mock.patch.object(_library.hz, "hz_version", return_value=20_304):
            self.assertEqual(hojzmated.version(), (2, 3, 4))

    # A library of another minor version is refused before a call of it is made, and of another patch version taken.
    @unittest.skipUnless(shutil.which(os.environ.get("CC", "cc")), "no C compiler")
    def test_library_of_another_version(self):
        own = hojzmated.version()
        number = own[0] * 10_000 + own[1] * 100
        told = f"{own[0]}.{own[1] + 1}.7, and the module hojzmated {hojzmated.__version__}"
        make = "import hojzmated; hojzmated.Pager('pages', 16, frames=4)"
        for words, core, pager, wanted in (
            ("import hojzmated", number + 107, None, told), (make, None, number + 107, told),
            ("import hojzmated", 10_000 + number, None, f"{own[0] + 1}.{own[1]}.0"),
            ("import hojzmated", "hz_other", None, "has no hz_version, so it is no library of Hojzmated"),
            (make, None, number + 99, "undefined symbol: hz_pager_new_file"),  # it is taken, and has no calls
        ):
            with self.subTest(core=core, pager=pager), tempfile.TemporaryDirectory() as folder:
                os.mkdir(os.path.join(folder, "lib"))
                self.library(folder, "hojzmated", "hz_version", core)
                self.library(folder, "hojzmated_pager", "hz_pager_version", pager)
                ran = subprocess.run(
                    [sys.executable, "-Bc", words], cwd=folder, stderr=subprocess.PIPE, encoding="utf-8",
                    env={**os.environ, "HOJZMATED_PREFIX": folder, "PYTHONPATH": os.path.dirname(__file__)})
                last = ran.stderr.strip().split("\n")[-1]
                self.assertIn(wanted, last)
                self.assertEqual(last.split(":")[0], "AttributeError" if "symbol" in wanted else "ImportError")
                self.assertFalse(os.path.exists(os.path.join(folder, "pages")))

    def library(self, folder, name, call, number):
        """Puts a library there: the one that is tested, where no number is given, or one with nothing but this version,
        or with another name."""
        to = os.path.join(folder, "lib", f"lib{name}.so")
        if number is None:
            os.symlink(_library._path_of(name, ""), to)
            return
        call, number = (call, number) if isinstance(number, int) else (number, 0)
        text = f"unsigned {call}(void) {{ return {number}; }}"
        subprocess.run([os.environ.get("CC", "cc"), "-shared", "-fPIC", "-xc", "-", "-o", to], input=text.encode(),
                       check=True)

    # Each struct and field lies where peers/c/layout.c says that the header has it, and layout_pager.c of the pager. No
    # page of a pool is unsaved here, and no pager calls back.
    def test_layout(self):
        self.lies("layout.c", "unsaved", {
            "hz_core": _library.Core, "hz_config": _library.Config, "hz_grant": _library.Grant,
            "hz_fixed": _library.Fixed, "hz_stats": _library.CoreStats})
        self.lies("layout_pager.c", "io|observer", {
            "hz_pager": _library.PagerHandle, "hz_ref": _library.Ref, "hz_pager_config": _library.PagerConfig,
            "hz_pager_fault": _library.Fault, "hz_pager_stats": _library.PagerCounts})

    def lies(self, layout, unused, types):
        text = text_of("peers", "c", layout)
        sizes = dict(re.findall(rf"^HOLDS\(sizeof\((hz_(?!{unused})\w+)\) == (\d+)\);", text, re.MULTILINE))
        self.assertEqual({name: str(ctypes.sizeof(it)) for name, it in types.items()}, sizes)
        wanted = re.findall(rf"^LIES\((hz_(?!{unused})\w+), (\w+), (\d+), (\d+)\);", text, re.MULTILINE)
        found = [
            (name, field, str(getattr(it, field).offset), str(getattr(it, field).size))
            for name, it in types.items() for field, _ in it._fields_
        ]
        self.assertEqual(found, wanted)

    # The numbers and the names are those of the headers.
    def test_numbers(self):
        headers = text_of("include", "hojzmated.h") + text_of("include", "hojzmated_pager.h")
        for pattern, own in (r"hz_(?:pager_)?refusal", hojzmated.Refusal), ("hz_how", hojzmated.How):
            enums = re.findall(rf"enum {pattern} \{{(.*?)\}};", headers, re.DOTALL)
            wanted = {name: int(it) for name, it in re.findall(r"^ {4}HZ_(\w+) = (\d+)", "".join(enums), re.MULTILINE)}
            wanted.pop("DONE", None)
            self.assertEqual({it.name: it.value for it in own}, wanted)
        formats = [("PLAIN", 1), ("NUMBERED", 2), ("CHECKED", 3)]
        self.assertEqual([(it.name, it.value) for it in hojzmated.Format], formats)

    # Each public call says what it takes and gives, so that a checker of types sees it. check/bindings runs one.
    def test_annotations(self):
        calls = [it for name in hojzmated.__all__ for it in self.calls_of(getattr(hojzmated, name))]
        self.assertGreater(len(calls), 40)
        for call in calls:
            names = [it for it in inspect.signature(call).parameters if it != "self"] + ["return"]
            self.assertEqual([it for it in names if it not in call.__annotations__], [], call.__qualname__)
        self.assertTrue(os.path.exists(os.path.join(os.path.dirname(hojzmated.__file__), "py.typed")))

    def calls_of(self, public):
        """The functions that are this one, or those of this class that the module writes."""
        if inspect.isfunction(public):
            return [public]
        found = [it.fget if isinstance(it, property) else it for it in vars(public).values()] if isinstance(
            public, type) else []
        return [it for it in found if inspect.isfunction(it) and "hojzmated" in it.__code__.co_filename]


# ---- Refusals

class Refusals(unittest.TestCase):
    def test_pickles(self):
        for refused in (
            hojzmated.Refused(13), hojzmated.Refused(17, "it could not be read", 7, 5), hojzmated.Refused(999, "newer"),
            hojzmated.Refused(hojzmated.Refusal.BUSY, page=1 << 63),
        ):
            refused.more = ["told by others"]
            copies = [pickle.loads(pickle.dumps(refused, it)) for it in range(pickle.HIGHEST_PROTOCOL + 1)]
            for found in [*copies, copy.copy(refused), copy.deepcopy(refused)]:
                self.assertEqual((type(found), str(found)), (hojzmated.Refused, str(refused)))
                self.assertEqual((found.number, found.page, found.errno, found.more),
                                 (refused.number, refused.page, refused.errno, refused.more))

    # A refusal in another process comes back, and the process goes on.
    def test_refused_in_another_process(self):
        spawned = multiprocessing.get_context("spawn")
        with concurrent.futures.ProcessPoolExecutor(1, spawned) as processes:
            for frames in 0, 65_537:
                with self.assertRaises(hojzmated.Refused) as refused:
                    processes.submit(hojzmated.count, [1], frames).result()
                self.assertIs(refused.exception.number, hojzmated.Refusal.BAD_SETTINGS)
                self.assertIn(f"frames is {frames:,}", str(refused.exception))
            self.assertEqual(processes.submit(hojzmated.count, [1], 1).result(), (1, 0, 1, 0, 0))

    def test_names_of_numbers(self):
        refused = hojzmated.Refused(13)
        self.assertIs(refused.number, hojzmated.Refusal.BUSY)
        self.assertEqual((refused.number, f"{refused.number:d}"), (13, "13"))
        self.assertEqual(hojzmated.Refused(999, "of a newer library").number, 999)

    def told(self, number, call, *arguments, **named):
        """The text with which a call is refused."""
        with self.assertRaises(hojzmated.Refused) as refused:
            call(*arguments, **named)
        self.assertEqual(refused.exception.number, number)
        return str(refused.exception).replace(f" (refusal {number})", "")

    # The setting that is wrong is told, and its limits: of each of several.
    def test_settings_of_a_pool(self):
        for number, more, wanted in (
            (1, {"pages": 0}, "pages is 0, and has to be from 1 to 1,048,576"),
            (1, {"pages": 1_048_577}, "pages is 1,048,577, and has to be from 1 to 1,048,576"),
            (2, {"frames": 65_537}, "frames is 65,537, and has to be from 1 to 65,536"),
            (2, {"k": 17}, "k is 17, and has to be from 1 to 16"),
            (2, {"clients": 0}, "clients is 0, and has to be from 1 to 64"),
            (2, {"correlated": (1 << 62) + 1},
             "correlated is 4,611,686,018,427,387,905, and has to be from 0 to 4,611,686,018,427,387,904"),
            (2, {"retained": (1 << 62) + 1},
             "retained is 4,611,686,018,427,387,905, and has to be from 0 to 4,611,686,018,427,387,904"),
            (2, {"frames": 0, "k": 0},
             "frames is 0, and has to be from 1 to 65,536; k is 0, and has to be from 1 to 16"),
        ):
            self.assertEqual(self.told(number, hojzmated.Pool, **{"pages": 8, "frames": 2, **more}), wanted)

    def test_pages_and_clients_of_a_pool(self):
        with hojzmated.Pool(pages=8, frames=2, clients=2) as pool:
            for call in pool.fix, pool.discard, pool.is_resident:
                self.assertEqual(self.told(45, call, 8), "the pool has no page 8: its pages are 0 to 7")
            for call in (lambda: pool.fix(7, 2), lambda: pool.discard(7, 2), lambda: pool.tick(client=2),
                         lambda: pool.purge(2)):
                self.assertEqual(self.told(41, call), "the pool has no client 2: its clients are 0 to 1")


if __name__ == "__main__":
    unittest.main()
