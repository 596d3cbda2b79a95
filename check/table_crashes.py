"""Kills the table of crates/example_recovery, and cuts its power: for check/kills.

The program does what its src/driven.rt says. The commits that it makes are made here once more, from the same numbers.
Whatever ended it, the pages are then to be, to the byte, those after some commit: none before the last one that was
acknowledged, by a line which says so or which says that the table is open.
"""

import os
import random
import re
import shutil
import signal
import subprocess
import time
from concurrent.futures import ThreadPoolExecutor
from typing import NamedTuple

import runner
from runner import CRATES, Failed, LeftOut

CRATE = os.path.join(CRATES, "example_recovery")
PROGRAM = os.path.join(CRATE, "out", "example_recovery")
FILES = [f"example_recovery.{end}" for end in ("pages", "0.log", "1.log")]
ROW, SECONDS, FOR_EVER, WORD = 16, 60, 1_000_000, 1 << 64
MOST_REQUESTS = (3, 4, 5, 6, 7, 8, 9, 10)
# So many kills of a store, in so many seconds at most.
KILLS_OF_A_STORE, LONGEST = 50, 0.3
# So many tables are cut by a thread, and so many threads work.
A_JOB, AT_A_TIME = 25, 3


class SetUp(NamedTuple):
    """The pages and their bytes, the bytes of each log, and those that the disk keeps whole: larger pages tear."""

    pages: int
    size: int
    log: int
    sector: int


SET_UPS = [
    SetUp(4, 64, 1024, 512),
    SetUp(16, 64, 8192, 512),
    SetUp(6, 512, 4096, 512),
    SetUp(3, 4096, 16384, 4096),
    SetUp(5, 1024, 16384, 512),
    SetUp(3, 4096, 16384, 512),
    SetUp(3, 4096, 65536, 512),
]


class Run(NamedTuple):
    """What a process is to do: its frames, how often it opens the table, the commits until it drops it, the most changes
    of a commit, every how many commits are made durable, and a seed."""

    frames: int
    lives: int
    commits: int
    changes: int
    every: int
    seed: int


def some_run(numbers):
    commits, every = numbers.choice((3, 10, 40, 1000)), numbers.choice((1, 2, 5, 20))
    seed = numbers.randrange(1 << 40)
    return Run(numbers.randrange(1, 5), FOR_EVER, commits, numbers.randrange(1, 5), every, seed)


def following(state):
    return (state * 6364136223846793005 + 1442695040888963407) % WORD


def below(state, limit):
    return (state >> 33) % limit


class Model:
    """The pages after each commit that may be the last one, by its number."""

    def __init__(self, set_up):
        self.set_up, self.run = set_up, None
        # The last commit that was acknowledged, and the last of which there are pages.
        self.least = self.newest = 0
        # What the next process has to see, or nothing once one has opened the table, which may commit.
        self.seen = 0
        self.after = {0: bytes(set_up.pages * set_up.size)}

    def commit(self):
        """Makes the next commit, as the program does."""
        self.newest += 1
        size, pages = self.set_up.size, bytearray(self.after[self.newest - 1])
        row = self.newest.to_bytes(8, "little") + self.run.seed.to_bytes(8, "little")
        state = following((self.run.seed + following(self.newest)) % WORD)
        for _ in range(1 + below(state, self.run.changes)):
            state = following(state)
            page = below(state, self.set_up.pages)
            state = following(state)
            at = page * size + below(state, size // ROW) * ROW
            pages[at:at + ROW] = row
        self.after[self.newest] = bytes(pages)

    def settle(self, number, is_durable=True):
        """Has this be the last commit, of which no later one can be found any more."""
        most = self.least + 2 * self.run.every if self.seen is None else self.seen
        if not self.least <= number <= most:
            raise Failed(f"commit {number} is the last, and not one of {self.least} to {most}")
        while self.newest < number:
            self.commit()
        self.newest = number
        self.least = number if is_durable else self.least
        self.after = {at: it for at, it in self.after.items() if self.least <= at <= number}

    def open(self, run, number, shown):
        """A process has opened the table, and shows from which commits the rows are."""
        if self.seen not in (None, number):
            raise Failed(f"commit {number} is the last, and commit {self.seen} was seen")
        self.settle(number)
        pages = self.after[number]
        if shown != [int.from_bytes(pages[at:at + 8], "little") for at in range(0, len(pages), ROW)]:
            raise Failed(f"after commit {number} the rows are from {shown}")
        self.run, self.seen = run, None

    def hear(self, run, said):
        """Follows what a process said."""
        shown = []
        for line in said.splitlines(keepends=True):
            if not line.endswith("\n"):
                return
            told = re.fullmatch(r"(page|opened|durable|checkpoint) (\d+)(:( \d+)+)?\n", line)
            if not told or (told[1] == "page") != bool(told[3]):
                raise Failed(f"it says {line!r}")
            number = int(told[2])
            if told[1] == "page":
                shown += map(int, told[3][1:].split())
            elif told[1] == "opened":
                self.open(run, number, shown)
                shown = []
            elif self.seen is None and (number > self.least or told[1] == "checkpoint" and number == self.least):
                self.settle(number)
            else:
                raise Failed(f"it says {line!r} after commit {self.least}")


class Table:
    """The program, with a folder for its files, and what they have to have."""

    def __init__(self, program, folder, set_up, disk=None):
        self.program, self.folder, self.set_up, self.disk = program, folder, set_up, disk
        self.model = Model(set_up)
        shutil.rmtree(folder, ignore_errors=True)
        os.mkdir(folder)
        self.done("create", folder)

    def words(self, what, run=()):
        return [self.program, what, *map(str, [*self.set_up[:3], *run])]

    def done(self, what, folder, run=(), **env):
        """Runs it to its end, which has to be a good one. Returns what it said."""
        try:
            ran = runner.ended(self.words(what, run), SECONDS, env, cwd=folder, stderr=subprocess.PIPE)
        except subprocess.TimeoutExpired:
            raise Failed(f"{what}: not done in {SECONDS} s") from None
        if ran.returncode or ran.stderr:
            raise Failed(f"{what} {run}: status {ran.returncode}: {ran.stderr.strip()[-500:]}")
        return ran.stdout

    def look(self, folder, is_durable=True):
        """Opens the table in a folder whose files it left, and looks whether it has what it has to have."""
        said = self.done("show", folder)
        opened = re.search(r"^opened (\d+)\n\Z", said, re.M)
        if not opened:
            raise Failed(f"show says {said[-500:]!r}")
        number = int(opened[1])
        if not is_durable and self.model.seen not in (None, number):
            raise Failed(f"commit {number} is the last, and commit {self.model.seen} was seen")
        self.model.settle(number, is_durable)
        with open(os.path.join(folder, FILES[0]), "rb") as file:
            if file.read() != self.model.after[number]:
                raise Failed(f"the pages are not those after commit {number}")
        self.model.seen = number

    def end(self, numbers, run, request, is_kill):
        """Runs it until its power fails at this request; or until it is killed there, and the next process sees all that
        was written, of which its power may lose what was not synced."""
        fault = f"{numbers.randrange(1 << 40)} {'kill:' if is_kill else ''}{request} {' '.join(FILES)}"
        more = {"HOJZMATED_DISK": fault, "HOJZMATED_SECTOR": str(self.set_up.sector)}
        self.model.hear(run, self.done("work", self.folder, run, LD_PRELOAD=self.disk, **more))
        with_copy = shutil.copytree(self.folder, f"{self.folder}.copy")
        self.look(with_copy, not is_kill)
        shutil.rmtree(with_copy)

    def kill(self, run, seconds, of_redo):
        """Kills it so many seconds after it began to work, and then its redo after so many, each time that is told."""
        with open(f"{self.folder}.said", "w", encoding="utf-8") as to, open(to.name, encoding="utf-8") as said:
            started = subprocess.Popen(self.words("work", run), cwd=self.folder, stdout=to)
            heard = ""
            while "opened" not in heard and started.poll() is None:
                time.sleep(0.001)
                heard += said.read()
            time.sleep(seconds)
            started.kill()
            if started.wait() != -signal.SIGKILL:
                raise Failed(f"work {run}: it ended before it was killed")
            self.model.hear(run, heard + said.read())
        for rest in of_redo:
            redo = subprocess.Popen(self.words("show"), cwd=self.folder, stdout=subprocess.DEVNULL)
            time.sleep(rest)
            redo.kill()
            redo.wait()
        self.look(self.folder)


class Tables:
    """What is tried of the table, with this program, in a folder."""

    def __init__(self, program, disk, folder):
        self.program, self.disk, self.folder = program, disk, folder

    def kills(self, count, seed):
        """Kills a table some times, and then another. Yields what each kill was, and why it failed, if it did."""
        numbers, table = random.Random(f"{seed} kills"), None
        for number in range(count):
            seconds = numbers.uniform(0, LONGEST)
            of_redo = [numbers.uniform(0, 0.02) for _ in range(numbers.randrange(3))]
            try:
                if number % KILLS_OF_A_STORE == 0:
                    table = Table(self.program, os.path.join(self.folder, "table"), numbers.choice(SET_UPS))
                table.kill(some_run(numbers), seconds, of_redo)
                why = None
            except Failed as failed:
                why = str(failed)
            yield f"table: kill {number + 1} of seed {seed}, after {seconds:.3f} s", why
            if why:
                return

    def cut(self, seed, number):
        """Cuts the power of a table up to four times. Before half of the cuts it is killed."""
        numbers = random.Random(f"{seed} cuts {number}")
        folder = os.path.join(self.folder, f"table_{number}")
        table = Table(self.program, folder, numbers.choice(SET_UPS), self.disk)
        for _ in range(numbers.randrange(1, 5)):
            most = 1 << numbers.choice(MOST_REQUESTS)
            if numbers.randrange(2):
                table.end(numbers, some_run(numbers), numbers.randrange(1, most + 1), True)
                most = 10 + 2 * table.set_up.pages  # as many as an opening makes
            table.end(numbers, some_run(numbers), numbers.randrange(1, most + 1), False)
        shutil.rmtree(folder)

    def cuts(self, seed, first, count):
        """Cuts tables of these numbers. Returns how many passed and failed, and a line of each that failed."""
        lines = []
        for number in range(first, first + count):
            try:
                self.cut(seed, number)
            except Failed as why:
                lines.append(f"table {number} of seed {seed}: {why}")
        return count - len(lines), len(lines), lines


def built():
    """The program as the gate builds it."""
    sources = [os.path.join(CRATE, "src", name) for name in os.listdir(os.path.join(CRATE, "src"))]
    if not os.path.isfile(PROGRAM):
        raise LeftOut("the table: crates/example_recovery/out has no program")
    if any(os.path.getmtime(it) > os.path.getmtime(PROGRAM) for it in sources):
        raise LeftOut("the table: a source is newer than the program in crates/example_recovery/out")
    return PROGRAM


def try_all(program, disk, folder, counts, seed):
    """Kills the table, and cuts its power. Prints what came of it. Returns how many passed and failed."""
    tables, passed, failed = Tables(program, disk, folder), 0, 0
    for name, why in tables.kills(counts["kills"], seed):
        passed, failed = passed + (not why), failed + bool(why)
        print(f"failed: {name}: {why}" if why else f"passed: {name}", flush=True)
    jobs = [(seed, first, min(A_JOB, counts["cuts"] - first)) for first in range(0, counts["cuts"], A_JOB)]
    with ThreadPoolExecutor(AT_A_TIME) as pool:
        for job, told in zip(jobs, pool.map(lambda job: tables.cuts(*job), jobs)):
            for line in told[2]:
                print(f"failed: {line}", flush=True)
            print(f"table {' '.join(map(str, job))}: {told[0]} passed, {told[1]} failed", flush=True)
            passed, failed = passed + told[0], failed + told[1]
    return passed, failed
