"""The cases of program.cases: how they are read, how a run of one is made, and what is to come of it.

Of a run that is its errors, its output, its status and the files of its folder, in this order.
"""

import contextlib
import fcntl
import itertools
import os
import pty
import re
import resource
import shutil
import signal
import stat
import subprocess
import sys
import termios

import runner

BUILT = os.path.join(runner.CRATES, "bpool", "out", "bpool")
SECONDS, BLOCK = 120, 65536
# How the lines begin that stand before a run, or are it, and those after it.
BEFORE, AFTER = ("file", "with", "bpool"), ("input", "output", "output_as", "error", "status", "leaves")
STREAMS = {"input": ("stdin", os.O_RDONLY), "output": ("stdout", os.O_WRONLY), "error": ("stderr", os.O_WRONLY)}
LIMITS = {"length": resource.RLIMIT_FSIZE, "files": resource.RLIMIT_NOFILE}
WIDTH = 100
# How a file of a case is made that is no regular file, and how each piece of a regular one is written. Zeros are passed
# over, so that they take no room on most devices.
KINDS = {
    b"gone": lambda folder, path: None,
    b"dir": lambda folder, path: os.mkdir(path),
    b"pipe": lambda folder, path: os.mkfifo(path),
    b"link": lambda folder, path, other: os.symlink(other, path),
    b"same": lambda folder, path, other: os.link(os.path.join(folder, other), path),
}
PIECES = {
    b"zeros": lambda file, count: file.seek(int(count), os.SEEK_CUR),
    b"count": lambda file, count: file.write(bytes(place % 251 + 1 for place in range(int(count)))),
    b"lines": lambda file, count: file.writelines(b"%d\n" % number for number in range(int(count))),
    b"hex": lambda file, digits: file.write(bytes.fromhex(digits.decode())),
    b"text": lambda file, text: file.write(text),
    b"file": lambda file, name: file.write(stored(name)),
    b"mode": lambda file, mode: os.fchmod(file.fileno(), int(mode, 8)),
}


class Run:
    """A run of the program: the files that are made before it, how it is run, and what must come of it."""

    def __init__(self):
        self.before, self.how, self.words, self.given = [], {}, None, b""
        self.out, self.err, self.status, self.after = b"", b"", 0, []

    def take(self, word, rest):
        """Takes a line of a case, but for its rows."""
        if word == "file":
            self.before.append(rest)
        elif word == "with":
            what, at = rest.split()
            if what not in (*STREAMS, *LIMITS, "memory", "locked"):
                raise ValueError(f"no program is run with '{what}'")
            self.how[what] = at
        elif word == "bpool":
            self.words = [bytes_of(it) for it in rest.split()]
        elif word == "input":
            self.given += line_of(rest)
        elif word == "output":
            self.out += line_of(rest)
        elif word == "output_as":
            self.out += stored_output(rest)
        elif word == "error":
            self.err += line_of(rest)
        elif word == "status":
            self.status = int(rest)
        elif word == "leaves":
            self.after.append(rest)


def stored(name):
    """The bytes of a file in check/cases."""
    with open(os.path.join(os.fsencode(runner.CHECK), b"cases", name), "rb") as file:
        return file.read()


def stored_output(name):
    """The same of a file that is an output: no line may be wider than 100 columns."""
    text = stored(name.encode())
    if any(len(line) > WIDTH for line in text.split(b"\n")):
        raise ValueError(f"{name} has a line of more than {WIDTH} columns")
    return text


def bytes_of(text):
    """The bytes of a text in which a backslash begins a byte, and {ab*3} is ababab."""
    plain = text.encode().decode("unicode_escape").encode("latin-1")
    return re.sub(rb"\{([^{}]*)\*(\d+)\}", lambda it: it[1] * int(it[2]), plain)


def line_of(text):
    """The bytes of a line. It has no end where its last character is a backslash."""
    return bytes_of(text[:-1]) if text.endswith("\\") else bytes_of(text) + b"\n"


def read_cases():
    """The lines of each case, by its name: of each line the first word, and what stands after it."""
    cases, lines = {}, None
    for number, line in enumerate(runner.text_of("check", "program.cases").split("\n"), 1):
        (word, _, rest), fault = line.partition(" "), None
        if not line or line[0] == "#":
            continue
        if word == "case":
            fault = f"two cases have the name {rest}" if rest in cases else None
            lines = cases[rest] = []
        elif lines is None:
            fault = f"it is of no case: {line}"
        elif word not in ("row", *BEFORE, *AFTER):
            fault = f"no line of a case begins with '{word}': {line}"
        else:
            lines.append((word, rest))
        if fault:
            sys.exit(f"check/program.cases, line {number}: {fault}")
    return cases


def rows_of(lines):
    """The columns of each row of a case. One that has no rows is run once, as if for a row without columns."""
    return [[it.strip() for it in rest.split("=>")] for word, rest in lines if word == "row"] or [[]]


def runs_of(lines, row):
    """The runs of a case with this row."""
    runs = [Run()]
    for word, rest in lines:
        for number, column in enumerate(row, 1):
            rest = rest.replace(f"%{number}", column)
        if word in BEFORE and runs[-1].words is not None:
            runs.append(Run())
        runs[-1].take(word, rest)
    if runs[-1].words is None:
        raise ValueError("nothing is run at its end")
    return runs


def title(name, row):
    """How a case is called that is run with this row."""
    return f"{name}{' with ' if row else ''}{' => '.join(row)}"


def make(folder, line):
    """Makes the file of a line anew."""
    before, _, text = line.partition(" text ")
    name, *what = [bytes_of(word) for word in before.split()] + ([b"text", bytes_of(text)] if text else [])
    path = os.path.join(folder, name)
    if os.path.lexists(path):
        os.remove(path)
    if what[0] in KINDS:
        return KINDS[what[0]](folder, path, *what[1:])
    with open(path, "wb") as file:
        for kind, of in zip(what[::2], what[1::2]):
            PIECES[kind](file, of)
        file.truncate(file.tell())


def make_all(folder, lines):
    """Makes a folder anew with the files of these lines. Returns what is then in it."""
    shutil.rmtree(folder, ignore_errors=True)
    os.mkdir(folder)
    for line in lines:
        make(folder, line)
    return listing(folder)


def listing(folder):
    """What is in a folder, as text: for each name its kind and mode, and of a file its names, length and bytes."""
    found = []
    for where, folders, files in os.walk(folder):
        for path in [os.path.join(where, name) for name in folders + files]:
            at, name = os.lstat(path), path[len(folder) + 1 :]
            found.append(name + f": {stat.filemode(at.st_mode)}".encode())
            if stat.S_ISLNK(at.st_mode):
                found[-1] += b" to " + os.readlink(path)
            elif stat.S_ISREG(at.st_mode):
                found[-1] += f", names {at.st_nlink}, length {at.st_size}".encode()
                found += [name + f": byte {place:012}: {piece.hex()}".encode() for place, piece in pieces_of(path)]
    return b"".join(line + b"\n" for line in sorted(found))


def pieces_of(path):
    """The pieces of a file that are not all zero, with their places. Parts that were never written are passed over."""
    place = 0
    with open(path, "rb") as file:
        while True:
            try:
                place = os.lseek(file.fileno(), place, os.SEEK_DATA) // BLOCK * BLOCK
            except OSError:
                return
            block = os.pread(file.fileno(), BLOCK, place)
            for at in range(0, len(block), 16):
                if any(block[at : at + 16]):
                    yield place + at, block[at : at + 16]
            place += BLOCK


def stream(what, at, folder, typed):
    """Our end and the program's of its standard input, output or error. We have one of a terminal alone."""
    if at == "terminal":
        ours, its = pty.openpty()
        mode = termios.tcgetattr(its)
        mode[1] &= ~termios.OPOST
        mode[3] &= ~termios.ECHO
        termios.tcsetattr(its, termios.TCSANOW, mode)
        os.write(ours, typed + b"\x04")
        return ours, its
    if at == "closed":
        ours, its = os.pipe()
        os.close(ours)
        return None, its
    return None, os.open(os.path.join(folder, at.encode()), STREAMS[what][1])


def shown_at(terminal):
    """All that a terminal was given, once its other end is closed."""
    seen = b""
    try:
        while piece := os.read(terminal, BLOCK):
            seen += piece
    except OSError:
        os.close(terminal)
    return seen


def limit(how):
    """Limits the program that is about to begin. What it writes past a limit fails then, and is no signal."""
    signal.signal(signal.SIGXFSZ, signal.SIG_IGN)
    for what in LIMITS.keys() & how.keys():
        resource.setrlimit(LIMITS[what], (int(how[what]), int(how[what])))


@contextlib.contextmanager
def locked(folder, name):
    """Has a file of a folder locked, where one is named."""
    if name is None:
        yield
        return
    with open(os.path.join(folder, name.encode()), "rb") as file:
        fcntl.flock(file, fcntl.LOCK_EX)
        yield


def ran(program, run, folder, more=(), kept=()):
    """Runs the program in a folder, with more in its environment. Returns its errors, its output and its status."""
    ends = {what: stream(what, at, folder, run.given) for what, at in run.how.items() if what in STREAMS}
    how = {"cwd": folder, "pass_fds": kept, "preexec_fn": lambda: limit(run.how), "encoding": None, "errors": None}
    to = {"stderr": subprocess.PIPE, **{STREAMS[what][0]: its for what, (_, its) in ends.items()}}
    try:
        with locked(folder, run.how.get("locked")):
            given = None if "input" in ends else run.given
            came = runner.ended([program, *run.words], SECONDS, more, given, **how, **to)
    except subprocess.TimeoutExpired:
        raise ValueError(f"it had not ended after {SECONDS} seconds") from None
    finally:
        for _, its in ends.values():
            os.close(its)
    seen = {what: shown_at(ours) for what, (ours, _) in ends.items() if ours is not None}
    return seen.get("error", came.stderr or b""), seen.get("output", came.stdout or b""), came.returncode


def difference(came, wanted):
    """The first thing that came otherwise than it is wanted, if any. Both are errors, output, status and files."""
    for what, has, want in zip(("standard error", "standard output", "status", "files"), came, wanted):
        if has == want:
            continue
        if what == "status":
            return f"status {has}, and not {want}"
        pairs = itertools.zip_longest(has.splitlines(True), want.splitlines(True), fillvalue=b"")
        number, (line, other) = next(it for it in enumerate(pairs, 1) if it[1][0] != it[1][1])
        status = "" if came[2] == wanted[2] else f" (status {came[2]})"
        return f"{what}, line {number}: {said(line)}, and not {said(other)}{status}"
    return None


def said(line):
    """A line, as it is told."""
    return repr(line.decode(errors="backslashreplace")) if line else "nothing"
