"""What the scripts of this folder share: how commands are run, several at a time, and how it is told what came of them.

A script sets sys.dont_write_bytecode before it imports this, so that no compiled file is left here.
"""

import concurrent.futures
import multiprocessing
import os
import resource
import shutil
import subprocess
import tempfile

CHECK = os.path.dirname(os.path.abspath(__file__))
TOP = os.path.dirname(CHECK)
CRATES = os.path.join(TOP, "crates")
CC = os.environ.get("CC", "cc")
AT_A_TIME = 4
# What packages of the Rust crates have inside and stands elsewhere here: where in bindings/rust, and where here.
PACKAGED = {"RULES.md": "docs/RULES.md", "sys/include/hojzmated.h": "include/hojzmated.h",
            "sys/tests/layout.c": "peers/c/layout.c"}


class Failed(Exception):
    """What is wrong, and why."""


class LeftOut(Exception):
    """What is not tried here, and why."""


def text_of(*path):
    """The text of a file of the repository."""
    with open(os.path.join(TOP, *path), encoding="utf-8") as file:
        return file.read()


def write(text, *path):
    """Writes a file anew."""
    with open(os.path.join(*path), "w", encoding="utf-8") as file:
        file.write(text)


def pack(folder):
    """Copies what packages have inside into a copy of bindings/rust."""
    for to, name in PACKAGED.items():
        to = os.path.join(folder, to)
        os.makedirs(os.path.dirname(to), exist_ok=True)
        shutil.copy(os.path.join(TOP, name), to)


def edit(path, old, new):
    """Replaces a text that has to stand in a file once."""
    text = text_of(path)
    if text.count(old) != 1:
        raise Failed(f"{old!r} stands in {path} {text.count(old)} times, and not once")
    write(text.replace(old, new), path)


def make_edits(path, folder):
    """Makes the edits that a file lists in a folder: a line 'file: PATH', and after it for each edit a line 'old: TEXT'
    and a line 'new: TEXT'."""
    name = old = None
    for line in text_of(path).splitlines():
        word, _, text = line.partition(":")
        if word == "file":
            name = os.path.join(folder, text.strip())
        elif word == "old":
            old = text.removeprefix(" ")
        elif word == "new":
            edit(name, old, text.removeprefix(" "))


def ended(words, seconds=None, more=(), text="", **how):
    """Runs a command with more in its environment and a text on its input. Returns how it ended, with its output and
    errors as one text, if `how` does not say otherwise."""
    to = {"stdout": subprocess.PIPE, "stderr": subprocess.STDOUT, "encoding": "utf-8", "errors": "replace"}
    return subprocess.run(words, timeout=seconds, env={**os.environ, **dict(more)}, input=text, **{**to, **how})


def started(words, **how):
    """Starts a command. Returns it, with what it prints as lines of text."""
    return subprocess.Popen(words, stdout=subprocess.PIPE, encoding="utf-8", errors="replace", **how)


def each(function, jobs):
    """Yields what the function returns for each job, in their order. Four are done at a time."""
    forks = multiprocessing.get_context("fork")
    with concurrent.futures.ProcessPoolExecutor(AT_A_TIME, forks) as at_a_time:
        yield from at_a_time.map(function, jobs)


def told(passed, failed, more=""):
    """Prints how many passed and how many failed. Returns the status: 0 where some passed and none failed."""
    print(f"{passed} passed, {failed} failed{more}")
    return 0 if passed and not failed else 1


def leave_no_core_files():
    """Has no program that aborts leave a core file, as a test does that fails."""
    resource.setrlimit(resource.RLIMIT_CORE, (0, 0))


def compiled(source, folder):
    """Compiles a file of this folder. Returns the shared object, which is to be loaded before the C library."""
    to = os.path.join(folder, source.replace(".c", ".so"))
    words = [CC, "-O2", "-Wall", "-shared", "-fPIC", "-o", to, os.path.join(CHECK, source)]
    subprocess.run(words, check=True)
    return to


def said_by(shared_object, says, settings, run):
    """Calls `run` with what to add to the environment and the files to keep, so that a shared object is loaded. Returns
    what that wrote to the file that `says` names, and what `run` returned."""
    with tempfile.TemporaryFile() as file:
        came = run({"LD_PRELOAD": shared_object, says: str(file.fileno()), **settings}, [file.fileno()])
        file.seek(0)
        return file.read().decode(), came


def without_memory(refuses, number, run):
    """Calls `run` as above, with the request for memory of this number refused. Returns whether there was one, and what
    `run` returned."""
    said, came = said_by(refuses, "REFUSE_SAYS", {"REFUSE": str(number)}, run)
    return bool(said), came


def tests_of(crate, is_built):
    """The program of a crate's tests and the name of each, once they are proved and built, if they are not yet."""
    folder = os.path.join(CRATES, crate)
    if not is_built:
        subprocess.run(["rt", "test"], cwd=folder, check=True)
    program = os.path.join(folder, "out", f"{crate}_tests")
    listed = subprocess.run([program, "--list"], stdout=subprocess.PIPE, check=True).stdout.decode()
    return [(program, line.removesuffix(": test")) for line in listed.splitlines() if line.endswith(": test")]


def scenarios(words):
    """The name, the number of the first line and the lines of each scenario that has these words in its name."""
    lines = text_of("crates", "scenarios", "stdin").removesuffix("\n").split("\n")
    places = [place for place, line in enumerate(lines) if line.startswith("scenario ")]
    ends = [*places[1:], len(lines)]
    found = [(lines[at].split(" ", 1)[1], at + 1, lines[at:end]) for at, end in zip(places, ends)]
    return [it for it in found if all(word in it[0] for word in words)]
