#!/usr/bin/env python3
"""Makes the tables and pictures of docs/EXPERIMENTS.md, each by the command that stands there.

    apt-get install sqlite3 strace
    peers/experiments.py PROGRAM FOLDER
    peers/experiments.py --simulated FOLDER

PROGRAM is a built bpool. The lists of references, the tables and the pictures go into FOLDER, which is made, and the
pictures into docs too. Each table is compared with that of `peers/simulation.py`. Where they differ in a byte, the
status is 1 and docs/EXPERIMENTS.md stays as it was. With --simulated the tables are those of the simulation, and no
picture is drawn. The simulation takes some fifteen minutes of processor time.
"""
import csv
import filecmp
import hashlib
import os
import re
import shlex
import shutil
import subprocess
import sys

PEERS = os.path.dirname(os.path.realpath(__file__))
DOCS = os.path.join(os.path.dirname(PEERS), "docs")
PAGE = os.path.join(DOCS, "EXPERIMENTS.md")
SQLITE_FRAMES = "64,128,256,512,768,1024,1280,2048,4096"
# For each table its name, what makes its list, the list, and the words of the sweep.
EXPERIMENTS = [
    ("two_pools", "peers/references.py two_pools 1 1000000", "two_pools.txt",
     "--k 1,2,3 --frames 60,80,100,120,140,160,180,200,250,300,350,400,450,500,550,600"),
    ("zipfian", "peers/references.py zipfian 1 1000000", "zipfian.txt",
     "--k 1,2,3 --frames 40,60,80,100,120,140,160,180,200,250,300,400,500,600"),
    ("sqlite", "peers/sqlite_trace.py", "sqlite_reads.csv", f"--column 2 --k 1,2,3 --frames {SQLITE_FRAMES}"),
]
DRAWN = ("two_pools", "zipfian", "sqlite")


# ---- Running

def write_by(words, path):
    """Starts a command whose output goes into a file."""
    with open(path, "wb") as file:
        return subprocess.Popen(words, stdout=file)


def ended(started, what):
    if started.wait() != 0:
        sys.exit(f"{what} ended with status {started.returncode}")


def make_lists(folder):
    started = []
    for _, maker, name, _ in EXPERIMENTS:
        script, *words = shlex.split(maker)
        path = os.path.join(folder, name)
        started.append((write_by([os.path.join(os.path.dirname(PEERS), script), *words], path), maker))
    for it, maker in started:
        ended(it, maker)


def simulate(folder):
    """Starts the simulation of each list."""
    return {
        name: write_by([os.path.join(PEERS, "simulation.py"), os.path.join(folder, references), *shlex.split(words)],
                       os.path.join(folder, f"{name}.simulated.csv"))
        for name, _, references, words in EXPERIMENTS
    }


def sweep(program, folder):
    """Runs the program over each list, and draws."""
    for name, _, references, words in EXPERIMENTS:
        picture = os.path.join(folder, f"{name}.svg")
        drawing = ["--svg", picture] if name in DRAWN else []
        words = [program, "sweep", os.path.join(folder, references), *shlex.split(words), *drawing]
        ended(write_by(words, os.path.join(folder, f"{name}.csv")), shlex.join(words))


def bytes_of(folder, name):
    with open(os.path.join(folder, name), "rb") as file:
        return file.read()


# ---- The page

def cells_of(text):
    """The line of each pool, by its frames and its K."""
    rows = list(csv.DictReader(text.decode().splitlines()))
    return {(int(row["frames"]), row["k"]): row for row in rows}


def frames_of(cells):
    return sorted({frames for frames, _ in cells})


def ratio(cells, frames, k):
    return int(cells[frames, k]["hits"]) / int(cells[frames, k]["fixes"])


def frames_needed(cells, wanted):
    """How many frames LRU needs for a hit ratio, on straight lines between its own; none where the most are too few."""
    frames = frames_of(cells)
    if ratio(cells, frames[0], "1") >= wanted:
        return frames[0]
    for few, many in zip(frames, frames[1:]):
        low, high = ratio(cells, few, "1"), ratio(cells, many, "1")
        if low < wanted <= high:
            return few + (many - few) * (wanted - low) / (high - low)
    return None


def equi_effective(cells, frames):
    needed = frames_needed(cells, ratio(cells, frames, "2"))
    return f"{needed / frames:.2f}" if needed else f"> {frames_of(cells)[-1] / frames:.2f}"


def markdown(names, rows):
    lines = [names, ["---:"] * len(names), *rows]
    return "".join("| " + " | ".join(map(str, line)) + " |\n" for line in lines)


def ratios_table(cells):
    rows = [
        [frames, *(cells[frames, k]["hit_ratio"] for k in ("1", "2", "3", "opt")), equi_effective(cells, frames)]
        for frames in frames_of(cells)
    ]
    return markdown(["frames", "LRU", "LRU-2", "LRU-3", "optimum", "B(1)/B(2)"], rows)


def commands(experiment, list_bytes):
    name, maker, references, words = experiment
    digest = hashlib.sha256(list_bytes).hexdigest()[:16]
    drawing = f" --svg {name}.svg" if name in DRAWN else ""
    return (f"    {maker} > {references}\n    bpool sweep {references}{drawing} \\\n        {words} > {name}.csv\n\n"
            f"The SHA-256 of `{references}` begins with `{digest}`.\n\n")


def picture(name, drawn):
    return f"\n![Hit ratio over frames]({name}.svg)\n" if drawn else f"\n<!-- Here {name}.svg is shown. -->\n"


def sections(folder, drawn):
    """What stands between the marks of the page, by name."""
    cells = {name: cells_of(bytes_of(folder, f"{name}.csv")) for name, *_ in EXPERIMENTS}
    found = {}
    for experiment in EXPERIMENTS:
        name, _, references, _ = experiment
        found[name] = commands(experiment, bytes_of(folder, references))
        if name in DRAWN:
            found[name] += ratios_table(cells[name]) + picture(name, drawn)
    return found


def write_page(found):
    with open(PAGE, encoding="utf-8") as file:
        text = file.read()
    for name, section in found.items():
        marks = re.compile(rf"(<!-- begin {name} -->\n).*?(<!-- end {name} -->\n)", re.DOTALL)
        if len(marks.findall(text)) != 1:
            sys.exit(f"docs/EXPERIMENTS.md has no place for {name}, or more than one")
        text = marks.sub(lambda it: f"{it[1]}\n{section}\n{it[2]}", text)
    with open(PAGE, "w", encoding="utf-8") as file:
        file.write(text)


# ---- The words

def take_tables(program, folder):
    """Makes the table of each list, and compares it with the simulation's, or takes that one."""
    simulated = simulate(folder)
    try:
        if program:
            sweep(program, folder)
        for name, started in simulated.items():
            table, other = (os.path.join(folder, f"{name}{end}") for end in (".csv", ".simulated.csv"))
            ended(started, f"the simulation of {name}")
            if not program:
                shutil.copy(other, table)
            elif not filecmp.cmp(table, other, shallow=False):
                sys.exit(f"{table} and {other} differ")
            print(f"{name}: {'as simulated' if program else 'simulated'}", flush=True)
    finally:
        for started in simulated.values():
            started.kill()


def main(words):
    if len(words) != 2:
        sys.exit(__doc__)
    program, folder = (None if words[0] == "--simulated" else words[0]), words[1]
    os.makedirs(folder, exist_ok=True)
    make_lists(folder)
    take_tables(program, folder)
    write_page(sections(folder, program is not None))
    for name in DRAWN if program else ():
        shutil.copy(os.path.join(folder, f"{name}.svg"), DOCS)


if __name__ == "__main__":
    main(sys.argv[1:])
