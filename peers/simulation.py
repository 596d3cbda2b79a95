#!/usr/bin/env python3
"""Prints the table of `bpool sweep`, counted by a simulation that shares nothing with the program.

    peers/simulation.py REFERENCES --frames LIST [--k LIST] [--correlated N] [--column N]

The words are those of `bpool sweep`, which `bpool sweep --help` explains; a picture is not drawn. LRU-K is counted with
stamps that move at each reference, and the optimum with a heap of the pages that are due last. A list of at most 1,000
references is counted once more, from the definitions: stamps are read off the bursts of a page's references, and each
page in a frame is looked at where one has to leave. The simulation ends with a message where the two differ.
"""
import argparse
import collections
import csv
import heapq
import re
import sys

HEADER = "frames,k,fixes,hits,faults,hit_ratio,evictions,writes,failed,refused"
LARGEST, MOST_DIFFERENT, MOST_IN_A_LIST = 1 << 62, 1 << 20, 64
COUNTED_TWICE = 1_000
Counts = collections.namedtuple("Counts", "hits faults evictions refused")


# ---- The references

def number_in(text):
    """The number that a text says, or none: 1 to 19 decimal digits, up to 2^62."""
    if text is None or not (1 <= len(text) <= 19 and text.isascii() and text.isdigit()):
        return None
    return int(text) if int(text) <= LARGEST else None


def fields_in(lines, column):
    """The text of each reference: a line, or the field in this column, from 1, of a record."""
    if column is None:
        yield from (line.removesuffix("\n").removesuffix("\r") for line in lines)
        return
    for record in csv.reader(lines):
        if record:
            yield record[column - 1] if column <= len(record) else None


def is_title(text):
    """Whether the field of a first record makes this a header: it is there, and is not digits with or without a sign."""
    return text is not None and re.fullmatch("[+-]?[0-9]+", text) is None


def read_numbers(lines, column):
    """The number of each reference. The first record of a column may be a header."""
    numbers = []
    for place, text in enumerate(fields_in(lines, column), 1):
        if column is not None and place == 1 and is_title(text):
            continue
        number = number_in(text)
        if number is None:
            sys.exit(f"line {place} says no number")
        numbers.append(number)
    return numbers


def pages_of(numbers):
    """The numbers, made dense: pages are numbered from 0 in the order in which they first come."""
    pages = {}
    found = [pages.setdefault(number, len(pages)) for number in numbers]
    if len(pages) > MOST_DIFFERENT:
        sys.exit("too many different numbers")
    return found


# ---- LRU-K

class Histories:
    """The stamps of each page, the newest first, and its latest reference; they are kept when the page leaves."""

    def __init__(self, k, correlated):
        self.k, self.correlated = k, correlated
        self.stamps, self.last = {}, {}

    def hit(self, page, now):
        stamps, last = self.stamps[page], self.last[page]
        if now - last > self.correlated:
            width = last - stamps[0]
            self.stamps[page] = [now] + [stamp and stamp + width for stamp in stamps[:-1]]
        self.last[page] = now

    def fault(self, page, now):
        self.stamps[page] = [now] + self.stamps.get(page, [0] * self.k)[:-1]
        self.last[page] = now


def lru_k(pages, frames, k, correlated):
    """Each reference is at its own time, from 1 on. `young` has the references after which a page may not leave yet,
    and `heap` the pages that may leave, the next victim first. What was put there before a page's latest reference is
    passed over."""
    histories, inside = Histories(k, correlated), set()
    young, heap = collections.deque(), []
    hits = faults = evictions = refused = 0
    for now, page in enumerate(pages, 1):
        while young and now - young[0][0] > correlated:
            time, old = young.popleft()
            if histories.last[old] == time:
                heapq.heappush(heap, (histories.stamps[old][-1], time, old))
        if page in inside:
            hits += 1
            histories.hit(page, now)
        else:
            if len(inside) == frames:
                victim = taken_victim(heap, histories.last)
                if victim is None:
                    refused += 1
                    continue
                inside.remove(victim)
                evictions += 1
            faults += 1
            inside.add(page)
            histories.fault(page, now)
        young.append((now, page))
    return Counts(hits, faults, evictions, refused)


def taken_victim(heap, last):
    """The page of the least key, taken off the heap, or none where no page may leave."""
    while heap:
        _, time, page = heapq.heappop(heap)
        if last[page] == time:
            return page
    return None


def lru_k_by_definition(pages, frames, k, correlated):
    references, inside = collections.defaultdict(list), set()
    hits = faults = evictions = refused = 0
    for now, page in enumerate(pages, 1):
        is_hit = page in inside
        if not is_hit and len(inside) == frames:
            eligible = [it for it in inside if now - references[it][-1][0] > correlated]
            if not eligible:
                refused += 1
                continue
            ranks = {it: (stamp(references[it], k, correlated), references[it][-1][0], it) for it in eligible}
            inside.remove(min(eligible, key=ranks.get))
            evictions += 1
        hits, faults = hits + is_hit, faults + (not is_hit)
        inside.add(page)
        references[page].append((now, is_hit))
    return Counts(hits, faults, evictions, refused)


def stamp(references, k, correlated):
    """HIST(k) of a page with these references, the oldest first: the first time of its k-th newest burst, plus the
    widths of the bursts from the second newest to that one, each where a hit opened the burst after it."""
    bursts = []
    for time, is_hit in references:
        if bursts and is_hit and time - bursts[-1][-1][0] <= correlated:
            bursts[-1].append((time, is_hit))
        else:
            bursts.append([(time, is_hit)])
    if k > len(bursts):
        return 0
    neighbours = zip(bursts[-k:], bursts[len(bursts) - k + 1:])
    return bursts[-k][0][0] + sum(older[-1][0] - older[0][0] for older, newer in neighbours if newer[0][1])


# ---- The optimum

def due_times(pages):
    """For each reference, when its page comes again; after all references for one that does not."""
    due, next_time = [0] * len(pages), {}
    for time in range(len(pages) - 1, -1, -1):
        due[time] = next_time.get(pages[time], len(pages) + pages[time])
        next_time[pages[time]] = time
    return due


def optimum(pages, frames):
    """Belady's: the page leaves that comes again last. A page that is in `heap` twice was hit, and its older key, when
    it came again, is past by now; so the greatest key is never an old one."""
    inside, heap = set(), []
    hits = faults = evictions = 0
    for page, due in zip(pages, due_times(pages)):
        if page in inside:
            hits += 1
        else:
            faults += 1
            if len(inside) == frames:
                inside.remove(heapq.heappop(heap)[1])
                evictions += 1
            inside.add(page)
        heapq.heappush(heap, (-due, page))
    return Counts(hits, faults, evictions, 0)


def optimum_by_definition(pages, frames):
    inside = set()
    hits = faults = evictions = 0
    for place, page in enumerate(pages):
        if page in inside:
            hits += 1
            continue
        faults += 1
        if len(inside) == frames:
            later = pages[place + 1:]
            inside.remove(max(inside, key=lambda it: later.index(it) if it in later else len(pages) + it))
            evictions += 1
        inside.add(page)
    return Counts(hits, faults, evictions, 0)


# ---- The table

def counted(quick, by_definition, pages, *settings):
    counts = quick(pages, *settings)
    if len(pages) <= COUNTED_TWICE and by_definition(pages, *settings) != counts:
        sys.exit(f"{quick.__name__} and {by_definition.__name__} differ at {settings}")
    return counts


def ratio_text(part, whole):
    """A part of a whole with four decimals, rounded down."""
    ones, decimals = divmod(part * 10_000 // whole if whole else 0, 10_000)
    return f"{ones}.{decimals:04}"


def line_of(frames, k, fixes, counts, rest):
    ratio = ratio_text(counts.hits, fixes)
    return f"{frames},{k},{fixes},{counts.hits},{counts.faults},{ratio},{counts.evictions},{rest}\n"


def lines_of(pages, frames_list, ks, correlated):
    """The lines of the table, each as soon as it is counted."""
    yield HEADER + "\n"
    for frames in frames_list:
        for k in ks:
            counts = counted(lru_k, lru_k_by_definition, pages, frames, k, correlated)
            yield line_of(frames, k, len(pages), counts, f"0,0,{counts.refused}")
        yield line_of(frames, "opt", len(pages), counted(optimum, optimum_by_definition, pages, frames), ",,")


# ---- The words

def limited(low, high):
    def take(text):
        number = number_in(text)
        if number is None or not low <= number <= high:
            raise argparse.ArgumentTypeError(f"{text} is no number from {low} to {high}")
        return number
    return take


def listed(low, high):
    """A list as 64,256,1024, no two of them equal; or as 16..1024: 16, its double and so on below 1024, and 1024."""
    take = limited(low, high)

    def take_list(text):
        first, dots, last = text.partition("..")
        numbers = [take(it) for it in ((first, last) if dots else text.split(","))]
        if dots:
            last = numbers.pop()
            if numbers[0] > last:
                raise argparse.ArgumentTypeError(f"{text} begins above its end")
            while numbers[-1] * 2 < last:
                numbers.append(numbers[-1] * 2)
            numbers += [last] * (numbers[-1] < last)
        if len(set(numbers)) < len(numbers):
            raise argparse.ArgumentTypeError(f"{text} has a number twice")
        if len(numbers) > MOST_IN_A_LIST:
            raise argparse.ArgumentTypeError(f"{text} has more than {MOST_IN_A_LIST} numbers")
        return numbers
    return take_list


def words_of(words):
    parser = argparse.ArgumentParser(description=__doc__, formatter_class=argparse.RawDescriptionHelpFormatter)
    parser.add_argument("references", metavar="REFERENCES", help="a path, or stdin")
    parser.add_argument("--frames", metavar="LIST", type=listed(1, 65_536), required=True)
    parser.add_argument("--k", metavar="LIST", type=listed(1, 16), default=[1, 2])
    parser.add_argument("--correlated", metavar="N", type=limited(0, LARGEST), default=0)
    parser.add_argument("--column", metavar="N", type=limited(1, 65_536))
    return parser.parse_args(words)


def main(words):
    told = words_of(words)
    file = 0 if told.references == "stdin" else told.references
    with open(file, encoding="latin-1" if told.column is None else "utf-8-sig", newline="") as lines:
        pages = pages_of(read_numbers(lines, told.column))
    for line in lines_of(pages, told.frames, told.k, told.correlated):
        sys.stdout.write(line)
        sys.stdout.flush()


if __name__ == "__main__":
    main(sys.argv[1:])
