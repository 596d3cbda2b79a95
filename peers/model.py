"""A model of `bpool run`: it makes random traces, and works out what the program has to answer. check/model compares.

The model is written from docs/TRACE.md and docs/DEFINITIONS.md, and shares nothing with the program. It keeps the list
of each page's references, and reads stamps off their bursts. A trace in order `trace`, or of one client, is "exact": it
has one right answer. In order `free` it is "apart" where clients share no page and each page has a frame: the answer is
the same but for times and the order of lines. Else it is "mixed".
"""
import collections
import functools
import itertools
import random
import re

LARGEST = 1 << 62
TOTALS = "hits", "faults", "evictions", "writes", "failed", "refused", "discards"
# How many of the fields number, offset, bytes and lsn an op has, and how often it comes in traces.
USED = {"fix": 1, "unfix": 1, "read": 1, "write": 4, "flush": 1, "discard": 1, "tick": 1, "log": 1, "purge": 0}
OFTEN = {"fix": 9, "unfix": 8, "read": 3, "write": 8, "flush": 3, "discard": 3, "tick": 18, "log": 4, "purge": 7}
# Fields that may be wrong somewhere.
ODD = ["", "0", "00", "7", "63", "64", "-1", "+1", " 1", "1 ", "1e0", "0x1", "1" * 20, "0" * 18 + "1", "0" * 19 + "1"]
ODD += [str(LARGEST), str(LARGEST + 1), "f", "fff", "aB", "fg", "FIX", "fix ", *USED, "log", "log", "log", "a,b", 'a"b']
ODD += ['"', "\n", "\u0661", "\u00e9", "0" * 20]
OWN = 4  # So many bytes of a page each of four clients has for itself.
# `how` is one of the words above. `file` is what the page file has, or none where pages are in memory. No page is
# written out at or past the byte `limit`, as where the disk is full.
Case = collections.namedtuple("Case", "its how totals records text file limit")
Settings = collections.namedtuple("Settings", "frames k correlated retained size format order pages")


# ---- The model

class Refused(Exception):
    """A call or a trace was refused with this number."""


@functools.lru_cache(10_000)
def number_in(text):
    """The number that a field says, or none."""
    return int(text) if re.fullmatch("[0-9]{1,19}", text) and int(text) <= LARGEST else None


def fault_of(record, its):
    """The number with which a record is refused, or none."""
    if len(record) != 6:
        return 40
    client, op, *fields = record
    used = USED.get(op)
    if number_in(client) is None or number_in(client) >= 64:
        return 41
    if used is None:
        return 42
    if op == "log" and number_in(client) != 0:
        return 41
    if any(fields[used:]):
        return 40
    numbers = [number_in(field) for at, field in enumerate(fields[:used]) if at != 2]
    if None in numbers:
        return 43
    if fields[2] and not re.fullmatch("([0-9a-fA-F]{2})*", fields[2]):
        return 44
    has_page = op not in ("tick", "log", "purge")
    is_past = has_page and numbers[0] >= its.pages or op == "write" and numbers[1] + len(fields[2]) // 2 > its.size
    return 45 if is_past else None


class Pool:
    """A pool, its page file, and the report so far. A page in a frame has an image, its page LSN, and whether it is
    unsaved."""

    def __init__(self, its, file, limit):
        self.its, self.limit, self.clock, self.durable = its, limit, 1, 0
        self.file, self.is_memory = bytearray(file or b""), file is None
        self.slot = its.size + (16 if its.format == 2 and not self.is_memory else 0)
        self.frames, self.references, self.passes = {}, {}, collections.Counter()
        self.lines, self.totals, self.refused = [], dict.fromkeys(TOTALS, 0), []

    def play(self, records):
        for number, (client, op, *fields) in enumerate(records, 1):
            texts = [field for at, field in enumerate(fields[:USED[op]]) if at != 2]
            more = [bytes.fromhex(fields[2])] if op == "write" else []
            try:
                getattr(self, op)(int(client), *map(int, texts), *more)
            except Refused as why:
                self.refused.append((number, why.args[0]))
                self.totals["refused"] += why.args[0] in (11, 12, 25)
                self.totals["failed"] += why.args[0] in (17, 18, 19)

    def tell(self, total, word, page):
        self.totals[total] += 1
        self.lines.append(f"{word} {self.clock} {page}")

    def last(self, page):
        return self.references[page][-1][0]

    def stamp(self, page):
        """HIST(K): the first time of the K-th newest burst, put later by widths."""
        bursts = []
        for at, is_hit in self.references[page]:
            if bursts and is_hit and at - bursts[-1][1] <= self.its.correlated:
                bursts[-1][1] = at
            else:
                bursts.append([at, at, is_hit])
        if len(bursts) < self.its.k:
            return 0
        counted = bursts[-self.its.k:]
        return counted[0][0] + sum(old[1] - old[0] for old, newer in zip(counted, counted[1:]) if newer[2])

    def has_pins(self, page):
        return any(count for (_, of), count in self.passes.items() if of == page)

    def fix(self, client, page):
        found = page in self.frames
        if not found:
            if len(self.frames) == self.its.frames:
                self.make_room()
            self.frames[page] = [self.read_slot(page), 0, False]
        self.totals["hits" if found else "faults"] += 1
        self.references.setdefault(page, []).append((self.clock, found))
        self.passes[client, page] += 1

    def make_room(self):
        eligible = [page for page in self.frames if not self.has_pins(page)]
        eligible = [page for page in eligible if self.clock - self.last(page) > self.its.correlated]
        if not eligible:
            raise Refused(11)
        victim = min(eligible, key=lambda page: (self.stamp(page), self.last(page), page))
        self.write_out(victim)
        del self.frames[victim]
        self.tell("evictions", "evict", victim)

    def write_out(self, page):
        image, lsn, is_unsaved = self.frames[page]
        if is_unsaved:
            if lsn > self.durable:
                raise Refused(12)
            self.write_slot(page, lsn, image)
            self.frames[page][2] = False
            self.tell("writes", "out", page)

    def take(self, client, page):
        if not self.passes[client, page]:
            raise Refused(14)
        return self.frames[page]

    def unfix(self, client, page):
        self.take(client, page)
        self.passes[client, page] -= 1

    def read(self, client, page):
        image = self.take(client, page)[0]
        self.lines.append(f"read {client} {page} {image[:16].hex()}")

    def write(self, client, page, offset, lsn, data):
        held = self.take(client, page)
        held[0][offset:offset + len(data)] = data
        held[1:] = max(held[1], lsn), True

    def flush(self, _, page):
        if page in self.frames:
            self.write_out(page)

    def discard(self, _, page):
        if self.has_pins(page):
            raise Refused(25)
        self.references.pop(page, None)
        if self.frames.pop(page, None):
            self.tell("discards", "discard", page)

    def tick(self, _, ticks):
        if self.clock + ticks > LARGEST:
            raise Refused(21)
        self.clock += ticks

    def log(self, _, lsn):
        self.durable = max(self.durable, lsn)

    def purge(self, _):
        away = [page for page in self.references if page not in self.frames]
        for page in away:
            if self.clock - self.last(page) > self.its.retained:
                del self.references[page]

    def read_slot(self, page):
        slot = bytes(self.file[page * self.slot:(page + 1) * self.slot])
        slot = slot.ljust(self.slot, b"\0") if self.is_memory else slot
        if len(slot) < self.slot:
            raise Refused(17)
        if self.slot > self.its.size and int.from_bytes(slot[:8], "little") != page:
            raise Refused(19)
        return bytearray(slot[-self.its.size:])

    def write_slot(self, page, lsn, image):
        at = page * self.slot
        if self.limit is not None and at >= self.limit:
            raise Refused(18)
        self.file.extend(bytes(max(0, at - len(self.file))))
        head = page.to_bytes(8, "little") + lsn.to_bytes(8, "little")
        self.file[at:at + self.slot] = head[:self.slot - self.its.size] + image


def answer(case):
    """Standard error, the lines of standard output, the status, and the page file after the run."""
    for number, record in enumerate(case.records, 1):
        if fault := fault_of(record, case.its):
            return f"trace row {number} refused {fault}\n", [], 2, case.file
    pool = Pool(case.its, case.file, case.limit)
    pool.play(case.records)
    totals = [f"{name} {count}" for name, count in pool.totals.items() if count or name != "discards"]
    lines = ([] if case.totals else pool.lines) + totals
    lines += [f"row {number} refused {why}" for number, why in pool.refused]
    return "", lines, int(bool(pool.refused)), case.file and bytes(pool.file)


# ---- Random traces

def make(seed):
    """The case of a seed."""
    it = random.Random(seed)
    clients = it.randint(1, 4)
    order, how = it.choice((("trace", "exact"),) * 6 + (("free", "apart"), ("free", "mixed")))
    how = "exact" if clients == 1 else how
    frames, period = it.randint(1, 4), it.choice((0, 0, 1, 2, 4, it.choice((6, LARGEST))))
    pages = max(clients, frames + it.randint(1, 3))
    its = Settings(pages if how == "apart" else frames, it.choice((1, 2, 2, 3)), period,
                   min(period + it.choice((1, 1, 2, 3, 1000)), LARGEST), it.choice((16, 16, 64, 64, 48, 4096)),
                   1 if how == "mixed" else it.choice((1, 2, 2)), order, pages)
    file = limit = None
    if it.random() < 0.4:
        heads = [(page + (it.random() < 0.05)).to_bytes(8, "little") + it.randbytes(8) for page in range(pages)]
        file = b"".join(head * (its.format - 1) + it.randbytes(its.size) for head in heads)
        limit = it.randrange(pages + 1) * (len(file) // pages) if it.random() < 0.3 else None
    if how == "mixed":
        file, limit = file and bytes(len(file)), None
    records = [[str(field) for field in row] + [""] * (6 - len(row)) for row in rows(it, its, how, clients)]
    if order == "trace" and records and it.random() < 0.2:
        spoil(it, records)
    return Case(its, how, how != "mixed" and it.random() < 0.1, records, text_of(it, records), file, limit)


def rows(it, its, how, clients):
    """Rows of a trace, without empty fields at the end. In mixed ones each client writes bytes of its own alone."""
    ops, often = list(OFTEN), list(itertools.accumulate(count * it.choice((0.2, 1, 1, 3)) for count in OFTEN.values()))
    held, wrote, top, many = [], collections.Counter(), 0, it.choice((0, 0, 1, 2, 9))
    for _ in range(it.choice((3, 60, 200, 240))):
        [op] = it.choices(ops, cum_weights=often)
        op = "unfix" if len(held) > many else op
        client, page = it.randrange(clients), min(it.randrange(its.pages), it.randrange(its.pages))
        page = it.choice(range(client, its.pages, clients)) if how == "apart" else page
        if op in ("unfix", "read", "write") and it.random() < 0.97:
            op, (client, page) = (op, it.choice(held)) if held else ("fix", (client, page))
        if op == "fix":
            held.append((client, page))
        elif op == "unfix" and (client, page) in held:
            held.remove((client, page))
        if op == "write":
            wrote[client, page] += 1
            top += it.randint(0, 2)
            offset = it.randint(0, its.size)
            data = it.randbytes(it.choice((0, 1, its.size)))[:its.size - offset]
            if how == "mixed":
                offset, data = client * OWN, bytes([wrote[client, page]]) * OWN
            lsn = 0 if how == "apart" else it.choice((0, top, top, it.randint(0, top)))
            yield client, op, page, offset, data.hex(), lsn
        elif op == "tick":
            far = LARGEST - 6 if how == "exact" and it.random() < 0.01 else 0
            yield client, op, far + it.choice((0, 1, 1, 2, 3, 4, 6))
        elif op == "log":
            yield 0, op, it.randint(0, top + 1)
        else:
            yield (client, op) if op == "purge" else (client, op, page)


def spoil(it, records):
    """Makes one record or more worse, or at least another one."""
    for _ in range(it.choice((1, 1, 2, 5))):
        record = it.choice(records)
        record[it.choice([0, *(at for at, field in enumerate(record) if field), len(record) - 1])] = it.choice(ODD)
        if it.random() < 0.1:
            record[1:] = it.choice((record[1:-1], record[1:] + [""]))


def text_of(it, records):
    """The records as CSV, with quotes where they must be and elsewhere, any line end, and blank lines."""
    end, text = it.choice(("\n", "\r\n", "\r")), it.choice(("", "", "\ufeff"))
    has_to, ends = re.compile('[",\r\n]').search, (1,) * 19 + (2,)
    for record in records:
        quotes = [record == [""] or it.random() < 0.03 for _ in record]
        if True in quotes or has_to("".join(record)):
            record = ['"' + field.replace('"', '""') + '"' if quote or has_to(field) else field
                      for field, quote in zip(record, quotes)]
        text += ",".join(record) + end * it.choice(ends)
    return (text if it.random() < 0.7 else text.removesuffix(end)).encode()


def words_of(case):
    """The words of the program for a case, without those that would change nothing."""
    words = ["run", "trace.csv", "pages.bin" if case.file else f"mem:{case.its.pages}"]
    usual = {"frames": 8, "k": 2, "correlated": 0, "retained": 1000, "page-size": 64, "format": 1, "order": "trace"}
    for name, value in zip(usual, case.its):
        words += [f"--{name}", str(value)] if value != usual[name] else []
    return words + ["--totals"] * case.totals
