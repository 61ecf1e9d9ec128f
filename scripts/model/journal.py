"""Stores: a journal's bytes, read and written, and what it says."""
from .base import BOOT, PAGE, PAGE_COUNTS, RECV, SEND, SNAP, Reader, need, number, read, u32, u64, u8
from .entries import count_of, link, put_frames, read_content, read_frame
from .lms import HEIGHT
from .machine import Machine
from .replay import Replay
from .segments import pages_of, read_head

LARGEST, LIMIT, HEADS = 1 << 25, 1 << 30, 16384
# parts of a record: (ENTRY, seq, kind, content), (SEAL,), (KEEP, seq, head, pages), (MARK, number)
ENTRY, SEAL, KEEP, MARK = 1, 2, 3, 4


class NoStore(ValueError):
    pass


class Damaged(Exception):
    def __init__(self, place):
        self.place = place


class Signed:
    """A signing item: its leaf, its pair, the hash before it, and the frame (None for a seal)."""

    def __init__(self, leaf, seq, hash, before, frame=None):
        self.leaf, self.seq, self.hash, self.before, self.frame = leaf, seq, hash, before, frame


class Journal:
    def __init__(self, key, first, before, leaves, head, pages, carried=()):
        self.key, self.first, self.before, self.leaves, self.head, self.pages = key, first, before, leaves, head, pages
        self.carried = list(carried)
        self.records, self.mark, self.gate = [], None, None
        self.last, self.last_hash, self.hashes = first - 1, before, {first - 1: before}
        self.signed = []

    def most(self):
        return 1 << HEIGHT[number(self.key[:4])]

    def used(self):
        return self.leaves + len(self.signed)

    def add(self, record):
        """Adds the parts of a record that continues the journal, with the hashes and leaves of its items."""
        self.records.append(record)
        for part in record:
            if part[0] == ENTRY:
                _, seq, kind, content = part
                before, self.last = self.last_hash, seq
                self.last_hash = self.hashes[seq] = link(before, seq, kind, content)
                if kind in (SEND, RECV):
                    self.signed.append(Signed(self.used(), seq, self.last_hash, before, part[1:]))
            elif part[0] == SEAL:
                self.signed.append(Signed(self.used(), self.last, self.last_hash, self.hashes[self.last - 1]))
            elif part[0] == MARK:
                self.mark = part[1]

    def parts(self):
        return [part for record in self.records for part in record]

    def frames(self):
        return [part[1:] for part in self.parts() if part[0] == ENTRY]

    def seal(self):
        """The last item where it is a seal."""
        items = [part for part in self.parts() if part[0] in (ENTRY, SEAL)]
        return self.signed[-1] if items and items[-1][0] == SEAL else None

    def bound(self):
        """The pairs that the key has signed or may have signed."""
        pairs = {(s.seq, s.hash) for s in self.signed}
        return pairs | {(self.first, self.hashes[self.first])} if self.first > 1 else pairs

    def signed_frames(self):
        """The carried entries, then the signing entries in order."""
        return self.carried + [s for s in self.signed if s.frame]

    def start(self):
        """The state of the header."""
        return read_head(self.head, self.pages)

    # snapshots inside
    def keep_state(self, k, keeps):
        """The state of the k-th of all keeps: its head over the header's pages, as all keeps up to it change them; None where it
        is undefined."""
        first, pages = self.start(), bytearray(self.pages)
        for _, _, _, changed in keeps[:k + 1]:
            for page, data in changed:
                pages[PAGE * page:PAGE * page + PAGE] = data
        _, seq, head, _ = keeps[k]
        from_count = 0 if self.first == 1 else first.count
        return keep_state(first, head, pages, from_count + first.snap * (seq - self.first))

    def base(self, n):
        """The number and the state of the last good keep up to entry n, or of the header (with number None)."""
        entries, keeps = {f[0]: f for f in self.frames()}, [part for part in self.parts() if part[0] == KEEP]
        for k in reversed(range(len(keeps))):
            seq = keeps[k][1]
            state = self.keep_state(k, keeps) if seq <= n else None
            if state is not None:
                told = read_content(SNAP, entries[seq][2])
                if told["root"] == state.root() and told["count"] == state.count:
                    return seq, state
        return None, self.start()

    def stretch(self, n, from_header=False):
        """Replays up to entry n from the base for it, or from the header: the first fault or None, then the machine there with
        the pages that were written since the last snapshot, and whether a snapshot lies behind the base."""
        seq, state = (None, self.start()) if from_header else self.base(n)
        frames = [f for f in self.frames() if f[0] <= n and (seq is None or f[0] > seq)]
        if seq is None and frames:
            told = read_content(*frames[0][1:])
            if told["root"] != state.root() or told["count"] != state.count:
                return frames[0][0], None, None
            frames = frames[1:]
        replay = Replay(state)
        state.dirty.clear()
        for number_, kind, content in frames:
            if not replay.entry(kind, content):
                return number_, None, None
            if any(kind == SNAP for kind, _ in [(kind, content)] + replay.outs):
                state.dirty.clear()
        return None, state, any(f[1] == SNAP for f in frames)


def keep_state(first, head, pages, most):
    """The state of a keep's head over these pages, where it goes with the header's."""
    state = read(read_head, head, pages) if len(head) >= 10 and pages_or_none(head) == len(pages) // PAGE else None
    if state is None or state.count > most:
        return None
    fixed = lambda s: (s.version, s.snap, s.own, [(p["id"], p["key"]) for p in s.peers])
    return state if fixed(state) == fixed(first) else None


def pages_or_none(head):
    return read(pages_of, head)


# ---- reading

def read_header(r):
    need(r.take(4) == b"AVMJ")
    version = r.number(1)
    need(version in (1, 2))
    key, first, before, leaves = r.take(56), r.number(8), r.take(32), r.number(8)
    need(5 <= number(key[:4]) <= 7)
    length = r.number(4)
    need(length <= HEADS)
    head = r.take(length)
    pages = r.take(PAGE * pages_of(head))
    carried = []
    if version == 1:
        need(first == 1 and before == bytes(32) and leaves == 0)
    else:
        need(1 < first < 1 << 61 and count_in(head) < 1 << 61)
        carried = read_carried(r, first, leaves)
    journal = Journal(key, first, before, leaves, head, pages, carried)
    need(leaves <= journal.most())
    return journal


def count_in(head):
    """The count that stands in a head, whatever stands around it."""
    r = Reader(head)
    r.take(10)
    r.take(81 * r.number(1) + 4 * 32)
    return r.number(8)


def read_carried(r, first, leaves):
    carried = []
    for _ in range(within(r.number(1), 30)):
        leaf, before = r.number(8), r.take(32)
        inner = Reader(r.take(r.number(4)))
        frame = read_frame(inner)
        inner.end()
        need(frame[1] in (SEND, RECV) and frame[0] < first and leaf < leaves)
        need(not carried or carried[-1].leaf < leaf and carried[-1].seq < frame[0])
        carried.append(Signed(leaf, frame[0], link(before, *frame), before, frame))
    return carried


def within(n, most):
    need(n <= most)
    return n


def journal_of(data):
    """The journal that an image stands for; NoStore or Damaged where it stands for none."""
    data = bytes(data)
    r = Reader(data)
    try:
        journal = read_header(r)
        gate = r.at
        need(r.number(1) == 1)
    except ValueError:
        raise NoStore from None
    while data[gate] == 1:
        record = read(read_record, data, gate, journal)
        if record is None or journal.mark is not None:
            raise Damaged(gate)
        journal.add(record)
        gate += 5 + number(data[gate + 1:gate + 5])
    journal.gate = gate
    return journal


def read_record(data, gate, journal):
    r = Reader(data)
    r.at = gate + 1
    length = r.number(4)
    need(1 <= length <= LARGEST)
    items = r.take(length)
    r.number(1)
    need(gate + 5 + length < LIMIT)
    if items[0] == MARK:
        return read_mark(items, journal)
    return read_parts(items, journal)


def read_mark(items, journal):
    r = Reader(items)
    r.number(1)
    n = r.number(8)
    r.end()
    need(any(f[0] == n and f[1] == SNAP for f in journal.frames()))
    return [(MARK, n)]


def read_parts(items, journal):
    r, parts, next_seq, used = Reader(items), [], journal.last + 1, journal.used()
    while r.at < len(items):
        tag = r.number(1)
        need(tag in (ENTRY, SEAL, KEEP))
        if tag == ENTRY:
            seq, kind, content = read_frame(r)
            first = seq == journal.first
            need(seq == next_seq)
            need(kind == (BOOT if seq == 1 else SNAP) if first else kind != BOOT)
            next_seq += 1
            used += kind in (SEND, RECV)
            parts.append((ENTRY, seq, kind, content))
        elif tag == SEAL:
            need(next_seq > journal.first)
            used += 1
            parts.append((SEAL,))
        else:
            keep = read_keep(r, len(journal.pages) // PAGE)
            need(parts and parts[-1][0] == ENTRY and parts[-1][2] == SNAP and parts[-1][1] == keep[1])
            parts.append(keep)
        need(used <= journal.most())
    return parts


def read_keep(r, count):
    seq, length = r.number(8), r.number(4)
    need(length <= HEADS)
    head, pages = r.take(length), []
    for _ in range(within(r.number(4), count)):
        page = r.number(4)
        need(page < count and (not pages or pages[-1][0] < page))
        pages.append((page, r.take(PAGE)))
    return KEEP, seq, head, pages


# ---- writing

def put_part(part):
    if part[0] == ENTRY:
        return u8(ENTRY) + put_frames([part[1:]])
    if part[0] == SEAL:
        return u8(SEAL)
    if part[0] == MARK:
        return u8(MARK) + u64(part[1])
    _, seq, head, pages = part
    return u8(KEEP) + u64(seq) + u32(len(head)) + head + u32(len(pages)) + b"".join(u32(n) + data for n, data in pages)


def put_header(journal):
    front = (b"AVMJ" + u8(1 if journal.first == 1 else 2) + journal.key + u64(journal.first) + journal.before + u64(journal.leaves)
             + u32(len(journal.head)) + journal.head + journal.pages)
    if journal.first == 1:
        return front
    carried = [(c, put_frames([c.frame])) for c in journal.carried]
    return front + u8(len(carried)) + b"".join(u64(c.leaf) + c.before + u32(len(f)) + f for c, f in carried)


def put_journal(journal):
    """The bytes of a journal whose gates are open up to its last record."""
    records = [b"".join(put_part(part) for part in record) for record in journal.records]
    return put_header(journal) + b"".join(b"\1" + u32(len(r)) + r for r in records) + b"\0"


def made(key, state):
    """The journal that a new store stands for."""
    journal = Journal(key, 1, bytes(32), 0, state.head(), bytes(state.ram))
    journal.add([(ENTRY, 1, BOOT, u64(0) + state.root())])
    return journal


def booted(config, loaded):
    return Machine(config["own"], config["snap"], config["pages"], config["peers"], loaded[0], loaded[1], config["version"])
