"""The recorder: acts on a journal and its machine, what they save and release, a script's run, and export."""
from .base import ACKED, CLOCK, CONIN, OUT, PAGE, RECV, RUNNING, SEND, SNAP, u64
from .entries import put_auth, put_packet, read_content, read_packet, signed_text
from .journal import ENTRY, KEEP, LIMIT, SEAL, put_part

from .segments import put_segment

LARGE = 32768


class Stopped(Exception):
    """LeavesSpent as `leaves`, Full as `full`."""

    def __init__(self, why):
        self.why = why


class Unreplayed(Exception):
    def __init__(self, number):
        self.number = number


class Recorder:
    """What stands behind an opening: the journal, its machine, the unsaved batch. `released` gets each piece as (what, ...)."""

    def __init__(self, journal, disk, key):
        fault, self.m, self.all_pages = journal.stretch(journal.last)
        if fault is not None:
            raise Unreplayed(fault)
        self.journal, self.disk, self.key = journal, disk, key
        self.batch, self.next, self.stop = [], journal.last + 1, None
        self.released = []

    # the batch
    def add(self, kind, content):
        self.batch.append((ENTRY, self.next, kind, content))
        self.next += 1

    def is_large(self):
        return sum(14 + len(part[3]) for part in self.batch if part[0] == ENTRY) > LARGE

    def close(self):
        """Saves the batch, then releases what its items release."""
        signs = sum(part[0] == SEAL or part[2] in (SEND, RECV) for part in self.batch if part[0] != KEEP)
        items = b"".join(put_part(part) for part in self.batch)
        end = self.journal.gate + 5 + len(items)
        if signs and self.journal.used() >= self.journal.most():
            self.end("leaves")
        if end + 1 > LIMIT:
            self.end("full")
        self.write_record(items)
        batch, self.batch = self.batch, []
        known = len(self.journal.signed)
        self.journal.add(batch)
        for part in batch:
            if part[0] == ENTRY and part[2] == OUT:
                self.released.append(("console", part[3][8:]))
        for signed in self.journal.signed[known:]:
            self.release(signed)

    def end(self, why):
        self.stop = why
        raise Stopped(why)

    def write_record(self, items):
        write_record(self.journal, self.disk, items)

    # what is released
    def release(self, signed):
        sig = self.key.sign(signed.leaf, signed_text(signed.seq, signed.hash))
        if signed.frame is None:
            self.released.append(("auth", put_auth(signed.seq, signed.hash, sig)))
            return
        seq, kind, content = signed.frame
        told = read_content(kind, content)
        peer = told["peer"] if kind == SEND else told["packet"]["from"]
        packet = put_packet(1 if kind == SEND else 2, self.m.own, seq, signed.before, content, sig)
        self.released.append(("packet", peer, packet))

    def release_again(self, signed):
        self.disk.read()
        self.release(signed)

    def last_received(self, peer):
        return last_of(self.journal, RECV, lambda c: c["packet"]["from"] == peer)

    def last_sent(self, peer):
        return last_of(self.journal, SEND, lambda c: c["peer"] == peer)

    # acts
    def step(self):
        """One step with its outputs, and the saving where it has some."""
        self.told(self.m.step())

    def steps(self, limit):
        self.told(self.m.advance(limit))

    def told(self, outs):
        for kind, content in outs:
            self.add(kind, content)
            if kind == SNAP:
                self.keep()
        if outs or self.is_large():
            self.close()

    def keep(self):
        m, count = self.m, len(self.m.ram) // PAGE
        pages = range(count) if self.all_pages else sorted(m.dirty)
        self.batch.append((KEEP, self.next - 1, m.head(), [(n, bytes(m.ram[PAGE * n:PAGE * n + PAGE])) for n in pages]))
        m.dirty.clear()
        self.all_pages = False

    def clock(self, value):
        content = u64(self.m.count) + u64(value)
        self.m.take(CLOCK, content)
        self.add(CLOCK, content)
        self.step()

    def give(self, what, given):
        """An event: console bytes, a packet's bytes, or the peer to send to again. Gives the cause of a drop, or None."""
        if what == "resend":
            return self.resend(given)
        kind = CONIN if what == "console" else self.packet_kind(given)
        if kind is None:
            return "NotPacket"
        content = u64(self.m.count) + given
        cause = self.m.refusal(kind, content)
        if cause == "Repeated":
            last = self.last_received(read_packet(given)["from"])
            if last:
                self.release_again(last)
        if cause:
            return cause
        self.m.take(kind, content)
        self.add(kind, content)
        if kind == RECV or self.is_large():
            self.close()
        return None

    @staticmethod
    def packet_kind(data):
        try:
            return ACKED if read_packet(data)["ack"] else RECV
        except ValueError:
            return None

    def resend(self, peer):
        row = self.m.row(peer)
        if row is None:
            return "UnknownPeer"
        last = self.last_sent(peer)
        if row["sent"] == row["acked"] or not last or read_content(*last.frame[1:])["number"] != row["sent"]:
            return "NotOutstanding"
        self.release_again(last)
        return None

    def seal(self):
        if not self.batch and self.journal.seal():
            self.release(self.journal.seal())
        else:
            self.batch.append((SEAL,))
            self.close()


def write_record(journal, disk, items):
    """The four calls by which a record comes behind the last gate."""
    gate, written = journal.gate, len(items).to_bytes(4, "big") + items + b"\0"
    disk.write(gate + 1, written)
    disk.sync()
    disk.write(gate, b"\1")
    disk.sync()
    journal.gate = gate + 5 + len(items)


def last_of(journal, kind, of):
    """The last signed entry of a kind of which this holds, in the items or else among the carried ones."""
    found = [s for s in journal.signed_frames() if s.frame[1] == kind and of(read_content(*s.frame[1:]))]
    return found[-1] if found else None


def play(recorder, script, dropped, after=None):
    """The run over a script, and its seal: at each point the first rule that applies. `dropped` gets cause and count; `after`
    is called behind each act, and may add events."""
    m, events, asked = recorder.m, script.events, 0
    while True:
        running = m.status == RUNNING
        if m.clock is not None:
            recorder.step()
        elif events and (m.count >= events[0][0] or not running):
            _, what, given = events.pop(0)
            cause = recorder.give(what, given)
            if cause:
                dropped(cause, m.count)
        elif not events and (m.count >= script.end or not running):
            break
        elif m.asks():
            asked += 1
            recorder.clock(script.clock(asked))
        else:
            recorder.steps(events[0][0] if events else script.end)
        if after:
            after()
    recorder.seal()


# ---- export

class Range(Exception):
    pass


def state_at(journal, n):
    """The state behind entry n, which is BOOT or SNAP. Raises Unreplayed, then Range."""
    fault, state, _ = journal.stretch(n)
    if fault is not None:
        raise Unreplayed(fault)
    frame = next((f for f in journal.frames() if f[0] == n), None)
    if frame is None or frame[1] not in (1, SNAP):
        raise Range
    return state


def export(journal, first, last):
    """The segment of these entries. Raises Unreplayed, then Range."""
    state = state_at(journal, first)
    frames = [f for f in journal.frames() if first <= f[0] <= last]
    if not first <= last <= journal.last or sum(f[1] == SNAP for f in frames) > 64:
        raise Range
    segment = put_segment(first, journal.hashes[first - 1], state, frames)
    if len(segment) > 1 << 26:
        raise Range
    return segment
