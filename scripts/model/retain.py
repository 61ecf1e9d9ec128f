"""Retention: a store moves to a base on a spare."""
from .base import RECV, SEND, SNAP, u64, u8
from .entries import count_of, read_content
from .journal import ENTRY, KEEP, LIMIT, MARK, Journal, put_header, put_journal
from .recorder import Range, Unreplayed, write_record

FREE, PREPARED, ACTIVE, OTHER = "free", "prepared", "active", "other"


class RetainRefused(Exception):
    """notempty, spare or full."""


def base_of(journal, n, state):
    """The journal that a base for snapshot n stands for; the state is that behind n."""
    leaves = journal.leaves + sum(s.seq < n for s in journal.signed)
    base = Journal(journal.key, n, journal.hashes[n - 1], leaves, state.head(), bytes(state.ram), carried(journal, n, state))
    found = False
    for record in journal.records:
        if not found:
            place = next((i for i, part in enumerate(record) if part[0] == ENTRY and part[1] == n), None)
            if place is None:
                continue
            found = True
            record = [part for part in record[place:] if not (part[0] == KEEP and part[1] == n)]
        if record[0][0] != MARK:
            base.add(record)
    return base


def carried(journal, n, state):
    """Per peer row the SEND that is outstanding and the last RECV, where they stand before entry n."""
    found = []
    for row in state.peers:
        if row["sent"] != row["acked"]:
            found.append(last_before(journal, n, SEND, lambda c: c["peer"] == row["id"] and c["number"] == row["sent"]))
        if row["received"]:
            found.append(last_before(journal, n, RECV, lambda c: c["packet"]["from"] == row["id"]))
    return sorted((s for s in found if s), key=lambda s: s.seq)


def last_before(journal, n, kind, of):
    found = [s for s in journal.signed_frames() if s.seq < n and s.frame[1] == kind and of(read_content(*s.frame[1:]))]
    return found[-1] if found else None


def spare_kind(spare, base):
    whole, front = put_journal(base), put_header(base)
    if spare[:len(front) + 1] == front + b"\1":
        return ACTIVE
    if len(spare) >= len(whole) and spare[:1] != b"A" and spare[1:len(whole)] == whole[1:] and not any(spare[len(whole):]):
        return PREPARED
    if len(spare) <= 1 or spare[:1] != b"A":
        return FREE
    return OTHER


def retain(journal, disk, at, spare):
    """All of a retain on the store's disk and the spare's. Raises Range, Unreplayed and RetainRefused in the table's order."""
    if journal.mark is not None and journal.mark != at:
        raise Range
    fault, state, _ = journal.stretch(at)
    if fault is not None:
        raise Unreplayed(fault)
    frame = next((f for f in journal.frames() if f[0] == at), None)
    if frame is None or frame[1] != SNAP or at >= 1 << 61 or count_of(frame[2]) >= 1 << 61:
        raise Range
    base = base_of(journal, at, state)
    kind = spare_kind(bytes(spare.data), base)
    if journal.mark is None and kind in (ACTIVE, OTHER):
        raise RetainRefused("notempty")
    if journal.mark is not None and kind in (FREE, OTHER):
        raise RetainRefused("spare")
    if journal.mark is None:
        prepare(base, spare)
        items = u8(MARK) + u64(at)
        if journal.gate + 5 + len(items) + 1 > LIMIT:
            raise RetainRefused("full")
        write_record(journal, disk, items)
    if kind != ACTIVE:
        spare.write(0, b"A")
        spare.sync()


def prepare(base, spare):
    whole, was = put_journal(base), len(spare.data)
    if len(whole) > LIMIT:
        raise RetainRefused("full")
    spare.sync()
    if was <= 1:
        spare.write(0, b"\0")
        spare.sync()
    spare.write(1, whole[1:] + bytes(max(0, was - len(whole))))
    spare.sync()
