"""Holds the program against the model on stores that no recorder has written: without their keeps, with bent ones, ending inside a
step or at a question, and with heads that tell of messages no entry has; what each command makes of them, and what a run adds.

Usage: compare_stores.py PROGRAM FOLDER"""
import sys

import both
import check_model
import compare
import model as m
import stories
from model import u32, u64

# lui x5, 0x80000; lui x6, 0x10000; lw x7, 0x500(x5); addi x7, x7, 1; sw x7, 0x500(x5); j -12: it counts in RAM for ever
COUNTING = "800002b7 10000337 5002a383 00138393 5072a023 ff5ff06f"
KEY = check_model.private(check_model.SEED, ots=1)


def told(folder, *scripts):
    """A store with these runs."""
    folder.format()
    for script in scripts:
        folder.files["script"] = script
        folder.run(*RECORD)
    return m.journal_of(folder.files["store"])


RECORD = "record --store store --key key --script script --packets packets --console console --auths auths".split()


def folder_of(text, **config):
    f = check_model.Folder(check_model.Checks(), text, **config)
    f.files["key"], f.files["pub"] = KEY, m.read_private(KEY).public()
    return f


def spelled(journal, change):
    """The store with each record's parts changed by a function; a record without parts goes."""
    kept, journal.records = journal.records, [change(list(record)) for record in journal.records]
    journal.records = [record for record in journal.records if record]
    data, journal.records = m.put_journal(journal), kept
    return data


def without_keeps(journal):
    """Per set of left out keeps a store."""
    keeps = [part[1] for part in journal.parts() if part[0] == m.KEEP]
    for name, out in [("no keep", keeps), ("no first keep", keeps[:1]), ("no last keep", keeps[-1:]), ("first keep alone", keeps[1:]),
                      ("last keep alone", keeps[:-1])]:
        yield name, spelled(journal, lambda record: [p for p in record if p[0] != m.KEEP or p[1] not in out])


def bent_keeps(journal):
    keeps = [part for part in journal.parts() if part[0] == m.KEEP]
    changes = {
        "a byte of the head": lambda k: (k[0], k[1], k[2][:-1] + b"\1", k[3]),
        "no head": lambda k: (k[0], k[1], b"", k[3]),
        "a head cut": lambda k: (k[0], k[1], k[2][:-1], k[3]),
        "another own id": lambda k: (k[0], k[1], k[2][:1] + b"\7" + k[2][2:], k[3]),
        "another K": lambda k: (k[0], k[1], k[2][:2] + u32(2048) + k[2][6:], k[3]),
        "two pages": lambda k: (k[0], k[1], k[2][:6] + u32(2) + k[2][10:], k[3]),
        "another version": lambda k: (k[0], k[1], b"\2" + k[2][1:] + bytes(9), k[3]),
        "a count beyond": lambda k: (k[0], k[1], k[2][:139] + u64(1 << 40) + k[2][147:], k[3]),
        "no pages": lambda k: (k[0], k[1], k[2], []),
        "a byte of a page": lambda k: (k[0], k[1], k[2], [(n, p[:-1] + b"\1") for n, p in k[3]]),
        "a page beyond": lambda k: (k[0], k[1], k[2], k[3] + [(1, bytes(4096))]),
        "a page twice": lambda k: (k[0], k[1], k[2], k[3] + k[3]),
        "another number": lambda k: (k[0], k[1] + 1, k[2], k[3]),
        "a long head": lambda k: (k[0], k[1], bytes(16385), k[3]),
        "the longest head": lambda k: (k[0], k[1], bytes(16384), k[3])}
    for name, change in changes.items():
        for which, bent in [("every", keeps), ("the first", keeps[:1]), ("the last", keeps[-1:])]:
            yield "%s of %s keep" % (name, which), spelled(journal, lambda record: [change(p) if p in bent else p for p in record])
    yield "a keep twice", spelled(journal, lambda record: [q for p in record for q in ([p, p] if p == keeps[0] else [p])])
    yield "a keep before its snapshot", spelled(journal, lambda record: sorted(record, key=lambda p: p[0] != m.KEEP))
    yield "a keep in a record of its own", spelled(journal, lambda record: record)[:-1] + b"\1" + both_parts([keeps[-1]]) + b"\0"


def both_parts(parts):
    data = b"".join(m.put_part(part) for part in parts)
    return u32(len(data)) + data


def wrong_items(journal):
    """Stores whose items are of the grammar one by one, but not together."""
    boot, snap = journal.records[0][0], next(p for p in journal.parts() if p[0] == m.ENTRY and p[2] == m.SNAP)
    as_snap = (m.ENTRY, 1, m.SNAP, snap[3])
    for name, first in [("SNAP first", [as_snap]), ("a seal first", [(m.SEAL,), boot]), ("a keep first", [(m.KEEP, 1, b"", []), boot]),
                        ("a mark first", [(m.MARK, 1)]), ("an output first", [(m.ENTRY, 1, m.OUT, u64(0) + b"a")]), ("a second BOOT", [boot, (m.ENTRY, 2, *boot[2:])]),
                        ("BOOT twice", [boot, boot]), ("number 2", [(m.ENTRY, 2, *boot[2:])]), ("a gap", [boot, (m.ENTRY, 3, *snap[2:])]),
                        ("a seal alone behind", [boot, (m.SEAL,)]), ("a mark inside", [boot, (m.MARK, 1)]), ("a keep behind BOOT", [boot, (m.KEEP, 1, b"", [])])]:
        yield name, m.put_header(journal) + b"\1" + both_parts(first) + b"\0"
    for n in (0, 1, snap[1], snap[1] + 1, 1 << 61):
        mark, whole = b"\1" + both_parts([(m.MARK, n)]), m.put_journal(journal)[:-1]
        yield "a mark at %d" % n, whole + mark + b"\0"
        yield "a mark at %d, an open gate" % n, whole + mark + b"\1"
        yield "a mark at %d, a seal behind" % n, whole + mark + b"\1" + both_parts([(m.SEAL,)]) + b"\0"


def cut_items(journal):
    """The store up to each of its items, in one record."""
    parts = journal.parts()
    for n in range(1, len(parts) + 1):
        kept, journal.records = journal.records, [parts[:n]]
        data, journal.records = m.put_journal(journal), kept
        yield "up to item %d" % n, data


def heads(f, peer):
    """Stores of one entry whose head tells of messages that no entry, or an entry carried along, has."""
    config, key = m.read_config(f.files["config"]), m.read_private(KEY).public()
    image = m.load_image(f.files["image"], config["pages"])
    send = lambda n: (m.SEND, u64(5) + u32(1) + u64(n) + b"text")
    received = lambda n: (m.RECV, u64(6) + peer.data(0, n))
    for name, row, entries in [
            ("nothing", {}, []), ("sent", dict(sent=2, acked=1), []), ("sent and carried", dict(sent=2, acked=1), [send(2)]),
            ("an earlier one carried", dict(sent=2, acked=1), [send(1)]), ("two carried", dict(sent=2, acked=1), [send(2), send(1)]),
            ("all acknowledged", dict(sent=2, acked=2), [send(2)]), ("received", dict(received=1), []),
            ("received and carried", dict(received=1), [received(1)]), ("another carried", dict(received=1), [received(4)]),
            ("both", dict(sent=2, acked=1, received=1), [received(1), send(2)])]:
        bounds = [(9, 32, 30), (9, 33, 0), (9, 31, 31), (2, 3, 0), (3, 5, 0), (1 << 61, 3, 0), ((1 << 61) - 1, 3, 0)]
        for first, leaves, leaf in [(9, 3, 0)] + bounds * (name in ("nothing", "both")):
            state = m.booted(config, image)
            state.peers[0].update(row)
            state.count = 2048
            carried = [m.Signed(leaf + i, 1 + i, m.ZERO, m.ZERO, (1 + i, *entry)) for i, entry in enumerate(entries)]
            base = m.Journal(key, first, bytes([7]) * 32, leaves, state.head(), bytes(state.ram), carried)
            base.records = [[(m.ENTRY, first, m.SNAP, u64(2048) + state.root())]]
            yield "%s, first %d, leaves %d" % (name, first, leaves), m.put_journal(base)
    state.count = 1 << 61
    base = m.Journal(key, 9, m.ZERO, 3, state.head(), bytes(state.ram))
    base.records = [[(m.ENTRY, 9, m.SNAP, u64(state.count) + state.root())]]
    yield "a great count", m.put_journal(base)


def tried(c, name, f, store, scripts, at=()):
    """Every command on a store, then runs on it, each from what the one before has left."""
    files = {"key": KEY}
    for n in at:
        cut = {"store": store}
        if c.both(name, ["export", "--store", "store", "--from", str(n), "--to", str(n + 1), "--segment", "seg"], cut)[1] == 0:
            c.both(name, ["view", "--segment", "seg", "--changes", "80000500"], {"seg": cut["seg"]})
        moved = {"store": store}
        if c.both(name, ["retain", "--store", "store", "--into", "base", "--at", str(n)], moved)[1] == 0:
            first_pair(c, name, moved["base"])
    c.both(name, ["list", "--store", "store"], {"store": store})
    if "ev" in f.files:
        c.both(name, ["rebut", "--store", "store", "--evidence", "ev"], {"store": store, "ev": f.files["ev"]})
    files["store"] = store
    for script in scripts:
        files["script"] = script
        c.both(name, RECORD, files)
    c.both(name, ["list", "--store", "store"], files)


def first_pair(c, name, base):
    """Evidence against a base with the pair of its first entry, which the retired store may have signed."""
    journal, key = m.journal_of(base), m.read_private(KEY)
    pair = lambda h, leaf: m.put_auth(journal.first, h, key.sign(leaf, m.signed_text(journal.first, h)))
    ours, other = pair(journal.hashes[journal.first], 30), pair(m.ZERO, 31)
    for auths in (ours + other, other + ours):
        c.both(name + ", moved", ["rebut", "--store", "base", "--evidence", "ev"], {"base": base, "ev": b"AVME\x01" + key.public() + b"\1" + auths})


def counting_stores(c):
    f = folder_of(COUNTING, pages=2)
    journal = told(f, b"at 1500 console 41\nend 3000\n", b"end 5000\n")
    snaps = [x[0] for x in journal.frames() if x[1] == m.SNAP]
    key, chain = m.read_private(KEY), journal.hashes
    pair = lambda h, leaf: m.put_auth(3, h, key.sign(leaf, m.signed_text(3, h)))
    f.files["ev"] = b"AVME\x01" + key.public() + b"\1" + pair(chain[3], 8) + pair(m.ZERO, 9)
    for name, store in [("as it is", f.files["store"]), *without_keeps(journal), *bent_keeps(journal), *wrong_items(journal)]:
        tried(c, name, f, store, [b"end 4000\n", b"end 7000\n", b"end 8000\n"], snaps + [0, 1, 99])


def quiet_runs(c):
    """Runs without an input, so that each snapshot comes as early as it can."""
    f = folder_of(COUNTING, pages=2)
    c.both("quiet runs", "format --store store --key key --config config --image image".split(), f.files)
    for script in (b"end 1024\n", b"end 1100\n", b"end 3000\n", b"end 3072\n", b"end 4200\n"):
        f.files["script"] = script
        c.both("quiet runs", RECORD, f.files)


def broken_steps(c):
    peer = stories.Peer(1, stories.key_of(0x51, 1))
    packet = peer.data(0, 1)
    for text, scripts in [(compare.LOOP, [b"end 2000\n"]), (compare.CLOCK_GUEST, [b"clock 9\nend 50\n"]), (stories.ASKING, [b"clock 7\nend 9\n"]),
                          (compare.ECHO, [b"at 0 packet %s\nat 0 console 41\nend 60000\n" % packet.hex().encode(), b"at 0 console 420a04\nend 60000\n"])]:
        f = folder_of(text, peers=[(1, peer.key.public())])
        journal = told(f, *scripts)
        for name, store in cut_items(journal):
            again = b"clock 5\nat 0 packet %s\nat 0 resend 1\nend 60000\n" % packet.hex().encode()
            tried(c, name, f, store, [b"end 0\n", again if text == compare.ECHO else b"clock 5\nend 3000\n"], [1, 4])


def strange_heads(c):
    peer = stories.Peer(1, stories.key_of(0x51, 1))
    for text in (compare.ECHO, "0000006f"):
        f = folder_of(text, peers=[(1, peer.key.public())])
        for number in (1, 2, 4):
            given = peer.data(0, number).hex().encode()
            script = b"at 0 resend 1\nat 0 packet %s\nat 0 resend 1\nat 0 packet %s\nend 30000\n" % (given, given)
            for name, store in heads(f, peer):
                tried(c, "head: " + name, f, store, [script], [9])


def large_batches(c):
    f = folder_of(stories.ASKING, snap=1 << 20)
    files = dict(f.files)
    c.both("large batches", "format --store store --key key --config config --image image".split(), files)
    for script in (b"end 2100\n", b"clock 1\nend 2185\n", b"clock 1\nclock 2\nend 9000\n"):
        files["script"] = script
        c.both("large batches", RECORD, files)
    g = folder_of("0000006f", peers=[(1, stories.key_of(0x51, 1).public())])
    c.both("large batches", "format --store store --key key --config config --image image".split(), g.files)
    # each run's inputs stay in one batch, until the queue is full
    for n in range(3):
        g.files["script"] = b"at 0 console 41\n" * 600 + b"end 900\n"
        c.both("large batches", RECORD, g.files)


def main():
    c = both.Both(sys.argv[1], sys.argv[2])
    counting_stores(c)
    quiet_runs(c)
    broken_steps(c)
    strange_heads(c)
    large_batches(c)
    return c.end("stores: ")


if __name__ == "__main__":
    sys.exit(main())
