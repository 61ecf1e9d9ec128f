"""Holds the model against worked examples whose lines, lengths and bytes were written down before it.

Usage: check_model.py [all]. With `all` two samples of three million steps run too, a minute or two each. Ends with 1 where something differs."""
import random
import struct
import sys
import time

import compare
import compare_random
import model as m
from model import u32, u64

SEED = b"\x11" * 32
HELLO = compare.HELLO
SNAPS = compare.LOOP


class Checks:
    def __init__(self):
        self.passed, self.failed = 0, []

    def equal(self, case, got, want):
        if got == want:
            self.passed += 1
        else:
            self.failed.append("%s: expected %r, got %r" % (case, want, got))


class Folder:
    """Files of one example, and the commands on them."""

    def __init__(self, c, text="", **config):
        self.c, self.files = c, {}
        self.files["key"], self.files["pub"] = private(SEED), m.read_private(private(SEED)).public()
        self.files["image"] = m.words(text)
        self.files["config"] = config_text(**config)

    def run(self, *words):
        return m.avm(list(words), self.files)

    def expect(self, case, words, *lines, status=0):
        self.c.equal(case, self.run(*words.split()), ("".join(line + "\n" for line in lines), status))

    def format(self, store="store"):
        self.expect("format", "format --store %s --key key --config config --image image" % store, "store made")

    def record(self, case, script, *lines, status=0, store="store"):
        self.files["script"] = script.replace("; ", "\n").encode() + b"\n"
        self.expect(case, "record --store %s --key key --script script --packets packets --console console --auths auths" % store,
                    *lines, status=status)

    def list(self, store="store"):
        return self.run("list", "--store", store)[0].splitlines()

    def export(self, first, last, name="seg", store="store"):
        self.expect("export", "export --store %s --from %d --to %d --segment %s" % (store, first, last, name),
                    "exported %d to %d" % (first, last))
        return self.files[name]


def private(seed, lms=5, ots=4, ident=bytes(range(16))):
    return b"AVMK\x01" + u32(lms) + u32(ots) + ident + seed


def config_text(own=0, pages=1, snap=1024, peers=(), **more):
    peers = ",".join('{"id":%d,"key":"%s"}' % (i, key.hex()) for i, key in peers)
    more = "".join(',"%s":%s' % pair for pair in more.items())
    return ('{"own":%d,"pages":%d,"snap":%d,"peers":[%s]%s}' % (own, pages, snap, peers, more)).encode()


class PeerLog:
    """A peer whose log is a chain of its own."""

    def __init__(self, own, key):
        self.own, self.key, self.last, self.hash, self.leaf = own, key, 0, m.ZERO, 0

    def entry(self, tag, kind, body, count=0):
        self.last += 1
        content, before = u64(count) + body, self.hash
        self.hash = m.link(before, self.last, kind, content)
        sig = self.key.sign(self.leaf, m.signed_text(self.last, self.hash))
        self.leaf += 1
        return m.put_packet(tag, self.own, self.last, before, content, sig)

    def data(self, to, number, payload=b"ping"):
        return self.entry(1, m.SEND, u32(to) + u64(number) + payload)

    def ack(self, packet):
        return self.entry(2, m.RECV, packet)


def pieces(data):
    """The packets of a packets file with their peers."""
    r, found = m.Reader(data), []
    while r.at < len(data):
        peer = r.number(4)
        found.append((peer, r.take(r.number(4))))
    return found


def first_segments(c):
    f = Folder(c, HELLO)
    f.format()
    f.record("hello", "end 100", "recorded entries 3 dropped 0 leaves 1 halted")
    boot, out, halt, seal = f.list()
    c.equal("hello's lines", (boot.split()[:3], out, halt, seal), (["1", "BOOT", "0"], "2 OUT 5 480a", "3 HALT 6 1 0", "seal 3"))
    segment = f.export(1, 3)
    c.equal("hello's length", len(segment), 5442)
    c.equal("hello's last frames", segment[-52:].hex(), "0000000000000002070000000a0000000000000005480a"
            "0000000000000003090000001000000000000000060000000100000000")
    audit = lambda: m.avm(["audit", "--segment", "seg"], f.files)
    start, before, state, frames = m.read_segment(segment)
    c.equal("hello", audit(), ("accepted 1 to 3 covered 0\n", 0))
    whole = segment
    for n in range(0, len(whole) + 1, 7):
        good = {5390: 1, 5413: 2, 5442: 3}.get(n)
        c.equal("prefix %d" % n, m.verdict(whole[:n])[:2], ("accepted 1 to %d covered 0" % good, 0) if good else ("refused malformed", 2))
    for n in (5390, 5413):
        c.equal("prefix %d" % n, m.verdict(whole[:n])[1], 0)
    f.files["other"] = m.words("0000006f")
    f.expect("with its image", "audit --segment seg --image image", "accepted 1 to 3 covered 0")
    f.expect("with another image", "audit --segment seg --image other", "refused image", status=2)
    late = [frames[0], compare.recount(frames[1], 4), frames[2]]
    f.files["seg"] = m.put_segment(1, before, state, late)
    f.expect("out too early", "audit --segment seg", "refused uncovered 2", status=2)
    key = m.read_private(f.files["key"])
    h = m.chain_of(before, late)[3]
    f.files["auths"] = m.put_auth(3, h, key.sign(0, m.signed_text(3, h)))
    f.expect("covered", "audit --segment seg --key pub --auths auths --evidence ev", "fault replay 2", status=1)
    f.expect("check", "check --key pub --evidence ev", "evidence stands")
    f.files["ev2"] = f.files["ev"] + b"\0"
    f.files["pub2"] = m.read_private(private(b"\x12" * 32)).public()
    f.expect("a byte more", "check --key pub --evidence ev2", "refused evidence", status=2)
    f.expect("another key", "check --key pub2 --evidence ev", "refused evidence", status=2)
    f.files["short"] = f.files["pub"][:55]
    f.expect("a short key", "check --key short --evidence ev", "refused file --key", status=3)
    f.expect("no segment", "audit --segment nothing", "refused file --segment", status=3)
    for words in ("audit", "audit --segment a --segment b", "audit --segment a --key k", "replay"):
        f.expect("words", words, "refused words", status=3)
    f.expect("a store with bytes", "format --store store --key key --config config --image image", "refused notempty", status=2)
    f.files["empty"] = b""
    f.expect("an empty store", "list --store empty", "refused nostore", status=2)
    f.expect("rebutted", "rebut --store store --evidence ev", "forged 0")
    f.files["seg"] = whole
    f.expect("a state", "view --segment seg --count 2 --from 80000000 --words 2", "count 2 pc 80000008 running", "x5 10000000",
             "x6 00000048", "80000000 100002b7", "80000004 04800313")
    f.expect("past the last count", "view --segment seg --count 7", "refused range", status=2)
    state, _ = compare.machine("00000297 00700313 0062aa23 0062aa23 00000073")
    f.files["seg"] = m.put_segment(1, m.ZERO, state, m.record(state, 10)[0])
    f.expect("changes", "view --segment seg --changes 80000014", "3 00000000 00000007")


def halts(c):
    for text, line in zip(compare.HALTS, ["2 HALT 3 4 2147483658", "2 HALT 1 4 2147483650", "2 HALT 2 5 2147483649", "2 HALT 1 3 0"]):
        f = Folder(c, text)
        f.format()
        f.record(text, "end 100", "recorded entries 2 dropped 0 leaves 1 halted")
        c.equal(text, f.list()[1], line)
    f = Folder(c, compare.HALTS[4])
    f.format()
    f.record("stands", "end 100", "recorded entries 1 dropped 0 leaves 1 running")


def snapshots(c):
    f = Folder(c, SNAPS)
    f.format()
    f.record("three outputs", "end 2000", "recorded entries 4 dropped 0 leaves 1 halted")
    lines = f.list()
    c.equal("three outputs", [lines[0].split()[:3]] + lines[1:3] + [lines[3].split()[:3], lines[4]],
            [["1", "BOOT", "0"], "2 OUT 1024 48", "3 HALT 1024 1 0", ["4", "SNAP", "1024"], "seal 4"])
    segment = f.export(4, 4)
    f.expect("from a snapshot", "audit --segment seg", "accepted 4 to 4 covered 0")
    f.files["seg"] = segment[:-60] + bytes([segment[-60] ^ 1]) + segment[-59:]
    f.expect("a changed page", "audit --segment seg", "refused uncommitted", status=2)
    f.expect("from an output", "export --store store --from 2 --to 4 --segment no", "refused range", status=2)
    store, journal = f.files["store"], m.journal_of(f.files["store"])
    keep = [part for part in journal.parts() if part[0] == m.KEEP]
    c.equal("one keep without pages", [(k[1], k[3]) for k in keep], [(4, [])])
    place = store.index(keep[0][2]) + len(keep[0][2]) - 1
    c.equal("the keep's last byte", store[place], 0)
    f.files["store"] = store[:place] + b"\1" + store[place + 1:]
    c.equal("without a good keep", f.export(4, 4), segment)
    auths = f.files["auths"]
    f.record("without a good keep", "end 2000", "recorded entries 4 dropped 0 leaves 1 halted")
    c.equal("the same authenticator", f.files["auths"], auths + auths)
    f.files["store"] = store
    retention(c, f)
    two_levels(c, f)


def retention(c, f):
    before = f.list()
    for _ in range(2):
        f.expect("retain", "retain --store store --into b --at 4", "retained 4")
        c.equal("the base's lines", f.list("b"), before[3:])
        c.equal("the retired store's lines", f.list(), before + ["retired 4"])
    f.record("a retired store", "end 2000", "refused retired", status=2)
    f.record("the base", "end 2000", "recorded entries 4 dropped 0 leaves 1 halted", store="b")
    f.expect("again elsewhere", "retain --store store --into c --at 4", "refused spare", status=2)
    f.expect("at another number", "retain --store store --into c --at 3", "refused range", status=2)
    key, journal = m.read_private(f.files["key"]), m.journal_of(f.files["store"])
    for n, store in ((2, "b"), (4, "store")):
        pair = lambda h, leaf: m.put_auth(n, h, key.sign(leaf, m.signed_text(n, h)))
        f.files["ev"] = b"AVME\x01" + key.public() + b"\1" + pair(journal.hashes[n], 8) + pair(m.ZERO, 9)
        f.expect("number %d in %s" % (n, store), "rebut --store %s --evidence ev" % store, "refused uncovered", status=2)
    # the base counts its first entry's pair as bound, because the retired store may have signed it
    f.expect("the base's first pair", "rebut --store b --evidence ev", "forged 1")
    g = Folder(c, SNAPS)
    g.format()
    g.record("three outputs", "end 2000", "recorded entries 4 dropped 0 leaves 1 halted")
    g.expect("at a halt", "retain --store store --into b --at 3", "refused range", status=2)
    g.files["b"] = b"AVMJ"
    g.expect("a spare with bytes", "retain --store store --into b --at 4", "refused notempty", status=2)
    for spare in (b"", b"\0", b"A", b"\0" * 9000, b"x" * 20):
        h = dict(g.files, b=spare)
        c.equal("a free spare", m.avm("retain --store store --into b --at 4".split(), h), ("retained 4\n", 0))
        c.equal("a free spare", h["b"], f_base(f).ljust(len(spare), b"\0"))


def f_base(f):
    """The base that retaining at 4 leaves, before anything is recorded on it."""
    store = dict(f.files, spare=b"")
    journal = m.journal_of(store["store"])
    return m.put_journal(m.base_of(journal, 4, journal.stretch(4)[1]))


def two_levels(c, f):
    f.files["top"], f.files["toppub"] = private(b"\x31" * 32), m.read_private(private(b"\x31" * 32)).public()
    f.files["toppub2"] = m.read_private(private(b"\x32" * 32)).public()
    f.files["auths"] = f.files["auths"][:1336]
    f.expect("roll", "roll --store roll --key top", "roll made")
    f.expect("roll again", "roll --store roll --key top", "refused notempty", status=2)
    f.expect("enroll", "enroll --store roll --key top --public pub --endorse end", "enrolled 0")
    once = f.files["end"], f.files["roll"]
    f.expect("enroll again", "enroll --store roll --key top --public pub --endorse end", "enrolled 0")
    c.equal("equal endorsements", (f.files["end"], f.files["roll"]), once)
    f.expect("another", "enroll --store roll --key top --public toppub2 --endorse end2", "enrolled 1")
    f.expect("widen", "widen --endorse end --auths auths --out wide", "widened 1")
    c.equal("the length of two levels", len(f.files["wide"]), 44 + 2644)
    f.expect("narrow", "narrow --key toppub --auths wide --public pub3 --out narrow", "narrowed 1")
    c.equal("narrowed", (f.files["pub3"], f.files["narrow"]), (f.files["pub"], f.files["auths"]))
    f.export(4, 4, store="b")
    f.expect("audit of two levels", "audit --segment seg --key pub3 --auths narrow --evidence ev", "accepted 4 to 4 covered 4")


def drops_and_leaves(c):
    f = Folder(c, "0000006f")
    f.format()
    f.record("a full queue", "; ".join(["at 0 console " + "41" * 256] * 4 + ["at 0 console 41", "end 100"]), "dropped full 0",
             "recorded entries 5 dropped 1 leaves 1 running")
    g = Folder(c, "0000006f")
    g.format()
    for r in range(1, 33):
        g.record("run %d" % r, "at 0 console 41; end 0", "recorded entries %d dropped 0 leaves %d running" % (r + 1, r))
    before = g.list(), g.files["store"]
    g.record("run 33", "at 0 console 41; end 0", "refused leaves", status=2)
    c.equal("run 33", (g.list(), g.files["store"]), before)


def clocks(c):
    for text, kinds, line in [
            (compare.CLOCK_GUEST, "b1h", "accepted 1 to 3 covered 0"), (compare.CLOCK_GUEST, "b11h", "refused uncovered 3"),
            (compare.CONSOLE_GUEST, "b1", "refused uncovered 2")]:
        state, _ = compare.machine(text)
        entry = {"b": (0, m.BOOT, u64(0) + state.root()), "1": (0, m.CLOCK, u64(1) + u64(7)), "h": (0, m.HALT, u64(3) + u32(1) + u32(0))}
        frames = compare.renumber([entry[k] for k in kinds])
        c.equal("clock " + kinds, m.verdict(compare.segment_of(state, frames))[0], line)


def doubles(c):
    x, y = Folder(c, HELLO), Folder(c, "0000006f")
    for f in (x, y):
        f.format()
        f.record("end 0", "end 0", "recorded entries 1 dropped 0 leaves 1 running")
    x.files["auths"] += y.files["auths"]
    x.export(1, 1)
    x.expect("double", "audit --segment seg --key pub --auths auths --evidence ev", "fault double 0 1", status=1)
    x.expect("check", "check --key pub --evidence ev", "evidence stands")
    x.expect("rebut with its own", "rebut --store store --evidence ev", "forged 1")
    x.files["store"] = y.files["store"]
    x.expect("rebut with the other", "rebut --store store --evidence ev", "forged 0")


def conversations(c):
    peer = m.read_private(private(b"\x22" * 32))
    rows = [(1, peer.public())]
    f, log = Folder(c, compare.ECHO, peers=rows), PeerLog(1, peer)
    one, three = log.data(0, 1), log.data(0, 3)
    f.format()
    f.record("repeated and out of order", "; ".join("at 0 packet " + p.hex() for p in (one, one, three)) + "; end 0",
             "dropped repeated 0", "dropped wrongnumber 0", "recorded entries 2 dropped 2 leaves 2 running")
    sent = pieces(f.files["packets"])
    c.equal("the same ACK twice", (len(sent), sent[0], sent[0][1][0]), (2, sent[1], 2))
    f = Folder(c, compare.ECHO, peers=rows, snap=1 << 20)
    f.format()
    f.record("echo", "at 0 packet %s; end 60000" % one.hex(), "recorded entries 4 dropped 0 leaves 3 waiting")
    c.equal("echo", f.list()[1:], ["2 RECV 0 1 1", "3 CLOCK 21 0", "4 SEND 24600 1 1 70696e67", "seal 4"])
    packets = [m.read_packet(p) for _, p in pieces(f.files["packets"])]
    own = m.read_private(f.files["key"]).public()
    c.equal("authentic", [m.authentic(own, p, m.RECV if p["ack"] else m.SEND) for p in packets], [True, True])
    for cut in range(1, len(one), 97):
        given_drop(c, rows, one[:cut], "notpacket")
    given_drop(c, rows, one[:4] + b"\2" + one[5:], "unknownpeer")
    given_drop(c, rows, PeerLog(1, peer).data(1, 1), "notforus")
    given_drop(c, rows, one[:-1] + bytes([one[-1] ^ 1]), "notauthentic")
    based(c, rows, one, PeerLog(1, peer))


def given_drop(c, rows, packet, cause):
    f = Folder(c, compare.ECHO, peers=rows, snap=1 << 20)
    f.format()
    f.record(cause, "at 0 packet %s; end 0" % packet.hex(), "dropped %s 0" % cause, "recorded entries 1 dropped 1 leaves 1 running")


def based(c, rows, one, log):
    """The echo guest with snapshots, retained at the last of them behind the message."""
    f = Folder(c, compare.ECHO, peers=rows)
    f.format()
    f.record("echo with snapshots", "at 0 packet %s; end 60000" % one.hex(), "recorded entries 28 dropped 0 leaves 3 waiting")
    lines = f.list()
    c.equal("24 snapshots", ([line.split()[1:3] for line in lines[3:27]], lines[27]),
            ([["SNAP", str(1024 * i)] for i in range(1, 25)], "28 SEND 24600 1 1 70696e67"))
    answer = pieces(f.files["packets"])[0]
    f.expect("retain", "retain --store store --into base --at 27", "retained 27")
    f.files["packets"] = b""
    f.record("a repeat on the base", "at 0 packet %s; end 60000" % one.hex(), "dropped repeated 24600",
             "recorded entries 28 dropped 1 leaves 3 waiting", store="base")
    c.equal("the same ACK from the base", pieces(f.files["packets"]), [answer])
    f.files["packets"] = b""
    f.record("sent again from the base", "at 0 resend 1; end 60000", "recorded entries 28 dropped 0 leaves 3 waiting", store="base")
    c.equal("the SEND again", [p[1][0] for p in pieces(f.files["packets"])], [1])


def doorbell(c):
    bell = "100002b7 00000317 01030313 0262a823 0000006f 0042a403 0082a023 0202ac23"
    for script, entries, lines in [
            ("at 10 console 0a; end 20", 3, ["2 CONIN 10 0a", "3 OUT 12 0a"]),
            ("at 10 console 0a; at 11 console 0a; end 40", 5, ["2 CONIN 10 0a", "3 CONIN 11 0a", "4 OUT 12 0a", "5 OUT 15 0a"])]:
        f = Folder(c, bell, machine=2)
        f.format()
        f.record("doorbell", script, "recorded entries %d dropped 0 leaves 1 running" % entries)
        c.equal("doorbell", f.list()[1:-1], lines)
        c.equal("a head of version 2", len(m.journal_of(f.files["store"]).head), 1201)
        f.export(1, entries)
        f.expect("its image", "audit --segment seg --image image", "accepted 1 to %d covered 0" % entries)
    # a vector whose low bits are cleared, and a handler that stores 0 there before it returns: a bell that rang again is forgotten
    f = Folder(c, "100002b7 00000317 01230313 0262a823 0000006f 0202a823 0202ac23", machine=2)
    f.format()
    f.record("no handler any more", "at 10 console 0a; at 10 console 0b; end 40", "recorded entries 3 dropped 0 leaves 1 running")
    f.record("no handler any more", "at 40 console 0a; end 60", "recorded entries 4 dropped 0 leaves 2 running")
    f = Folder(c, bell)
    f.format()
    f.record("version 1", "end 20", "recorded entries 2 dropped 0 leaves 1 halted")
    c.equal("version 1", f.list()[1], "2 HALT 4 8 268435504")
    f = Folder(c, bell, machine=3)
    f.expect("version 3", "format --store store --key key --config config --image image", "refused file --config", status=3)


def small_words(c):
    f = Folder(c)
    made = "keygen --height %s --w 8 --id 000102030405060708090a0b0c0d0e0f --seed %s --key %s --public b"
    f.expect("keygen", made % (5, "1" * 64, "a"), "key made")
    c.equal("key files", (len(f.files["a"]), len(f.files["b"]), f.files["a"]), (61, 56, private(SEED)))
    f.expect("height 20", made % (20, "1" * 64, "a"), "refused words", status=3)
    f.expect("one name twice", made % (5, "1" * 64, "b"), "refused words", status=3)
    good = b'{"own":0,"pages":256,"snap":1048576,"peers":[]}'
    c.equal("a configuration", m.read(m.read_config, good)["pages"], 256)
    for text in (good.replace(b"256", b"3"), good[:-1] + b',"x":1}', good.replace(b'"own":0', b'"own":16')):
        c.equal("a bad configuration", m.read(m.read_config, text), None)
    lengths = [12 + 32 + 32 * m.OTS[ots][1] + 32 * 5 for ots in (1, 2, 3, 4)]
    c.equal("lengths of signatures", lengths, [8684, 4460, 2348, 1292])
    for ots in (1, 2, 3, 4):
        key = m.Key(5, ots, bytes(16), SEED)
        sig = key.sign(31, b"text")
        c.equal("leaf 31", (len(sig), m.verify(key.public(), b"text", sig)), (lengths[ots - 1], True))
        c.equal("leaf 32", m.verify(key.public(), b"text", u32(32) + sig[4:]), False)
        c.equal("its path", m.verify(key.public(), b"text", sig[:-1] + bytes([sig[-1] ^ 1])), False)


def arithmetic(c):
    for word, a, b, want in [(0x0220c1b3, 7, 0, 0xffffffff), (0x0220e1b3, 7, 0, 7), (0x0220c1b3, 1 << 31, m.M32, 1 << 31),
                             (0x0220e1b3, 1 << 31, m.M32, 0), (0x0220a1b3, m.M32, m.M32, m.M32), (0x0220b1b3, m.M32, m.M32, 0xfffffffe)]:
        state = m.Machine(ram=struct.pack("<I", word).ljust(4096, b"\0"))
        state.x[1], state.x[2] = a, b
        state.execute()
        c.equal("%08x" % word, state.x[3], want)


def quick_steps(c, rounds=300):
    """Drawn guests by plain steps alone and by quick ones: the same outputs, heads, RAM and written pages."""
    r = random.Random(9)
    for n in range(rounds):
        state = compare_random.guest(r, m.read_private(private(SEED)).public(), (1, 2))
        plain, quick = state.copy(), state.copy()
        until, outs, more = r.choice([40, 1100, 2500]), [], []
        while plain.count < until and plain.can_step():
            outs += plain.step()
        while quick.count < until and quick.can_step():
            more += quick.advance(until)
        c.equal("drawn guest %d" % n, (outs, plain.head(), plain.ram, plain.dirty), (more, quick.head(), quick.ram, quick.dirty))


def faults(c, rounds=300):
    """The entry by entry judgement against the definition of replay over whole runs, on changed logs of drawn guests."""
    r = random.Random(11)
    key = m.read_private(private(SEED)).public()
    for n in range(rounds):
        state = compare_random.guest(r, key, (1, 2))
        frames, _ = m.record(state, r.choice([50, 300]), compare_random.inputs(r))
        for _ in range(r.randrange(3)):
            compare_random.change(r, frames)
        frames = compare.renumber(frames)[1:]
        if any(m.read(m.read_content, k, b) is None for _, k, b in frames):
            continue
        frames = frames[:12]
        bad = [i for i in range(len(frames) + 1) if not m.replays(state, frames[:i])]
        c.equal("drawn log %d" % n, m.first_fault(state.copy(), frames), frames[bad[0] - 1][0] if bad else None)


def nodes(c):
    sender = "%s %s" % ("11" * 32, m.words("100002b7 00100313 0262a023 0202a423 0000006f").hex())
    idle = "%s %s" % ("22" * 32, m.words("0000006f").hex())
    for second, packets in (("1 deliver 0", 3), ("1 deliver 0 crash 2 long ff", 2), ("1 deliver 0 crash 3 long 01", 2)):
        text = "node %s\nnode %s\n0 turn\n%s\n1 deliver 0\n0 deliver 1\n" % (sender, idle, second)
        c.equal(second, m.run_world(["--schedule", "s"], {"s": text.encode()}),
                ("events 4 packets %d\n0 from 1 received 0 of 0\n1 from 0 received 1 of 1\n" % packets, 0))
    for text, want in (("0 turn\n", ("refused file --schedule\n", 3)), ("node %s\n1 turn\n" % idle, ("refused event 1\n", 2)),
                       ("node %s\n0 turn\n0 deliver 0\n" % idle, ("refused event 2\n", 2)),
                       ("node %s 7f454c46\n" % ("11" * 32), ("refused file --schedule\n", 3))):
        c.equal(text, m.run_world(["--schedule", "s"], {"s": text.encode()}), want)


def streams(c):
    """ChaCha20's words, from the test vectors of its author and of RFC 8439 (all zero key, counter 0 and 1)."""
    zero = m.drawn_words(bytes(32))
    c.equal("the first block", m.drawn(zero, 16).hex(), "76b8e0ada0f13d90405d6ae55386bd28bdd219b8a08ded1aa836efcc8b770dc7"
            "da41597c5157488d7724e03fb8d84a376a43b8f41518a11cc387b669b2ee6586")
    c.equal("the second block", m.drawn(zero, 16).hex(), "9f07e7be5551387a98ba977c732d080dcb0f29a048e3656912c6533e32ee7aed"
            "29b721769ce64e43d57133b074d839d531ed1f28510afb45ace10a1f4b794d6f")


# the entries, the steps and the first OUT of samples by their seeds, as the model gave them once
SAMPLES = {0: (636, 3819846, 44), 7: (636, 3820987, 44), 8: (636, 3815730, 44), 4294967295: (636, 3825901, 44)}


def sample_text(seed):
    entries, steps, out = SAMPLES[seed]
    return ("sample seed %d\nentries %d snaps 3 leaves 301 steps %d\nsegment 1 accepted\nsegment 2 accepted\n"
            "cheat fault replay %d\ncheck stands\nrebut forged 0\n" % (seed, entries, steps, out))


def sample(c):
    for seed in (7, 8):
        c.equal("the sample of %d" % seed, m.avm(["sample", "--seed", str(seed)], {}), (sample_text(seed), 0))


def main():
    c, started = Checks(), time.time()
    for part in (arithmetic, small_words, quick_steps, faults, first_segments, halts, snapshots, drops_and_leaves, clocks, doubles,
                 conversations, doorbell, nodes, streams):
        part(c)
    if "all" in sys.argv[1:]:
        sample(c)
    for line in c.failed[:40]:
        print(line[:2000])
    print("check_model: %d passed, %d failed, %.1f s" % (c.passed, len(c.failed), time.time() - started))
    return 1 if c.failed else 0


if __name__ == "__main__":
    sys.exit(main())
