"""Drawn stories of a store: a guest with its configuration, runs over drawn scripts with messages of peers, and what an owner, an
auditor and a judge do with it. A story is a list of command lines over files that the model keeps."""
import struct

import check_model
import compare
import compare_random
import model as m
from model import u32, u64

# lui x5, 0x10000; lw x6, 8(x5); j -4: it asks for the clock again and again, so that a batch grows large
ASKING = "100002b7 0082a303 ffdff06f"
OTS = [1, 1, 2, 3, 4]
KEYS = {}


def key_of(number, ots):
    """A key of a few that are made once."""
    if (number, ots) not in KEYS:
        KEYS[number, ots] = m.read_private(check_model.private(bytes([number]) * 32, ots=ots))
    return KEYS[number, ots]


class Peer(check_model.PeerLog):
    """A peer whose leaves start again when all are used, since these logs are drawn and nobody judges them."""

    def __init__(self, own, key):
        super().__init__(own, key)
        self.number = 0

    def entry(self, tag, kind, body, count=0):
        self.leaf %= 32
        return super().entry(tag, kind, body, count)


# offsets of devices that can be loaded and stored; the handler's are unmapped in version 1
LOADS = [0x04] * 3 + [0x0c, 0x14, 0x18, 0x20, 0x24, 0x2c, 0x30, 0x34]
STORES = [0x00] * 16 + [0x10, 0x1c, 0x20, 0x24, 0x28, 0x28, 0x30, 0x38]


def instruction(r, version):
    """One that seldom halts: x5 is RAM behind the code, x6 the devices, x7 the transmit window."""
    way, reg = r.random(), r.randrange(8, 32)
    devices = lambda offsets: r.choice([o for o in offsets if version == 2 or o < 0x30])
    if way < 0.12:
        return compare_random.load(reg, 6, devices(LOADS) if r.random() < 0.9 else 0x08)
    if way < 0.3:
        return compare_random.store(reg, 6, devices(STORES))
    if way < 0.5:
        base, offset = r.choice([(5, 4 * r.randrange(200)), (7, 4 * r.randrange(16))])
        return compare_random.load(reg, base, offset) if r.random() < 0.4 else compare_random.store(reg, base, offset)
    if way < 0.6:
        # addi of a small number, so that bytes, lengths and ids are met
        return r.choice([10, 10, 65, 0, 1, 2, 9, 1024]) << 20 | reg << 7 | 0x13
    if way < 0.65:
        return compare_random.branch(r)
    return legal(r)


def legal(r):
    while True:
        word = compare_random.arithmetic(r)
        if m.quick_lines(word):
            return word


def guest(r, version):
    """The words of a drawn guest that begins again at its end."""
    code = [instruction(r, version) for _ in range(r.randrange(5, 80))]
    # lui x5, 0x80000; addi x5, x5, 0x400; lui x6, 0x10000; lui x7, 0x10002
    words = [0x800002b7, 0x40028293, 0x10000337, 0x100023b7] + code
    back = -4 * len(code) & 0x1fffff
    jump = (back >> 20 & 1) << 31 | (back >> 1 & 0x3ff) << 21 | (back >> 11 & 1) << 20 | (back >> 12 & 0xff) << 12 | 0x6f
    return b"".join(struct.pack("<I", word) for word in words + [jump if r.random() < 0.9 else 0x73])


class Story:
    def __init__(self, r, version=None):
        self.r = r
        self.version = version or r.choice([1, 1, 2])
        self.key, self.stranger = key_of(0x41, r.choice(OTS)), key_of(0x42, 1)
        self.own = r.choice([0, 5])
        self.peers = [Peer(i, key_of(0x50 + i, r.choice(OTS))) for i in sorted(r.sample([1, 2, 9], r.choice([0, 1, 1, 1, 2])))]
        self.pages, self.snap = r.choice([1, 1, 2, 4]), r.choice([1024, 1024, 1500, 5000])
        more = {"machine": 2} if self.version == 2 else {}
        self.files = {
            "key": self.key.private(), "pub": self.key.public(), "other": self.stranger.private(), "otherpub": self.stranger.public(),
            "image": self.image()}
        self.files["config"] = check_model.config_text(self.own, self.pages, self.snap, [(p.own, p.key.public()) for p in self.peers], **more)
        self.count, self.store, self.seen = 0, "store", 0

    def image(self):
        r = self.r
        kind = r.random()
        if kind < 0.4:
            return m.words(compare.ECHO)
        if kind < 0.45:
            self.snap = 20000
            return m.words(ASKING)
        if kind < 0.52:
            return m.words(r.choice([compare.LOOP, compare.CLOCK_GUEST, compare.HELLO, "0000006f"]))
        flat = guest(r, self.version)
        return compare.elf([(0x80000000, flat, len(flat))]) if r.random() < 0.3 else flat

    # command lines
    def begin(self):
        return "format --store store --key key --config config --image image".split()

    def next(self):
        """A command line, with its files in place."""
        ways = [(8, self.record), (2, self.list), (5, self.export), (7, self.audit), (2, self.check), (3, self.rebut), (2, self.retain),
                (2, self.view), (1, self.bent_key)]
        return self.r.choices([way for _, way in ways], [n for n, _ in ways])[0]()

    def journal(self):
        try:
            return m.journal_of(self.files[self.store])
        except (ValueError, m.Damaged, KeyError):
            return None

    def record(self, key="key"):
        self.files["script"] = self.script()
        return ("record --store %s --key %s --script script --packets packets --console console --auths auths" % (self.store, key)).split()

    def bent_key(self):
        return self.record("other")

    def script(self):
        r, lines, at = self.r, [], self.count
        for peer in self.peers:
            peer.number = self.received(peer)
        for _ in range(r.choice([0, 1, 2, 2, 3, 5])):
            at += r.choice([0, 0, 1, 30, 900, 30000 if self.files["image"] == m.words(compare.ECHO) else 3000])
            event = self.event()
            if event:
                lines.append("at %d %s" % (at, event))
        clocks = ["clock %d" % r.getrandbits(r.choice([3, 30, 64])) for _ in range(r.choice([0, 0, 1, 2]))]
        self.count = at + r.choice([0, 10, 500, 3000, 3000, 30000 if r.random() < 0.3 else 2000])
        return "\n".join(clocks + lines + ["end %d" % self.count, ""]).encode()

    def received(self, peer):
        """How many messages of the peer the store has taken."""
        journal = self.journal()
        frames = [c.frame for c in journal.carried] + journal.frames() if journal else []
        numbers = [m.read_content(m.SEND, c["packet"]["content"])["number"] for c in (m.read_content(f[1], f[2]) for f in frames if f[1] == m.RECV)
                   if c["packet"]["from"] == peer.own]
        return numbers[-1] if numbers else 0

    def event(self):
        r = self.r
        way = r.random()
        if way < 0.35 or not self.peers:
            return "console " + r.randbytes(r.choice([1, 1, 3, 40, 256])).hex()
        peer = r.choice(self.peers)
        if way < 0.45:
            return "resend %d" % r.choice([peer.own, peer.own, 7])
        if way < 0.6:
            return self.answer(peer)
        if way < 0.65:
            return "packet " + compare_random.flipped(r, self.last_packet(peer)).hex()
        if way < 0.75:
            return "packet " + self.last_packet(peer).hex()
        peer.number += r.choice([1] * 9 + [2])
        to = self.own if r.random() < 0.95 else 3
        peer.packet = peer.data(to, peer.number, r.randbytes(r.choice([0, 1, 4, 50, 1024])))
        return "packet " + peer.packet.hex()

    def last_packet(self, peer):
        return getattr(peer, "packet", b"\1") or b"\1"

    def answer(self, peer):
        """The ACK of a DATA packet that was released to the peer."""
        sent = [p for to, p in check_model.pieces(self.files.get("packets", b"")) if to == peer.own and p[:1] == b"\1"]
        return "packet " + peer.ack(self.r.choice(sent[-2:])).hex() if sent else None

    def list(self):
        return ["list", "--store", self.store]

    def numbers(self):
        journal = self.journal()
        return [(f[0], f[1]) for f in journal.frames()] if journal else [(1, m.BOOT)]

    def export(self):
        r, entries = self.r, self.numbers()
        starts, end = [n for n, kind in entries if kind in (m.BOOT, m.SNAP)], entries[-1][0]
        first = r.choice(starts) if r.random() < 0.9 else r.choice([end, end + 1, 0])
        last = r.choice([end] * 6 + [r.randrange(min(first, end), end + 1)] * 3 + [end + 1, 0])
        return ["export", "--store", self.store, "--from", str(first), "--to", str(last), "--segment", "seg"]

    def audit(self):
        r = self.r
        if "seg" not in self.files:
            return self.export()
        if r.random() < 0.5:
            self.bend_segment()
        words = ["audit", "--segment", "given" if "given" in self.files else "seg"]
        if r.random() < 0.3:
            words += ["--image", "image"]
        if r.random() < 0.8:
            self.files["judged"] = self.authenticators()
            words += ["--key", "pub", "--auths", "judged", "--evidence", "ev"]
        return words

    def bend_segment(self):
        start, before, state, frames = m.read_segment(self.files["seg"])
        behind = frames[1:]
        compare_random.change(self.r, behind)
        renumbered = [(start + i, k, b) for i, (_, k, b) in enumerate([frames[0]] + behind)]
        self.files["given"] = m.put_segment(start, before, state, renumbered)

    def authenticators(self):
        """Those of the store, some of packets, and some signed outside of the store at any leaf."""
        r, found = self.r, m.read(m.read_auths, self.files.get("auths", b"")) or []
        likely = r.choice([0, 0, 0.3, 0.8])
        found = [a for a in found if r.random() < likely]
        for _, data in check_model.pieces(self.files.get("packets", b""))[:6]:
            p = m.read_packet(data)
            if r.random() < likely / 2:
                found.append((p["seq"], m.link(p["before"], p["seq"], m.RECV if p["ack"] else m.SEND, p["content"]), p["sig"]))
        given = self.files.get("given", self.files["seg"])
        segment = m.read(m.read_segment, given)
        if segment and r.random() < 0.7:
            hashes = m.chain_of(segment[1], segment[3])
            for _ in range(r.choice([1, 1, 2])):
                n = r.choice(list(hashes))
                h = hashes[n] if r.random() < 0.9 else r.randbytes(32)
                by = self.key if r.random() < 0.95 else self.stranger
                found.append((n, h, by.sign(r.randrange(32), m.signed_text(n, h))))
        r.shuffle(found)
        return b"".join(m.put_auth(*a) for a in found[:6])

    def check(self):
        if "ev" not in self.files:
            return self.audit()
        return ["check", "--key", self.r.choice(["pub", "pub", "otherpub"]), "--evidence", "ev"]

    def rebut(self):
        if "ev" not in self.files:
            return self.audit()
        return ["rebut", "--store", self.r.choice([self.store, "store"]), "--evidence", "ev"]

    def retain(self):
        entries = self.numbers()
        snaps = [n for n, kind in entries if kind == m.SNAP]
        at = self.r.choice(snaps * 6 + [entries[-1][0], 0])
        self.seen += 1
        into = self.r.choice(["base%d" % self.seen, "base%d" % max(1, self.seen - 1)])
        if into == self.store:
            into = "base"
        words = ["retain", "--store", self.store, "--into", into, "--at", str(at)]
        self.moved = into
        return words

    def after(self, words, answer):
        """What a command's answer means for the story."""
        if words[0] == "retain" and answer[1] == 0 and self.r.random() < 0.8:
            self.store = self.moved
        if words[0] == "audit":
            self.files.pop("given", None)

    def view(self):
        if "seg" not in self.files:
            return self.export()
        state = m.read_segment(self.files["seg"])[2]
        r = self.r
        if r.random() < 0.3:
            return ["view", "--segment", "seg", "--changes", "%08x" % (0x80000000 + 4 * r.randrange(0, 1030))]
        words = ["view", "--segment", "seg", "--count", str(state.count + r.choice([0, 1, 5, 100, 1023, 1024, 5000]))]
        return words + (["--from", "%08X" % (0x80000000 + 4 * r.randrange(1024)), "--words", str(r.choice([1, 3, 40]))] if r.random() < 0.5 else [])
