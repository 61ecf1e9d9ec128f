"""Holds what `avm` prints and writes against the independent model beside this file.

Usage: compare.py PROGRAM FOLDER. Files are made in FOLDER, and the program is run there. Each case compares the printed
line and the status, the evidence where there is some, and what `check` says of it."""
import os
import random
import struct
import subprocess
import sys

import model as m
from model import u32, u64

ZERO = bytes(32)
HELLO = "100002b7 04800313 0062a023 00a00313 0062a023 00000073"
ECHO = """100002b7 10001337 100023b7 0002a823 0042a403 00044a63 00400493 06940063 0082a023 fe9ff06f 0142a483 fe04c0e3
0182a503 02a2a023 0292a223 00000593 0095de63 00b30633 00062683 00b38733 00d72023 00458593 fe9ff06f 0002ae23
0082a883 000027b7 02f80833 fff78793 fe079ce3 0202a423 f95ff06f 00000073"""
LOOP = "100002b7 04800313 0062a023 00000013 1fd00393 fff38393 fe039ee3 00000073"
CLOCK_GUEST = "100002b7 0082a883 00000073"
CONSOLE_GUEST = "100002b7 0042a883 00000073"
HALTS = ["800000b7 00b08093 00008067", "00000163", "800000b7 00109103", "00000000", "800000b7 00908093 00008067"]


class Comparison:
    def __init__(self, program, folder):
        self.program, self.folder = os.path.abspath(program), folder
        self.passed, self.failed = 0, []
        os.makedirs(folder, exist_ok=True)

    def run(self, *words):
        done = subprocess.run([self.program, *words], cwd=self.folder, capture_output=True, timeout=120)
        return done.stdout.decode("latin-1"), done.returncode

    def put(self, name, data):
        with open(os.path.join(self.folder, name), "wb") as f:
            f.write(data)
        return name

    def expect(self, case, words, line, status, other=None):
        """Compares the line and the status; `other` is a second line that is right too."""
        got = self.run(*words)
        if got in ((line + "\n", status), (str(other) + "\n", status)):
            self.passed += 1
        else:
            self.failed.append("%s: expected %r %d, got %r" % (case, line, status, got))

    def audit(self, case, segment, key=None, auths=b"", image=None):
        words = ["audit", "--segment", self.put("segment", segment)]
        if image is not None:
            words += ["--image", self.put("image", image)]
        if key is not None:
            words += ["--key", self.put("key", key), "--auths", self.put("auths", auths), "--evidence", "evidence"]
        path = os.path.join(self.folder, "evidence")
        if os.path.exists(path):
            os.remove(path)
        if image is not None and m.image_fault(image):
            self.expect(case, words, "refused file --image", 3)
            return
        line, status, evidence = m.verdict(segment, key, auths, image)
        self.expect(case, words, line, status)
        written = open(path, "rb").read() if os.path.exists(path) else None
        if written != evidence:
            self.failed.append("%s: the evidence differs" % case)
        if evidence:
            self.check(case + ", its evidence", evidence, key)

    def check(self, case, evidence, key):
        words = ["check", "--key", self.put("key", key), "--evidence", self.put("given", evidence)]
        good = m.holds(evidence, key)
        self.expect(case, words, "evidence stands" if good else "refused evidence", 0 if good else 2)

    def has_bell(self):
        """Whether the program has machines of version 2."""
        state = m.Machine(ram=m.words("00000073").ljust(4096, b"\0"), version=2)
        return self.run("audit", "--segment", self.put("bell", segment_of(state, m.record(state, 10)[0]))) == ("accepted 1 to 2 covered 0\n", 0)

    def end(self, name=""):
        """Prints what failed and the counts, and gives the status."""
        for line in self.failed[:40]:
            print(line)
        print("%s%d passed, %d failed" % (name, self.passed, len(self.failed)))
        return 1 if self.failed else 0


def machine(text, pages=1, **more):
    image = m.words(text)
    return m.Machine(ram=image.ljust(4096 * pages, b"\0"), pages=pages, **more), image


def segment_of(state, frames, start=1, before=ZERO):
    return m.put_segment(start, before, state, frames)


def recount(frame, count):
    seq, kind, content = frame
    return seq, kind, u64(count) + content[8:]


def renumber(frames):
    return [(i + 1, k, c) for i, (_, k, c) in enumerate(frames)]


def small_guests(c):
    state, image = machine(HELLO)
    frames, _ = m.record(state, 100)
    c.audit("the hello guest", segment_of(state, frames))
    c.audit("its image", segment_of(state, frames), image=image)
    c.audit("another image", segment_of(state, frames), image=m.words("0000006f"))
    c.audit("an empty image", segment_of(state, frames), image=b"")
    for n in (1, 2):
        c.audit("cut after %d" % n, segment_of(state, frames[:n]))
    c.audit("no byte", b"")
    c.audit("a byte short", segment_of(state, frames)[:-1])
    c.audit("a byte more", segment_of(state, frames) + b"\0")
    for count in (4, 6):
        c.audit("OUT at %d" % count, segment_of(state, [frames[0], recount(frames[1], count), frames[2]]))
    c.audit("no OUT", segment_of(state, renumber([frames[0], frames[2]])))
    c.audit("OUT twice", segment_of(state, renumber([frames[0], frames[1], frames[1], frames[2]])))
    c.audit("HALT before OUT", segment_of(state, renumber([frames[0], frames[2], frames[1]])))
    c.audit("console input behind HALT", segment_of(state, renumber(frames + [(0, m.CONIN, u64(6) + b"a")])))
    c.audit("HALT twice", segment_of(state, renumber(frames + [frames[2]])))
    for text in HALTS:
        state, _ = machine(text)
        frames, _ = m.record(state, 100)
        c.audit("halts: " + text, segment_of(state, frames))
    state, _ = machine(LOOP)
    frames, _ = m.record(state, 2000)
    c.audit("OUT, HALT and SNAP of one step", segment_of(state, frames))
    c.audit("SNAP before HALT", segment_of(state, renumber([frames[0], frames[1], frames[3], frames[2]])))
    c.audit("a wrong root in SNAP", segment_of(state, frames[:3] + [(4, m.SNAP, frames[3][2][:-1] + b"\0")]))
    c.audit("a step's outputs cut", segment_of(state, frames[:3]))
    final = m.record(state, 2000)[1]
    before = m.chain_of(ZERO, frames)[3]
    c.audit("from a snapshot", segment_of(final, [frames[3]], 4, before))
    c.audit("from a snapshot, with an image", segment_of(final, [frames[3]], 4, before), image=m.words(LOOP))
    final.ram[4000] ^= 1
    c.audit("a page changed", segment_of(final, [frames[3]], 4, before))


def inputs(c):
    boot = lambda state: (1, m.BOOT, u64(0) + state.root())
    clock = lambda count, value=7: (0, m.CLOCK, u64(count) + u64(value))
    console = lambda count, text=b"a": (0, m.CONIN, u64(count) + text)
    halt = lambda count, cause=1, value=0: (0, m.HALT, u64(count) + u32(cause) + u32(value))
    table = [
        (CLOCK_GUEST, [clock(1), halt(3)]), (CLOCK_GUEST, [clock(1), clock(1)]), (CLOCK_GUEST, [clock(0), halt(3)]),
        (CLOCK_GUEST, [clock(2), halt(3)]), (CLOCK_GUEST, [halt(3)]), (CLOCK_GUEST, [console(1), clock(1), halt(3)]),
        (CLOCK_GUEST, [clock(1), console(1), halt(3)]), (CLOCK_GUEST, [clock(1), console(2), halt(3)]),
        (CLOCK_GUEST, [clock(1), halt(2)]), (CLOCK_GUEST, [clock(1), halt(3), clock(3)]),
        (CLOCK_GUEST, [clock(1, 0), halt(3)]), (CLOCK_GUEST, [clock(1), halt(3, 2)]),
        (CONSOLE_GUEST, [clock(1)]), (CONSOLE_GUEST, [console(0), halt(3)]), (CONSOLE_GUEST, [console(1), halt(3)]),
        (CONSOLE_GUEST, [console(3), halt(3)]), (CONSOLE_GUEST, [console(2), console(1), halt(3)]),
        (CONSOLE_GUEST, [console(0, b"x" * 256)] * 4 + [halt(3)]),
        (CONSOLE_GUEST, [console(0, b"x" * 256)] * 4 + [console(0), halt(3)]),
        (CONSOLE_GUEST, [console(0, b"x" * 256)] * 4 + [console(2), halt(3)]),
        (CONSOLE_GUEST, [console(0, b"x" * 257), halt(3)]), (CONSOLE_GUEST, [console(0, b""), halt(3)]),
        ("0000006f", [console(0, b"x" * 256)] * 5), ("0000006f", [console(5), console(9)]),
        ("0000006f", [console(5), console(4)]), ("0000006f", []),
    ]
    for i, (text, rest) in enumerate(table):
        state, _ = machine(text)
        c.audit("inputs %d" % i, segment_of(state, renumber([boot(state)] + rest)))


def messages(c):
    mine, peer = m.Key(5, 4, bytes(range(16)), b"\x11" * 32), m.Key(5, 3, bytes(range(1, 17)), b"\x22" * 32)
    row = dict(id=1, key=peer.public(), sent=0, acked=0, received=0)
    other = dict(id=4, key=mine.public(), sent=0, acked=0, received=0)
    state, image = machine(ECHO, snap=1 << 20, peers=[row, other])

    def data(number, text=b"ping", to=0, sender=1, key=peer, leaf=0):
        content = u64(9) + u32(to) + u64(number) + text
        h = m.link(ZERO, 1, m.SEND, content)
        return m.put_packet(1, sender, 1, ZERO, content, key.sign(leaf, m.signed_text(1, h)))

    good = data(1)
    frames, after = m.record(state, 60000, [(0, m.RECV, good)])
    c.audit("the echo guest", segment_of(state, frames))
    c.audit("the echo guest, its image", segment_of(state, frames), image=image)
    moved = dict(row, received=1)
    other_state, _ = machine(ECHO, snap=1 << 20, peers=[moved, other])
    moved_frames, _ = m.record(other_state, 60000, [])
    c.audit("a head whose peers have history", segment_of(other_state, moved_frames), image=image)
    for name, packet in [("number 2", data(2)), ("to another id", data(1, to=2)), ("an unknown peer", data(1, sender=7)),
                         ("another key", data(1, key=mine)), ("one byte of the signature", good[:-1] + bytes([good[-1] ^ 1])),
                         ("from the second peer", data(1, sender=4, key=mine)), ("no text", data(1, b"")),
                         ("the longest text", data(1, bytes(1024))), ("too long a text", data(1, bytes(1025)))]:
        changed = [frames[0], (2, m.RECV, u64(0) + packet)] + frames[2:]
        c.audit("message: " + name, segment_of(state, changed))
    c.audit("the message twice", segment_of(state, renumber(frames[:2] + frames[1:])))
    c.audit("nine messages", segment_of(state, renumber(frames[:1] + [(0, m.RECV, u64(0) + data(n, leaf=n)) for n in range(1, 10)])))
    send = frames[3]
    before = m.chain_of(ZERO, frames)[3]

    def ack(content=send[2], sender=1, key=peer):
        inner = m.put_packet(1, 0, 4, before, content, b"")
        body = u64(3) + inner
        h = m.link(ZERO, 2, m.RECV, body)
        return m.put_packet(2, sender, 2, ZERO, body, key.sign(5, m.signed_text(2, h)))

    at = after.count
    for name, packet in [("taken", ack()), ("of another number", ack(send[2][:19] + b"\2" + send[2][20:])),
                         ("from another peer", ack(sender=4, key=mine)), ("not signed", ack()[:-1] + b"\0")]:
        taken = frames + [(0, m.ACKED, u64(at) + packet)]
        c.audit("acknowledgement " + name, segment_of(state, renumber(taken)))
        c.audit("acknowledgement twice, " + name, segment_of(state, renumber(taken + taken[-1:])))
    c.audit("a DATA packet as ACKED", segment_of(state, renumber(frames + [(0, m.ACKED, u64(at) + good)])))


def signed(c):
    key = m.Key(5, 4, bytes(range(16)), b"\x11" * 32)
    stranger = m.Key(5, 4, bytes(range(16)), b"\x12" * 32)
    leaf = iter(range(10 ** 6))

    def auth(seq, h, by=key):
        return m.put_auth(seq, h, by.sign(next(leaf) % 32, m.signed_text(seq, h)))

    state, image = machine(HELLO)
    good, _ = m.record(state, 100)
    late = [good[0], recount(good[1], 4), good[2]]
    right, wrong = m.chain_of(ZERO, good), m.chain_of(ZERO, late)
    a = {n: auth(n, right[n]) for n in (1, 2, 3)}
    b = {n: auth(n, wrong[n]) for n in (1, 2, 3)}
    far, forged, strange = auth(9, ZERO), auth(2, ZERO), auth(3, right[3], stranger)
    for name, frames, auths in [
            ("none", good, b""), ("all match", good, a[1] + a[2] + a[3]), ("two covers", good, a[3] + auth(3, right[3])),
            ("outside", good, a[1] + far), ("one of a stranger", good, a[1] + strange), ("twice two hashes", good, a[2] + b[2]),
            ("fork below the cover", good, a[3] + forged), ("fork at the cover", late, b[3] + a[3]),
            ("fork above the cover", good, a[2] + b[3]), ("no cover", good, forged), ("fault below the cover", late, b[3]),
            ("fault at the cover", late, b[2]), ("fault behind the cover", late, b[1]),
            ("fault, fork and double", late, b[3] + a[2] + forged), ("fault and outside", late, far + b[3]),
            ("fault and fork", late, b[3] + a[2]), ("double, last pair", late, b[3] + far + auth(9, right[1])),
            ("a byte behind", good, a[1] + b"\0"), ("bad first", good, strange + forged + a[2]),
            ("cover 1 alone", good, a[1])]:
        c.audit("authenticators: " + name, segment_of(state, frames), key.public(), auths)
        c.audit("cut, authenticators: " + name, segment_of(state, frames[:2]), key.public(), auths)
    c.audit("uncommitted, double", segment_of(state, [(1, m.BOOT, u64(0) + ZERO)] + good[1:]), key.public(), a[2] + b[2])
    c.audit("uncommitted, fork", segment_of(state, [(1, m.BOOT, u64(0) + ZERO)] + good[1:]), key.public(), a[3])
    c.audit("signed, with an image", segment_of(state, good), key.public(), a[3], image)
    c.audit("signed, with another image", segment_of(state, good), key.public(), a[3], b"\x6f\0\0\0")
    for given, frames, auths in [("replay", late, b[3]), ("fork", good, a[3] + forged), ("double", good, a[2] + b[2])]:
        evidence = m.verdict(segment_of(state, frames), key.public(), auths)[2]
        c.check(given + ": another key", evidence, stranger.public())
        c.check(given + ": a byte more", evidence + b"\0", key.public())
        for at in range(0, len(evidence), max(1, len(evidence) // 150)):
            changed = evidence[:at] + bytes([(evidence[at] + 1) % 256]) + evidence[at + 1:]
            c.check("%s: byte %d raised" % (given, at), changed, key.public())
    c.expect("a short key", ["audit", "--segment", "segment", "--key", c.put("short", key.public()[:55]), "--auths",
                             "auths", "--evidence", "e"], "refused file --key", 3)


def elf(segments, entry=0x80000000, flags=0, kind=2, count=None, size=32):
    """An executable of these (address, bytes, memory size); the bytes stand behind the table, in this order."""
    at, table, body = 52 + 32 * len(segments), b"", b""
    for address, data, memory in segments:
        table += struct.pack("<8I", 1, at + len(body), address, address, len(data), memory, 5, 4)
        body += data
    return (b"\x7fELF\x01\x01\x01" + bytes(9) + struct.pack("<HHIIIIIHHHHHH", kind, 243, 1, entry, 52, 0, flags, 52, size,
            len(segments) if count is None else count, 0, 0, 0) + table + body)


def images(c):
    hello = m.words(HELLO)
    at = 0x80000000
    for name, image, pages in [
            ("one segment", elf([(at, hello, len(hello))]), 1), ("zeros behind", elf([(at, hello, 4096)]), 1),
            ("a later one over an earlier one", elf([(at, b"\xff" * 24, 24), (at, hello, 24)]), 1),
            ("an earlier one over a later one", elf([(at, hello, 24), (at, b"\xff" * 24, 24)]), 1),
            ("two halves", elf([(at + 12, hello[12:], 12), (at, hello[:12], 12)]), 1),
            ("entry behind the front", elf([(at + 64, hello, 24)], entry=at + 64), 1), ("entry odd", elf([(at, hello, 24)], entry=at + 2), 1),
            ("entry outside", elf([(at, hello, 24)], entry=at + 4096), 1), ("outside", elf([(at + 4073, hello, 24)]), 1),
            ("below RAM", elf([(at - 4, hello, 24)]), 1), ("wraps", elf([(at, hello, 24), (0xffffffff, b"a", 2)]), 1),
            ("compressed", elf([(at, hello, 24)], flags=1), 1), ("no executable", elf([(at, hello, 24)], kind=3), 1),
            ("no header", elf([]), 1), ("65 headers", elf([(at, hello, 24)] * 65), 1), ("64 headers", elf([(at, hello, 24)] * 64), 1),
            ("entries of 33", elf([(at, hello, 24)], size=33), 1), ("more in the file", elf([(at, hello, 23)]), 1),
            ("cut", elf([(at, hello, 24)])[:-1], 1), ("two pages", elf([(at, hello, 24), (at + 4096, b"", 4096)]), 2),
            ("two pages of RAM, one loaded", elf([(at, hello, 24)]), 2), ("longer than RAM", hello.ljust(4097, b"\0"), 1)]:
        loaded = m.load_image(image, pages)
        if not isinstance(loaded, str):
            state = m.Machine(ram=loaded[0], pages=pages, pc=loaded[1])
            c.audit("ELF, its machine: " + name, segment_of(state, m.record(state, 100)[0]), image=image)
        state, _ = machine(HELLO, pages=pages)
        frames, _ = m.record(state, 100)
        c.audit("ELF: " + name, segment_of(state, frames), image=image)
        late = [frames[0], recount(frames[1], 4), frames[2]]
        c.audit("ELF, a fault: " + name, segment_of(state, late), image=image)
    for limit in (1 << 25, (1 << 25) + 1):
        long = elf([(at, hello, 24)]).ljust(limit, b"\0")
        state, _ = machine(HELLO)
        words = ["audit", "--segment", c.put("segment", segment_of(state, m.record(state, 100)[0])), "--image", c.put("image", long)]
        c.expect("an image of %d bytes" % limit, words, *(("refused file --image", 3) if limit > 1 << 25 else ("accepted 1 to 3 covered 0", 0)))
    # the order in which files are judged
    key = m.Key(5, 4, bytes(range(16)), b"\x11" * 32).public()
    c.put("good.image", hello), c.put("bad.image", b""), c.put("good.key", key), c.put("bad.key", key[:55]), c.put("no.segment", b"x")
    c.put("no.auths", b"x")
    for segment, image, name, auths, line, status in [
            ("absent", "bad.image", "bad.key", "lost", "refused file --segment", 3),
            ("no.segment", "absent", "bad.key", "lost", "refused file --image", 3),
            ("no.segment", "bad.image", "bad.key", "lost", "refused file --image", 3),
            ("no.segment", "good.image", "bad.key", "lost", "refused file --key", 3),
            ("no.segment", "good.image", "good.key", "lost", "refused file --auths", 3),
            ("no.segment", "good.image", "good.key", "no.auths", "refused malformed", 2)]:
        words = ["audit", "--evidence", "e", "--auths", auths, "--key", name, "--image", image, "--segment", segment]
        c.expect("order: " + " ".join(words), words, line, status, "refused file --image" if segment == "absent" else None)


def random_guests(c, rounds):
    r = random.Random(4)
    for n in range(rounds):
        text = []
        for _ in range(60):
            word = r.choice([0x33, 0x13, 0x33, 0x13, 0x03, 0x23, 0x37, 0x17, 0x63]) | r.getrandbits(25) << 7
            if word & 0x7f == 0x33 and r.random() < 0.9:
                word = word & 0x01ffffff | r.choice([0, 0, 1, 1, 0x20]) << 25
            if word & 0x7f in (0x03, 0x23) and r.random() < 0.8:
                word = word & 0xfff07fff | r.choice([5, 6]) << 15 | 0
                word = word & ~(7 << 12) | r.choice([0, 1, 2]) << 12
            text.append(word)
        ram = b"".join(struct.pack("<I", w) for w in [0x800002b7, 0x10000337, 0x04038393] + text)
        state = m.Machine(ram=ram.ljust(4096, bytes([r.randrange(256)])), snap=1024)
        state.x = [0] + [r.choice([0, 1, 0x7fffffff, 0x80000000, 0xffffffff, r.getrandbits(32)]) for _ in range(31)]
        frames, _ = m.record(state, 3000, [(r.randrange(50), m.CONIN, b"abc")])
        frames[0] = (1, m.BOOT, u64(0) + state.root())
        c.audit("a random guest %d" % n, segment_of(state, frames))
        if len(frames) > 1:
            i = r.randrange(1, len(frames))
            count = int.from_bytes(frames[i][2][:8], "big") + r.choice([-1, 1])
            if count >= 0:
                c.audit("a random guest %d, moved" % n, segment_of(state, frames[:i] + [recount(frames[i], count)] + frames[i + 1:]))


def damaged(c, rounds):
    r = random.Random(5)
    peers = [dict(id=i, key=u32(5 + i % 5) + u32(1 + i % 4) + bytes(48), sent=0, acked=0, received=i) for i in (1, 3, 15)]
    state, _ = machine("0000006f", pages=2, peers=peers)
    frames, _ = m.record(state, 3000)
    whole = segment_of(state, frames)
    head = 49
    for n in range(rounds):
        at = r.choice([r.randrange(60), head + r.randrange(700), r.randrange(len(whole)), len(whole) - 1 - r.randrange(150)])
        c.audit("damaged %d" % n, whole[:at] + bytes([whole[at] ^ 1 << r.randrange(8)]) + whole[at + 1:])


def main():
    c = Comparison(sys.argv[1], sys.argv[2])
    small_guests(c)
    inputs(c)
    messages(c)
    signed(c)
    images(c)
    random_guests(c, 60)
    damaged(c, 120)
    return c.end()


if __name__ == "__main__":
    sys.exit(main())
