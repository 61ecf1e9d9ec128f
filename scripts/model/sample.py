"""The sample: a recorded conversation, audited, and a cheat that is convicted and rebutted."""
import struct

from .base import M32, OUT, RECV, SEND, SNAP, ZERO, u32, u64, words
from .disk import Disk
from .entries import chain_of, count_of, link, put_auth, put_frames, put_packet, signed_text
from .journal import booted, made, put_journal
from .lms import Key
from .rebut import rebut
from .recorder import Range, Recorder, Stopped, export, play
from .script import Script
from .segments import load_image
from .verdict import holds, read_evidence, verdict

ECHO = """100002b7 10001337 100023b7 0002a823 0042a403 00044a63 00400493 06940063 0082a023 fe9ff06f 0142a483 fe04c0e3
0182a503 02a2a023 0292a223 00000593 0095de63 00b30633 00062683 00b38733 00d72023 00458593 fe9ff06f 0002ae23
0082a883 000027b7 02f80833 fff78793 fe079ce3 0202a423 f95ff06f 00000073"""
MESSAGES = 150


# ---- ChaCha20 with a counter and a stream number of 64 bits each

def quarter(s, a, b, c, d):
    for x, y, z, n in ((a, b, d, 16), (c, d, b, 12), (a, b, d, 8), (c, d, b, 7)):
        s[x] = s[x] + s[y] & M32
        v = s[z] ^ s[x]
        s[z] = (v << n | v >> 32 - n) & M32


def block(key, place, stream):
    start = [0x61707865, 0x3320646e, 0x79622d32, 0x6b206574, *key, place & M32, place >> 32, stream & M32, stream >> 32]
    s = list(start)
    for _ in range(10):
        for a, b, c, d in ((0, 4, 8, 12), (1, 5, 9, 13), (2, 6, 10, 14), (3, 7, 11, 15)):
            quarter(s, a, b, c, d)
        for a, b, c, d in ((0, 5, 10, 15), (1, 6, 11, 12), (2, 7, 8, 13), (3, 4, 9, 14)):
            quarter(s, a, b, c, d)
    return [x + y & M32 for x, y in zip(s, start)]


def drawn_words(seed):
    """The words of a seed of 32 bytes, from place 0 of stream 0 on."""
    key, place = struct.unpack("<8I", seed), 0
    while True:
        yield from block(key, place, 0)
        place += 1


# ---- the conversation

def drawn(source, n):
    """The bytes of n drawn words."""
    return b"".join(struct.pack("<I", next(source)) for _ in range(n))


def elf(body):
    header = b"\x7fELF\x01\x01\x01" + bytes(9) + struct.pack("<HHIIIIIHHHHHH", 2, 243, 1, 0x80000000, 52, 0, 0, 52, 32, 1, 0, 0, 0)
    return header + struct.pack("<8I", 1, 84, 0x80000000, 0x80000000, len(body), len(body), 7, 4) + body


class Peer:
    """The other node: its log is a chain of its own, whose counts are its numbers."""

    def __init__(self, key):
        self.key, self.last, self.hash = key, 0, ZERO

    def entry(self, tag, kind, body):
        seq, before = self.last + 1, self.hash
        content = u64(seq) + body
        self.last, self.hash = seq, link(before, seq, kind, content)
        return put_packet(tag, 1, seq, before, content, self.key.sign(seq - 1, signed_text(seq, self.hash)))

    def send(self, n, payload):
        return self.entry(1, SEND, u32(0) + u64(n) + payload)

    def answer(self, packet):
        return self.entry(2, RECV, packet)


def lines_of_sample(n):
    """The lines and the status."""
    source = drawn_words(u64(n) + bytes(24))
    keys = []
    for _ in range(2):
        ident = drawn(source, 4)
        keys.append(Key(6, 4, ident, drawn(source, 8)))
    ours, peer = keys[0], Peer(keys[1])
    image = elf(words(ECHO) + drawn(source, 51168))
    row = dict(id=1, key=keys[1].public(), sent=0, acked=0, received=0)
    state = booted({"own": 0, "snap": 1 << 20, "pages": 256, "peers": [row], "version": 1}, load_image(image, 256))
    journal = made(ours.public(), state)
    disk = Disk(put_journal(journal))
    journal.gate = len(disk.data) - 1
    recorder = Recorder(journal, disk, ours)
    converse(recorder, peer, source)
    return told(n, recorder, ours)


def converse(recorder, peer, source):
    def message(i):
        length = 1 + next(source) % 1024
        return 0, "packet", peer.send(i, drawn(source, (length + 3) // 4)[:length])

    script = Script([message(1)], lambda k: 1000 * k, 1 << 40)
    answered = 0

    def after():
        nonlocal answered
        fresh, recorder.released = recorder.released, []
        for piece in fresh:
            if piece[0] == "packet" and piece[2][:1] == b"\1":
                answered += 1
                script.events.append((0, "packet", peer.answer(piece[2])))
                if answered % 10 == 0:
                    script.events.append((0, "console", b"ok\n"))
                script.events.append(message(answered + 1) if answered < MESSAGES else (0, "console", b"\4"))

    try:
        play(recorder, script, lambda cause, count: None, after)
    except Stopped:
        pass


def told(n, recorder, key):
    journal = recorder.journal
    snaps = [f[0] for f in journal.frames() if f[1] == SNAP]
    lines = ["sample seed %d" % n, "entries %d snaps %d leaves %d steps %d" % (journal.last, len(snaps), journal.used(),
                                                                                      recorder.m.count)]
    if len(snaps) != 3 or journal.used() != 301:
        return lines, 2
    seals = [piece[1] for piece in recorder.released if piece[0] == "auth"]
    seal_number = journal.last
    try:
        segments = [(1, snaps[0]), (snaps[0], journal.last)]
        files = []
        for i, (first, last) in enumerate(segments):
            files.append(export(journal, first, last))
            auths = b"".join(seals) if first <= seal_number <= last else b""
            line = verdict(files[i], key.public(), auths)[0]
            lines.append("segment %d %s" % (i + 1, line.split()[0]))
    except Range:
        return lines, 2
    return cheat(lines, journal, key, files[0])


def cheat(lines, journal, key, segment):
    frames = [f for f in journal.frames() if f[0] <= next(f[0] for f in journal.frames() if f[1] == SNAP)]
    i = next((i for i, f in enumerate(frames) if f[1] == OUT), None)
    if i is None:
        return lines, 2
    front = segment[:len(segment) - len(put_frames(frames))]
    seq, kind, content = frames[i]
    frames[i] = seq, kind, u64(count_of(content) + 1) + content[8:]
    last = frames[-1][0]
    h = chain_of(ZERO, frames)[last]
    auth = put_auth(last, h, key.sign(1023, signed_text(last, h)))
    line, _, evidence = verdict(front + put_frames(frames), key.public(), auth)
    lines += ["cheat " + line, "check stands" if holds(evidence, key.public()) else "check refused"]
    answer = rebut(journal, read_evidence(evidence))
    return lines + ["rebut %s %s" % answer[:2]], 0
