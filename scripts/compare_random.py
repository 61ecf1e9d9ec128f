"""Holds `audit` and `check` against the independent model on drawn guests, whose logs are changed and signed at random.

Usage: compare_random.py PROGRAM FOLDER [SEED [ROUNDS]]. Equal seeds give equal cases."""
import random
import struct
import sys

import compare
import model as m
from model import u64

DEVICES = [0x00, 0x04, 0x08, 0x0c, 0x10, 0x14, 0x18, 0x1c, 0x20, 0x24, 0x28, 0x2c, 0x30, 0x34, 0x38]
VALUES = [0, 1, 2, 3, 10, 15, 65, 0x7fffffff, 0x80000000, 0xffffffff]
# lui x5, 0x80000; lui x6, 0x10000; lui x7, 0x10001: RAM, the devices and the transmit window
BASES = [0x800002b7, 0x10000337, 0x100013b7]


def load(rd, base, offset):
    return offset << 20 | base << 15 | 2 << 12 | rd << 7 | 0x03


def store(rs2, base, offset):
    return offset >> 5 << 25 | rs2 << 20 | base << 15 | 2 << 12 | (offset & 31) << 7 | 0x23


def branch(r):
    """To one of the three instructions on either side, or to itself."""
    i = 4 * r.randrange(-3, 4) & 0x1fff
    offset = (i >> 12 & 1) << 31 | (i >> 5 & 63) << 25 | (i >> 1 & 15) << 8 | (i >> 11 & 1) << 7
    return offset | r.randrange(32) << 20 | r.randrange(32) << 15 | r.choice([0, 1, 4, 5, 6, 7]) << 12 | 0x63


def arithmetic(r):
    word = r.choice([0x33, 0x13, 0x33, 0x13, 0x37, 0x17]) | r.getrandbits(13) << 12 | r.randrange(8, 32) << 7
    top = r.choice([0, 0, 1, 1, 0x20]) if word & 0x7f == 0x33 else r.getrandbits(7)
    return word | top << 25


def instruction(r):
    kind = r.random()
    if kind < 0.45:
        base, offset = (6, r.choice(DEVICES)) if kind < 0.35 else (7, 4 * r.randrange(8))
        return load(r.randrange(8, 32), base, offset) if r.random() < 0.5 else store(r.randrange(32), base, offset)
    return arithmetic(r) if kind < 0.85 else branch(r)


def guest(r, key, versions=(1,)):
    words = BASES + [instruction(r) for _ in range(r.randrange(5, 60))]
    pages = r.choice([1, 1, 2, 4])
    peers = [dict(id=i, key=key, sent=0, acked=0, received=0) for i in sorted(r.sample([1, 2, 3, 15], r.randrange(3)))]
    ram = b"".join(struct.pack("<I", word) for word in words).ljust(4096 * pages, bytes([r.randrange(256)]))
    state = m.Machine(own=r.choice([0, 5, 7]), ram=ram, snap=r.choice([1024, 1025, 4096]), pages=pages, peers=peers,
                      version=r.choice(versions))
    state.x = [0] + [r.choice(VALUES + [r.getrandbits(32)]) for _ in range(31)]
    return state


def inputs(r):
    drawn = []
    for _ in range(r.randrange(5)):
        given = (m.CONIN, r.randbytes(r.randrange(1, 40))) if r.random() < 0.5 else (m.CLOCK, u64(r.getrandbits(40)))
        drawn.append((r.randrange(200), *given))
    return sorted(drawn, key=lambda given: given[0])


def flipped(r, data):
    at = r.randrange(len(data))
    return data[:at] + bytes([data[at] ^ 1 << r.randrange(8)]) + data[at + 1:]


def change(r, frames):
    """Leaves an entry out, repeats one, swaps two, changes a bit of one or gives one another kind; the first entry stays."""
    if len(frames) < 2:
        return
    i, k = r.randrange(1, len(frames)), r.randrange(1, len(frames))
    seq, kind, content = frames[i]
    way = r.randrange(5)
    if way == 0:
        del frames[i]
    elif way == 1:
        frames.insert(i, frames[k])
    elif way == 2:
        frames[i], frames[k] = frames[k], frames[i]
    elif way == 3:
        frames[i] = (seq, kind, flipped(r, content))
    else:
        frames[i] = (seq, r.randrange(1, 10), content)


def authenticators(r, frames, keys):
    """Of entries in the segment and of the one behind it, most with the chain's hash and most under the first key."""
    hashes = m.chain_of(bytes(32), frames)
    auths = b""
    for _ in range(r.randrange(4)):
        seq = r.randrange(1, len(frames) + 2)
        h = hashes[seq] if seq <= len(frames) and r.random() < 0.75 else r.randbytes(32)
        key = keys[0] if r.random() < 0.9 else keys[1]
        auths += m.put_auth(seq, h, key.sign(r.randrange(32), m.signed_text(seq, h)))
    return auths


def main():
    seed = int(sys.argv[3]) if len(sys.argv) > 3 else 1
    rounds = int(sys.argv[4]) if len(sys.argv) > 4 else 400
    r, c = random.Random(seed), compare.Comparison(sys.argv[1], sys.argv[2])
    keys = [m.Key(5, 4, bytes(range(16)), bytes([i]) * 32) for i in (0x33, 0x34)]
    versions = (1, 1, 2) if c.has_bell() else (1,)
    for n in range(rounds):
        state = guest(r, keys[0].public(), versions)
        frames, _ = m.record(state, r.choice([50, 300, 1500, 3000]), inputs(r))
        for _ in range(r.choice([0, 0, 1, 1, 2])):
            change(r, frames)
        frames = compare.renumber(frames)
        segment, case = compare.segment_of(state, frames), "seed %d, guest %d" % (seed, n)
        if r.random() < 0.5:
            c.audit(case, segment)
        else:
            c.audit(case + ", signed", segment, keys[0].public(), authenticators(r, frames, keys))
    return c.end("drawn guests: ")


if __name__ == "__main__":
    sys.exit(main())
