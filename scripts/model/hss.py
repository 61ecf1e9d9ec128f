"""One long-lived key over many stores: rolls, endorsements, and authenticators of two levels."""
from .base import Reader, need, number, u32
from .entries import put_auth, read_auths, signed_text
from .lms import HEIGHT, LONGEST, has_types, hss_parts, hss_verify

LONGEST_HSS = 18708


class Roll:
    def __init__(self, key, bottoms, end):
        self.key, self.bottoms, self.end = key, bottoms, end

    def most(self):
        return 1 << HEIGHT[number(self.key[4:8])]


def put_roll(public):
    return b"AVMR\x01" + u32(2) + public + b"\0"


def read_roll(data):
    r = Reader(bytes(data))
    need(r.take(5) == b"AVMR\x01")
    key = r.take(60)
    need(key[:4] == u32(2) and has_types(key[4:]))
    roll, at = Roll(key, [], 65), 65
    while len(roll.bottoms) < roll.most() and data[at:at + 1] == b"\1" and len(data) >= at + 57:
        roll.bottoms.append(bytes(data[at + 1:at + 57]))
        at += 57
    roll.end = at
    return roll


class LeavesSpent(Exception):
    pass


def enroll(roll, disk, bottom):
    """The leaf that a bottom key is bound to, by the calls that bind it where it isn't yet."""
    if bottom in roll.bottoms:
        return roll.bottoms.index(bottom)
    if len(roll.bottoms) >= roll.most():
        raise LeavesSpent
    if bytes(disk.data[roll.end:roll.end + 1]) in (b"", b"\1"):
        disk.write(roll.end, b"\0")
        disk.sync()
    disk.write(roll.end + 1, bottom + b"\0")
    disk.sync()
    disk.write(roll.end, b"\1")
    disk.sync()
    roll.bottoms.append(bottom)
    roll.end += 57
    return len(roll.bottoms) - 1


def put_endorsement(key, leaf, bottom):
    sig = key.sign(leaf, bottom)
    return b"AVMN" + u32(len(sig)) + sig + bottom


def read_endorsement(data):
    r = Reader(data)
    need(r.take(4) == b"AVMN")
    n = r.number(4)
    need(n <= LONGEST)
    sig, bottom = r.take(n), r.take(56)
    r.end()
    return sig, bottom


def widen(endorsement, auths):
    upper, bottom = endorsement
    return b"".join(put_auth(seq, h, u32(1) + upper + bottom + sig) for seq, h, sig in auths)


class NarrowRefused(Exception):
    """malformed, badauth K or mixed K."""


def narrow(top, data):
    """The bottom key, and the authenticators under it."""
    try:
        auths = read_auths(data, 1 << 25, LONGEST_HSS)
        need(auths)
    except ValueError:
        raise NarrowRefused("malformed") from None
    key = u32(2) + top
    for k, (seq, h, sig) in enumerate(auths):
        if not hss_verify(key, signed_text(seq, h), sig):
            raise NarrowRefused("badauth %d" % k)
    parts = [hss_parts(key, sig) for _, _, sig in auths]
    for k, part in enumerate(parts):
        if part[1] != parts[0][1]:
            raise NarrowRefused("mixed %d" % k)
    return parts[0][1], b"".join(put_auth(a[0], a[1], part[2]) for a, part in zip(auths, parts))
