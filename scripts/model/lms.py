"""LMS (RFC 8554), key files, and HSS of two levels."""
import hashlib
import struct

from .base import Reader, need, number, sha, u8, u16, u32

OTS = {1: (1, 265, 7), 2: (2, 133, 6), 3: (4, 67, 4), 4: (8, 34, 0)}
HEIGHT = {5: 5, 6: 10, 7: 15, 8: 20, 9: 25}
STEPS = [u8(j) for j in range(256)]
LONGEST = 9324


def coef(s, i, w):
    return ((1 << w) - 1) & (s[i * w // 8] >> (8 - (w * (i % (8 // w)) + w)))


def digits(q, ots):
    w, p, ls = OTS[ots]
    total = sum((1 << w) - 1 - coef(q, i, w) for i in range(256 // w))
    whole = q + u16(total << ls & 0xffff)
    return [coef(whole, i, w) for i in range(p)]


def chain_steps(head, i, x, first, last):
    front, digest = head + u16(i), hashlib.sha256
    for step in STEPS[first:last]:
        x = digest(front + step + x).digest()
    return x


class Key:
    """A private key with all nodes of its tree."""

    def __init__(self, lms, ots, ident, seed):
        self.lms, self.ots, self.ident, self.seed = lms, ots, ident, seed
        self.h = HEIGHT[lms]
        w, p, _ = OTS[ots]
        n = 1 << self.h
        self.nodes = [b""] * (2 * n)
        for q in range(n):
            head = ident + u32(q)
            ends = [chain_steps(head, i, sha(head, u16(i), b"\xff", seed), 0, (1 << w) - 1) for i in range(p)]
            k = sha(head, b"\x80\x80", *ends)
            self.nodes[n + q] = sha(ident, u32(n + q), b"\x82\x82", k)
        for r in range(n - 1, 0, -1):
            self.nodes[r] = sha(ident, u32(r), b"\x83\x83", self.nodes[2 * r], self.nodes[2 * r + 1])

    def public(self):
        return u32(self.lms) + u32(self.ots) + self.ident + self.nodes[1]

    def private(self):
        return b"AVMK" + u8(1) + u32(self.lms) + u32(self.ots) + self.ident + self.seed

    def sign(self, q, text):
        head = self.ident + u32(q)
        c = sha(head, u16(0xfffd), b"\xff", self.seed)
        ds = digits(sha(head, b"\x81\x81", c, text), self.ots)
        ys = [chain_steps(head, i, sha(head, u16(i), b"\xff", self.seed), 0, d) for i, d in enumerate(ds)]
        r = (1 << self.h) + q
        path = []
        while r > 1:
            path.append(self.nodes[r ^ 1])
            r >>= 1
        return u32(q) + u32(self.ots) + c + b"".join(ys) + u32(self.lms) + b"".join(path)


def signature_length(key):
    """The length of a signature under a public key with types of the tables."""
    lms, ots = struct.unpack(">II", key[:8])
    return 12 + 32 + 32 * OTS[ots][1] + 32 * HEIGHT[lms]


def verify(key, text, sig):
    if len(key) != 56:
        return False
    lms, ots = struct.unpack(">II", key[:8])
    if lms not in HEIGHT or ots not in OTS:
        return False
    ident, root = key[8:24], key[24:]
    w, p, _ = OTS[ots]
    h = HEIGHT[lms]
    if len(sig) != 12 + 32 + 32 * p + 32 * h:
        return False
    q, sig_ots = struct.unpack(">II", sig[:8])
    sig_lms = struct.unpack(">I", sig[40 + 32 * p:44 + 32 * p])[0]
    if sig_ots != ots or sig_lms != lms or q >= 1 << h:
        return False
    head = ident + u32(q)
    ds = digits(sha(head, b"\x81\x81", sig[8:40], text), ots)
    zs = [chain_steps(head, i, sig[40 + 32 * i:72 + 32 * i], d, (1 << w) - 1) for i, d in enumerate(ds)]
    r = (1 << h) + q
    node = sha(ident, u32(r), b"\x82\x82", sha(head, b"\x80\x80", *zs))
    place = 44 + 32 * p
    while r > 1:
        beside = sig[place:place + 32]
        place += 32
        node = sha(ident, u32(r // 2), b"\x83\x83", *((beside, node) if r % 2 else (node, beside)))
        r //= 2
    return node == root


# ---- key files

MADE = {}


def read_private(data):
    """The key of a private key file. Keys once made are kept, since a tree takes long."""
    r = Reader(bytes(data))
    need(r.take(5) == b"AVMK\x01")
    lms, ots, ident, seed = r.number(4), r.number(4), r.take(16), r.take(32)
    need(5 <= lms <= 7 and 1 <= ots <= 4)
    r.end()
    if bytes(data) not in MADE:
        MADE[bytes(data)] = Key(lms, ots, ident, seed)
    return MADE[bytes(data)]


def read_public(data):
    need(len(data) == 56 and has_types(data))
    return bytes(data)


def has_types(key):
    return 5 <= number(key[:4]) <= 9 and 1 <= number(key[4:8]) <= 4


# ---- HSS of two levels

def hss_parts(key, sig):
    """sig[0], pub[1] and sig[1] of a signature of two levels under a key of two levels, or None."""
    if len(key) != 60 or key[:4] != u32(2) or not has_types(key[4:]) or sig[:4] != u32(1):
        return None
    n = 4 + signature_length(key[4:])
    return (sig[4:n], sig[n:n + 56], sig[n + 56:]) if len(sig) >= n + 56 else None


def hss_verify(key, text, sig):
    parts = hss_parts(key, sig)
    return parts is not None and verify(key[4:], parts[1], parts[0]) and verify(parts[1], text, parts[2])
