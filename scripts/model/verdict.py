"""The verdict on a segment, the evidence that it writes, and whether evidence holds."""
from .base import Reader, need, read, u32, u64, u8
from .entries import (chain_of, put_auth, put_frames, read_auth, read_auths, read_content, read_frames, runs_on,
                      signed_text)
from .lms import verify
from .replay import first_fault
from .segments import is_image, read_segment


def is_committed(state, frame):
    """Whether the first entry has the snapshot's root and count."""
    first = read_content(*frame[1:])
    return first["root"] == state.root() and first["count"] == state.count


def verifies(key, auth):
    return verify(key, signed_text(auth[0], auth[1]), auth[2])


def double_of(auths):
    """The first pair of one number and two hashes, or None."""
    for i, a in enumerate(auths):
        for j in range(i + 1, len(auths)):
            if auths[j][0] == a[0] and auths[j][1] != a[1]:
                return i, j
    return None


def cover_of(chain, auths):
    cover = None
    for j, (seq, h, sig) in enumerate(auths):
        if chain.get(seq) == h and (cover is None or seq > auths[cover][0]):
            cover = j
    return cover


def verdict(segment, key=None, auths=b"", image=None):
    """The line, the status, and the evidence where it is 1."""
    given, auths = read(read_segment, segment), read(read_auths, auths)
    if given is None or auths is None:
        return "refused malformed", 2, None
    start, before, state, frames = given
    for k, auth in enumerate(auths):
        if not verifies(key, auth):
            return "refused badauth %d" % k, 2, None
    front = b"AVME\x01" + (key or b"")
    double = double_of(auths)
    if double:
        return "fault double %d %d" % double, 1, front + u8(1) + b"".join(put_auth(*auths[i]) for i in double)
    if not is_committed(state, frames[0]):
        return "refused uncommitted", 2, None
    chain = chain_of(before, frames)
    cover = cover_of(chain, auths)
    top = auths[cover] if cover is not None else None
    upto = lambda n: [f for f in frames if f[0] <= n]
    for i, (seq, h, sig) in enumerate(auths if top else []):
        if start <= seq <= top[0] and chain[seq] != h:
            body = put_frames(upto(top[0]))
            return ("fault fork %d %d" % (i, cover), 1,
                    front + u8(2) + u64(start) + before + u32(len(body)) + body + put_auth(*top) + put_auth(*auths[i]))
    n = first_fault(state.copy(), frames[1:])
    if n is not None:
        if top and n <= top[0]:
            cut = segment[:len(segment) - len(put_frames(frames))] + put_frames(upto(top[0]))
            return "fault replay %d" % n, 1, front + u8(3) + u32(len(cut)) + cut + put_auth(*top)
        return "refused uncovered %d" % n, 2, None
    for k, (seq, h, sig) in enumerate(auths):
        if chain.get(seq) != h:
            return "refused unmatched %d" % k, 2, None
    if image is not None and not is_image(state, start, image):
        return "refused image", 2, None
    return "accepted %d to %d covered %d" % (start, frames[-1][0], top[0] if top else 0), 0, None


# ---- evidence

def read_evidence(data):
    """Evidence of the grammar; its frames and segment are any bytes of their lengths."""
    need(len(data) <= (1 << 26) + (1 << 17))
    r = Reader(data)
    need(r.take(5) == b"AVME\x01")
    e = {"key": r.take(56), "form": r.number(1)}
    need(e["form"] in (1, 2, 3))
    if e["form"] == 2:
        e["start"], e["before"] = r.number(8), r.take(32)
    if e["form"] != 1:
        e["body"] = r.take(r.number(4))
    e["auths"] = [read_auth(r) for _ in range(1 if e["form"] == 3 else 2)]
    r.end()
    return e


def stands(e):
    """Whether evidence of the grammar holds under its own key."""
    top, other = e["auths"][0], e["auths"][-1]
    if not all(verifies(e["key"], a) for a in e["auths"]):
        return False
    if e["form"] == 1:
        return top[0] == other[0] and top[1] != other[1]
    if e["form"] == 2:
        frames = read(read_frames, e["body"])
        if not frames or not runs_on(frames, e["start"]) or frames[-1][0] != top[0]:
            return False
        chain = chain_of(e["before"], frames)
        return chain[top[0]] == top[1] and e["start"] <= other[0] <= top[0] and chain[other[0]] != other[1]
    segment = read(read_segment, e["body"])
    if segment is None:
        return False
    start, before, state, frames = segment
    return (frames[-1][0] == top[0] and is_committed(state, frames[0]) and chain_of(before, frames)[top[0]] == top[1]
            and first_fault(state.copy(), frames[1:]) is not None)


def holds(evidence, key):
    """Whether the bytes are evidence of the key, and hold."""
    e = read(read_evidence, evidence)
    return e is not None and e["key"] == key and stands(e)
