"""Entries, the chain, packets and authenticators."""
from .base import (ACKED, BOOT, CLOCK, CONIN, HALT, OUT, RECV, SEND, SNAP, Reader, need, sha, u32, u64, u8)
from .lms import LONGEST, verify


def read_content(kind, content):
    r = Reader(content)
    c = {"count": r.number(8)}
    need(c["count"] < 1 << 62)
    if kind in (BOOT, SNAP):
        c["root"] = r.take(32)
        need(kind == SNAP or c["count"] == 0)
        r.end()
    elif kind == CONIN:
        need(1 <= len(r.rest()) <= 256)
    elif kind == CLOCK:
        c["value"] = r.number(8)
        r.end()
    elif kind in (RECV, ACKED):
        c["packet"] = read_packet(r.rest())
        need(c["packet"]["ack"] == (kind == ACKED))
    elif kind == OUT:
        need(1 <= len(r.rest()) <= 128)
    elif kind == SEND:
        c["peer"], c["number"], c["payload"] = r.number(4), r.number(8), r.rest()
        need(1 <= c["number"] < 1 << 62 and len(c["payload"]) <= 1024)
    elif kind == HALT:
        c["cause"], c["value"] = r.number(4), r.number(4)
        r.end()
    else:
        raise ValueError("kind")
    return c


def count_of(content):
    return int.from_bytes(content[:8], "big")


def read_packet(data):
    r = Reader(data)
    tag = r.number(1)
    need(tag in (1, 2))
    p = {"ack": tag == 2, "from": r.number(4), "seq": r.number(8), "before": r.take(32)}
    need(1 <= p["seq"] < 1 << 62)
    p["content"] = r.take(r.number(4))
    n = r.number(4)
    need(n <= LONGEST)
    p["sig"] = r.take(n)
    r.end()
    read_content(RECV if p["ack"] else SEND, p["content"])
    return p


def put_packet(tag, sender, seq, before, content, sig):
    return u8(tag) + u32(sender) + u64(seq) + before + u32(len(content)) + content + u32(len(sig)) + sig


def link_text(h, seq, kind, content):
    """The 73 bytes that the chain hashes."""
    return h + u64(seq) + u8(kind) + sha(content)


def link(h, seq, kind, content):
    return sha(link_text(h, seq, kind, content))


def chain_of(before, frames):
    h, hashes = before, {}
    for seq, kind, content in frames:
        h = link(h, seq, kind, content)
        hashes[seq] = h
    return hashes


def signed_text(seq, h):
    return b"AVMA" + u64(seq) + h


def authentic(key, packet, kind):
    return verify(key, signed_text(packet["seq"], link(packet["before"], packet["seq"], kind, packet["content"])),
                  packet["sig"])


def read_frame(r):
    seq, kind = r.number(8), r.number(1)
    content = r.take(r.number(4))
    need(1 <= seq < 1 << 62)
    read_content(kind, content)
    return seq, kind, content


def read_frames(data):
    r, frames = Reader(data), []
    while r.at < len(data):
        frames.append(read_frame(r))
    return frames


def runs_on(frames, start):
    return all(f[0] == start + i for i, f in enumerate(frames))


def put_frames(frames):
    return b"".join(u64(s) + u8(k) + u32(len(c)) + c for s, k, c in frames)


def read_auth(r, longest=LONGEST):
    seq, h = r.number(8), r.take(32)
    n = r.number(4)
    need(1 <= seq < 1 << 62 and n <= longest)
    return seq, h, r.take(n)


def read_auths(data, limit=1 << 24, longest=LONGEST):
    need(len(data) <= limit)
    r, auths = Reader(data), []
    while r.at < len(data):
        auths.append(read_auth(r, longest))
    return auths


def put_auth(seq, h, sig):
    return u64(seq) + h + u32(len(sig)) + sig
